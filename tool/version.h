/* The program's version: the package and the pkg-config file take it from here. */
#ifndef VERSION_H
#define VERSION_H

#define FOLGUTAN_VERSION "1.0.0"

#endif
