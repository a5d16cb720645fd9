/* What the program ends with; with several pictures the largest. */
#ifndef STATUS_H
#define STATUS_H

typedef enum {
    STATUS_OK = 0,       /* read, and sure */
    STATUS_NO_BOARD = 1, /* no board was found */
    STATUS_USAGE = 2,    /* options that are wrong, or do not fit the picture */
    STATUS_DOUBTFUL = 3, /* read and doubtful, or not as expected: everything is still written */
    STATUS_FILE = 4      /* a file that cannot be read or written */
} status;

#endif
