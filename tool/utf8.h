/* Names of files are bytes: which of them are text. */
#ifndef UTF8_H
#define UTF8_H

#include <stddef.h>

/* The length of the UTF-8 character that a text begins with, 1 to 4, or 0 where its first byte begins none. */
size_t utf8_length(const char *text);

/* The same, but 0 for a control character, too: what is printed as it is. */
size_t utf8_shown(const char *text);

#endif
