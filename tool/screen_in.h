/* Screen files: the line "height width", a line with both numbers, then 4 bytes a pixel, rows first: blue, green, red, and one that is
 * not looked at. */
#ifndef SCREEN_IN_H
#define SCREEN_IN_H

#include "input.h"
#include "laying.h"

#include <stdbool.h>

bool screen_in_is(const input *in);

/* Hands over the rows of a screen file, or says why not. Nothing is read behind the pixels. */
status screen_in(input *in, laying *to);

#endif
