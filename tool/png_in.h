/* PNG files. */
#ifndef PNG_IN_H
#define PNG_IN_H

#include "input.h"
#include "laying.h"

#include <stdbool.h>

bool png_in_is(const input *in);

/* Hands over the rows of a PNG file, or says why not. Nothing is read behind its last chunk. */
status png_in(input *in, laying *to);

#endif
