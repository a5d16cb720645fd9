/* JPEG files. */
#ifndef JPEG_IN_H
#define JPEG_IN_H

#include "input.h"
#include "laying.h"

#include <stdbool.h>

bool jpeg_in_is(const input *in);

/* Hands over the rows of a JPEG file, or says why not. The file is held whole while it is decoded. */
status jpeg_in(input *in, laying *to);

#endif
