/* A picture as the library takes it, and where it lies in the file's picture. */
#ifndef PICTURE_H
#define PICTURE_H

#include "status.h"

#include <stdbool.h>
#include <stddef.h>
#include <stdint.h>

/* A part of a picture, in pixels of the picture as it came in. */
typedef struct {
    size_t width, height, left, top;
} box;

/* What is wanted of a file. */
typedef struct {
    bool has_box;
    box box;       /* applied first */
    size_t shrink; /* every shrink by shrink pixels become one, their mean: 1 leaves the pixels as they are. Rows and columns left over
                    * fall away */
    bool keep_whole; /* `whole` is wanted */
} part;

typedef struct {
    size_t whole_width, whole_height; /* of the picture as it came in: upright, before the box */
    uint8_t *whole;                   /* its pixels, if they are wanted; else NULL */
    box box;                          /* the part that was taken; without --box the whole picture */
    size_t shrink;
    size_t width, height; /* of `pixels` */
    uint8_t *pixels;      /* 4 bytes a pixel: blue, green, red, 255; rows first */
} picture;

/* Reads FILE, PNG, JPEG or a screen file; "-" is standard input. Where it cannot, one line is said, and the answer is STATUS_FILE, or
 * STATUS_USAGE for a box that does not lie in the picture; nothing is left to free. */
status picture_read(const char *file, const part *wanted, picture *out);
void picture_free(picture *p);

/* What picture_read does, of an input that is open, and stays so. */
struct input;
status picture_take(struct input *in, const part *wanted, picture *out);

#endif
