/* What the markers of a JPEG file tell before it is decoded. */
#ifndef JPEG_MARKS_H
#define JPEG_MARKS_H

#include <stdbool.h>
#include <stddef.h>
#include <stdint.h>

typedef struct {
    bool has_frame; /* the sides are known */
    size_t width, height;
    unsigned precision, components;
    bool progressive;
    size_t scans;
    unsigned orientation; /* of the first Exif block, or 1 */
} jpeg_marks;

/* Walks over all markers up to the end of the picture or of the bytes. */
jpeg_marks jpeg_marks_of(const uint8_t *bytes, size_t length);

#endif
