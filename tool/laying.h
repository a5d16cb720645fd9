/* Where the rows of a decoded picture go: they are turned upright, cut to the part that is wanted, and shrunk. A decoder says the sides
 * once it knows them, then hands over each row. */
#ifndef LAYING_H
#define LAYING_H

#include "folgutan.h"
#include "picture.h"

/* Limits of a picture's sides: of what is read, and of what a part is taken of. */
#ifndef LAYING_MOST_SIDE
#define LAYING_MOST_SIDE FOLGUTAN_MOST_SIDE
#endif
#define LAYING_MOST_WHOLE_SIDE 65535
#define LAYING_MOST_PIXELS (LAYING_MOST_SIDE * LAYING_MOST_SIDE * 4)

/* Of a picture that has to be held twice, or as its coefficients; of a larger one than is read that has to be held whole beside its part,
 * for a decoder or for the overlay: 25,165,824, in 96 MB. */
#define LAYING_MOST_HELD (LAYING_MOST_SIDE * LAYING_MOST_SIDE)
#define LAYING_MOST_KEPT (LAYING_MOST_HELD / 2 * 3)

/* The bytes of a pixel: blue, green, red, 255. */
enum { LAYING_PIXEL = 4 };

/* The place of stored pixel (0, 0), and the steps to the next one across and down: in pixels. */
typedef struct {
    ptrdiff_t corner, across, down;
} laying_steps;

typedef struct {
    const char *file;
    const part *wanted;
    picture *out;
    bool given_whole;                /* by a decoder that holds all pixels before it hands over the first row */
    size_t width, height;            /* as they are stored */
    size_t left, top, right, bottom; /* the stored part, without what shrinking leaves over; right and bottom are one past */
    laying_steps whole, part;
    uint64_t *sums; /* of the rows of pixels that become one row; NULL where nothing is shrunk */
} laying;

/* Checks the sides and asks for the memory. The orientation is Exif's, 1 to 8. What is wrong is said. Whatever the answer,
 * laying_end is called at last. */
status laying_begin(laying *l, size_t width, size_t height, unsigned orientation);
void laying_end(laying *l);

/* Memory for all the stored pixels, rows first, that the rows would be copied to: a decoder may write them there itself, and hand over
 * its rows from there. NULL where there is no such memory. */
uint8_t *laying_direct(const laying *l);

/* Takes stored row y. Each is handed over once, and in order. */
void laying_row(laying *l, size_t y, const uint8_t *row);

#endif
