/* The overlay: the picture as it came in, with the grid and the sampled points drawn on it. */
#ifndef DRAWING_H
#define DRAWING_H

#include "grid.h"

/* What is drawn. Without a grid (NULL), the box alone. */
typedef struct {
    const picture *from; /* with `whole`, which is drawn on */
    bool has_box;
    const reading *reading;
    const grid *grid;
    size_t size; /* points a side of a cell */
} drawing;

/* False where there is no memory. */
bool drawing_make(const drawing *d);

#endif
