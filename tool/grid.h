/* The grid of cells that is printed, drawn and sampled, and its cells. */
#ifndef GRID_H
#define GRID_H

#include "reading.h"

/* The size of a mat. */
typedef struct {
    bool known;
    size_t rows, columns;
} expected;

typedef struct {
    size_t rows, columns;
    double top, left;                /* of the first cell, in pixels of the picture as it came in; below 0 where an extended grid begins
                                      * off the picture */
    double pitch_down, pitch_across; /* in the same pixels */
    bool extended;                   /* not the library's own rows, columns and corner */
    size_t rows_before, columns_before; /* cells that begin off the picture, above and at the left: only in an extended grid */
    folgutan_board board;            /* the record that is sampled, from cell (rows_before, columns_before) on: the library's own, or, of
                                      * an extended grid, with its corner, no offset, and its counts */
} grid;

/* The grid of a reading with the answer 0: the library's own, or, with a box and an expected size, the one of that size, with the
 * library's pitch and phase, whose place fits the box best. */
void grid_of(const picture *from, const reading *r, const expected *size, bool has_box, grid *out);

/* The cells of a grid, rows first. */
typedef struct {
    uint8_t red, green, blue;
    bool there; /* all its points are in the picture */
} cell;

/* Samples all cells, `size` by `size` points of each: their mean is the cell's colour. NULL where there is no memory. */
cell *grid_cells(const reading *r, const grid *g, size_t size);

/* Where the sampled points of a cell lie, in pixels of the picture as it came in: the row of point i of grid row x, or the column of
 * point j of grid column y, in the middle of the pixel of the planes that is taken. Below 0 off the picture. */
double grid_row_point(const picture *from, const reading *r, const grid *g, size_t x, size_t size, size_t i);
double grid_column_point(const picture *from, const reading *r, const grid *g, size_t y, size_t size, size_t j);

#endif
