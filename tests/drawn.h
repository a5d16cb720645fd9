/* Boards that are drawn, for the parts that locate one. */
#ifndef DRAWN_H
#define DRAWN_H

#include <stddef.h>
#include <stdint.h>

/* A board that is drawn: its screen's sides, where it starts, its pitches and its rims. As many
 * rows and columns as there is room for. */
typedef struct {
    size_t height, width, top, left, down, across, rim;
} drawn;

size_t cells(size_t side, size_t from, size_t pitch);

enum { GROUND = 200, LINE = 30, LIGHT = 190, SHADE = 70, FACE = 130 };

/* A screen: the board alone (times 1), or with so many points down and across for each of its own,
 * and a flat bar across the middle, which the scan does not cross and a narrowing by as much
 * closes. */
typedef struct {
    drawn board;
    size_t times;
} screen;

enum { BAR = 9, BAR_LEVEL = 90 };

size_t height_of(screen s);

/* One column more falls away in a narrowing. */
size_t width_of(screen s);

/* The byte of a point. */
uint8_t point(screen s, size_t row, size_t column);

#endif
