/* What is seen of the lines of a grid in the picture that was handed to the library: at the full size, where the reading is of a narrowed
 * one. */
#ifndef PROFILE_H
#define PROFILE_H

#include "grid.h"

/* One direction of a grid, in pixels of `pixels`. */
typedef struct {
    const char *name, *before, *behind; /* "across", "left", "right" */
    double begin, pitch;                /* the middle of the first line, and how far the next one is */
    size_t count;                       /* of cells: there is one line more */
    size_t side;                        /* of the picture */
    size_t step;                        /* from a pixel to the next, in bytes */
    double near;                        /* how far from its place a line is looked for */
} direction;

direction direction_down(const picture *from, const reading *r, const grid *g);
direction direction_across(const picture *from, const reading *r, const grid *g);

/* Where line k lies; below 0 and above the count outside the grid. */
double line_at(const direction *d, double k);

/* How many levels make an edge: more than most neighbours in the middle of cells differ by. */
unsigned steep_of(const picture *from, const direction *down, const direction *across);

/* Of each row, or column, inside the grid. */
typedef struct {
    size_t side;
    uint8_t share[FOLGUTAN_MOST_SIDE]; /* how much of it is an edge, in percent */
    uint16_t rise[FOLGUTAN_MOST_SIDE]; /* how many levels it differs from the ones beside it, in quarters of a level */
} profile;

/* Of `along`, looked at in the middle of the cells of `beside`. */
void profile_of(const picture *from, const direction *along, const direction *beside, unsigned steep, profile *out);

/* The largest entry of a part of a profile; 0 off the picture. */
unsigned share_near(const profile *p, double first, double last);
unsigned rise_near(const profile *p, double first, double last);

/* Where a line that crosses `along` goes on, from one place of `beside` to another: the place nearest to `at`, at most `reach` from it,
 * where nearly all is an edge without a gap. -1 where there is none. */
double line_through(const picture *from, const direction *along, const direction *beside, unsigned steep, double at, double reach,
                    double begin, double end);

#endif
