/* The rules of doubt that look at lines, and what they say. */
#ifndef SIGHT_H
#define SIGHT_H

#include "doubt.h"
#include "profile.h"

/* Lines of a direction, at most. */
enum { MOST_LINES = FOLGUTAN_MOST_SIDE / 8 + 1 };

/* What is seen of the lines of a grid in one direction. */
typedef struct {
    direction along, beside;
    unsigned steep;
    profile seen;
    size_t lines;
    unsigned shares[MOST_LINES], rises[MOST_LINES]; /* the largest near each line */
    unsigned typical, typical_rise;                 /* the upper quartile of the shares, the middle of the rises */
} sight;

void sights_of(const picture *from, const reading *r, const grid *g, sight *down, sight *across);

/* Where line k is seen, less where the grid puts it. 0, and not seen, where nothing near it is half as steep as the usual line. */
double sight_stray(const sight *s, size_t k, bool *seen);

/* So much of an outer line is an edge, in percent: where a board ends, all its cells do, unless some have the colour of what is around.
 * Lines between cells, which are the outer ones where flat cells were lost, are seldom so whole. */
enum { LEAST_OUTER = 80 };

/* Adds a reason, where there is room. */
void doubt_add(doubt *out, const char *format, ...) __attribute__((format(printf, 2, 3)));

/* Whether the four outer lines are an outline without a gap: then the grid ends where the board does. */
bool sight_framed(const picture *from, const sight *down, const sight *across);

/* The rules on the library's own lines. Where its grid was extended, its outer lines are not the board's. */
void doubt_lines(const sight *s, bool framed, bool extended, doubt *out);

/* The one of them that is true of an extended grid, too: what is seen of its lines is where it puts them. */
void doubt_places(const sight *s, doubt *out);

/* The rules on what lies around a grid. */
void doubt_around(const picture *from, const sight *down, const sight *across, bool extended, doubt *out);

/* The rules on where a grid lies in its box. */
void doubt_box(const picture *from, const grid *g, const expected *size, const sight *down, const sight *across, doubt *out);

#endif
