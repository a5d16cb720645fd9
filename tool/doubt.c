#include "doubt.h"

#include "sight.h"

#include <math.h>
#include <stdarg.h>
#include <stdio.h>
#include <stdlib.h>

void doubt_add(doubt *out, const char *format, ...)
{
    if (out->count == DOUBT_MOST)
        return;
    va_list given;
    va_start(given, format);
    vsnprintf(out->reasons[out->count++], DOUBT_LONGEST, format, given);
    va_end(given);
}

/* The cells of a mat are square: what differs by more is seldom a mat. */
#define MOST_UNLIKE 1.08

static void pitches_are_alike(const grid *g, doubt *out)
{
    double large = fmax(g->pitch_down, g->pitch_across), small = fmin(g->pitch_down, g->pitch_across);
    if (large > MOST_UNLIKE * small)
        doubt_add(out, "the pitch down, %.2f, and across, %.2f, differ by more than 8 percent", g->pitch_down, g->pitch_across);
}

/* Mats have more; the grid lines of a plot, and what happens to lie at equal distances, are fewer. */
enum { LEAST_CELLS = 8 };

/* The size of the grid is the known one; where that is not known, it is one of a mat. */
static void size_is_right(const grid *g, const expected *size, doubt *out)
{
    if (size->known && (g->rows != size->rows || g->columns != size->columns))
        doubt_add(out, "%zu by %zu cells are read where %zu by %zu are expected", g->rows, g->columns, size->rows, size->columns);
    if (!size->known && (g->rows < LEAST_CELLS || g->columns < LEAST_CELLS))
        doubt_add(out, "only %zu by %zu cells are read, fewer than %d a side: give their number with --expect", g->rows, g->columns,
                  LEAST_CELLS);
}

/* The library's own lines, and what is around the grid, which is another one where it was extended. */
static void look(const picture *from, const reading *r, const grid *g, sight *down, sight *across, doubt *out)
{
    grid own;
    const expected unknown = {0};
    grid_of(from, r, &unknown, false, &own);
    sights_of(from, r, &own, down, across);
    bool framed = sight_framed(from, down, across);
    size_t reasons = out->count;
    doubt_lines(down, framed, g->extended, out);
    doubt_lines(across, framed, g->extended, out);
    if (g->extended) {
        sights_of(from, r, g, down, across);
        if (out->count == reasons) {
            doubt_places(down, out);
            doubt_places(across, out);
        }
    }
    doubt_around(from, down, across, g->extended, out);
}

/* A cell's middle is in what is read. */
static void grid_is_in_picture(const picture *from, const grid *g, bool has_box, doubt *out)
{
    const box *b = &from->box;
    double top = g->top - (double)b->top, bottom = top + ((double)g->rows - 0.5) * g->pitch_down;
    double left = g->left - (double)b->left, right = left + ((double)g->columns - 0.5) * g->pitch_across;
    if (top + g->pitch_down / 2 < 0 || left + g->pitch_across / 2 < 0 || bottom >= (double)b->height || right >= (double)b->width)
        doubt_add(out, "cells of the grid lie off the %s", has_box ? "part that is read" : "picture");
}

/* Where nothing speaks against the library's own grid, that is the board: one of another size is not. */
static void own_is_doubted(const picture *from, const reading *r, const grid *g, doubt *out)
{
    const expected unknown = {0};
    doubt of_own;
    grid own;
    grid_of(from, r, &unknown, false, &own);
    const expected as_read = {true, own.rows, own.columns};
    doubt_of(from, r, &own, &as_read, false, &of_own);
    if (of_own.count == 0)
        doubt_add(out, "%zu by %zu cells are read, and nothing speaks against that, where %zu by %zu are expected", own.rows, own.columns,
                  g->rows, g->columns);
}

void doubt_of(const picture *from, const reading *r, const grid *g, const expected *size, bool has_box, doubt *out)
{
    sight *down = calloc(1, sizeof *down), *across = calloc(1, sizeof *across);
    out->count = 0;
    size_is_right(g, size, out);
    pitches_are_alike(g, out);
    grid_is_in_picture(from, g, has_box, out);
    if (g->extended)
        own_is_doubted(from, r, g, out);
    if (down == NULL || across == NULL) {
        doubt_add(out, "there is no memory to look at the lines");
    } else {
        look(from, r, g, down, across, out);
        if (has_box)
            doubt_box(from, g, size, down, across, out);
    }
    free(down);
    free(across);
}
