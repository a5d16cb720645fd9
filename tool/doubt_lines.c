/* Doubts about the lines of a grid: each is one rule. */
#include "sight.h"

#include <math.h>

/* Less of the usual line than this is an edge: what is seen may be anything. */
enum { LEAST_TYPICAL = 25 };

static void lines_are_clear(const sight *s, doubt *out)
{
    if (s->typical < LEAST_TYPICAL)
        doubt_add(out, "the lines %s are hardly seen: %u percent of them is an edge", s->along.name, s->typical);
}

/* A line is seen where at least half as much of it is an edge as of the upper quartile, and this edge is not faint beside the usual one. */
enum { FAINT = 8 };

static bool is_seen(const sight *s, size_t k)
{
    return 2 * s->shares[k] >= s->typical && FAINT * s->rises[k] >= s->typical_rise;
}

/* Between flat cells no line is seen: where the outline is whole, one of four may be missing. */
static void lines_are_seen(const sight *s, bool framed, doubt *out)
{
    size_t seen = 0;
    for (size_t k = 0; k < s->lines; k++)
        seen += is_seen(s, k);
    if (seen < s->lines && !(framed && 4 * (s->lines - seen) <= s->lines))
        doubt_add(out, "%zu lines are seen %s where %zu are expected", seen, s->along.name, s->lines);
}

static void outer_lines_are_whole(const sight *s, doubt *out)
{
    if (s->shares[0] < LEAST_OUTER)
        doubt_add(out, "cells may be lost at the %s: %u percent of the outer line is an edge", s->along.before, s->shares[0]);
    if (s->shares[s->lines - 1] < LEAST_OUTER)
        doubt_add(out, "cells may be lost at the %s: %u percent of the outer line is an edge", s->along.behind, s->shares[s->lines - 1]);
}

/* How far the lines may lie from their places in the first or last quarter of the board, in pitches: a cell's middle is still in it. */
#define MOST_STRAY 0.15

/* The mean of a part of the lines. */
static double stray_between(const sight *s, size_t first, size_t last)
{
    double sum = 0, count = 0;
    for (size_t k = first; k < last; k++) {
        bool seen;
        double stray = sight_stray(s, k, &seen);
        sum += seen ? stray : 0;
        count += seen;
    }
    return count > 0 ? sum / count : 0;
}

/* The lines of the first quarter, or of the last, are off, or drift from one to the other. */
void doubt_places(const sight *s, doubt *out)
{
    size_t part = s->lines > 8 ? s->lines / 4 : 2;
    double first = stray_between(s, 0, part < s->lines ? part : s->lines);
    double last = stray_between(s, part < s->lines ? s->lines - part : 0, s->lines);
    double most = fmax(fabs(first - last), fmax(fabs(first), fabs(last)));
    if (most > MOST_STRAY * s->along.pitch)
        doubt_add(out, "the lines %s are %.1f pixels from where the grid puts them", s->along.name, most);
}

/* Whether there is a line between line k and the next: nearly as much of it is an edge, and nearly as steep a one, as of a usual line. */
static bool line_between(const sight *s, size_t k)
{
    double apart = fmax(0.3 * s->along.pitch, s->along.near + 2);
    double first = line_at(&s->along, (double)k) + apart, last = line_at(&s->along, (double)k + 1) - apart;
    for (double at = fmax(floor(first + 0.5), 0); at <= last && at < (double)s->seen.side; at++)
        if (5 * s->seen.share[(size_t)at] >= 4 * s->typical && 10 * s->seen.rise[(size_t)at] >= 6 * s->typical_rise)
            return true;
    return false;
}

/* Lines in one cell of four, or in those of a border alone, which then hold something else. */
static void nothing_between(const sight *s, doubt *out)
{
    size_t cells = s->along.count, with = 0;
    for (size_t k = 0; k + 1 < s->lines; k++)
        with += line_between(s, k);
    if (4 * with >= s->lines)
        doubt_add(out, "lines are seen between the lines %s, in %zu of %zu cells", s->along.name, with, cells);
    else if (with > 0 && line_between(s, 0))
        doubt_add(out, "a line is seen inside the cells at the %s", s->along.before);
    else if (with > 0 && line_between(s, s->lines - 2))
        doubt_add(out, "a line is seen inside the cells at the %s", s->along.behind);
}

void doubt_lines(const sight *s, bool framed, bool extended, doubt *out)
{
    lines_are_clear(s, out);
    lines_are_seen(s, framed || extended, out);
    if (!extended)
        outer_lines_are_whole(s, out);
    doubt_places(s, out);
    nothing_between(s, out);
}
