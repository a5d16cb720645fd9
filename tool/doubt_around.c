/* Doubts about what lies around a grid, in one direction: flat cells that were lost leave the board's outline, or its frame. */
#include "sight.h"

#include <math.h>

/* So much of a line must be an edge, in percent: nearly all, as of a frame that is drawn. */
enum { WHOLE = 90 };

/* A frame is looked for so many cells outside. */
enum { FURTHEST = 40 };

static const char *side_of(const sight *s, bool behind)
{
    return behind ? s->along.behind : s->along.before;
}

/* Where a line of the other direction goes on in a cell of this one; -1 where it does not. */
static double in_cell(const picture *from, const sight *s, double at, double reach, double cell)
{
    return line_through(from, &s->beside, &s->along, s->steep, at, reach, line_at(&s->along, cell + 0.22), line_at(&s->along, cell + 0.78));
}

/* The same of line k of the grid. */
static bool is_in_cell(const picture *from, const sight *s, size_t k, double cell)
{
    return in_cell(from, s, line_at(&s->beside, (double)k), s->beside.near, cell) >= 0;
}

static double border_of(const sight *s, bool behind)
{
    return behind ? (double)s->along.count - 1 : 0;
}

/* Whether line k of the other direction goes on from the border cells to so many cells outside, and one place of it is the same in both: a
 * window's frame beside the board is another line. */
static bool goes_outside(const picture *from, const sight *s, bool behind, size_t k, size_t far)
{
    bool seen;
    size_t outer = behind ? s->along.count : 0;
    double line = line_at(&s->along, (double)outer) + sight_stray(s, outer, &seen);
    double apart = 0.1 * s->along.pitch + 2, end = ((double)far - 0.3) * s->along.pitch;
    double first = behind ? line + apart : line - end, last = behind ? line + end : line - apart;
    if (first < 0 || last >= (double)s->along.side)
        return false;
    double at = floor(line_at(&s->beside, (double)k) + 0.5);
    for (double place = at - s->beside.near; place <= at + s->beside.near; place++)
        if (in_cell(from, s, place, 0, border_of(s, behind)) >= 0 &&
            line_through(from, &s->beside, &s->along, s->steep, place, 1, first, last) >= 0)
            return true;
    return false;
}

/* How many cells outside the grid the largest line lies: a whole number of them. */
static size_t frame_outside(const sight *s, bool behind, unsigned *share)
{
    size_t found = 0;
    *share = 0;
    for (size_t far = 1; far <= FURTHEST; far++) {
        double at = line_at(&s->along, behind ? (double)s->along.count + (double)far : -(double)far);
        unsigned here = share_near(&s->seen, at - s->along.near, at + s->along.near);
        if (here > *share) {
            *share = here;
            found = far;
        }
    }
    return found;
}

/* The lines between cells go on: cells were left out. */
static void lines_end(const picture *from, const sight *s, bool behind, doubt *out)
{
    size_t on = 0;
    for (size_t k = 1; k < s->beside.count; k++)
        on += goes_outside(from, s, behind, k, 1);
    if (s->beside.count > 1 && 2 * on >= s->beside.count)
        doubt_add(out, "the lines go on outside the grid at the %s", side_of(s, behind));
}

/* A frame stands whole cells outside, and the outline of the board goes on to it. Answers whether there is a frame. */
static bool outline_ends(const picture *from, const sight *s, bool behind, doubt *out)
{
    unsigned share;
    size_t far = frame_outside(s, behind, &share);
    if (share >= WHOLE && (goes_outside(from, s, behind, 0, far) || goes_outside(from, s, behind, s->beside.count, far)))
        doubt_add(out, "the board goes on at the %s: its frame is seen %zu cells further out", side_of(s, behind), far);
    return share >= WHOLE;
}

/* The outline of the board is seen at both ends of the next cells, and at none of those at the border. */
static void border_belongs(const picture *from, const sight *s, bool behind, doubt *out)
{
    size_t other = s->beside.count, cells = s->along.count;
    if (cells < 3)
        return;
    double border = border_of(s, behind), next = behind ? border - 1 : 1;
    if (!is_in_cell(from, s, 0, border) && !is_in_cell(from, s, other, border) && is_in_cell(from, s, 0, next) &&
        is_in_cell(from, s, other, next))
        doubt_add(out, "the cells at the %s lie outside the board's outline", side_of(s, behind));
}

static unsigned around(const picture *from, const sight *s, bool extended, doubt *out)
{
    unsigned frames = 0;
    for (int behind = 0; behind < 2; behind++) {
        lines_end(from, s, behind, out);
        frames += outline_ends(from, s, behind, out);
        if (!extended)
            border_belongs(from, s, behind, out);
    }
    return frames;
}

static bool ends_framed(const picture *from, const sight *s)
{
    for (int behind = 0; behind < 2; behind++)
        if (!is_in_cell(from, s, 0, border_of(s, behind)) || !is_in_cell(from, s, s->beside.count, border_of(s, behind)))
            return false;
    return s->lines > 1 && s->shares[0] >= WHOLE && s->shares[s->lines - 1] >= WHOLE;
}

bool sight_framed(const picture *from, const sight *down, const sight *across)
{
    return ends_framed(from, down) && ends_framed(from, across);
}

void doubt_around(const picture *from, const sight *down, const sight *across, bool extended, doubt *out)
{
    unsigned frames = around(from, down, extended, out);
    frames += around(from, across, extended, out);
    if (frames == 4)
        doubt_add(out, "a frame is seen around the grid, whole cells further out on all sides");
}
