/* Doubts about where a grid lies in its box, and what is said of a tight one. */
#include "sight.h"

#include <math.h>

/* So many pitches of the box may be left beside a grid that was placed in it, or be missing. */
enum { MOST_LEFT = 2 };

/* Pixels of the picture as it came in that a box needs around the board: with fewer, locating loses the outer lines. */
enum { LEAST_MARGIN = 6 };

/* One direction: what the box leaves on both sides of the grid. */
typedef struct {
    double before, behind, pitch, length, room;
    bool edge_before, edge_behind; /* the box ends where the picture does */
    const char *extent, *cells;
} left;

static left left_down(const picture *from, const grid *g)
{
    const box *b = &from->box;
    left l = {.before = g->top - (double)b->top, .pitch = g->pitch_down, .length = (double)g->rows * g->pitch_down,
              .room = (double)b->height, .edge_before = b->top == 0, .edge_behind = b->top + b->height >= from->whole_height,
              .extent = "high", .cells = "rows"};
    l.behind = l.room - l.before - l.length;
    return l;
}

static left left_across(const picture *from, const grid *g)
{
    const box *b = &from->box;
    left l = {.before = g->left - (double)b->left, .pitch = g->pitch_across, .length = (double)g->columns * g->pitch_across,
              .room = (double)b->width, .edge_before = b->left == 0, .edge_behind = b->left + b->width >= from->whole_width,
              .extent = "wide", .cells = "columns"};
    l.behind = l.room - l.before - l.length;
    return l;
}

static void box_is_filled(left l, doubt *out)
{
    if (fabs(l.room - l.length) > MOST_LEFT * l.pitch)
        doubt_add(out, "the grid is %.1f pixels %s and the box %.0f: they differ by more than %d %s; give a closer box, or another size",
                  l.length, l.extent, l.room, MOST_LEFT, l.cells);
}

/* An extended grid that could lie a cell further on in the box, unless both its outer lines are seen. */
static void place_is_clear(left l, const sight *s, doubt *out)
{
    unsigned first = s->shares[0], last = s->shares[s->lines - 1];
    if ((l.before >= l.pitch || l.behind >= l.pitch) && (first < LEAST_OUTER || last < LEAST_OUTER))
        doubt_add(out, "the grid could lie a cell further on in the box: give a closer one");
}

static size_t tight_sides(left l)
{
    return (l.before < LEAST_MARGIN && !l.edge_before) + (l.behind < LEAST_MARGIN && !l.edge_behind);
}

/* What is between the box and the outer lines: where one is drawn, a pixel of the planes wide, it lies such a pixel behind its place. */
static size_t narrow_sides(left l, double scale)
{
    return (l.before + scale < LEAST_MARGIN && !l.edge_before) + (l.behind - 2 * scale < LEAST_MARGIN && !l.edge_behind);
}

/* Whether the box would be as close with some cells more on this side. */
static bool has_room(double space, double pitch, bool at_edge)
{
    double more = floor((space + 2) / pitch);
    return !at_edge && more >= 1 && space - more * pitch < LEAST_MARGIN;
}

static size_t roomy_sides(left l)
{
    return has_room(l.before, l.pitch, l.edge_before) + has_room(l.behind, l.pitch, l.edge_behind);
}

/* A box that is close to the grid on some sides, and has room for whole cells on the others: these cells may be lost, and the frame
 * that would tell is cut off. */
static void no_cells_left(left down, left across, doubt *out)
{
    size_t tight = tight_sides(down) + tight_sides(across), roomy = roomy_sides(down) + roomy_sides(across);
    if ((tight > 0 && roomy > 0) || roomy == 4)
        doubt_add(out, "the box is close, and has room for more cells beside the grid: give their number with --expect, or a larger box");
}

void doubt_box(const picture *from, const grid *g, const expected *size, const sight *down, const sight *across, doubt *out)
{
    left d = left_down(from, g), a = left_across(from, g);
    if (size->known) {
        box_is_filled(d, out);
        box_is_filled(a, out);
    } else {
        no_cells_left(d, a, out);
    }
    if (g->extended) {
        place_is_clear(d, down, out);
        place_is_clear(a, across, out);
    }
}

const char *doubt_box_warning(const picture *from, const reading *r, const grid *g, bool has_box)
{
    double scale = (double)r->scale;
    if (!has_box || narrow_sides(left_down(from, g), scale) + narrow_sides(left_across(from, g), scale) == 0)
        return NULL;
    return "the box leaves less than 6 pixels around the board, so that outer cells can be lost; give a larger one";
}
