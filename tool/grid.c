#include "grid.h"

#include <math.h>

/* One direction of a reading, in pixels of the planes. Places are counted from the edge of the box. */
typedef struct {
    double corner, pitch; /* the library's own: multiples of a quarter, so that sums and comparisons here are exact */
    size_t count;         /* the library's own */
    double room;          /* the side of the box */
} axis;

/* Where a grid of an expected size lies. */
typedef struct {
    double corner; /* below 0 off the picture */
    size_t count, before;
    size_t first; /* the corner of the first cell that is not before, in whole pixels */
    bool own;
} placed;

static axis axis_down(const picture *from, const reading *r)
{
    const folgutan_board *b = &r->located.board;
    return (axis){(double)b->r_1 + (double)b->r0, (double)b->pixelr, b->r,
                  (double)from->box.height / (double)r->scale};
}

static axis axis_across(const picture *from, const reading *r)
{
    const folgutan_board *b = &r->located.board;
    return (axis){(double)b->c_1 + (double)b->c0, (double)b->pixelc, b->c,
                  (double)from->box.width / (double)r->scale};
}

static double corner_at(axis a, double k)
{
    return a.corner + k * a.pitch;
}

/* How far both ends are from those of the box. */
static double misfit(axis a, size_t count, double k)
{
    double corner = corner_at(a, k);
    return fabs(corner) + fabs(corner + (double)count * a.pitch - a.room);
}

/* How many of the library's own cells the grid leaves out. */
static double left_out(axis a, size_t count, double k)
{
    double above = k > 0 ? k : 0, behind = (double)a.count - (k + (double)count);
    return above + (behind > 0 ? behind : 0);
}

/* How far the middle is from that of the box, twice. */
static double off_middle(axis a, size_t count, double k)
{
    return fabs(2 * corner_at(a, k) + (double)count * a.pitch - a.room);
}

/* The sum of both distances is often the same for several places, as it does not change while the grid moves inside the box: then
 * what leaves out fewest of the library's own cells goes first, which is its own corner where its count is the expected one; then what
 * lies nearest to the middle of the box; then the smaller k. */
static bool fits_better(axis a, size_t count, double k, double than)
{
    double one = misfit(a, count, k), other = misfit(a, count, than);
    if (one != other)
        return one < other;
    one = left_out(a, count, k), other = left_out(a, count, than);
    if (one != other)
        return one < other;
    return off_middle(a, count, k) < off_middle(a, count, than);
}

/* The misfit grows outside the places where one end of the grid lies on that of the box. */
static double best_place(axis a, size_t count)
{
    double begin = -a.corner / a.pitch, end = (a.room - (double)count * a.pitch - a.corner) / a.pitch;
    double last = ceil(fmax(begin, end)), best = floor(fmin(begin, end));
    for (double k = best + 1; k <= last; k++)
        if (fits_better(a, count, k, best))
            best = k;
    return best;
}

static placed place(axis a, size_t count)
{
    double k = best_place(a, count);
    placed p = {.corner = corner_at(a, k), .count = count, .own = k == 0 && count == a.count};
    double first = p.corner;
    for (; p.before < count && floor(first + 0.5) < 0; p.before++)
        first += a.pitch;
    p.first = first > 0 ? (size_t)floor(first + 0.5) : 0;
    return p;
}

static void extend(const picture *from, const reading *r, const expected *size, grid *out)
{
    placed down = place(axis_down(from, r), size->rows), across = place(axis_across(from, r), size->columns);
    if (down.own && across.own)
        return;
    out->extended = true;
    out->rows = down.count;
    out->columns = across.count;
    out->top = (double)from->box.top + down.corner * (double)r->scale;
    out->left = (double)from->box.left + across.corner * (double)r->scale;
    out->rows_before = down.before;
    out->columns_before = across.before;
    out->board.r_1 = down.first;
    out->board.c_1 = across.first;
    out->board.r0 = 0;
    out->board.c0 = 0;
    out->board.r = down.count - down.before;
    out->board.c = across.count - across.before;
}

void grid_of(const picture *from, const reading *r, const expected *size, bool has_box, grid *out)
{
    const folgutan_board *b = &r->located.board;
    double scale = (double)r->scale;
    *out = (grid){
        .rows = b->r,
        .columns = b->c,
        .top = (double)from->box.top + axis_down(from, r).corner * scale,
        .left = (double)from->box.left + axis_across(from, r).corner * scale,
        .pitch_down = (double)b->pixelr * scale,
        .pitch_across = (double)b->pixelc * scale,
        .board = *b,
    };
    if (has_box && size->known)
        extend(from, r, size, out);
}
