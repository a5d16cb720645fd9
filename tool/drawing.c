#include "drawing.h"

#include <math.h>
#include <stdlib.h>

/* Blue, green, red, as the pixels have them. */
typedef struct {
    uint8_t bytes[3];
} colour;

static const colour magenta = {{255, 0, 255}}; /* the proved grid */
static const colour orange = {{0, 128, 255}};  /* an extended grid */
static const colour cyan = {{255, 255, 0}};    /* the box */
static const colour yellow = {{0, 255, 255}};  /* sampled points */
static const colour black = {{0, 0, 0}};       /* around them, so that they are seen on any cell */

/* From this side on, lines and points are drawn thicker: the picture will be looked at from farther away. */
enum { LARGE = 2000 };

/* The rows and the columns that points lie in: a point lies where both do. */
enum { MARK_NONE, MARK_RING, MARK_POINT };

static void dot(const picture *p, size_t row, size_t column, colour c)
{
    uint8_t *pixel = p->whole + 4 * (row * p->whole_width + column);
    for (size_t k = 0; k < 3; k++)
        pixel[k] = c.bytes[k];
}

/* A span of pixels from `from` to below `to`, clipped to 0 to `most`. */
typedef struct {
    size_t begin, end;
} span;

static size_t clipped(double v, size_t most)
{
    return v <= 0 ? 0 : v >= (double)most ? most : (size_t)v;
}

static span span_of(double from, double to, size_t most)
{
    return (span){clipped(from, most), clipped(to, most)};
}

static void fill(const picture *p, span rows, span columns, colour c)
{
    for (size_t row = rows.begin; row < rows.end; row++)
        for (size_t column = columns.begin; column < columns.end; column++)
            dot(p, row, column, c);
}

static double thickness(const picture *p)
{
    return p->whole_width > LARGE || p->whole_height > LARGE ? 2 : 1;
}

static double nearest(double v)
{
    return floor(v + 0.5);
}

static void draw_grid(const picture *p, const grid *g)
{
    double thick = thickness(p), rows = (double)g->rows, columns = (double)g->columns;
    colour c = g->extended ? orange : magenta;
    double top = nearest(g->top), bottom = nearest(g->top + rows * g->pitch_down);
    double left = nearest(g->left), right = nearest(g->left + columns * g->pitch_across);
    span down = span_of(top, bottom, p->whole_height), across = span_of(left, right + thick, p->whole_width);
    for (size_t x = 0; x <= g->rows; x++) {
        double at = nearest(g->top + (double)x * g->pitch_down);
        fill(p, span_of(at, at + thick, p->whole_height), across, c);
    }
    for (size_t y = 0; y <= g->columns; y++) {
        double at = nearest(g->left + (double)y * g->pitch_across);
        fill(p, down, span_of(at, at + thick, p->whole_width), c);
    }
}

/* The outermost pixels of the box. */
static void draw_box(const picture *p)
{
    size_t bottom = p->box.top + p->box.height, right = p->box.left + p->box.width;
    span down = {p->box.top, bottom}, across = {p->box.left, right};
    fill(p, (span){p->box.top, p->box.top + 1}, across, cyan);
    fill(p, (span){bottom - 1, bottom}, across, cyan);
    fill(p, down, (span){p->box.left, p->box.left + 1}, cyan);
    fill(p, down, (span){right - 1, right}, cyan);
}

/* Marks the points of a row of cells, or of a column: all of them, or none where one is off the picture, as such a cell is not
 * sampled. */
static void mark_cell(uint8_t *marks, size_t side, const double *points, size_t size, size_t radius)
{
    for (size_t i = 0; i < size; i++)
        if (points[i] < 0 || points[i] >= (double)side)
            return;
    for (size_t i = 0; i < size; i++) {
        size_t at = (size_t)points[i], begin = at > radius ? at - radius - 1 : 0;
        for (size_t k = begin; k <= at + radius + 1 && k < side; k++) {
            uint8_t mark = k + radius >= at && k <= at + radius ? MARK_POINT : MARK_RING;
            if (mark > marks[k])
                marks[k] = mark;
        }
    }
}

static void mark(const drawing *d, uint8_t *rows, uint8_t *columns)
{
    const picture *p = d->from;
    double points[FOLGUTAN_MOST_SIZE];
    size_t radius = (size_t)thickness(p) - 1;
    for (size_t x = 0; x < d->grid->rows; x++) {
        for (size_t i = 0; i < d->size; i++)
            points[i] = grid_row_point(p, d->reading, d->grid, x, d->size, i);
        mark_cell(rows, p->whole_height, points, d->size, radius);
    }
    for (size_t y = 0; y < d->grid->columns; y++) {
        for (size_t j = 0; j < d->size; j++)
            points[j] = grid_column_point(p, d->reading, d->grid, y, d->size, j);
        mark_cell(columns, p->whole_width, points, d->size, radius);
    }
}

static void draw_points(const drawing *d, const uint8_t *rows, const uint8_t *columns)
{
    const picture *p = d->from;
    for (size_t row = 0; row < p->whole_height; row++)
        for (size_t column = 0; column < p->whole_width && rows[row] != MARK_NONE; column++)
            if (columns[column] != MARK_NONE)
                dot(p, row, column, rows[row] == MARK_POINT && columns[column] == MARK_POINT ? yellow : black);
}

bool drawing_make(const drawing *d)
{
    const picture *p = d->from;
    if (d->has_box)
        draw_box(p);
    if (d->grid == NULL)
        return true;
    uint8_t *rows = calloc(p->whole_height, 1), *columns = calloc(p->whole_width, 1);
    bool enough = rows != NULL && columns != NULL;
    if (enough) {
        mark(d, rows, columns);
        draw_points(d, rows, columns);
        draw_grid(p, d->grid); /* over the points, which can be so many that they cover it */
    }
    free(columns);
    free(rows);
    return enough;
}
