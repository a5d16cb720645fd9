/* The cells of a grid: what they hold, and where their points lie. */
#include "grid.h"

#include <stdlib.h>

/* One direction of the record that is sampled. */
typedef struct {
    size_t corner, offset;
    float pitch;
    size_t count, side;
} lane;

static lane lane_down(const folgutan_board *b)
{
    return (lane){b->r_1, b->r0, b->pixelr, b->r, b->height};
}

static lane lane_across(const folgutan_board *b)
{
    return (lane){b->c_1, b->c0, b->pixelc, b->c, b->width};
}

/* The row or column that sampling takes: binary32, each operation rounded by itself, in this order. */
static size_t place_of(lane l, size_t cell, size_t size, size_t i)
{
    float steps = l.pitch * (float)cell;
    float begin = (float)l.corner + (float)l.offset;
    begin = begin + steps;
    float half = l.pitch / 2.0f;
    float part = half / (float)size;
    part = part * (float)(2 * i + 1);
    return (size_t)(begin + part);
}

/* How many cells lie in the picture with all their points; places grow with the cell. */
static size_t count_there(lane l, size_t size)
{
    size_t count = l.count;
    while (count > 0 && place_of(l, count - 1, size, size - 1) >= l.side)
        count--;
    return count;
}

/* The mean of the sampled points of one plane, as a byte. */
static uint8_t mean_of(const float *points, size_t count)
{
    double sum = 0;
    for (size_t at = 0; at < count; at++)
        sum += (double)points[at];
    return (uint8_t)(255.0 * sum / (double)count + 0.5);
}

/* Plane k is byte 2 - k of a pixel: they are red, green and blue. */
static cell cell_of(const float *values, size_t points)
{
    return (cell){mean_of(values, points), mean_of(values + points, points), mean_of(values + 2 * points, points), true};
}

/* Samples are lent to the library in bands of rows. Only where a full band would need more memory than this is there more than one. */
enum { MOST_BAND = 1 << 24 };

/* Rows of a band: all, or a multiple of 4, so that it begins a whole number of pixels further down: pitches are multiples of 0.25. */
static size_t band_rows(size_t rows, size_t row_values)
{
    if (row_values == 0 || rows <= MOST_BAND / row_values)
        return rows;
    size_t most = MOST_BAND / row_values / 4 * 4;
    return most > 0 ? most : 4;
}

static bool sample_band(const reading *r, const grid *g, folgutan_board band, size_t first, size_t size, float *values, size_t values_len,
                        cell *cells)
{
    size_t points = size * size;
    band.r_1 += (size_t)(band.pixelr * (float)first);
    if (folgutan_sample_board(band, r->planes, r->planes_len, size, values, values_len) != FOLGUTAN_DONE)
        return false;
    for (size_t x = 0; x < band.r; x++)
        for (size_t y = 0; y < band.c; y++)
            cells[(g->rows_before + first + x) * g->columns + g->columns_before + y] =
                cell_of(values + (x * band.c + y) * 3 * points, points);
    return true;
}

/* The row or column of point i of a cell of the grid; below 0 off the picture. The cells before the record's go on from its corner. */
static ptrdiff_t point_place(lane l, size_t before, size_t cell, size_t size, size_t i)
{
    double at;
    if (cell < before)
        at = (double)l.corner - (double)(before - cell) * (double)l.pitch + (double)l.pitch * (double)(2 * i + 1) / (double)(2 * size);
    else
        at = (double)place_of(l, cell - before, size, i);
    return at >= 0 && at < (double)l.side ? (ptrdiff_t)at : -1;
}

static cell cell_alone(const reading *r, const grid *g, size_t size, size_t x, size_t y)
{
    lane down = lane_down(&g->board), across = lane_across(&g->board);
    float values[FOLGUTAN_MOST_CELL_VALUES];
    size_t at = 0;
    for (size_t k = 0; k < 3; k++)
        for (size_t i = 0; i < size; i++)
            for (size_t j = 0; j < size; j++) {
                ptrdiff_t row = point_place(down, g->rows_before, x, size, i), column = point_place(across, g->columns_before, y, size, j);
                if (row < 0 || column < 0)
                    return (cell){0, 0, 0, false};
                values[at++] = r->planes[(k * down.side + (size_t)row) * across.side + (size_t)column];
            }
    return cell_of(values, size * size);
}

/* Of the cells before the record's, only the last row and the last column can have their points in the picture. The library has no name
 * for them, as a record begins in the picture. */
static void sample_before(const reading *r, const grid *g, size_t size, cell *cells)
{
    for (size_t y = 0; y < g->columns && g->rows_before > 0; y++)
        cells[(g->rows_before - 1) * g->columns + y] = cell_alone(r, g, size, g->rows_before - 1, y);
    for (size_t x = 0; x < g->rows && g->columns_before > 0; x++)
        cells[x * g->columns + g->columns_before - 1] = cell_alone(r, g, size, x, g->columns_before - 1);
}

cell *grid_cells(const reading *r, const grid *g, size_t size)
{
    folgutan_board board = g->board;
    board.r = count_there(lane_down(&board), size);
    board.c = count_there(lane_across(&board), size);
    size_t row_values = board.c * 3 * size * size, band = band_rows(board.r, row_values), total = board.r;
    /* one entry more, so that neither is empty */
    cell *cells = calloc(g->rows * g->columns + 1, sizeof *cells);
    float *values = calloc(band * row_values + 1, sizeof *values);
    bool done = cells != NULL && values != NULL;
    for (size_t first = 0; done && first < total; first += band) {
        board.r = total - first < band ? total - first : band;
        done = sample_band(r, g, board, first, size, values, band * row_values, cells);
    }
    free(values);
    if (!done) {
        free(cells);
        return NULL;
    }
    sample_before(r, g, size, cells);
    return cells;
}

/* The middle of the pixel of point i of cell x, from the box's edge, in pixels of the picture as it came in. */
static double point_of(lane l, size_t before, size_t cell, size_t size, size_t i, size_t scale)
{
    ptrdiff_t place = point_place(l, before, cell, size, i);
    return place >= 0 ? ((double)place + 0.5) * (double)scale : -1;
}

double grid_row_point(const picture *from, const reading *r, const grid *g, size_t x, size_t size, size_t i)
{
    double at = point_of(lane_down(&g->board), g->rows_before, x, size, i, r->scale);
    return at < 0 ? -1 : (double)from->box.top + at;
}

double grid_column_point(const picture *from, const reading *r, const grid *g, size_t y, size_t size, size_t j)
{
    double at = point_of(lane_across(&g->board), g->columns_before, y, size, j, r->scale);
    return at < 0 ? -1 : (double)from->box.left + at;
}
