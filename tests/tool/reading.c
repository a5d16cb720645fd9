/* Readings, the placing of grids, and their cells. */
#include "reading.h"

#include <math.h>
#include <stdio.h>
#include <stdlib.h>
#include <string.h>

static size_t checks, failed;

void check(bool holds, const char *what)
{
    checks++;
    if (!holds) {
        failed++;
        printf("FAILED: %s\n", what);
    }
}

static const expected UNKNOWN;

/* A box of a large picture, and a reading of it that was made by hand. */
typedef struct {
    picture from;
    reading r;
} made;

static made by_hand(size_t height, size_t width, size_t top, size_t left, size_t scale, folgutan_board board)
{
    made m = {.from = {.whole_width = 5000, .whole_height = 5000, .box = {width, height, left, top}, .shrink = 1}};
    m.from.width = width;
    m.from.height = height;
    board.height = height / scale;
    board.width = width / scale;
    m.r = (reading){.factor = 2, .scale = scale, .located = {.board = board}};
    return m;
}

static grid grid_in(const made *m, size_t rows, size_t columns)
{
    grid g;
    expected size = {true, rows, columns};
    grid_of(&m->from, &m->r, &size, true, &g);
    return g;
}

static const folgutan_board TEN = {.r_1 = 8, .c_1 = 5, .r0 = 2, .c0 = 5, .r = 10, .c = 10, .pixelr = 20.0f, .pixelc = 20.25f};

static void test_own(void)
{
    made m = by_hand(220, 230, 100, 200, 1, TEN);
    grid g;
    grid_of(&m.from, &m.r, &UNKNOWN, true, &g);
    check(!g.extended && g.rows == 10 && g.columns == 10 && g.top == 110 && g.left == 210, "a grid is the library's own");
    check(g.pitch_down == 20 && g.pitch_across == 20.25 && memcmp(&g.board, &m.r.located.board, sizeof g.board) == 0,
          "its record is the library's own");
    g = grid_in(&m, 10, 10);
    check(!g.extended && memcmp(&g.board, &m.r.located.board, sizeof g.board) == 0, "what is expected and read is the library's own");
    expected other = {true, 12, 12};
    grid_of(&m.from, &m.r, &other, false, &g);
    check(!g.extended && g.rows == 10, "without a box nothing is extended");
    made half = by_hand(440, 460, 100, 200, 2, TEN);
    grid_of(&half.from, &half.r, &UNKNOWN, true, &g);
    check(g.top == 120 && g.left == 220 && g.pitch_down == 40 && g.pitch_across == 40.5,
          "places are in pixels of the picture as it came in");
}

static void test_placed(void)
{
    /* rows were lost above, columns behind */
    made m = by_hand(262, 262, 0, 0, 1, (folgutan_board){.r_1 = 50, .c_1 = 10, .r = 10, .c = 10, .pixelr = 20, .pixelc = 20});
    grid g = grid_in(&m, 12, 12);
    check(g.extended && g.rows == 12 && g.columns == 12 && g.top == 10 && g.left == 10, "a grid grows to where the box has room");
    check(g.board.r_1 == 10 && g.board.c_1 == 10 && g.board.r0 == 0 && g.board.c0 == 0 && g.board.r == 12 && g.board.c == 12 &&
              g.rows_before == 0 && g.columns_before == 0,
          "its record has its corner and no offset");
    g = grid_in(&m, 8, 8);
    check(g.extended && g.rows == 8 && g.top == 50 && g.left == 50, "a grid shrinks to what is nearest to the middle");
    m = by_hand(216, 216, 0, 0, 1, (folgutan_board){.r_1 = 27, .c_1 = 25, .r = 9, .c = 9, .pixelr = 20, .pixelc = 20.5f});
    g = grid_in(&m, 10, 10);
    check(g.top == 7 && g.left == 4.5 && g.board.c_1 == 5, "a corner is rounded to whole pixels in the record alone");
}

static void test_ties(void)
{
    /* three places fit alike: 6, 16 and 26 of 46 - 10 */
    folgutan_board b = {.r_1 = 26, .c_1 = 6, .r = 10, .c = 9, .pixelr = 10, .pixelc = 10};
    made m = by_hand(136, 136, 0, 0, 1, b);
    grid g = grid_in(&m, 10, 10);
    check(g.top == 26 && g.board.r_1 == 26, "of places that fit alike the library's own is taken where its count is the expected one");
    check(g.left == 6, "of places that fit alike one that holds the library's cells is taken");
    m.r.located.board.c_1 = 16;
    g = grid_in(&m, 10, 10);
    check(g.left == 16, "then the one in the middle");
    m = by_hand(130, 130, 0, 0, 1, (folgutan_board){.r_1 = 10, .c_1 = 20, .r = 9, .c = 9, .pixelr = 10, .pixelc = 10});
    g = grid_in(&m, 10, 10);
    check(g.left == 10, "then the smaller one"); /* 10 and 20 are as near to the middle */
}

static void test_off(void)
{
    made m = by_hand(120, 120, 0, 0, 1, (folgutan_board){.r_1 = 15, .c_1 = 15, .r = 4, .c = 4, .pixelr = 20, .pixelc = 20});
    grid g = grid_in(&m, 8, 8);
    check(g.top == -25 && g.rows_before == 2 && g.board.r_1 == 15 && g.board.r == 6, "rows above the picture come before the record");
    check(grid_row_point(&m.from, &m.r, &g, 0, 1, 0) < 0 && grid_row_point(&m.from, &m.r, &g, 1, 3, 0) < 0 &&
              grid_row_point(&m.from, &m.r, &g, 2, 1, 0) == 25.5,
          "points above the picture are below 0");
    check(grid_row_point(&m.from, &m.r, &g, 1, 1, 0) == 5.5 && grid_row_point(&m.from, &m.r, &g, 1, 2, 1) == 10.5,
          "points of a row that begins above the picture");
    check(grid_row_point(&m.from, &m.r, &g, 7, 1, 0) < 0 && grid_row_point(&m.from, &m.r, &g, 6, 1, 0) == 105.5,
          "points behind the picture are below 0");
    check(grid_column_point(&m.from, &m.r, &g, 0, 1, 0) < 0 && grid_column_point(&m.from, &m.r, &g, 1, 1, 0) == 5.5 &&
              grid_column_point(&m.from, &m.r, &g, 3, 2, 1) == 50.5,
          "columns as rows");
}

static float level(size_t at)
{
    return (float)(at * 7919 % 256) / 255.0f;
}

static void fill_planes(reading *r)
{
    r->planes_len = 3 * r->located.board.height * r->located.board.width;
    r->planes = calloc(r->planes_len, sizeof *r->planes);
    for (size_t at = 0; r->planes != NULL && at < r->planes_len; at++)
        r->planes[at] = level(at);
}

static uint8_t mean(const float *values, size_t count)
{
    double sum = 0;
    for (size_t at = 0; at < count; at++)
        sum += (double)values[at];
    return (uint8_t)(255.0 * sum / (double)count + 0.5);
}

/* Whether a cell that begins off the picture has what lies at its points, if they all are in it. Scale is 1. */
static bool as_pointed(const made *m, const grid *g, const cell *c, size_t x, size_t y, size_t size)
{
    static float values[FOLGUTAN_MOST_CELL_VALUES];
    size_t points = size * size, height = m->from.height, width = m->from.width;
    for (size_t at = 0; at < points; at++) {
        double row = grid_row_point(&m->from, &m->r, g, x, size, at / size);
        double column = grid_column_point(&m->from, &m->r, g, y, size, at % size);
        if (row < 0 || column < 0)
            return !c->there && c->red == 0 && c->green == 0 && c->blue == 0;
        for (size_t k = 0; k < 3; k++)
            values[k * points + at] =
                m->r.planes[(k * height + (size_t)row - m->from.box.top) * width + (size_t)column - m->from.box.left];
    }
    return c->there && c->red == mean(values, points) && c->green == mean(values + points, points) &&
           c->blue == mean(values + 2 * points, points);
}

/* Whether a cell is what folgutan_sample gives. */
static bool as_sampled(const made *m, const grid *g, const cell *cells, size_t x, size_t y, size_t size)
{
    static float values[FOLGUTAN_MOST_CELL_VALUES];
    const reading *r = &m->r;
    const cell *c = &cells[x * g->columns + y];
    if (x < g->rows_before || y < g->columns_before)
        return as_pointed(m, g, c, x, y, size);
    if (folgutan_sample(g->board, r->planes, r->planes_len, x - g->rows_before, y - g->columns_before, size, values,
                        FOLGUTAN_MOST_CELL_VALUES) != FOLGUTAN_DONE)
        return !c->there && c->red == 0 && c->green == 0 && c->blue == 0;
    size_t points = size * size;
    return c->there && c->red == mean(values, points) && c->green == mean(values + points, points) &&
           c->blue == mean(values + 2 * points, points);
}

/* Compares each cell, or every so many. */
static void cells_case(made *m, const grid *g, size_t size, size_t every, const char *what)
{
    cell *cells = grid_cells(&m->r, g, size);
    bool same = cells != NULL;
    for (size_t at = 0; same && at < g->rows * g->columns; at += every)
        same = as_sampled(m, g, cells, at / g->columns, at % g->columns, size);
    check(same, what);
    free(cells);
}

static void test_cells(void)
{
    made m = by_hand(230, 232, 3, 4, 1, TEN);
    grid g;
    fill_planes(&m.r);
    grid_of(&m.from, &m.r, &UNKNOWN, true, &g);
    for (size_t size = 1; size <= FOLGUTAN_MOST_SIZE; size += size < 4 ? 1 : 10)
        cells_case(&m, &g, size, 1, "cells are as they are sampled");
    grid more = grid_in(&m, 14, 15);
    check(more.rows_before > 0 && more.columns_before > 0, "an extended grid can begin off the picture");
    cells_case(&m, &more, 1, 1, "cells of an extended grid are as they are sampled");
    cells_case(&m, &more, 3, 1, "cells of an extended grid are as they are sampled");
    for (g.board.c_1 = 6; g.board.c_1 < 40; g.board.c_1++) {
        cells_case(&m, &g, 4, 3, "cells that leave the picture are not there");
        cells_case(&m, &g, 1, 3, "fewer points leave the picture at size 1");
    }
    g.board.r = g.rows = 0;
    cell *none = grid_cells(&m.r, &g, 1);
    check(none != NULL, "a grid may have no cells");
    free(none);
    free(m.r.planes);
    /* more than 2^24 values: several bands */
    folgutan_board large = {.r_1 = 3, .c_1 = 2, .r0 = 1, .c0 = 3, .r = 104, .c = 100, .pixelr = 8.25f, .pixelc = 8.25f};
    m = by_hand(870, 840, 0, 0, 1, large);
    fill_planes(&m.r);
    grid_of(&m.from, &m.r, &UNKNOWN, true, &g);
    cells_case(&m, &g, FOLGUTAN_MOST_SIZE, 41, "cells of several bands are as they are sampled");
    free(m.r.planes);
}

/* A picture of one level with lines of another: so far apart down and across, or none. */
static picture drawn(size_t height, size_t width, size_t down, size_t across)
{
    picture p = {.whole_width = width, .whole_height = height, .box = {width, height, 0, 0}, .shrink = 1, .width = width, .height = height};
    p.pixels = calloc(4 * height * width + 1, 1);
    for (size_t at = 0; p.pixels != NULL && at < height * width; at++) {
        bool line = (down > 0 && at / width % down == down / 2) || (across > 0 && at % width % across == across / 2);
        memset(p.pixels + 4 * at, line ? 30 : 200, 4);
    }
    return p;
}

static void refusal_case(picture p, size_t factor, uint32_t answer, const char *part)
{
    reading r;
    bool made = reading_make(&p, factor, &r);
    check(made, "a reading without a board is a reading, too");
    check(made && r.located.answer == answer, part);
    check(made && strncmp(reading_refusal(&r), "no board: ", 10) == 0 && strstr(reading_refusal(&r), part) != NULL, part);
    if (made)
        reading_free(&r);
    picture_free(&p);
}

/* Pixels of a larger picture, of which `shrink` by `shrink` became one each. */
static picture part_of(picture p, size_t shrink, size_t around)
{
    p.box = (box){p.width * shrink, p.height * shrink, around, around};
    p.whole_width = p.box.width + 2 * around;
    p.whole_height = p.box.height + 2 * around;
    p.shrink = shrink;
    return p;
}

static void test_refusals_of_parts(void)
{
    refusal_case(part_of(drawn(4, 6, 0, 0), 64, 0), 3, FOLGUTAN_BAD_SIDE,
                 "what is read has 6 by 4 pixels, at least 12 a side are needed; give a smaller --shrink");
    refusal_case(part_of(drawn(10, 10, 0, 0), 1, 50), 3, FOLGUTAN_BAD_SIDE,
                 "what is read has 10 by 10 pixels, at least 12 a side are needed; give a larger --box");
    refusal_case(part_of(drawn(4, 5, 0, 0), 2, 50), 3, FOLGUTAN_BAD_SIDE, "at least 12 a side are needed; give a larger --box");
    refusal_case(part_of(drawn(6, 9, 0, 0), 2, 50), 3, FOLGUTAN_BAD_SIDE, "12 a side are needed; give a smaller --shrink");
    refusal_case(part_of(drawn(30, 19, 0, 0), 2, 0), 5, FOLGUTAN_BAD_SIDE, "what is read has 19 by 30 pixels, at least 20 a side");
    refusal_case(part_of(drawn(300, 300, 0, 0), 1, 1), 3, FOLGUTAN_TOO_SMALL, "more than a third of the box; give a closer --box");
    refusal_case(part_of(drawn(300, 300, 0, 0), 2, 0), 3, FOLGUTAN_TOO_SMALL, "more than a third of the picture; give its part with --box");
    refusal_case(part_of(drawn(150, 150, 3, 2), 1, 1), 3, FOLGUTAN_COLUMNS_NO_GAP, "apart; give a larger window, or a closer --box");
    refusal_case(part_of(drawn(150, 150, 3, 10), 1, 1), 3, FOLGUTAN_ROWS_NO_GAP, "apart; give a larger window, or a closer --box");
}

static void test_readings(void)
{
    picture p = drawn(230, 250, 20, 20);
    reading r;
    bool made = reading_make(&p, 3, &r);
    check(made && r.located.answer == FOLGUTAN_DONE && r.scale == 1 && r.located.board.pixelr == 20.0f, "a drawn board is read");
    check(made && reading_refusal(&r)[0] == '\0', "a board is no refusal");
    if (made)
        reading_free(&r);
    picture_free(&p);
}

static void test_refusals(void)
{
    refusal_case(drawn(11, 40, 0, 0), 3, FOLGUTAN_BAD_SIDE, "the picture has 40 by 11 pixels, at least 12 a side are needed");
    refusal_case(drawn(20, 4097, 0, 0), 3, FOLGUTAN_BAD_SIDE, "at most 4096 a side are read; give its part with --box, or --shrink 2");
    refusal_case(drawn(30, 19, 0, 0), 5, FOLGUTAN_BAD_SIDE, "at least 20 a side are needed with --factor 5");
    refusal_case(drawn(300, 300, 0, 0), 3, FOLGUTAN_TOO_SMALL, "more than a third of the picture; give its part with --box");
    refusal_case(drawn(150, 150, 3, 2), 3, FOLGUTAN_COLUMNS_NO_GAP, "no two lines across are more than 5 pixels apart");
    refusal_case(drawn(150, 400, 3, 210), 3, FOLGUTAN_COLUMNS_TOO_FAR, "the lines across are 206 pixels or more apart; make them closer");
    refusal_case(drawn(150, 150, 3, 10), 3, FOLGUTAN_ROWS_NO_GAP, "no two lines down are more than 5 pixels apart");
    reading rows = {.located = {.answer = FOLGUTAN_ROWS_TOO_FAR}};
    const char *why = "no board: the lines down are 206 pixels or more apart; make them closer with --shrink 2 or more";
    check(strcmp(reading_refusal(&rows), why) == 0, "rows as columns");
}

int main(void)
{
    test_own();
    test_placed();
    test_ties();
    test_off();
    test_cells();
    test_readings();
    test_refusals();
    test_refusals_of_parts();
    test_doubt();
    printf("%zu checks, %zu failed\n", checks, failed);
    return failed > 0;
}
