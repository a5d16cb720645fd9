/* The rules of doubt, each at both sides of its threshold. */
#include "reading.h"

#include <stdio.h>
#include <stdlib.h>
#include <string.h>

/* A board that is drawn, and its reading, which is made by hand: lines of one pixel between cells of one level. */
typedef struct {
    picture from;
    reading r;
    expected size;
    bool has_box;
} scene;

enum { FIRST = 44, PITCH = 20, CELLS = 13, LAST = FIRST + CELLS * PITCH, SIDE = 400, FACE = 160, LINE = 32 };

static void put(scene *s, size_t row, size_t column, size_t height, size_t width, uint8_t level)
{
    for (size_t y = row; y < row + height; y++)
        memset(s->from.pixels + 4 * (y * s->from.width + column), level, 4 * width);
}

/* A line down at a column, or across at a row, from one place to another. */
static void down(scene *s, size_t column, size_t from, size_t to, uint8_t level)
{
    put(s, from, column, to - from + 1, 1, level);
}

static void across(scene *s, size_t row, size_t from, size_t to, uint8_t level)
{
    put(s, row, from, 1, to - from + 1, level);
}

static scene blank(void)
{
    scene s = {.from = {.whole_width = 1000, .whole_height = 1000, .box = {SIDE, SIDE, 0, 0}, .shrink = 1, .width = SIDE, .height = SIDE}};
    s.from.pixels = calloc(4 * SIDE * SIDE, 1);
    if (s.from.pixels == NULL)
        exit(1);
    put(&s, 0, 0, SIDE, SIDE, FACE);
    s.r = (reading){.factor = 3, .scale = 1};
    /* a line of one pixel is an edge at the place before it */
    s.r.located.board = (folgutan_board){.height = SIDE, .width = SIDE, .r_1 = FIRST - 1, .c_1 = FIRST - 1, .r = CELLS, .c = CELLS,
                                         .pixelr = PITCH, .pixelc = PITCH};
    return s;
}

static scene board(void)
{
    scene s = blank();
    for (size_t at = FIRST; at <= LAST; at += PITCH) {
        down(&s, at, FIRST, LAST, LINE);
        across(&s, at, FIRST, LAST, LINE);
    }
    return s;
}

/* Takes a line down away, but where lines across cross it. */
static void erase_down(scene *s, size_t column, size_t from, size_t to)
{
    for (size_t row = from; row <= to; row++)
        if ((row - FIRST) % PITCH != 0 || row < FIRST)
            put(s, row, column, 1, 1, FACE);
}

/* Whether a reason with these words is given; a scene is used up. */
static bool doubted(scene *s, const char *words)
{
    grid g;
    doubt d;
    bool found = false;
    grid_of(&s->from, &s->r, &s->size, s->has_box, &g);
    doubt_of(&s->from, &s->r, &g, &s->size, s->has_box, &d);
    for (size_t at = 0; at < d.count; at++)
        found |= strstr(d.reasons[at], words) != NULL;
    if (words[0] == '\0')
        found = d.count > 0;
    free(s->from.pixels);
    s->from.pixels = NULL;
    return found;
}

#define ANY ""

static void test_ok(void)
{
    scene s = board();
    check(!doubted(&s, ANY), "a drawn board is no doubt");
}

static void test_pitches(void)
{
    scene s = board();
    s.r.located.board.pixelr = 25, s.r.located.board.pixelc = 27;
    check(!doubted(&s, "differ by more than 8 percent"), "pitches that differ by 8 percent");
    s = board();
    s.r.located.board.pixelr = 25, s.r.located.board.pixelc = 27.25f;
    check(doubted(&s, "the pitch down, 25.00, and across, 27.25, differ by more than 8 percent"), "pitches that differ by more");
}

static void test_size(void)
{
    scene s = board();
    s.r.located.board.r = 8;
    check(!doubted(&s, "fewer than 8"), "8 rows");
    s = board();
    s.r.located.board.r = 7;
    check(doubted(&s, "only 7 by 13 cells are read, fewer than 8 a side"), "7 rows");
    s = board();
    s.r.located.board.r = 7, s.size = (expected){true, 7, CELLS};
    check(!doubted(&s, "fewer than 8"), "7 rows that are expected");
    s = board();
    s.size = (expected){true, CELLS, CELLS};
    check(!doubted(&s, ANY), "the expected size");
    s = board();
    s.size = (expected){true, CELLS, CELLS + 1};
    check(doubted(&s, "13 by 13 cells are read where 13 by 14 are expected"), "another size");
}

static void test_clear(void)
{
    for (size_t part = 0; part < 2; part++) {
        scene s = blank();
        for (size_t at = FIRST; at <= LAST; at += PITCH) {
            down(&s, at, FIRST, FIRST + (part ? 4 : 3) * PITCH, LINE);
            across(&s, at, FIRST, LAST, LINE);
        }
        check(doubted(&s, "hardly seen") == (part == 0), "a quarter of the lines");
    }
}

/* Inner lines are missing, with the outline whole or broken. */
static scene missing(size_t lines, bool broken)
{
    scene s = board();
    for (size_t k = 0; k < lines; k++)
        erase_down(&s, FIRST + (3 + k) * PITCH, FIRST + 1, LAST - 1);
    if (broken)
        across(&s, FIRST, LAST - PITCH + 3, LAST - 3, FACE);
    return s;
}

static void test_seen(void)
{
    scene s = missing(3, false);
    check(!doubted(&s, ANY), "three of 14 lines are missing in a whole outline");
    s = missing(4, false);
    check(doubted(&s, "10 lines are seen across where 14 are expected"), "four of them");
    s = missing(0, true);
    check(!doubted(&s, "are seen across where"), "a broken outline with all lines");
    s = missing(1, true);
    check(doubted(&s, "13 lines are seen across where 14 are expected"), "a broken outline and a line that is missing");
    for (uint8_t rise = 15; rise < 17; rise++) {
        s = missing(1, true);
        down(&s, FIRST + 3 * PITCH, FIRST, LAST, (uint8_t)(FACE - rise));
        check(doubted(&s, "13 lines are seen across") == (rise == 15), "an eighth of the usual rise");
    }
}

/* 91 places of it are looked at: 7 in each cell. */
static void test_outer(void)
{
    scene s = board();
    erase_down(&s, LAST, FIRST + PITCH, FIRST + 3 * PITCH + 10);
    check(!doubted(&s, "cells may be lost"), "73 of 91 places of an outer line");
    s = board();
    erase_down(&s, LAST, FIRST + PITCH, FIRST + 3 * PITCH + 12);
    check(doubted(&s, "cells may be lost at the right: 79 percent of the outer line is an edge"), "72 of them");
}

static void test_places(void)
{
    for (size_t off = 3; off < 5; off++) {
        scene s = board();
        s.r.located.board.c_1 -= off;
        check(doubted(&s, "pixels from where the grid puts them") == (off == 4), "lines beside their places");
        s = board();
        s.r.located.board.c_1 -= off;
        check(doubted(&s, "hardly seen") == (off == 4), "what is further off is not seen");
    }
    scene s = board();
    s.r.located.board.pixelr = 20.5f, s.r.located.board.r_1 -= 3; /* from 3 before to 3.5 behind */
    check(doubted(&s, "the lines down are"), "lines that drift");
    s = board();
    s.r.located.board.pixelr = 20.25f, s.r.located.board.r_1 -= 1;
    check(!doubted(&s, ANY), "lines that drift less");
}

static void test_between(void)
{
    for (size_t lines = 3; lines < 5; lines++) {
        scene s = board();
        for (size_t k = 0; k < lines; k++)
            down(&s, FIRST + (4 + k) * PITCH + PITCH / 2, FIRST, LAST, LINE);
        check(doubted(&s, "lines are seen between the lines across") == (lines == 4), "lines between lines");
    }
    scene s = board();
    across(&s, LAST - PITCH / 2, FIRST, LAST, LINE);
    check(doubted(&s, "a line is seen inside the cells at the bottom"), "a line in the last row");
    s = board();
    down(&s, FIRST + PITCH / 2, FIRST, LAST, LINE);
    check(doubted(&s, "a line is seen inside the cells at the left"), "a line in the first column");
    s = board();
    across(&s, LAST - PITCH / 2, FIRST, LAST, FACE - 60);
    check(!doubted(&s, ANY), "a faint line in the last row");
}

static void test_goes_on(void)
{
    for (size_t lines = 6; lines < 8; lines++) {
        scene s = board();
        for (size_t k = 1; k <= lines; k++)
            across(&s, FIRST + k * PITCH, LAST, LAST + PITCH, LINE);
        check(doubted(&s, "the lines go on outside the grid at the right") == (lines == 7), "half of the lines go on");
    }
    for (size_t shift = 0; shift < 2; shift++) {
        scene s = board();
        down(&s, LAST + 2 * PITCH - 8 * shift, FIRST, LAST, LINE);
        across(&s, FIRST, LAST, LAST + 2 * PITCH, LINE);
        check(doubted(&s, "its frame is seen") == (shift == 0), "a frame that is no whole cells further out");
    }
}

/* The outline goes on to a frame at the right: from a place on, so far down, without some of every third pixel, or with a gap. */
static scene outline(size_t begin, size_t shift, bool dashed, size_t gap)
{
    scene s = board();
    down(&s, LAST + 2 * PITCH, FIRST, LAST, LINE);
    for (size_t column = LAST + begin; column < LAST + 2 * PITCH; column++)
        if (!(dashed && column % 3 == 0) && !(column >= LAST + PITCH && column < LAST + PITCH + gap))
            put(&s, LAST + shift, column, 1, 1, LINE);
    return s;
}

static void test_outline(void)
{
    const char *words = "the board goes on at the right: its frame is seen 2 cells further out";
    scene s = outline(0, 0, false, 0);
    check(doubted(&s, words), "an outline that goes on");
    s = outline(9, 0, false, 0);
    check(!doubted(&s, words), "another one, that begins further on");
    s = outline(0, 5, false, 0);
    check(!doubted(&s, words), "another one beside it");
    s = outline(0, 0, true, 0);
    check(!doubted(&s, words), "an outline that goes on in dashes");
    s = outline(0, 0, false, 2);
    check(doubted(&s, words), "an outline with a gap of 2 pixels");
    s = outline(0, 0, false, 3);
    check(!doubted(&s, words), "an outline with a gap of 3 pixels");
}

static void test_frame(void)
{
    for (size_t sides = 3; sides < 5; sides++) {
        scene s = board();
        size_t out = 2 * PITCH;
        down(&s, FIRST - out, FIRST - out, LAST + out, LINE);
        down(&s, LAST + out, FIRST - out, LAST + out, LINE);
        across(&s, FIRST - out, FIRST - out, LAST + out, LINE);
        if (sides == 4)
            across(&s, LAST + out, FIRST - out, LAST + out, LINE);
        check(doubted(&s, "a frame is seen around the grid") == (sides == 4), "a frame around the grid");
    }
}

static void test_belongs(void)
{
    for (unsigned ends = 1; ends < 4; ends++) {
        scene s = board();
        if (ends & 1)
            across(&s, FIRST, LAST - PITCH + 1, LAST - 1, FACE);
        if (ends & 2)
            across(&s, LAST, LAST - PITCH + 1, LAST - 1, FACE);
        check(doubted(&s, "the cells at the right lie outside the board's outline") == (ends == 3), "an outline without the last column");
    }
}

static void test_box(void)
{
    scene s = board();
    s.has_box = true, s.size = (expected){true, CELLS, CELLS};
    s.from.box.height = (CELLS + 2) * PITCH, s.from.box.width = (CELLS - 2) * PITCH;
    check(!doubted(&s, "they differ by more than"), "a box of two cells more or fewer");
    s = board();
    s.has_box = true, s.size = (expected){true, CELLS, CELLS};
    s.from.box.height = (CELLS + 2) * PITCH + 1;
    check(doubted(&s, "the grid is 260.0 pixels high and the box 301: they differ by more than 2 rows"), "a higher box");
    s = board();
    s.has_box = true, s.size = (expected){true, CELLS, CELLS};
    s.from.box.width = (CELLS - 2) * PITCH - 1;
    check(doubted(&s, "the grid is 260.0 pixels wide and the box 219: they differ by more than 2 columns"), "a narrower box");
}

/* A box without a known size: what it leaves below the grid, and at the right. */
static scene close_box(size_t below, size_t right)
{
    scene s = board();
    s.has_box = true;
    s.from.box = (box){LAST - 1 + right, LAST - 1 + below, 10, 10};
    return s;
}

static void test_close(void)
{
    const char *words = "the box is close, and has room for more cells beside the grid";
    scene s = close_box(5, 30);
    check(doubted(&s, words), "close below, with room for two cells above and at the left");
    s = close_box(6, 30);
    check(!doubted(&s, words), "not close, with room for cells on two sides");
    s = close_box(20, 30);
    check(!doubted(&s, words), "not close, with room for cells on three sides");
    s = close_box(20, 18);
    check(doubted(&s, words), "room for cells on all sides");
    s = close_box(20, 17);
    check(!doubted(&s, words), "not room enough");
    s = close_box(20, 25);
    check(doubted(&s, words), "5 pixels more than a cell");
    s = close_box(20, 26);
    check(!doubted(&s, words), "6 pixels more than a cell");
}

/* Two flat columns were lost at the right: the last line that is seen is no outer line of the board. */
static scene lost(bool known)
{
    scene s = board();
    s.r.located.board.c -= 2;
    s.has_box = true, s.size = (expected){known, CELLS, CELLS};
    s.from.box = (box){LAST + 29, SIDE, 10, 10};
    return s;
}

static void test_extended(void)
{
    for (size_t known = 0; known < 2; known++) {
        scene s = lost(known);
        erase_down(&s, LAST - 2 * PITCH, FIRST + PITCH, FIRST + 4 * PITCH);
        check(doubted(&s, "cells may be lost at the right") == (known == 0), "an extended grid has other outer lines");
        s = lost(known);
        erase_down(&s, FIRST + 3 * PITCH, FIRST + 1, LAST - 1);
        across(&s, FIRST, FIRST + 3, FIRST + PITCH - 3, FACE);
        check(doubted(&s, "11 lines are seen across where 12 are expected") == (known == 0), "a line may be missing");
    }
    scene s = lost(true);
    check(!doubted(&s, "could lie a cell further on"), "a grid that could lie elsewhere in the box, with both outer lines");
    s = lost(true);
    erase_down(&s, LAST, FIRST, LAST);
    check(doubted(&s, "the grid could lie a cell further on in the box"), "and without one of them");
    s = board();
    s.r.located.board.r -= 2;
    s.has_box = true, s.size = (expected){true, CELLS, CELLS};
    s.from.box = (box){SIDE, LAST + 29, 10, 10};
    across(&s, LAST, FIRST, LAST, FACE);
    check(doubted(&s, "the grid could lie a cell further on in the box"), "rows as columns");
    s = lost(true);
    for (size_t row = FIRST; row <= LAST; row += PITCH)
        across(&s, row, LAST + 1, LAST + PITCH, LINE);
    check(doubted(&s, "the lines go on outside the grid at the right"), "what is around is looked at where the extended grid ends");
}

/* A size that is expected where another is read: of a board against which nothing speaks, and of one that lost cells. */
static void test_other_size(void)
{
    const char *reason = "13 by 13 cells are read, and nothing speaks against that, where 14 by 13 are expected";
    scene s = board();
    s.has_box = true, s.size = (expected){true, CELLS + 1, CELLS};
    check(doubted(&s, reason), "a size that contradicts a reading without doubts");
    s = board();
    erase_down(&s, LAST, FIRST + PITCH, FIRST + 4 * PITCH);
    s.has_box = true, s.size = (expected){true, CELLS + 1, CELLS};
    check(!doubted(&s, reason), "a size that contradicts a reading with doubts");
}

/* The middle of the last cell, in the last pixel of what is read and behind it: of the picture, or of a box in it. */
static void test_off_picture(void)
{
    for (size_t off = 0; off < 4; off++) {
        bool has_box = off >= 2, is_off = off % 2 == 1;
        const char *words = has_box ? "cells of the grid lie off the part that is read" : "cells of the grid lie off the picture";
        scene s = board();
        s.has_box = has_box, s.from.box.width = LAST - 1 - PITCH / 2 + 1 - is_off;
        check(doubted(&s, words) == is_off, "the last column's middle in what is read");
        s = board();
        s.has_box = has_box, s.from.box.height = LAST - 1 - PITCH / 2 + 1 - is_off;
        check(doubted(&s, words) == is_off, "the last row's middle in what is read");
        s = board();
        s.has_box = has_box, s.from.box = (box){LAST - 1 - PITCH / 2 + 1 - is_off, SIDE, 100, 100};
        check(doubted(&s, words) == is_off, "the same further on in the picture");
        /* three cells more: from 17 pixels before the box on, or from 3 behind its side on */
        s = board();
        s.has_box = true, s.size = (expected){true, CELLS + 3, CELLS}, s.from.box = (box){SIDE, 320 - 20 * is_off, 100, 100};
        check(doubted(&s, "off the part that is read") == is_off, "the first row's middle in what is read");
        s = board();
        s.has_box = true, s.size = (expected){true, CELLS, CELLS + 3}, s.from.box = (box){320 - 20 * is_off, SIDE, 100, 100};
        check(doubted(&s, "off the part that is read") == is_off, "the first column's middle in what is read");
    }
}

/* A box of 260 pixels, in the picture or where it begins, and a grid of 200 pixels that begins so far behind its left side. */
static bool warned(size_t margin, size_t scale, bool at_edge)
{
    picture from = {.whole_width = 400, .whole_height = 400, .box = {200 + 2 * 30, 200 + 2 * 30, 70, 70}};
    grid g = {.rows = 10, .columns = 10, .pitch_down = 20, .pitch_across = 20, .top = 100, .left = 70 + (double)margin};
    reading r = {.scale = scale};
    if (at_edge)
        from.box.left = 0, g.left = (double)margin;
    return doubt_box_warning(&from, &r, &g, true) != NULL;
}

/* A grid begins a pixel before its first line. */
static void test_warning(void)
{
    check(!warned(30, 1, false), "a wide box is not warned of");
    check(!warned(5, 1, false), "6 pixels before the first line are not warned of");
    check(warned(4, 1, false), "5 pixels are warned of");
    check(!warned(60 - 8, 1, false) && warned(60 - 7, 1, false), "6 and 5 pixels behind the last line");
    check(!warned(4, 2, false) && warned(3, 2, false), "lines of two pixels, before the first");
    check(!warned(60 - 10, 2, false) && warned(60 - 9, 2, false), "lines of two pixels, behind the last");
    check(!warned(0, 1, true), "the picture's own edge is not warned of");
    grid g = {.rows = 10, .columns = 10, .pitch_down = 20, .pitch_across = 20};
    picture from = {.box = {200, 200, 0, 0}, .whole_width = 900, .whole_height = 900};
    reading r = {.scale = 1};
    check(doubt_box_warning(&from, &r, &g, false) == NULL, "without a box there is no warning");
}

void test_doubt(void)
{
    test_ok();
    test_pitches();
    test_size();
    test_clear();
    test_seen();
    test_outer();
    test_places();
    test_between();
    test_goes_on();
    test_outline();
    test_frame();
    test_belongs();
    test_box();
    test_close();
    test_extended();
    test_other_size();
    test_off_picture();
    test_warning();
}
