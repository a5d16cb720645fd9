/* Sampling (01, Cell sampling; 02, R-2 and R-5). */
#include "folgutan.h"

#include "calls.h"
#include "check.h"

#include <stdio.h>
#include <stdlib.h>
#include <string.h>

/* Every value tells its plane, row and column apart on small screens. */
static float plane_value(size_t at)
{
    return (float)(at % 16384) / 16384.0f;
}

/* What is asked for, and a bad value in the planes. */
typedef struct {
    folgutan_board board;
    size_t planes_len, x, y, size, out_len;
    size_t bad;
    uint32_t bits;
} call;

static void sample_case(const char *name, call c, uint32_t answer)
{
    char where[240];
    snprintf(where, sizeof where,
             "sample, %s: sides %zu, %zu, %zu plane values, cell %zu, %zu, size %zu, %zu outputs",
             name, c.board.height, c.board.width, c.planes_len, c.x, c.y, c.size, c.out_len);

    float *planes = memory(c.planes_len, sizeof *planes);
    float *before = memory(c.planes_len, sizeof *before);
    for (size_t at = 0; at < c.planes_len; at++)
        planes[at] = at == c.bad ? float_of(c.bits) : plane_value(at);
    memcpy(before, planes, c.planes_len * sizeof *planes);
    lent_floats out = lend(c.out_len);

    uint32_t have =
        folgutan_sample(c.board, planes, c.planes_len, c.x, c.y, c.size, out.at, c.out_len);

    check(have == answer, where, "answer");
    size_t written = 0;
    if (answer == FOLGUTAN_DONE) {
        int values = 1;
        written = 3 * c.size * c.size;
        for (size_t at = 0; at < written; at++) {
            size_t k = at / (c.size * c.size), i = at / c.size % c.size, j = at % c.size;
            size_t row = place_of(c.board.r_1, c.board.r0, c.board.pixelr, c.x, c.size, i);
            size_t column = place_of(c.board.c_1, c.board.c0, c.board.pixelc, c.y, c.size, j);
            float value = planes[(k * c.board.height + row) * c.board.width + column];
            values &= bits_of(out.at[at]) == bits_of(value);
        }
        check(values, where, "values");
    }
    check(kept(out, written), where, "entries that keep their content");
    check(memcmp(planes, before, c.planes_len * sizeof *planes) == 0, where, "planes unchanged");

    free(planes);
    free(before);
    free(out.whole);
}

/* A call that is done: cell (1, 2) of a board of 4 by 3 cells with pitch 10.0 and 9.25 on a screen of
 * 64 by 60. The far corner is anything. */
static call fitting(void)
{
    call c = {
        .board = {.height = 64, .width = 60, .r_1 = 5, .c_1 = 7, .r_2 = SIZE_MAX, .c_2 = 1,
                  .r0 = 3, .c0 = 2, .r = 4, .c = 3, .pixelr = 10.0f, .pixelc = 9.25f},
        .planes_len = 3 * 64 * 60, .x = 1, .y = 2, .size = 5, .out_len = 3 * 25,
        .bad = NOWHERE,
    };
    return c;
}

/* 01, Ruler cases: corner 0, offset 3, pitch 10.0, x = 0, size 2: rows 5 and 10; r and c are 1, and
 * x = 1 or y = 1 is not on the board (02, R-5). */
static void worked_case(void)
{
    folgutan_board board = {.height = 12, .width = 12, .r0 = 3, .c0 = 3, .r = 1, .c = 1,
                            .pixelr = 10.0f, .pixelc = 10.0f};
    static float planes[3 * 144], out[12];
    for (size_t at = 0; at < COUNT(planes); at++)
        planes[at] = plane_value(at);
    uint32_t answer = folgutan_sample(board, planes, COUNT(planes), 0, 0, 2, out, COUNT(out));
    check(answer == FOLGUTAN_DONE, "sample, worked case", "answer");
    static const size_t at[] = {5, 10};
    int values = 1;
    for (size_t k = 0; k < 3; k++)
        for (size_t i = 0; i < 2; i++)
            for (size_t j = 0; j < 2; j++)
                values &= bits_of(out[4 * k + 2 * i + j])
                          == bits_of(planes[144 * k + 12 * at[i] + at[j]]);
    check(values, "sample, worked case", "values");
    for (size_t cell = 1; cell < 4; cell++) {
        float before[COUNT(out)];
        memcpy(before, out, sizeof out);
        answer =
            folgutan_sample(board, planes, COUNT(planes), cell & 1, cell >> 1, 2, out, COUNT(out));
        check(answer == FOLGUTAN_NOT_ON_BOARD && memcmp(before, out, sizeof out) == 0,
              "sample, worked case", "a cell beside the board");
    }
}

/* The count along one axis, and the number of the cell. */
static size_t *count_of(call *c, size_t axis)
{
    return axis == 0 ? &c->board.r : &c->board.c;
}

static size_t *cell_of(call *c, size_t axis)
{
    return axis == 0 ? &c->x : &c->y;
}

/* The last cell on the board and the first that is not, along each axis; what is looked at before and
 * after; which fields are. */
static void sample_on_board(void)
{
    for (size_t axis = 0; axis < 2; axis++) {
        call c = fitting();
        *count_of(&c, axis) = *cell_of(&c, axis) + 1;
        sample_case("last cell", c, FOLGUTAN_DONE);
        *count_of(&c, axis) = SIZE_MAX;
        sample_case("many cells", c, FOLGUTAN_DONE);
        static const size_t beyond[] = {0, 1, 2, 100, 4096};
        for (size_t at = 0; at < COUNT(beyond); at++) {
            c = fitting();
            *cell_of(&c, axis) = beyond[at];
            for (size_t count = beyond[at];; count /= 2) {
                *count_of(&c, axis) = count;
                c.size = 5;
                c.out_len = 75;
                sample_case("not on the board", c, FOLGUTAN_NOT_ON_BOARD);
                c.out_len = 74;
                sample_case("not on the board, output short", c, FOLGUTAN_NOT_ON_BOARD);
                c.size = 24;
                c.out_len = 0;
                sample_case("not on the board, no output", c, FOLGUTAN_NOT_ON_BOARD);
                c.size = 0;
                sample_case("not on the board, size 0", c, FOLGUTAN_NOT_ON_BOARD);
                c.size = 25;
                sample_case("not on the board, size above 24", c, FOLGUTAN_BAD_NUMBER);
                if (count == 0)
                    break;
            }
        }
        /* on the board and above the limit, and neither */
        c = fitting();
        *cell_of(&c, axis) = 4097;
        *count_of(&c, axis) = SIZE_MAX;
        sample_case("on the board, above 4096", c, FOLGUTAN_BAD_NUMBER);
        *count_of(&c, axis) = 0;
        sample_case("not on the board, above 4096", c, FOLGUTAN_BAD_NUMBER);
        /* earlier faults */
        c = fitting();
        *count_of(&c, axis) = 0;
        c.board.c0 = 4097;
        sample_case("not on the board, offset", c, FOLGUTAN_BAD_NUMBER);
        c.board.pixelr = 7.75f;
        sample_case("not on the board, pitch", c, FOLGUTAN_BAD_PITCH);
        c.bad = 0;
        c.bits = 0x3F800001;
        sample_case("not on the board, value", c, FOLGUTAN_BAD_VALUE);
        c.planes_len--;
        sample_case("not on the board, planes short", c, FOLGUTAN_SHORT_SLICE);
        c.board.height = 3;
        sample_case("not on the board, side", c, FOLGUTAN_BAD_SIDE);
    }
    /* the counts are not exchanged: a board of 3 by 2 cells */
    for (size_t x = 0; x < 4; x++)
        for (size_t y = 0; y < 4; y++) {
            call c = fitting();
            c.board.r = 3;
            c.board.c = 2;
            c.x = x;
            c.y = y;
            sample_case("a cell of 3 by 2", c,
                        x < 3 && y < 2 ? FOLGUTAN_DONE : FOLGUTAN_NOT_ON_BOARD);
        }
    /* 20 by 20, pitches 8.0, one cell */
    call c = fitting();
    c.board = (folgutan_board){.height = 20, .width = 20, .r = 1, .c = 1,
                               .pixelr = 8.0f, .pixelc = 8.0f};
    c.planes_len = 3 * 20 * 20;
    c.x = 1;
    c.y = 0;
    c.size = 25;
    sample_case("one cell, size 25", c, FOLGUTAN_BAD_NUMBER);
    c.size = 24;
    c.out_len = 0;
    sample_case("one cell, no output", c, FOLGUTAN_NOT_ON_BOARD);
    c.x = 4097;
    sample_case("one cell, x 4097", c, FOLGUTAN_BAD_NUMBER);
    c.x = 0;
    c.size = 2;
    c.out_len = 11;
    sample_case("one cell, 11 outputs", c, FOLGUTAN_SHORT_SLICE);
    c.out_len = 12;
    sample_case("one cell", c, FOLGUTAN_DONE);
    /* the far corner is not looked at */
    static const size_t far[] = {0, 1, 12, 4097, SIZE_MAX};
    for (size_t at = 0; at < COUNT(far) * COUNT(far); at++) {
        c.board.r_2 = far[at % COUNT(far)];
        c.board.c_2 = far[at / COUNT(far)];
        sample_case("any far corner", c, FOLGUTAN_DONE);
    }
}

static void sample_sizes(void)
{
    static const size_t sizes[] = {0, 1, 2, 3, 23, 24};
    for (size_t at = 0; at < COUNT(sizes); at++) {
        call c = fitting();
        c.size = sizes[at];
        c.out_len = 3 * c.size * c.size;
        sample_case("size", c, FOLGUTAN_DONE);
        c.out_len += 7;
        sample_case("size", c, FOLGUTAN_DONE);
        c.planes_len += 7;
        sample_case("size", c, FOLGUTAN_DONE);
        c.bad = c.planes_len - 1;
        c.bits = 0x7FC00000;
        sample_case("bad value further on", c, FOLGUTAN_DONE);
        c = fitting();
        c.size = sizes[at];
        c.out_len = 3 * c.size * c.size;
        if (c.size == 0)
            continue;
        c.out_len -= 1;
        sample_case("output one short", c, FOLGUTAN_SHORT_SLICE);
        c.out_len = 0;
        sample_case("no output", c, FOLGUTAN_SHORT_SLICE);
    }
    for (size_t size = 0; size <= FOLGUTAN_MOST_SIZE; size++) {
        call c = fitting();
        c.size = size;
        c.out_len = FOLGUTAN_MOST_CELL_VALUES;
        sample_case("room for every size", c, FOLGUTAN_DONE);
    }
}

/* 11 whatever the output's length, after the pitch and before the places. Some of the sizes are 24
 * or less in their low 8, 16 or 32 bits. */
static void sample_sizes_above(void)
{
    static const size_t sizes[] = {25, 26, 63, 64, 65, 66, 256 + 24, 4096, 65536 + 24,
                                   (size_t)1 << 32, ((size_t)1 << 32) + 24, (size_t)1 << 63,
                                   SIZE_MAX};
    static const size_t lengths[] = {0, 1, 1727, 1728, 1875, 3 * 64 * 64, 3 * 66 * 66};
    for (size_t at = 0; at < COUNT(sizes); at++) {
        call c = fitting();
        c.size = sizes[at];
        for (size_t l = 0; l < COUNT(lengths); l++) {
            c.out_len = lengths[l];
            sample_case("size above 24", c, FOLGUTAN_BAD_NUMBER);
        }
        c.out_len = 0;
        c.x = 100;
        sample_case("size above 24, outside", c, FOLGUTAN_BAD_NUMBER);
        c.board.pixelr = 7.75f;
        sample_case("size above 24 and pitch", c, FOLGUTAN_BAD_PITCH);
        c.bad = 0;
        c.bits = 0x3F800001;
        sample_case("size above 24 and value", c, FOLGUTAN_BAD_VALUE);
        c.planes_len--;
        sample_case("size above 24, planes short", c, FOLGUTAN_SHORT_SLICE);
        c.board.width = 3;
        sample_case("size above 24 and side", c, FOLGUTAN_BAD_SIDE);
    }
}

/* 64 by 64 with pitch 24.0: at size 24 cell (0, 0) has each pixel of its rows and columns once. */
static void sample_every_pixel(void)
{
    folgutan_board board = {.height = 64, .width = 64, .r = 1, .c = 1,
                            .pixelr = 24.0f, .pixelc = 24.0f};
    static float planes[3 * 64 * 64], out[FOLGUTAN_MOST_CELL_VALUES];
    for (size_t at = 0; at < COUNT(planes); at++)
        planes[at] = plane_value(at);
    uint32_t answer =
        folgutan_sample(board, planes, COUNT(planes), 0, 0, FOLGUTAN_MOST_SIZE, out, COUNT(out));
    check(answer == FOLGUTAN_DONE, "sample, pitch 24.0", "answer");
    int values = 1;
    for (size_t k = 0; k < 3; k++)
        for (size_t i = 0; i < 24; i++)
            for (size_t j = 0; j < 24; j++)
                values &= bits_of(out[576 * k + 24 * i + j])
                          == bits_of(planes[4096 * k + 64 * i + j]);
    check(values, "sample, pitch 24.0", "each pixel once");
}

static void sample_sides(void)
{
    static const size_t fit[][2] = {{4, 4}, {5, 4}, {4, 5}, {12, 12}, {4, 4096}, {4096, 4},
                                    {12, 4096}};
    for (size_t at = 0; at < COUNT(fit); at++) {
        call c = fitting();
        c.board = (folgutan_board){.height = fit[at][0], .width = fit[at][1],
                                   .r = 1, .c = 1, .pixelr = 8.0f, .pixelc = 8.0f};
        c.planes_len = 3 * c.board.height * c.board.width;
        c.x = c.y = 0;
        c.size = 1; /* row and column 4 */
        int inside = c.board.height > 4 && c.board.width > 4;
        sample_case("sides", c, inside ? FOLGUTAN_DONE : FOLGUTAN_OUTSIDE);
        c.size = 0;
        sample_case("sides", c, FOLGUTAN_DONE);
        c.planes_len--;
        sample_case("planes one short", c, FOLGUTAN_SHORT_SLICE);
        c.planes_len = 0;
        sample_case("no planes", c, FOLGUTAN_SHORT_SLICE);
    }
    static const size_t bad[] = {0, 1, 3, 4097, (size_t)1 << 32, (size_t)1 << 63, SIZE_MAX};
    for (size_t at = 0; at < COUNT(bad); at++)
        for (size_t turn = 0; turn < 3; turn++) {
            call c = fitting();
            if (turn != 0)
                c.board.height = bad[at];
            if (turn != 1)
                c.board.width = bad[at];
            sample_case("bad side", c, FOLGUTAN_BAD_SIDE);
            c.planes_len = 0;
            c.size = 25;
            c.board.pixelr = float_of(0x7FC00000);
            sample_case("bad side and all else", c, FOLGUTAN_BAD_SIDE);
        }
    /* long enough for the sides */
    call c = fitting();
    c.board.height = 3;
    sample_case("height 3", c, FOLGUTAN_BAD_SIDE);
    c.board.height = 4097;
    c.board.width = 4;
    c.planes_len = 3 * 4097 * 4;
    sample_case("height 4097", c, FOLGUTAN_BAD_SIDE);
}

static void sample_values(void)
{
    static const uint32_t fit[] = {0x00000000, 0x00000001, 0x3F7FFFFF, 0x3F800000};
    static const uint32_t unfit[] = {0x3F800001, 0x80000000, 0xBF800000, 0x7F800000, 0xFF800000,
                                     0x7FC00000, 0xFFC00000, 0x7FA00001};
    size_t last = 3 * 64 * 60 - 1;
    size_t places[] = {0, last / 2, last};
    for (size_t p = 0; p < COUNT(places); p++) {
        call c = fitting();
        c.bad = places[p];
        for (size_t v = 0; v < COUNT(fit); v++) {
            c.bits = fit[v];
            sample_case("fit value", c, FOLGUTAN_DONE);
        }
        for (size_t v = 0; v < COUNT(unfit); v++) {
            c = fitting();
            c.bad = places[p];
            c.bits = unfit[v];
            sample_case("unfit value", c, FOLGUTAN_BAD_VALUE);
            c.size = 0;
            sample_case("unfit value, size 0", c, FOLGUTAN_BAD_VALUE);
            /* pitch, numbers and output are looked at later, the planes' length before */
            c.size = 25;
            c.out_len = 0;
            c.board.pixelc = 0.0f;
            sample_case("unfit value and pitch", c, FOLGUTAN_BAD_VALUE);
            c.planes_len = last;
            sample_case("unfit value, planes short", c, FOLGUTAN_SHORT_SLICE);
        }
    }
}

static void sample_pitches(void)
{
    static const struct {
        uint32_t bits;
        uint32_t answer;
    } pitches[] = {
        {0x41000000, 0},  {0x41000001, 0},  {0x40FFFFFF, 10}, {0x43480000, 12}, {0x4347FFFF, 12},
        {0x43480001, 10}, {0x00000000, 10}, {0x80000000, 10}, {0xC1200000, 10}, {0x3F800000, 10},
        {0x7F7FFFFF, 10}, {0x7F800000, 10}, {0xFF800000, 10}, {0x7FC00000, 10}, {0xFFC00000, 10},
        {0x7F800001, 10},
    };
    for (size_t at = 0; at < COUNT(pitches); at++)
        for (size_t turn = 0; turn < 3; turn++) {
            call c = fitting();
            if (turn != 0)
                c.board.pixelr = float_of(pitches[at].bits);
            if (turn != 1)
                c.board.pixelc = float_of(pitches[at].bits);
            sample_case("pitch", c, pitches[at].answer);
            /* later checks with it */
            c.x = 4097;
            sample_case("pitch and number", c,
                        pitches[at].answer == 10 ? FOLGUTAN_BAD_PITCH : FOLGUTAN_BAD_NUMBER);
            c.x = 1;
            c.size = 0;
            sample_case("pitch, size 0", c,
                        pitches[at].answer == 10 ? FOLGUTAN_BAD_PITCH : FOLGUTAN_DONE);
        }
    /* 200.0 inside */
    call c = fitting();
    c.board.pixelr = 200.0f;
    c.x = 0;
    c.size = 24;
    c.out_len = 3 * 24 * 24;
    c.board.height = 204; /* the last row is 203 */
    c.planes_len = 3 * 204 * 60;
    sample_case("pitch 200.0", c, FOLGUTAN_DONE);
}

/* Each number at its limit and above it; at the limit the place is outside, or size 0 is done. */
static void sample_numbers(void)
{
    static const size_t above[] = {4097, (size_t)1 << 24, (size_t)1 << 32, (size_t)1 << 63,
                                   SIZE_MAX};
    for (size_t field = 0; field < 6; field++)
        for (size_t at = 0; at <= COUNT(above); at++) {
            size_t value = at == 0 ? 4096 : above[at - 1];
            call c = fitting();
            c.board.r = c.board.c = 4097;
            size_t *fields[] = {&c.x, &c.y, &c.board.r_1, &c.board.c_1, &c.board.r0, &c.board.c0};
            *fields[field] = value;
            sample_case("number", c, at == 0 ? FOLGUTAN_OUTSIDE : FOLGUTAN_BAD_NUMBER);
            c.out_len--;
            sample_case("number, output short", c,
                        at == 0 ? FOLGUTAN_SHORT_SLICE : FOLGUTAN_BAD_NUMBER);
            c.size = 0;
            sample_case("number, size 0", c, at == 0 ? FOLGUTAN_DONE : FOLGUTAN_BAD_NUMBER);
        }
}

/* The last point that is inside, and the first outside, in both directions. */
static void sample_outside(void)
{
    for (size_t turn = 0; turn < 2; turn++) {
        call c = fitting();
        c.board = (folgutan_board){.height = 21, .width = 21, .r = 2, .c = 2,
                                   .pixelr = 10.0f, .pixelc = 10.0f};
        c.planes_len = 3 * 21 * 21;
        c.x = c.y = 0;
        c.size = 1; /* 5, 15 and 25 */
        c.out_len = 3;
        size_t *cell = turn == 0 ? &c.x : &c.y, *offset = turn == 0 ? &c.board.r0 : &c.board.c0;
        *cell = 1;
        *offset = 5;
        sample_case("last inside", c, FOLGUTAN_DONE);
        *offset = 6;
        sample_case("first outside", c, FOLGUTAN_OUTSIDE);
        c.out_len = 2;
        sample_case("first outside, output short", c, FOLGUTAN_SHORT_SLICE);
        c.out_len = 12;
        c.size = 2; /* 12.5 and 17.5 */
        *offset = 3;
        sample_case("last inside, size 2", c, FOLGUTAN_DONE);
        *offset = 4;
        sample_case("one of two outside", c, FOLGUTAN_OUTSIDE);
    }
}

void test_sample(void)
{
    worked_case();
    sample_on_board();
    sample_sizes();
    sample_sizes_above();
    sample_every_pixel();
    sample_sides();
    sample_values();
    sample_pitches();
    sample_numbers();
    sample_outside();
}
