/* Sampling every cell of a board: each cell is what folgutan_sample gives. */
#include "folgutan.h"

#include "calls.h"
#include "check.h"

#include <stdio.h>
#include <stdlib.h>
#include <string.h>

/* What is asked for, and a bad value in the planes. */
typedef struct {
    folgutan_board board;
    size_t planes_len, size, out_len, bad;
    uint32_t bits;
} call;

static size_t values_of(call c)
{
    return 3 * c.board.r * c.board.c * c.size * c.size;
}

/* Every cell by itself, and whether all were sampled. */
static int cells_alone(call c, const float *planes, float *out)
{
    size_t values = 3 * c.size * c.size;
    for (size_t x = 0; x < c.board.r; x++)
        for (size_t y = 0; y < c.board.c; y++)
            if (folgutan_sample(c.board, planes, c.planes_len, x, y, c.size,
                                out + (x * c.board.c + y) * values, values) != FOLGUTAN_DONE)
                return 0;
    return 1;
}

static void board_case(const char *name, call c, uint32_t answer)
{
    char where[240];
    snprintf(where, sizeof where,
             "sample_board, %s: sides %zu, %zu, %zu plane values, %zu by %zu cells, size %zu, %zu outputs",
             name, c.board.height, c.board.width, c.planes_len, c.board.r, c.board.c, c.size, c.out_len);

    float *planes = memory(c.planes_len, sizeof *planes);
    float *before = memory(c.planes_len, sizeof *before);
    for (size_t at = 0; at < c.planes_len; at++)
        planes[at] = at == c.bad ? float_of(c.bits) : (float)(at % 16384) / 16384.0f;
    memcpy(before, planes, c.planes_len * sizeof *planes);
    lent_floats out = lend(c.out_len);

    uint32_t have =
        folgutan_sample_board(c.board, planes, c.planes_len, c.size, out.at, c.out_len);

    check(have == answer, where, "answer");
    size_t written = 0;
    if (answer == FOLGUTAN_DONE) {
        written = values_of(c);
        float *alone = memory(written, sizeof *alone);
        /* at size 0 a cell has no values, and there can be sixteen million of them */
        check(c.size == 0 || cells_alone(c, planes, alone), where, "each cell is sampled");
        check(memcmp(alone, out.at, written * sizeof *alone) == 0, where, "values");
        free(alone);
    }
    check(kept(out, written), where, "entries that keep their content");
    check(memcmp(planes, before, c.planes_len * sizeof *planes) == 0, where, "planes unchanged");

    free(planes);
    free(before);
    free(out.whole);
}

/* A call that is done: a board of 4 by 3 cells with pitch 10.0 and 9.25 on a screen of 64 by 60. The
 * far corner is anything. */
static call fitting(void)
{
    call c = {
        .board = {.height = 64, .width = 60, .r_1 = 5, .c_1 = 7, .r_2 = SIZE_MAX, .c_2 = 1,
                  .r0 = 3, .c0 = 2, .r = 4, .c = 3, .pixelr = 10.0f, .pixelc = 9.25f},
        .planes_len = 3 * 64 * 60, .size = 5, .out_len = 3 * 12 * 25, .bad = NOWHERE,
    };
    return c;
}

static void sizes(void)
{
    for (size_t size = 0; size <= FOLGUTAN_MOST_SIZE; size++) {
        call c = fitting();
        c.size = size;
        c.out_len = values_of(c);
        board_case("size", c, FOLGUTAN_DONE);
        c.out_len += 7;
        board_case("longer output", c, FOLGUTAN_DONE);
        c.planes_len += 7;
        c.bad = c.planes_len - 1;
        c.bits = 0x7FC00000;
        board_case("bad value further on", c, FOLGUTAN_DONE);
        if (size == 0)
            continue;
        c = fitting();
        c.size = size;
        c.out_len = values_of(c) - 1;
        board_case("output one short", c, FOLGUTAN_SHORT_SLICE);
        c.out_len = 0;
        board_case("no output", c, FOLGUTAN_SHORT_SLICE);
    }
    static const size_t above[] = {25, 256 + 24, 65536 + 24, ((size_t)1 << 32) + 24, SIZE_MAX};
    for (size_t at = 0; at < COUNT(above); at++) {
        call c = fitting();
        c.size = above[at];
        board_case("size above 24", c, FOLGUTAN_BAD_NUMBER);
        c.out_len = 0;
        board_case("size above 24, no output", c, FOLGUTAN_BAD_NUMBER);
    }
}

/* The counts: 4,096 is the most; 0 is a board without cells, wherever its places lie. */
static void counts(void)
{
    static const size_t above[] = {4097, 65536, (size_t)1 << 32, ((size_t)1 << 32) + 3, SIZE_MAX};
    for (size_t axis = 0; axis < 2; axis++) {
        for (size_t at = 0; at < COUNT(above); at++) {
            call c = fitting();
            *(axis == 0 ? &c.board.r : &c.board.c) = above[at];
            board_case("count above 4096", c, FOLGUTAN_BAD_NUMBER);
            *(axis == 0 ? &c.board.c : &c.board.r) = 0;
            board_case("count above 4096, the other 0", c, FOLGUTAN_BAD_NUMBER);
            c.out_len = 0;
            c.size = 0;
            board_case("count above 4096, size 0", c, FOLGUTAN_BAD_NUMBER);
        }
        call c = fitting();
        *(axis == 0 ? &c.board.r : &c.board.c) = 4096;
        board_case("count 4096, output short", c, FOLGUTAN_SHORT_SLICE);
        c.size = 0;
        board_case("count 4096, size 0", c, FOLGUTAN_DONE);
        *(axis == 0 ? &c.board.c : &c.board.r) = 4096;
        board_case("both 4096, size 0", c, FOLGUTAN_DONE);
        c.size = 24;
        board_case("both 4096, size 24", c, FOLGUTAN_SHORT_SLICE);
        c = fitting();
        *(axis == 0 ? &c.board.r : &c.board.c) = 0;
        c.out_len = 0;
        board_case("no cells", c, FOLGUTAN_DONE);
        *(axis == 0 ? &c.board.c : &c.board.r) = 4096;
        board_case("no cells, 4096 of the other", c, FOLGUTAN_DONE);
        c.board.r_1 = c.board.c_1 = 4096;
        board_case("no cells, corner outside", c, FOLGUTAN_DONE);
    }
    /* the counts are not exchanged: there is room for five rows below the corner, and for two columns beside it */
    call c = fitting();
    c.board.c_1 = 37;
    c.out_len = 3 * 10 * 25;
    c.board.r = 5;
    c.board.c = 2;
    board_case("5 by 2 cells", c, FOLGUTAN_DONE);
    c.board.r = 2;
    c.board.c = 5;
    board_case("2 by 5 cells", c, FOLGUTAN_OUTSIDE);
}

/* The last row, or column, of points: just in the picture, and just outside; after the output's length. */
static void outside(void)
{
    for (size_t axis = 0; axis < 2; axis++)
        for (size_t size = 1; size <= FOLGUTAN_MOST_SIZE; size++) {
            call c = fitting();
            size_t *corner = axis == 0 ? &c.board.r_1 : &c.board.c_1;
            size_t side = axis == 0 ? c.board.height : c.board.width;
            size_t offset = axis == 0 ? c.board.r0 : c.board.c0;
            size_t last = (axis == 0 ? c.board.r : c.board.c) - 1;
            float pitch = axis == 0 ? c.board.pixelr : c.board.pixelc;
            c.size = size;
            c.out_len = values_of(c);
            *corner = 0;
            while (place_of(*corner, offset, pitch, last, size, size - 1) < side - 1)
                ++*corner;
            board_case("last place in the picture", c, FOLGUTAN_DONE);
            ++*corner;
            board_case("last place outside", c, FOLGUTAN_OUTSIDE);
            c.out_len--;
            board_case("last place outside, output short", c, FOLGUTAN_SHORT_SLICE);
            c.out_len++;
            *corner = 4096;
            board_case("all outside", c, FOLGUTAN_OUTSIDE);
        }
}

/* Each fault beside all later ones, the last first. */
static void order(void)
{
    call c = fitting();
    c.board.r_1 = 4096;
    board_case("outside", c, FOLGUTAN_OUTSIDE);
    c.out_len = 0;
    board_case("output", c, FOLGUTAN_SHORT_SLICE);
    call counted = c;
    counted.board.r = 4097;
    board_case("rows", counted, FOLGUTAN_BAD_NUMBER);
    counted = c;
    counted.board.c = 4097;
    board_case("columns", counted, FOLGUTAN_BAD_NUMBER);
    counted = c;
    counted.size = 25;
    board_case("size", counted, FOLGUTAN_BAD_NUMBER);
    c = counted;
    size_t *const numbers[] = {&c.board.r_1, &c.board.c_1, &c.board.r0, &c.board.c0};
    for (size_t at = 0; at < COUNT(numbers); at++) {
        size_t as_it_was = *numbers[at];
        *numbers[at] = 4097;
        board_case("corner or offset", c, FOLGUTAN_BAD_NUMBER);
        *numbers[at] = as_it_was;
    }
    static const uint32_t pitches[] = {0x40FFFFFF, 0x43480001, 0x7FC00000, 0x7F800000, 0xC1200000};
    for (size_t at = 0; at < 2 * COUNT(pitches); at++) {
        call p = c;
        *(at % 2 == 0 ? &p.board.pixelr : &p.board.pixelc) = float_of(pitches[at / 2]);
        board_case("pitch", p, FOLGUTAN_BAD_PITCH);
    }
    c.board.pixelr = 0.0f;
    static const uint32_t values[] = {0x3F800001, 0x80000000, 0x7FC00000, 0xBF800000};
    for (size_t at = 0; at < COUNT(values); at++) {
        c.bits = values[at];
        for (size_t end = 0; end < 2; end++) {
            c.bad = end == 0 ? 0 : c.planes_len - 1;
            board_case("value", c, FOLGUTAN_BAD_VALUE);
        }
    }
    c.planes_len--;
    board_case("planes short", c, FOLGUTAN_SHORT_SLICE);
    static const size_t bad[] = {0, 3, 4097, (size_t)1 << 32, SIZE_MAX};
    for (size_t at = 0; at < 2 * COUNT(bad); at++) {
        call s = c;
        *(at % 2 == 0 ? &s.board.height : &s.board.width) = bad[at / 2];
        board_case("side", s, FOLGUTAN_BAD_SIDE);
    }
}

void test_sample_board(void)
{
    board_case("as it is", fitting(), FOLGUTAN_DONE);
    sizes();
    counts();
    outside();
    order();
}
