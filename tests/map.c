/* The printed map (02, R-6). */
#include "folgutan.h"

#include "calls.h"
#include "check.h"
#include "drawn.h"

#include <stdio.h>
#include <stdlib.h>
#include <string.h>

/* Bytes over 255.0 that are unlike in planes, rows and columns. */
static float plane_value(size_t at)
{
    return (float)((uint32_t)at * 2654435761u >> 24) / 255.0f;
}

/* trunc(255.0 * v + 0.5), each operation rounded once. */
static size_t level_of(float v)
{
    volatile float scaled = 255.0f * v;
    volatile float raised = scaled + 0.5f;
    return (size_t)raised;
}

/* The levels of each mark, both ends included. */
static const struct {
    size_t first, last;
    char mark;
} marks[] = {{0, 42, '.'}, {43, 84, ':'}, {85, 127, 'o'}, {128, 212, 'O'}, {213, 255, '#'}};

static char mark_of(size_t level)
{
    for (size_t at = 0; at < COUNT(marks); at++)
        if (marks[at].first <= level && level <= marks[at].last)
            return marks[at].mark;
    return '!';
}

static char mark_at(folgutan_board b, const float *planes, size_t row, size_t column)
{
    if (row >= b.height || column >= b.width)
        return '?';
    return mark_of(level_of(planes[(b.height + row) * b.width + column]));
}

/* The marks of all cells, rows first. */
static char *marks_of(folgutan_board b, const float *planes)
{
    char *out = memory(b.r * b.c, 1);
    for (size_t x = 0; x < b.r; x++) {
        size_t row = place_of(b.r_1, b.r0, b.pixelr, x, 1, 0);
        for (size_t y = 0; y < b.c; y++)
            out[x * b.c + y] =
                mark_at(b, planes, row, place_of(b.c_1, b.c0, b.pixelc, y, 1, 0));
    }
    return out;
}

/* A text, which no zero has to end. */
typedef struct {
    char *at;
    size_t len;
} text;

enum { WIDE = 80, HEADING = 64 };

/* The whole text from the counts and the marks. */
static text text_of(size_t r, size_t c, const char *cell_marks)
{
    text t = {memory(HEADING + r * (WIDE + 1), 1), 0};
    t.len = (size_t)snprintf(t.at, HEADING, "rows columns\n%zu %zu\n", r, c);
    for (size_t x = 0; x < r; x++) {
        memset(t.at + t.len, ' ', WIDE);
        memcpy(t.at + t.len, cell_marks + x * c, c);
        t.at[t.len + WIDE] = '\n';
        t.len += WIDE + 1;
    }
    return t;
}

static text map_of(folgutan_board b, const float *planes)
{
    char *cell_marks = marks_of(b, planes);
    text t = text_of(b.r, b.c, cell_marks);
    free(cell_marks);
    return t;
}

/* Of a refusal. */
static const text nothing = {"", 0};

/* One call on planes: the answer, the length, the text, and all that must stay as it was. */
static void gives(const char *where, folgutan_board board, const float *planes, size_t planes_len,
                  size_t out_len, uint32_t answer, text wanted)
{
    float *before = memory(planes_len, sizeof *before);
    memcpy(before, planes, planes_len * sizeof *planes);
    lent_bytes out = lend_bytes(out_len);

    folgutan_printed have = folgutan_map(board, planes, planes_len, out.at, out_len);

    check(have.answer == answer, where, "answer");
    check(have.length == wanted.len, where, "length");
    check(wanted.len <= out_len && memcmp(out.at, wanted.at, wanted.len) == 0, where, "text");
    check(bytes_kept(out, wanted.len), where, "bytes that keep their content");
    check(memcmp(planes, before, planes_len * sizeof *planes) == 0, where, "planes unchanged");
    free(before);
    free(out.whole);
}

/* What is asked for, and a bad value in the planes. */
typedef struct {
    folgutan_board board;
    size_t planes_len, out_len;
    size_t bad;
    uint32_t bits;
} call;

static void map_case(const char *name, call c, uint32_t answer)
{
    char where[240];
    snprintf(where, sizeof where,
             "map, %s: sides %zu, %zu, %zu plane values, counts %zu, %zu, %zu outputs", name,
             c.board.height, c.board.width, c.planes_len, c.board.r, c.board.c, c.out_len);
    float *planes = memory(c.planes_len, sizeof *planes);
    for (size_t at = 0; at < c.planes_len; at++)
        planes[at] = at == c.bad ? float_of(c.bits) : plane_value(at);
    if (answer == FOLGUTAN_DONE) {
        text wanted = map_of(c.board, planes);
        gives(where, c.board, planes, c.planes_len, c.out_len, answer, wanted);
        free(wanted.at);
    } else {
        gives(where, c.board, planes, c.planes_len, c.out_len, answer, nothing);
    }
    free(planes);
}

static size_t digits(size_t n)
{
    return n < 10 ? 1 : 1 + digits(n / 10);
}

/* By the header. */
static size_t length_of(size_t r, size_t c)
{
    return 13 + digits(r) + 1 + digits(c) + 1 + 81 * r;
}

enum { HEIGHT = 70, WIDTH = 67, AREA = HEIGHT * WIDTH, ROWS = 6, COLUMNS = 5 };

/* A call that is done: a board of 6 by 5 cells, all of them in the picture, with no two numbers
 * alike for its axes. The far corner is anything. */
static call fitting(void)
{
    call c = {
        .board = {.height = HEIGHT, .width = WIDTH, .r_1 = 5, .c_1 = 2, .r_2 = SIZE_MAX, .c_2 = 1,
                  .r0 = 3, .c0 = 1, .r = ROWS, .c = COLUMNS, .pixelr = 9.25f, .pixelc = 12.5f},
        .planes_len = 3 * AREA, .out_len = length_of(ROWS, COLUMNS),
        .bad = NOWHERE,
    };
    return c;
}

/* ---- the examples of 02, R-6 */

enum { LOW = 16, LONG = 64 };

/* 16 by 64 with cells of 8 by 8, of the colours (10, g, 200). */
static folgutan_board load_example(float *planes)
{
    static const uint8_t green[] = {0, 42, 43, 84, 85, 127, 128, 212, 213, 255, 0, 0, 0, 0, 0, 0};
    uint8_t pixels[4 * LOW * LONG];
    for (size_t at = 0; at < LOW * LONG; at++) {
        pixels[4 * at] = 10;
        pixels[4 * at + 1] = green[at / LONG / 8 * 8 + at % LONG / 8];
        pixels[4 * at + 2] = 200;
        pixels[4 * at + 3] = (uint8_t)at;
    }
    folgutan_loaded loaded =
        folgutan_load(LOW, LONG, pixels, sizeof pixels, planes, 3 * LOW * LONG);
    check(loaded.answer == FOLGUTAN_DONE, "map, examples", "loads");
    /* before the pitches are set */
    gives("map, a record as loading hands it back", loaded.board, planes, 3 * LOW * LONG,
          FOLGUTAN_MOST_MAP, FOLGUTAN_BAD_PITCH, nothing);
    loaded.board.pixelr = loaded.board.pixelc = 8.0f;
    return loaded.board;
}

#define SPACES_70 "                                                                      "

static const struct {
    size_t r, c, len;
    char *text;
} examples[] = {
    {2, 8, 179, "rows columns\n2 8\n..::ooOO" SPACES_70 "  \n##......" SPACES_70 "  \n"},
    {2, 10, 180, "rows columns\n2 10\n..::ooOO??" SPACES_70 "\n##......??" SPACES_70 "\n"},
    {0, 8, 17, "rows columns\n0 8\n"},
    {2, 0, 179, "rows columns\n2 0\n" SPACES_70 "          \n" SPACES_70 "          \n"},
    {0, 0, 17, "rows columns\n0 0\n"},
    {1, 1, 98, "rows columns\n1 1\n." SPACES_70 "         \n"},
};

static void worked_examples(void)
{
    float planes[3 * LOW * LONG];
    folgutan_board board = load_example(planes);
    for (size_t at = 0; at < COUNT(examples); at++) {
        char where[80];
        board.r = examples[at].r;
        board.c = examples[at].c;
        snprintf(where, sizeof where, "map, example of %zu by %zu", board.r, board.c);
        size_t len = examples[at].len;
        text wanted = {examples[at].text, strlen(examples[at].text)};
        check(wanted.len == len && len == length_of(board.r, board.c), where, "length of the text");
        gives(where, board, planes, COUNT(planes), len, FOLGUTAN_DONE, wanted);
        gives(where, board, planes, COUNT(planes), len + 1, FOLGUTAN_DONE, wanted);
        gives(where, board, planes, COUNT(planes), FOLGUTAN_MOST_MAP, FOLGUTAN_DONE, wanted);
        gives(where, board, planes, COUNT(planes), len - 1, FOLGUTAN_SHORT_SLICE, nothing);
        gives(where, board, planes, COUNT(planes), 0, FOLGUTAN_SHORT_SLICE, nothing);
    }
}

static void worked_refusals(void)
{
    float planes[3 * LOW * LONG];
    folgutan_board fit = load_example(planes);
    size_t all = COUNT(planes);
    fit.r = 2;
    fit.c = 81;
    folgutan_board b = fit;
    b.height = 3;
    gives("map, examples, height 3", b, planes, all, 0, FOLGUTAN_BAD_SIDE, nothing);
    gives("map, examples, planes one short", fit, planes, all - 1, 0, FOLGUTAN_SHORT_SLICE,
          nothing);
    b = fit;
    b.pixelr = 0.0f;
    float last = planes[all - 1];
    planes[all - 1] = -0.0f;
    gives("map, examples, -0.0 and pitch 0.0", b, planes, all, 0, FOLGUTAN_BAD_VALUE, nothing);
    planes[all - 1] = last;
    b.r_1 = 5000;
    gives("map, examples, pitch 0.0 and r_1 5000", b, planes, all, 0, FOLGUTAN_BAD_PITCH, nothing);
    b = fit;
    b.r_1 = 4097;
    gives("map, examples, r_1 4097", b, planes, all, 0, FOLGUTAN_BAD_NUMBER, nothing);
    b = fit;
    b.r = 4097;
    gives("map, examples, r 4097", b, planes, all, 0, FOLGUTAN_TOO_WIDE, nothing);
    b.c = 80;
    gives("map, examples, r 4097, c 80", b, planes, all, 0, FOLGUTAN_BAD_NUMBER, nothing);
    b.r = SIZE_MAX;
    gives("map, examples, r 2^64 - 1, c 80", b, planes, all, 0, FOLGUTAN_BAD_NUMBER, nothing);
    b.r = 4096;
    gives("map, examples, 331796 bytes", b, planes, all, 331796, FOLGUTAN_SHORT_SLICE, nothing);
    text wanted = map_of(b, planes);
    check(wanted.len == FOLGUTAN_MOST_MAP, "map, examples, 331797 bytes", "length of the text");
    gives("map, examples, 331797 bytes", b, planes, all, 331797, FOLGUTAN_DONE, wanted);
    free(wanted.at);
}

/* ---- marks */

/* Each byte is a cell of its own: the level of a loaded byte is the byte. */
static void marks_of_bytes(void)
{
    enum { SIDE = 128, CELLS = 16 };
    static uint8_t pixels[4 * SIDE * SIDE];
    static float planes[3 * SIDE * SIDE];
    char wanted[CELLS * CELLS];
    for (size_t at = 0; at < SIDE * SIDE; at++) {
        size_t byte = at / SIDE / 8 * CELLS + at % SIDE / 8;
        pixels[4 * at] = (uint8_t)(byte + 100);
        pixels[4 * at + 1] = (uint8_t)byte;
        pixels[4 * at + 2] = (uint8_t)(255 - byte);
        wanted[byte] = mark_of(byte);
    }
    folgutan_board b =
        folgutan_load(SIDE, SIDE, pixels, sizeof pixels, planes, COUNT(planes)).board;
    b.r = b.c = CELLS;
    b.pixelr = b.pixelc = 8.0f;
    text t = text_of(b.r, b.c, wanted);
    gives("map, all bytes", b, planes, COUNT(planes), t.len, FOLGUTAN_DONE, t);
    free(t.at);
}

/* The first value of each mark, the last one before it, and the ends. In binary64 3F555555 would be
 * the last of `O`, and all others the same. */
static const struct {
    uint32_t bits;
    char mark;
} by_bits[] = {
    {0x00000000, '.'}, {0x00000001, '.'}, {0x007FFFFF, '.'}, {0x00800000, '.'}, {0x3E2AAAAA, '.'},
    {0x3E2AAAAB, ':'}, {0x3EA9A9A9, ':'}, {0x3EA9A9AA, 'o'}, {0x3EFFFFFF, 'o'}, {0x3F000000, 'O'},
    {0x3F555554, 'O'}, {0x3F555555, '#'}, {0x3F7FFFFF, '#'}, {0x3F800000, '#'},
};

/* A board of one row, with a value for each cell in plane 1 and others in the planes beside it. */
static void marks_of_values(void)
{
    enum { CELLS = COUNT(by_bits), ACROSS = 8 * CELLS, DOWN = 8 };
    float planes[3 * DOWN * ACROSS];
    char wanted[CELLS];
    folgutan_board b = {.height = DOWN, .width = ACROSS, .r = 1, .c = CELLS, .pixelr = 8.0f,
                        .pixelc = 8.0f};
    for (size_t turn = 0; turn < CELLS; turn++) {
        for (size_t at = 0; at < COUNT(planes); at++) {
            size_t k = at / (DOWN * ACROSS), cell = at % ACROSS / 8 + turn;
            /* the planes beside it have another mark there */
            planes[at] = float_of(by_bits[(cell + (k == 1 ? 0 : 5 + k)) % CELLS].bits);
        }
        for (size_t cell = 0; cell < CELLS; cell++)
            wanted[cell] = by_bits[(cell + turn) % CELLS].mark;
        text t = text_of(b.r, b.c, wanted);
        gives("map, values by their bits", b, planes, COUNT(planes), t.len, FOLGUTAN_DONE, t);
        free(t.at);
    }
}

/* Planes of one level each: the mark is that of plane 1. */
static void marks_of_planes(void)
{
    enum { SIDE = 16 };
    float planes[3 * SIDE * SIDE];
    folgutan_board b = {.height = SIDE, .width = SIDE, .r = 2, .c = 2, .pixelr = 8.0f,
                        .pixelc = 8.0f};
    for (size_t set = 0; set < COUNT(marks) * COUNT(marks) * COUNT(marks); set++) {
        size_t of_plane[] = {set % COUNT(marks), set / COUNT(marks) % COUNT(marks),
                             set / COUNT(marks) / COUNT(marks)};
        for (size_t at = 0; at < COUNT(planes); at++)
            planes[at] = (float)marks[of_plane[at / (SIDE * SIDE)]].first / 255.0f;
        char wanted[4];
        memset(wanted, marks[of_plane[1]].mark, sizeof wanted);
        text t = text_of(b.r, b.c, wanted);
        gives("map, planes of one level", b, planes, COUNT(planes), t.len, FOLGUTAN_DONE, t);
        free(t.at);
    }
}

/* ---- places */

/* Both axes by their own numbers: one of them changed, then its fellow. */
static void map_axes(void)
{
    map_case("fitting", fitting(), FOLGUTAN_DONE);
    for (size_t axis = 0; axis < 2; axis++) {
        call c = fitting();
        *(axis == 0 ? &c.board.r_1 : &c.board.c_1) += 11;
        map_case("corner", c, FOLGUTAN_DONE);
        c = fitting();
        *(axis == 0 ? &c.board.r0 : &c.board.c0) += 9;
        map_case("offset", c, FOLGUTAN_DONE);
        c = fitting();
        *(axis == 0 ? &c.board.pixelr : &c.board.pixelc) = 8.75f;
        map_case("pitch", c, FOLGUTAN_DONE);
        c = fitting();
        *(axis == 0 ? &c.board.r : &c.board.c) = 2;
        c.out_len = length_of(c.board.r, c.board.c);
        map_case("count", c, FOLGUTAN_DONE);
        c = fitting();
        *(axis == 0 ? &c.board.height : &c.board.width) = 200;
        c.planes_len = 3 * c.board.height * c.board.width;
        map_case("side", c, FOLGUTAN_DONE);
    }
}

/* Long boards, of pitches that take the places to a whole number or next to one: below 16.0 and
 * 32.0 another order of the roundings shows, and so do places worked out in binary64. */
static void map_places(void)
{
    static const uint32_t pitches[] = {0x41000000, 0x41000001, 0x411FFFFF, 0x41200000, 0x41200001,
                                       0x4104CCCD, 0x417FFFFF, 0x41800001, 0x41FFFFFF};
    for (size_t at = 0; at < COUNT(pitches); at++)
        for (size_t axis = 0; axis < 2; axis++) {
            size_t side = axis == 0 ? 4096 : 812;
            call c = fitting();
            c.board = (folgutan_board){.height = 12, .width = 12, .r_1 = 1, .c_1 = 2,
                                       .r = 1, .c = 1, .pixelr = 8.0f, .pixelc = 8.0f};
            if (axis == 0) {
                c.board.height = side;
                c.board.r = 512;
                c.board.pixelr = float_of(pitches[at]);
            } else {
                c.board.width = side;
                c.board.c = 80;
                c.board.pixelc = float_of(pitches[at]);
            }
            c.planes_len = 3 * c.board.height * c.board.width;
            c.out_len = length_of(c.board.r, c.board.c);
            map_case("long board", c, FOLGUTAN_DONE);
        }
}

/* 21 by 21 with pitches 10.0: places 5, 15 and 25, moved on by an offset. */
static void map_off_picture(void)
{
    enum { SIDE = 21 };
    static const struct {
        size_t r0, c0;
        const char *marks;
    } off[] = {
        {0, 0, "OO?OO????"}, {5, 5, "OO?OO????"}, {6, 5, "OO???????"}, {5, 6, "O??O?????"},
        {6, 6, "O????????"}, {15, 15, "O????????"}, {16, 15, "?????????"}, {15, 16, "?????????"},
        {4096, 0, "?????????"}, {0, 4096, "?????????"}, {4096, 4096, "?????????"},
    };
    float planes[3 * SIDE * SIDE];
    for (size_t at = 0; at < COUNT(planes); at++)
        planes[at] = 0.5f;
    for (size_t at = 0; at < COUNT(off); at++)
        for (size_t counts = 0; counts < 16; counts++) {
            size_t r = counts / 4, c = counts % 4;
            folgutan_board b = {.height = SIDE, .width = SIDE, .r0 = off[at].r0, .c0 = off[at].c0,
                                .r = r, .c = c, .pixelr = 10.0f, .pixelc = 10.0f};
            char wanted[9] = {0};
            for (size_t cell = 0; cell < r * c; cell++)
                wanted[cell] = off[at].marks[cell / c * 3 + cell % c];
            text t = text_of(r, c, wanted);
            gives("map, off the picture", b, planes, COUNT(planes), t.len, FOLGUTAN_DONE, t);
            free(t.at);
        }
    /* the least and the most sides: row and column 4 */
    static const size_t sides[][2] = {{4, 4}, {5, 4}, {4, 5}, {5, 5}, {4, 4096}, {4096, 4},
                                      {12, 4096}};
    for (size_t at = 0; at < COUNT(sides); at++) {
        call c = fitting();
        c.board = (folgutan_board){.height = sides[at][0], .width = sides[at][1], .r = 3, .c = 2,
                                   .pixelr = 8.0f, .pixelc = 8.0f};
        c.planes_len = 3 * c.board.height * c.board.width;
        map_case("sides", c, FOLGUTAN_DONE);
        c.planes_len--;
        map_case("sides, planes one short", c, FOLGUTAN_SHORT_SLICE);
    }
}

static void map_far_corner(void)
{
    static const size_t far[] = {0, 1, 12, 4096, 4097, (size_t)1 << 32, SIZE_MAX};
    for (size_t at = 0; at < COUNT(far) * COUNT(far); at++) {
        call c = fitting();
        c.board.r_2 = far[at % COUNT(far)];
        c.board.c_2 = far[at / COUNT(far)];
        map_case("any far corner", c, FOLGUTAN_DONE);
    }
}

/* ---- counts and outputs */

/* Counts of one to four digits, most cells off the picture, and outputs about the text's length. */
static void map_counts(void)
{
    static const size_t rows[] = {0, 1, 2, 9, 10, 99, 100, 999, 1000, 4095, 4096};
    static const size_t columns[] = {0, 1, 9, 10, 79, 80};
    for (size_t at = 0; at < COUNT(rows) * COUNT(columns); at++) {
        call c = fitting();
        c.board.r = rows[at / COUNT(columns)];
        c.board.c = columns[at % COUNT(columns)];
        size_t len = length_of(c.board.r, c.board.c);
        check(len <= FOLGUTAN_MOST_MAP, "map, counts", "the longest text");
        c.out_len = len;
        map_case("output just so long", c, FOLGUTAN_DONE);
        c.out_len = len + 1;
        map_case("output one longer", c, FOLGUTAN_DONE);
        c.out_len = FOLGUTAN_MOST_MAP + 100;
        map_case("room for every map", c, FOLGUTAN_DONE);
        c.out_len = len - 1;
        map_case("output one short", c, FOLGUTAN_SHORT_SLICE);
        c.out_len = len / 2;
        map_case("half an output", c, FOLGUTAN_SHORT_SLICE);
        c.out_len = 0;
        map_case("no output", c, FOLGUTAN_SHORT_SLICE);
    }
    /* 80 columns in the picture, so that no row has a space */
    call c = fitting();
    c.board = (folgutan_board){.height = 30, .width = 640, .r = 3, .c = 80,
                               .pixelr = 9.0f, .pixelc = 8.0f};
    c.planes_len = 3 * 30 * 640;
    c.out_len = length_of(3, 80);
    map_case("80 columns", c, FOLGUTAN_DONE);
    c.board.c = 81;
    map_case("81 columns", c, FOLGUTAN_TOO_WIDE);
    c.out_len = FOLGUTAN_MOST_MAP;
    map_case("81 columns, room for every map", c, FOLGUTAN_TOO_WIDE);
    /* an output that would do for 4,097 rows */
    c = fitting();
    c.board.r = 4097;
    c.out_len = length_of(4097, COLUMNS);
    map_case("4097 rows", c, FOLGUTAN_BAD_NUMBER);
}

/* ---- refusals */

/* Some of these are fit in their low 32 bits. */
static const size_t bad_sides[] = {0, 1, 3, 4097, ((size_t)1 << 32) + 64, (size_t)1 << 63,
                                   SIZE_MAX};
static const uint32_t bad_values[] = {0x3F800001, 0x80000000, 0xBF800000, 0x7F800000, 0xFF800000,
                                      0x7FC00000, 0xFFC00000, 0x7FA00001};
/* 7.75, 200.25, -8.0, 0.0, infinite, no number, and the neighbours of 8.0 and 200.0. */
static const uint32_t bad_pitches[] = {0x40F80000, 0x43484000, 0xC1000000, 0x00000000, 0x80000000,
                                       0x7F800000, 0xFF800000, 0x7FC00000, 0xFFC00000, 0x7F800001,
                                       0x40FFFFFF, 0x43480001};
static const size_t bad_numbers[] = {4097, 5000, (size_t)1 << 32, ((size_t)1 << 32) + 1,
                                     (size_t)1 << 63, SIZE_MAX};
static const size_t bad_columns[] = {81, 82, 100, 256 + 5, 65536 + 5, ((size_t)1 << 32) + 1,
                                     (size_t)1 << 63, SIZE_MAX};
static const size_t bad_rows[] = {4097, 65536 + 6, ((size_t)1 << 32) + 1, (size_t)1 << 63,
                                  /* 81 times this is small in 64 bits */
                                  SIZE_MAX / 81 + 1,
                                  SIZE_MAX};
static const size_t bad_places[] = {0, AREA - 1, AREA, 2 * AREA, 3 * AREA - 1};

/* The height, the width or both. */
static void set_sides(call *c, size_t turn, size_t side)
{
    if (turn % 3 != 0)
        c->board.height = side;
    if (turn % 3 != 1)
        c->board.width = side;
}

static void set_pitches(call *c, size_t turn, uint32_t bits)
{
    if (turn % 3 != 0)
        c->board.pixelr = float_of(bits);
    if (turn % 3 != 1)
        c->board.pixelc = float_of(bits);
}

static void set_number(call *c, size_t turn, size_t number)
{
    size_t *numbers[] = {&c->board.r_1, &c->board.c_1, &c->board.r0, &c->board.c0};
    *numbers[turn % COUNT(numbers)] = number;
}

/* One fault, of every kind. */
static void single_faults(void)
{
    for (size_t at = 0; at < 3 * COUNT(bad_sides); at++) {
        call c = fitting();
        set_sides(&c, at, bad_sides[at / 3]);
        map_case("bad side", c, FOLGUTAN_BAD_SIDE);
    }
    /* long enough for the sides */
    for (size_t side = 3; side <= 4097; side += 4094)
        for (size_t turn = 0; turn < 2; turn++) {
            call c = fitting();
            c.board.height = turn == 0 ? side : 4;
            c.board.width = turn == 0 ? 4 : side;
            c.planes_len = 3 * 4 * 4097;
            map_case("bad side, enough planes", c, FOLGUTAN_BAD_SIDE);
        }
    for (size_t len = 0; len < 3 * AREA; len = len == 0 ? 1 : 3 * len) {
        call c = fitting();
        c.planes_len -= len == 0 ? c.planes_len : len;
        map_case("planes short", c, FOLGUTAN_SHORT_SLICE);
    }
    for (size_t at = 0; at < COUNT(bad_places) * COUNT(bad_values); at++) {
        call c = fitting();
        c.bad = bad_places[at / COUNT(bad_values)];
        c.bits = bad_values[at % COUNT(bad_values)];
        map_case("bad value", c, FOLGUTAN_BAD_VALUE);
        c.board.r = c.board.c = 0;
        map_case("bad value, no cells", c, FOLGUTAN_BAD_VALUE);
        c = fitting();
        c.bad = c.planes_len + at;
        c.bits = bad_values[at % COUNT(bad_values)];
        c.planes_len += at + 1;
        map_case("bad value further on", c, FOLGUTAN_DONE);
    }
    for (size_t at = 0; at < 3 * COUNT(bad_pitches); at++) {
        call c = fitting();
        set_pitches(&c, at, bad_pitches[at / 3]);
        map_case("bad pitch", c, FOLGUTAN_BAD_PITCH);
        c.board.r = c.board.c = 0;
        map_case("bad pitch, no cells", c, FOLGUTAN_BAD_PITCH);
    }
    for (size_t turn = 0; turn < 3; turn++) {
        static const uint32_t fit[] = {0x41000000, 0x41000001, 0x4347FFFF, 0x43480000};
        for (size_t at = 0; at < COUNT(fit); at++) {
            call c = fitting();
            set_pitches(&c, turn, fit[at]);
            map_case("fit pitch", c, FOLGUTAN_DONE);
        }
    }
    for (size_t turn = 0; turn < 4; turn++) {
        call c = fitting();
        set_number(&c, turn, 4096);
        map_case("number 4096", c, FOLGUTAN_DONE);
        for (size_t at = 0; at < COUNT(bad_numbers); at++) {
            c = fitting();
            set_number(&c, turn, bad_numbers[at]);
            map_case("bad number", c, FOLGUTAN_BAD_NUMBER);
            c.board.r = c.board.c = 0;
            map_case("bad number, no cells", c, FOLGUTAN_BAD_NUMBER);
        }
    }
    for (size_t at = 0; at < COUNT(bad_columns); at++) {
        call c = fitting();
        c.board.c = bad_columns[at];
        map_case("too wide", c, FOLGUTAN_TOO_WIDE);
        c.board.r = 0;
        map_case("too wide, no rows", c, FOLGUTAN_TOO_WIDE);
    }
    for (size_t at = 0; at < COUNT(bad_rows); at++) {
        call c = fitting();
        c.board.r = bad_rows[at];
        map_case("too many rows", c, FOLGUTAN_BAD_NUMBER);
        c.board.c = 0;
        map_case("too many rows, no columns", c, FOLGUTAN_BAD_NUMBER);
    }
}

/* Faults, in the order in which they are looked for: sides, planes, their values, pitches, corner
 * and offsets, columns, rows, and the output. */
static const uint32_t faults[] = {
    FOLGUTAN_BAD_SIDE,   FOLGUTAN_SHORT_SLICE, FOLGUTAN_BAD_VALUE,  FOLGUTAN_BAD_PITCH,
    FOLGUTAN_BAD_NUMBER, FOLGUTAN_TOO_WIDE,    FOLGUTAN_BAD_NUMBER, FOLGUTAN_SHORT_SLICE,
};
enum { SETS = 1 << COUNT(faults), TURNS = 12 };

/* The call with a set of faults, a bit each; the turn picks among faults of one kind. */
static call with_faults(size_t set, size_t turn)
{
    call c = fitting();
    if (set & 1)
        set_sides(&c, turn, bad_sides[turn % COUNT(bad_sides)]);
    if (set & 2)
        c.planes_len -= turn % 2 ? c.planes_len : 1;
    if (set & 4) {
        /* not the last place, which short planes lack */
        c.bad = bad_places[turn % 4];
        c.bits = bad_values[turn % COUNT(bad_values)];
    }
    if (set & 8)
        set_pitches(&c, turn, bad_pitches[turn % COUNT(bad_pitches)]);
    if (set & 16)
        set_number(&c, turn, bad_numbers[turn % COUNT(bad_numbers)]);
    if (set & 32)
        c.board.c = bad_columns[turn % COUNT(bad_columns)];
    if (set & 64)
        c.board.r = bad_rows[turn % COUNT(bad_rows)];
    if (set & 128)
        c.out_len = turn % 2 ? 0 : c.out_len - 1;
    return c;
}

/* Of several faults the first answers. */
static void sets_of_faults(void)
{
    for (size_t set = 1; set < SETS; set++)
        for (size_t turn = 0; turn < TURNS; turn++) {
            size_t first = 0;
            while (!(set >> first & 1))
                first++;
            map_case("faults together", with_faults(set, turn), faults[first]);
        }
}

/* ---- after loading and locating */

/* The cells have greens at both ends of each mark. */
static uint8_t green_of(drawn d, size_t row, size_t column)
{
    size_t cell = (row - d.top) / d.down * 3 + (column - d.left) / d.across;
    size_t at = cell % (2 * COUNT(marks));
    return (uint8_t)(at % 2 ? marks[at / 2].last : marks[at / 2].first);
}

/* The planes of a drawn board, as loading makes them. */
static folgutan_board load_drawn(screen s, float *planes)
{
    size_t height = height_of(s), width = width_of(s), area = height * width;
    uint8_t *pixels = memory(4 * area, 1);
    for (size_t at = 0; at < area; at++) {
        size_t row = at / width, column = at % width;
        uint8_t byte = point(s, row, column);
        memset(pixels + 4 * at, byte, 4);
        if (byte == FACE)
            pixels[4 * at + 1] = green_of(s.board, row / s.times, column / s.times);
    }
    folgutan_loaded loaded = folgutan_load(height, width, pixels, 4 * area, planes, 3 * area);
    free(pixels);
    return loaded.board;
}

static folgutan_located locate(folgutan_board board, size_t factor, float *planes)
{
    size_t area = board.height * board.width, sides = board.height + board.width;
    uint8_t *edges = memory(2 * area, 1);
    uint32_t *scores = memory(5 * sides, sizeof *scores);
    float *scratch = memory(area, sizeof *scratch);
    folgutan_located out =
        folgutan_locate(board, factor, planes, 3 * area, edges, area, scores, sides, scratch, area,
                        edges + area, area, scores + sides, 4 * sides);
    free(edges);
    free(scores);
    free(scratch);
    return out;
}

/* The map of a board that was read has the marks of what sampling gives at size 1, by the record
 * and the planes as locating hands them back. */
static void map_of_located(screen s, size_t factor)
{
    char where[80];
    snprintf(where, sizeof where, "map of a located board, factor %zu, times %zu", factor, s.times);
    size_t len = 3 * height_of(s) * width_of(s);
    float *planes = memory(len, sizeof *planes);
    folgutan_located located = locate(load_drawn(s, planes), factor, planes);
    folgutan_board b = located.board;
    drawn d = s.board;
    check(located.answer == FOLGUTAN_DONE && located.narrowed == (s.times > 1), where, "is read");
    check(b.r == cells(d.height, d.top, d.down) && b.c == cells(d.width, d.left, d.across), where,
          "rows and columns");
    char *cell_marks = memory(b.r * b.c, 1);
    size_t met[COUNT(marks)] = {0};
    for (size_t at = 0; at < b.r * b.c; at++) {
        float cell[3];
        uint32_t answer = folgutan_sample(b, planes, len, at / b.c, at % b.c, 1, cell, 3);
        cell_marks[at] = answer == FOLGUTAN_DONE ? mark_of(level_of(cell[1])) : '?';
        for (size_t k = 0; k < COUNT(marks); k++)
            met[k] += cell_marks[at] == marks[k].mark;
    }
    for (size_t k = 0; k < COUNT(marks); k++)
        check(met[k] > 0, where, "each mark is met");
    text t = text_of(b.r, b.c, cell_marks);
    gives(where, b, planes, len, t.len, FOLGUTAN_DONE, t);
    free(t.at);
    free(cell_marks);
    free(planes);
}

void test_map(void)
{
    worked_examples();
    worked_refusals();
    marks_of_bytes();
    marks_of_values();
    marks_of_planes();
    map_axes();
    map_places();
    map_off_picture();
    map_far_corner();
    map_counts();
    single_faults();
    sets_of_faults();
    for (size_t factor = FOLGUTAN_LEAST_FACTOR; factor <= FOLGUTAN_MOST_FACTOR; factor++) {
        map_of_located((screen){{60, 64, 7, 5, 12, 11, 2}, 1}, factor);
        map_of_located((screen){{86, 89, 9, 7, 13, 11, 2}, factor}, factor);
    }
}
