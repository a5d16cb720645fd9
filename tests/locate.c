/* Locating (01, Locating; 02, R-1 and ). */
#include "folgutan.h"

#include "calls.h"
#include "check.h"
#include "drawn.h"

#include <stdio.h>
#include <stdlib.h>
#include <string.h>

/* A call: the record, the factor, the lengths of the six slices, and a value put into the planes. */
typedef struct {
    folgutan_board board;
    size_t factor;
    size_t planes, edges, scores, scratch_f32, scratch_u8, scratch_u32;
    size_t bad;
    uint32_t bits;
} call;

enum { LEAST = FOLGUTAN_LEAST_FACTOR, MOST = FOLGUTAN_MOST_FACTOR };

static call fitting(size_t factor, size_t height, size_t width)
{
    size_t area = height * width, sides = height + width;
    call c = {
        /* all fields but the sides are anything */
        .board = {.height = height, .width = width, .r_1 = SIZE_MAX, .c_1 = 5, .r_2 = 3,
                  .c_2 = SIZE_MAX - 1, .r0 = 77, .c0 = SIZE_MAX, .r = 9, .c = 8,
                  .pixelr = float_of(0x7FA00001), .pixelc = -1.0f},
        .factor = factor,
        .planes = 3 * area, .edges = area, .scores = sides,
        .scratch_f32 = area, .scratch_u8 = area, .scratch_u32 = 4 * sides, .bad = NOWHERE,
    };
    return c;
}

/* What is left behind. */
typedef struct {
    folgutan_located located;
    lent_floats planes;
    uint8_t *edges;
    uint32_t *scores;
    int scratch_kept;
} left;

/* What every byte of scratch is before a call. */
enum { SCRATCH = 0x5A };

static int all_are(const void *bytes, size_t n)
{
    const unsigned char *at = bytes;
    int same = 1;
    for (size_t k = 0; k < n; k++)
        same &= at[k] == SCRATCH;
    return same;
}

static left locate(const float *values, size_t height, size_t width, call c)
{
    left out = {.planes = lend(c.planes)};
    size_t own = 3 * height * width;
    for (size_t at = 0; at < c.planes && at < own; at++)
        out.planes.at[at] = at == c.bad ? float_of(c.bits) : values[at];
    out.edges = memory(c.edges + MARGIN, 1);
    out.scores = memory(c.scores + MARGIN, sizeof(uint32_t));
    for (size_t at = 0; at < c.edges + MARGIN; at++)
        out.edges[at] = byte_canary(at);
    for (size_t at = 0; at < c.scores + MARGIN; at++)
        out.scores[at] = canary(at);
    float *scratch_f32 = memory(c.scratch_f32, sizeof *scratch_f32);
    uint8_t *scratch_u8 = memory(c.scratch_u8, 1);
    uint32_t *scratch_u32 = memory(c.scratch_u32, sizeof *scratch_u32);
    memset(scratch_f32, SCRATCH, c.scratch_f32 * sizeof *scratch_f32);
    memset(scratch_u8, SCRATCH, c.scratch_u8);
    memset(scratch_u32, SCRATCH, c.scratch_u32 * sizeof *scratch_u32);
    out.located = folgutan_locate(c.board, c.factor, out.planes.at, c.planes, out.edges, c.edges,
                                  out.scores, c.scores, scratch_f32, c.scratch_f32, scratch_u8,
                                  c.scratch_u8, scratch_u32, c.scratch_u32);
    out.scratch_kept = all_are(scratch_f32, c.scratch_f32 * sizeof *scratch_f32)
                       && all_are(scratch_u8, c.scratch_u8)
                       && all_are(scratch_u32, c.scratch_u32 * sizeof *scratch_u32);
    free(scratch_f32);
    free(scratch_u8);
    free(scratch_u32);
    return out;
}

static void drop(left l)
{
    free(l.planes.whole);
    free(l.edges);
    free(l.scores);
}

/* All further entries of edges and scores are as before. */
static int rest_kept(left l, call c, size_t edges, size_t scores)
{
    int same = 1;
    for (size_t at = edges; at < c.edges + MARGIN; at++)
        same &= l.edges[at] == byte_canary(at);
    for (size_t at = scores; at < c.scores + MARGIN; at++)
        same &= l.scores[at] == canary(at);
    return same;
}

static int zeros_but_answer(folgutan_located l)
{
    return l.quarterr == 0 && l.quarterc == 0 && l.votesr == 0 && l.votesc == 0;
}

/* The planes are as the call was handed them. */
static int planes_kept(left l, const float *values, size_t own, call c)
{
    size_t filled = c.planes < own ? c.planes : own;
    int same = kept(l.planes, filled);
    for (size_t at = 0; at < filled; at++)
        same &= bits_of(l.planes.at[at]) == (at == c.bad ? c.bits : bits_of(values[at]));
    return same;
}

/* A refusal that leaves everything as it was. */
static void refused(const char *name, const float *values, size_t height, size_t width, call c,
                    uint32_t answer)
{
    char where[160];
    snprintf(where, sizeof where, "locate, %s: sides %zu and %zu, factor %zu", name,
             c.board.height, c.board.width, c.factor);
    left l = locate(values, height, width, c);
    check(l.located.answer == answer, where, "answer");
    check(memcmp(&l.located.board, &c.board, sizeof c.board) == 0, where, "record as given");
    check(zeros_but_answer(l.located) && l.located.narrowed == 0, where, "zeros");
    check(planes_kept(l, values, 3 * height * width, c), where, "planes unchanged");
    check(rest_kept(l, c, 0, 0), where, "edges and scores unchanged");
    check(l.scratch_kept, where, "scratch unchanged");
    drop(l);
}

/* The screen that the refused calls are handed: of sides that every factor takes. */
enum { HEIGHT = 22, WIDTH = 21, AREA = HEIGHT * WIDTH };

/* Some are 3 in their low bits; four times 2^62 is 0. */
static const size_t bad_factors[] = {0, 1, 6, 7, 256 + 3, 65536 + 3, ((size_t)1 << 32) + 3,
                                     (size_t)1 << 62, SIZE_MAX};
static const size_t bad_sides[] = {0, 1, 4, 11, 4097, (size_t)1 << 32, (size_t)1 << 63, SIZE_MAX};
static const uint32_t unfit[] = {0x3F800001, 0x80000000, 0xBF800000, 0x7F800000, 0xFF800000,
                                 0x7FC00000, 0xFFC00000};
static const size_t unfit_at[] = {0, AREA, 3 * AREA - 1};

/* The least side that is taken with a factor. */
static const size_t least_side[] = {[2] = 12, [3] = 12, [4] = 16, [5] = 20};

/* The height, the width or both. */
static void set_sides(call *c, size_t turn, size_t side)
{
    if (turn != 0)
        c->board.height = side;
    if (turn != 1)
        c->board.width = side;
}

static size_t *length_of(call *c, size_t slice)
{
    size_t *lengths[] = {&c->planes,      &c->edges,      &c->scores,
                         &c->scratch_f32, &c->scratch_u8, &c->scratch_u32};
    return lengths[slice % COUNT(lengths)];
}

enum { SLICES = 6 };

/* A fault that answers whether slices are lent or not. */
static void with_and_without(const char *name, const char *without, const float *values, call c,
                             uint32_t answer)
{
    refused(name, values, HEIGHT, WIDTH, c, answer);
    c.planes = c.edges = c.scores = c.scratch_f32 = c.scratch_u8 = c.scratch_u32 = 0;
    refused(without, values, HEIGHT, WIDTH, c, answer);
}

static void bad_side(const float *values, size_t factor, size_t side)
{
    for (size_t turn = 0; turn < 3; turn++) {
        call c = fitting(factor, HEIGHT, WIDTH);
        set_sides(&c, turn, side);
        with_and_without("bad side", "bad side, no slices", values, c, FOLGUTAN_BAD_SIDE);
    }
}

/* One fault, of every kind, with a factor that is fit. */
static void single_faults(const float *values, size_t factor)
{
    for (size_t at = 0; at < COUNT(bad_sides); at++)
        bad_side(values, factor, bad_sides[at]);
    for (size_t side = FOLGUTAN_LEAST_SIDE; side < least_side[factor]; side++)
        bad_side(values, factor, side);
    for (size_t slice = 0; slice < SLICES; slice++) {
        call c = fitting(factor, HEIGHT, WIDTH);
        *length_of(&c, slice) -= 1;
        refused("a short slice", values, HEIGHT, WIDTH, c, FOLGUTAN_SHORT_SLICE);
        *length_of(&c, slice) = 0;
        refused("an empty slice", values, HEIGHT, WIDTH, c, FOLGUTAN_SHORT_SLICE);
    }
    for (size_t p = 0; p < COUNT(unfit_at); p++)
        for (size_t v = 0; v < COUNT(unfit); v++) {
            call c = fitting(factor, HEIGHT, WIDTH);
            c.bad = unfit_at[p];
            c.bits = unfit[v];
            refused("a bad value", values, HEIGHT, WIDTH, c, FOLGUTAN_BAD_VALUE);
        }
}

/* Faults, in the order in which they are looked for. */
static const uint32_t faults[] = {FOLGUTAN_BAD_FACTOR, FOLGUTAN_BAD_SIDE, FOLGUTAN_SHORT_SLICE,
                                  FOLGUTAN_BAD_VALUE};
enum { SETS = 1 << 4 };

/* The call with a set of faults, a bit each; the turn picks among faults of one kind. */
static call with_faults(size_t factor, size_t set, size_t turn)
{
    call c = fitting(factor, HEIGHT, WIDTH);
    if (set & 1)
        c.factor = bad_factors[turn % COUNT(bad_factors)];
    if (set & 2)
        set_sides(&c, turn % 3,
                  turn % 2 ? bad_sides[turn % COUNT(bad_sides)] : least_side[factor] - 1);
    if (set & 4)
        *length_of(&c, turn) -= 1;
    if (set & 8) {
        /* not the last place, which a short slice lacks */
        c.bad = unfit_at[turn % 2];
        c.bits = unfit[turn % COUNT(unfit)];
    }
    return c;
}

/* Of several faults the first answers. */
static void sets_of_faults(const float *values, size_t factor)
{
    for (size_t set = 1; set < SETS; set++)
        for (size_t turn = 0; turn < 12; turn++) {
            size_t first = 0;
            while (!(set >> first & 1))
                first++;
            refused("faults together", values, HEIGHT, WIDTH, with_faults(factor, set, turn),
                    faults[first]);
        }
}

static void refusals(void)
{
    static float values[3 * AREA];
    for (size_t at = 0; at < COUNT(values); at++)
        values[at] = (float)(at * 7919 % 256) / 255.0f;
    for (size_t at = 0; at < COUNT(bad_factors); at++)
        with_and_without("bad factor", "bad factor, no slices", values,
                         fitting(bad_factors[at], HEIGHT, WIDTH), FOLGUTAN_BAD_FACTOR);
    for (size_t factor = LEAST; factor <= MOST; factor++) {
        single_faults(values, factor);
        sets_of_faults(values, factor);
    }
}

/* The smallest screen that is loaded is taken with 2 and 3; with 4 and 5 its sides are refused. */
static void smallest_loaded(size_t factor)
{
    enum { SIDE = FOLGUTAN_LEAST_SIDE };
    static const uint8_t pixels[4 * SIDE * SIDE];
    static float planes[3 * SIDE * SIDE];
    char where[80];
    snprintf(where, sizeof where, "locate of the smallest loaded screen, factor %zu", factor);
    folgutan_loaded loaded =
        folgutan_load(SIDE, SIDE, pixels, COUNT(pixels), planes, COUNT(planes));
    call c = fitting(factor, SIDE, SIDE);
    c.board = loaded.board;
    check(loaded.answer == FOLGUTAN_DONE, where, "loads");
    if (SIDE < 4 * factor) {
        refused("loaded", planes, SIDE, SIDE, c, FOLGUTAN_BAD_SIDE);
        return;
    }
    left l = locate(planes, SIDE, SIDE, c);
    check(l.located.answer == FOLGUTAN_TOO_SMALL && l.located.narrowed == 1, where, "one narrowing");
    check(l.located.board.height == SIDE / factor && l.located.board.width == SIDE / factor, where,
          "sides");
    drop(l);
}

static int rising(const void *a, const void *b)
{
    float x = *(const float *)a, y = *(const float *)b;
    return (x > y) - (x < y);
}

/* The edge picture by the rule (01, Gradient and threshold), over the library's gradient. */
static uint8_t *edges_of(const float *values, size_t height, size_t width)
{
    size_t row = height - 2, column = width - 2, m = 0;
    float *gradient = memory(row * column, sizeof *gradient);
    float *sample = memory(row * column, sizeof *sample);
    uint8_t *edges = memory(row * column, 1);
    folgutan_gradient(height, width, values, 3 * height * width, gradient, row * column);
    for (size_t i = row / 4; i < row * 3 / 4; i++)
        for (size_t j = column / 4; j < column * 3 / 4; j++)
            sample[m++] = gradient[i * column + j];
    qsort(sample, m, sizeof *sample, rising);
    float threshold = sample[(size_t)((float)m * 0.55f)];
    threshold = threshold > 1.0f ? 1.0f : threshold < 0.01f ? 0.01f : threshold;
    for (size_t at = 0; at < row * column; at++)
        edges[at] = gradient[at] >= threshold;
    free(gradient);
    free(sample);
    return edges;
}

/* The edge slice starts with the edge picture of the planes as they are left, and is as before
 * behind it; so is the score slice behind so many scores. */
static void edges_left(const char *where, left l, call c, size_t scores)
{
    size_t h = l.located.board.height, w = l.located.board.width, points = (h - 2) * (w - 2);
    uint8_t *edges = edges_of(l.planes.at, h, w);
    check(memcmp(l.edges, edges, points) == 0, where, "edge picture of the planes left");
    check(rest_kept(l, c, points, scores), where, "entries further on");
    free(edges);
}

/* Left half black, right half white, or all black: too small after so many narrowings, with the edge
 * picture of the last one, which is 1 in the columns of the step. Its first row is here. */
static const struct halves {
    size_t factor, side, narrowings;
    uint8_t right, edges[32];
} halves[] = {
    {3, 12, 1, 255, {1, 1}},
    {2, 12, 1, 255, {0, 1, 1, 0}},
    {4, 16, 1, 255, {1, 1}},
    {5, 20, 1, 255, {1, 1}},
    {3, 12, 1, 0, {0, 0}},
    {2, 134, 2, 255, {[14] = 1, 1}},
    {3, 207, 2, 255, {[9] = 1, 1}},
    {2, 270, 3, 255, {[14] = 1, 1}},
};

static void halved(struct halves e)
{
    char where[120];
    snprintf(where, sizeof where, "locate of halves 0 and %d, side %zu, factor %zu", e.right,
             e.side, e.factor);
    size_t area = e.side * e.side, h = e.side;
    for (size_t n = 0; n < e.narrowings; n++)
        h /= e.factor;
    float *values = memory(3 * area, sizeof *values);
    for (size_t at = 0; at < 3 * area; at++)
        values[at] = at % e.side < e.side / 2 ? 0.0f : (float)e.right / 255.0f;
    call c = fitting(e.factor, e.side, e.side);
    left l = locate(values, e.side, e.side, c);
    check(l.located.answer == FOLGUTAN_TOO_SMALL && l.located.narrowed == e.narrowings
              && l.located.board.height == h && l.located.board.width == h,
          where, "too small after the narrowings");
    for (size_t row = 0; row < h - 2; row++)
        check(memcmp(l.edges + row * (h - 2), e.edges, h - 2) == 0, where, "a row of edges");
    edges_left(where, l, c, 0);
    drop(l);
    free(values);
}

/* Screens of one colour: how often they are narrowed before they are too small, and the sides that
 * are left. A side of 67 * factor is the least that is narrowed twice; the first side of each factor
 * is the least that is taken. Slices are longer than asked for by `more`. */
static const struct blank {
    size_t factor, height, width, narrowed, h, w, more;
} blanks[] = {
    {2, 12, 12, 1, 6, 6, 0},         {2, 133, 133, 1, 66, 66, 7},
    {2, 134, 134, 2, 33, 33, 0},     {2, 4096, 4096, 6, 64, 64, 3},
    {2, 12, 137, 1, 6, 68, 1},       {2, 4095, 13, 1, 2047, 6, 0},
    {3, 12, 12, 1, 4, 4, 0},         {3, 200, 200, 1, 66, 66, 7},
    {3, 201, 201, 2, 22, 22, 0},     {3, 4096, 4096, 4, 50, 50, 3},
    {3, 13, 14, 1, 4, 4, 7},         {3, 200, 203, 1, 66, 67, 100},
    {3, 12, 4096, 1, 4, 1365, 3},    {4, 16, 16, 1, 4, 4, 0},
    {4, 267, 267, 1, 66, 66, 7},     {4, 268, 268, 2, 16, 16, 0},
    {4, 4096, 4096, 3, 64, 64, 3},   {4, 16, 31, 1, 4, 7, 1},
    {4, 4096, 16, 1, 1024, 4, 0},    {5, 20, 20, 1, 4, 4, 0},
    {5, 334, 334, 1, 66, 66, 7},     {5, 335, 335, 2, 13, 13, 0},
    {5, 4096, 4096, 3, 32, 32, 3},   {5, 24, 20, 1, 4, 4, 1},
    {5, 20, 4096, 1, 4, 819, 0},
};

static void too_small(struct blank b)
{
    char where[120];
    snprintf(where, sizeof where, "locate of one colour, sides %zu and %zu, factor %zu", b.height,
             b.width, b.factor);
    size_t area = b.height * b.width, points = (b.h - 2) * (b.w - 2);
    float *values = memory(3 * area, sizeof *values);
    for (size_t at = 0; at < 3 * area; at++)
        values[at] = 0.25f;
    call c = fitting(b.factor, b.height, b.width);
    c.planes += b.more;
    c.edges += b.more;
    c.scores += b.more;
    left l = locate(values, b.height, b.width, c);
    check(l.located.answer == FOLGUTAN_TOO_SMALL, where, "answer");
    check(zeros_but_answer(l.located) && l.located.narrowed == b.narrowed, where, "narrowings");
    folgutan_board wanted = c.board;
    wanted.height = b.h;
    wanted.width = b.w;
    check(memcmp(&l.located.board, &wanted, sizeof wanted) == 0, where, "record with new sides");
    int planes = 1, edges = 1;
    for (size_t at = 0; at < 3 * area; at++)
        planes &= bits_of(l.planes.at[at]) == (at < 3 * b.h * b.w ? 0x3E800000u : 0u);
    for (size_t at = 0; at < points; at++)
        edges &= l.edges[at] == 0;
    check(planes, where, "narrowed planes, then 0.0");
    check(kept(l.planes, 3 * area), where, "plane entries further on");
    check(edges, where, "no edges");
    check(rest_kept(l, c, points, 0), where, "entries further on");
    drop(l);
    free(values);
}

/* The entry of 0 to factor * factor - 1, sorted, that a block becomes. */
static const uint8_t middle[] = {[2] = 2, [3] = 4, [4] = 8, [5] = 12};

/* Blocks of unlike bytes above and below a flat bar, which the scan does not leave. */
enum { BLOCKS = 60, FLAT = 7, HALF_BAR = 8 };

static int in_flat(size_t factor, size_t block_row)
{
    return block_row * factor + factor + HALF_BAR > BLOCKS / 2
           && block_row * factor < BLOCKS / 2 + HALF_BAR + MOST;
}

static uint8_t block_byte(size_t factor, size_t block_row)
{
    return in_flat(factor, block_row) ? FLAT : middle[factor];
}

/* The bytes 0 to n - 1, each once, in an order that goes on with the state. */
static void shuffled(uint8_t *bytes, size_t n, uint32_t *state)
{
    for (size_t at = 0; at < n; at++) {
        *state = *state * 1664525u + 1013904223u;
        size_t other = (*state >> 8) % (at + 1);
        bytes[at] = bytes[other];
        bytes[other] = (uint8_t)at;
    }
}

/* Each block holds the bytes 0 to factor * factor - 1 in an order of its own; rows and columns left
 * over are 1.0, which no block becomes. */
static float *draw_blocks(size_t factor, size_t height, size_t width)
{
    size_t all = 3 * height * width, across = BLOCKS / factor;
    float *values = memory(all, sizeof *values);
    uint32_t state = 1;
    for (size_t at = 0; at < all; at++)
        values[at] = 1.0f;
    for (size_t block = 0; block < 3 * across * across; block++) {
        size_t k = block / (across * across), i = block / across % across, j = block % across;
        uint8_t bytes[25];
        shuffled(bytes, factor * factor, &state);
        for (size_t n = 0; n < factor * factor; n++) {
            size_t row = i * factor + n / factor, column = j * factor + n % factor;
            values[(k * height + row) * width + column] =
                (float)(in_flat(factor, i) ? FLAT : bytes[n]) / 255.0f;
        }
    }
    return values;
}

/* Blocks become their middle byte; `rows` and `columns` left over fall away. */
static void narrowed_blocks(size_t factor, size_t rows, size_t columns)
{
    char where[120];
    snprintf(where, sizeof where, "locate of blocks, factor %zu, %zu rows and %zu columns over",
             factor, rows, columns);
    size_t height = BLOCKS + rows, width = BLOCKS + columns, side = BLOCKS / factor;
    size_t all = 3 * height * width;
    call c = fitting(factor, height, width);
    c.planes += 5;
    float *values = draw_blocks(factor, height, width);
    left l = locate(values, height, width, c);
    check(l.located.answer == FOLGUTAN_TOO_SMALL && l.located.narrowed == 1, where,
          "too small after one narrowing");
    check(l.located.board.height == side && l.located.board.width == side, where, "sides");
    int planes = 1;
    for (size_t at = 0; at < all; at++) {
        float byte = (float)block_byte(factor, at / side % side);
        planes &= bits_of(l.planes.at[at]) == bits_of(at < 3 * side * side ? byte / 255.0f : 0.0f);
    }
    check(planes, where, "middle bytes, then 0.0");
    check(kept(l.planes, all), where, "plane entries further on");
    edges_left(where, l, c, 0);
    drop(l);
    free(values);
}

/* Three like planes. */
static float *draw(screen s)
{
    size_t width = width_of(s), area = height_of(s) * width;
    float *values = memory(3 * area, sizeof *values);
    for (size_t at = 0; at < 3 * area; at++)
        values[at] = (float)point(s, at % area / width, at % area % width) / 255.0f;
    return values;
}

/* The planes narrowed once by the rule (02, R-1), then 0.0 up to their old length. */
static float *narrowed_once(const float *values, size_t height, size_t width, size_t factor)
{
    size_t h = height / factor, w = width / factor, n = factor * factor;
    float *out = memory(3 * height * width, sizeof *out);
    for (size_t at = 0; at < 3 * height * width; at++) {
        float block[25];
        out[at] = 0.0f;
        if (at >= 3 * h * w)
            continue;
        size_t k = at / (h * w), i = at / w % h, j = at % w;
        for (size_t p = 0; p < n; p++)
            block[p] = values[(k * height + factor * i + p / factor) * width + factor * j
                              + p % factor];
        qsort(block, n, sizeof *block, rising);
        out[at] = block[n / 2];
    }
    return out;
}

/* One score by the rule (01, Path scores): the strip's lanes lie `lane` bytes apart, and a step goes
 * on by `step` bytes from the first point, at `from`. */
static uint32_t score(const uint8_t *from, size_t lane, size_t step, size_t steps, size_t k)
{
    size_t cost[5];
    for (size_t j = 0; j < 5; j++)
        cost[j] = j < k ? k - j : j - k;
    for (size_t i = 1; i <= steps; i++) {
        size_t stay[5], next[5];
        for (size_t j = 0; j < 5; j++)
            stay[j] = cost[j] + (from[i * step + j * lane] == 0);
        for (size_t j = 0; j < 5; j++) {
            next[j] = stay[j];
            if (j > 0 && stay[j - 1] + 1 < next[j])
                next[j] = stay[j - 1] + 1;
            if (j < 4 && stay[j + 1] + 1 < next[j])
                next[j] = stay[j + 1] + 1;
        }
        memcpy(cost, next, sizeof cost);
    }
    return (uint32_t)(steps - cost[k]);
}

/* The scores of one axis, `count` of them, one for each column or row (02, R-4): the first two on the
 * strip from `from` on, the last two on the last strip. */
static void axis_scores(uint32_t *out, const uint8_t *from, size_t lane, size_t step, size_t steps,
                        size_t count)
{
    for (size_t at = 0; at < count; at++) {
        size_t strip = at < 2 ? 0 : at - 2 < count - 5 ? at - 2 : count - 5;
        out[at] = score(from + strip * lane, lane, step, steps, at - strip);
    }
}

/* The bounds after widening. */
typedef struct {
    size_t r_1, r_2, c_1, c_2;
} bounds;

/* How many scores the columns have, and the rows. */
static size_t across_of(bounds b)
{
    return b.c_2 - b.c_1 + 1;
}

static size_t down_of(bounds b)
{
    return b.r_2 - b.r_1 + 1;
}

/* Slices that are longer than asked for. */
static call longer(size_t factor, size_t height, size_t width)
{
    call c = fitting(factor, height, width);
    c.planes += 5;
    c.edges += 5;
    c.scores += 5;
    return c;
}

/* The planes as they came, or narrowed once. */
static void planes_left(const char *where, left l, const float *values, call c, int narrowed)
{
    size_t height = c.board.height, width = c.board.width, all = 3 * height * width;
    float *once = narrowed ? narrowed_once(values, height, width, c.factor) : NULL;
    check(l.located.narrowed == (narrowed ? 1u : 0u), where, "narrowings");
    check(memcmp(l.planes.at, once ? once : values, all * sizeof *values) == 0, where, "planes");
    check(kept(l.planes, all), where, "plane entries further on");
    free(once);
}

/* What locating leaves in the slices: the planes, their edge picture, both score lists between the
 * bounds, and all entries further on. */
static void left_behind(const char *where, left l, call c, const float *values, int narrowed,
                        bounds b)
{
    size_t column = l.located.board.width - 2;
    size_t across = across_of(b), down = down_of(b);
    planes_left(where, l, values, c, narrowed);
    edges_left(where, l, c, across + down);
    uint32_t *scores = memory(across + down, sizeof *scores);
    const uint8_t *corner = l.edges + b.r_1 * column + b.c_1;
    axis_scores(scores, corner, 1, column, down - 1, across);
    axis_scores(scores + across, corner, column, 1, across - 1, down);
    check(memcmp(l.scores, scores, (across + down) * sizeof *scores) == 0, where,
          "column scores, then row scores");
    free(scores);
}

static folgutan_reading read_list(const uint32_t *list, size_t len)
{
    uint32_t *scratch = memory(4 * len, sizeof *scratch);
    folgutan_reading reading = folgutan_read_line(list, len, scratch, 4 * len);
    free(scratch);
    return reading;
}

/* Boards that are found and cannot be read, with the answers of their two score lists. Of the far
 * lines one lies a third of the way, so that the scan follows it. */
static const struct unread {
    const char *where;
    screen screen;
    bounds widened;
    uint32_t answer, columns, rows;
} unread[] = {
    {"locate, columns without a gap", {{42, 55, 3, 3, 12, 4, 0}, 1}, {1, 39, 1, 51},
     FOLGUTAN_COLUMNS_NO_GAP, FOLGUTAN_NO_GAP, FOLGUTAN_DONE},
    {"locate, columns too far", {{60, 647, 4, 5, 12, 210, 1}, 1}, {1, 53, 2, 636},
     FOLGUTAN_COLUMNS_TOO_FAR, FOLGUTAN_TOO_FAR, FOLGUTAN_DONE},
    {"locate, columns too far and rows without a gap", {{42, 647, 4, 5, 5, 210, 0}, 1},
     {1, 39, 2, 636}, FOLGUTAN_COLUMNS_TOO_FAR, FOLGUTAN_TOO_FAR, FOLGUTAN_NO_GAP},
    {"locate, rows without a gap", {{55, 42, 3, 3, 4, 12, 0}, 1}, {1, 51, 1, 39},
     FOLGUTAN_ROWS_NO_GAP, FOLGUTAN_DONE, FOLGUTAN_NO_GAP},
    {"locate, rows too far", {{647, 60, 5, 4, 210, 12, 1}, 1}, {2, 636, 1, 53},
     FOLGUTAN_ROWS_TOO_FAR, FOLGUTAN_DONE, FOLGUTAN_TOO_FAR},
    {"locate, narrowed, columns without a gap", {{86, 89, 9, 7, 13, 4, 0}, 3}, {6, 75, 1, 86},
     FOLGUTAN_COLUMNS_NO_GAP, FOLGUTAN_NO_GAP, FOLGUTAN_DONE},
    {"locate, narrowed, rows without a gap", {{86, 89, 2, 7, 4, 11, 0}, 3}, {0, 82, 1, 85},
     FOLGUTAN_ROWS_NO_GAP, FOLGUTAN_DONE, FOLGUTAN_NO_GAP},
};

static void unread_board(struct unread u, size_t factor)
{
    char where[120];
    snprintf(where, sizeof where, "%s, factor %zu", u.where, factor);
    size_t height = height_of(u.screen), width = width_of(u.screen), times = u.screen.times;
    size_t across = across_of(u.widened), down = down_of(u.widened);
    call c = longer(factor, height, width);
    float *values = draw(u.screen);
    left l = locate(values, height, width, c);
    folgutan_board wanted = c.board;
    wanted.height = height / times;
    wanted.width = width / times;
    check(l.located.answer == u.answer, where, "answer");
    check(memcmp(&l.located.board, &wanted, sizeof wanted) == 0, where, "record with new sides");
    check(zeros_but_answer(l.located), where, "zeros");
    left_behind(where, l, c, values, times > 1, u.widened);
    check(read_list(l.scores, across).answer == u.columns, where, "column reading");
    check(read_list(l.scores + across, down).answer == u.rows, where, "row reading");
    drop(l);
    free(values);
}

static void reads_as(const char *where, folgutan_reading have, float pitch, size_t offset,
                     size_t count, uint32_t votes)
{
    check(have.answer == FOLGUTAN_DONE && bits_of(have.pitch) == bits_of(pitch)
              && have.offset == offset && have.count == count && have.votes == votes,
          where, "a score list reads as locating read it");
}

/* Whether the bar covers most of the points that the middle of board row x is narrowed from. */
static int barred(screen s, size_t x)
{
    size_t from = s.times * (s.board.top + x * s.board.down + s.board.down / 2);
    size_t bar = height_of(s) / 2 - BAR / 2, covered = 0;
    for (size_t row = from; row < from + s.times; row++)
        covered += s.times > 1 && row >= bar && row < bar + BAR;
    return 2 * covered > s.times;
}

/* Each cell is sampled in the middle, by the record and the planes as locating hands them back, and no
 * cell beside the board. */
static void cells_sampled(const char *where, screen s, folgutan_board b, const float *planes)
{
    size_t right = 0, beside = 0;
    for (size_t x = 0; x <= b.r; x++)
        for (size_t y = 0; y <= b.c; y++) {
            float cell[3];
            uint32_t face = bits_of((float)(barred(s, x) ? BAR_LEVEL : FACE) / 255.0f);
            uint32_t answer =
                folgutan_sample(b, planes, 3 * b.height * b.width, x, y, 1, cell, 3);
            if (x == b.r || y == b.c) {
                beside += answer == FOLGUTAN_NOT_ON_BOARD;
                continue;
            }
            right += answer == FOLGUTAN_DONE && bits_of(cell[0]) == face
                     && bits_of(cell[1]) == face && bits_of(cell[2]) == face;
        }
    check(right == b.r * b.c, where, "sampled cells");
    check(beside == b.r + b.c + 1, where, "cells beside the board");
}

/* A board that is read. */
static void read_board(const char *name, screen s, size_t factor, bounds widened)
{
    char where[120];
    snprintf(where, sizeof where, "%s, factor %zu", name, factor);
    size_t height = height_of(s), width = width_of(s);
    size_t across = across_of(widened), down = down_of(widened);
    drawn d = s.board;
    call c = longer(factor, height, width);
    float *values = draw(s);
    left l = locate(values, height, width, c);
    folgutan_located have = l.located;
    folgutan_board b = have.board;
    check(have.answer == FOLGUTAN_DONE, where, "answer");
    check(b.height == height / s.times && b.width == width / s.times, where, "sides");
    check(b.r_1 == widened.r_1 && b.c_1 == widened.c_1, where, "corner");
    check(b.r_2 == widened.r_2 && b.c_2 == widened.c_2, where, "far corner");
    check(b.r == cells(d.height, d.top, d.down) && b.c == cells(d.width, d.left, d.across), where,
          "rows and columns");
    check(bits_of(b.pixelr) == bits_of((float)have.quarterr / 4.0f), where, "pitch down");
    check(bits_of(b.pixelc) == bits_of((float)have.quarterc / 4.0f), where, "pitch across");
    /* a quarter less can get as many votes */
    check(have.quarterr + 1 >= 4 * d.down && have.quarterr <= 4 * d.down
              && have.quarterc + 1 >= 4 * d.across && have.quarterc <= 4 * d.across,
          where, "quarters");
    check(have.votesr > 0 && have.votesc > 0, where, "votes");
    left_behind(where, l, c, values, s.times > 1, widened);
    reads_as(where, read_list(l.scores, across), b.pixelc, b.c0, b.c, have.votesc);
    reads_as(where, read_list(l.scores + across, down), b.pixelr, b.r0, b.r, have.votesr);
    cells_sampled(where, s, b, l.planes.at);
    drop(l);
    free(values);
}

/* What a list reads as without the third score from its end. */
static folgutan_reading read_without(const uint32_t *list, size_t len)
{
    uint32_t *less = memory(len - 1, sizeof *less);
    for (size_t at = 0; at < len - 1; at++)
        less[at] = list[at + (at >= len - 3)];
    folgutan_reading reading = read_list(less, len - 1);
    free(less);
    return reading;
}

/* Whether the third score from the end of a list is above the one before, and none behind is larger. */
static int peaks(const uint32_t *list, size_t len)
{
    return list[len - 3] > list[len - 4] && list[len - 3] >= list[len - 2]
           && list[len - 3] >= list[len - 1];
}

/* Boards whose right frame lies at column c_2 - 2, or whose lower one lies at row r_2 - 2 (02, R-4):
 * without its score a column, or a row, is lost. */
static const struct framed {
    const char *where;
    screen screen;
    bounds widened;
    size_t columns_lost, rows_lost;
} framed[] = {
    {"locate of a board, right frame", {{50, 50, 5, 1, 13, 10, 2}, 1}, {2, 45, 0, 42}, 1, 0},
    {"locate of a board, lower frame", {{58, 67, 3, 6, 10, 14, 2}, 1}, {1, 54, 3, 63}, 0, 1},
};

static void framed_board(struct framed f, size_t factor)
{
    read_board(f.where, f.screen, factor, f.widened);
    size_t height = height_of(f.screen), width = width_of(f.screen), across = across_of(f.widened);
    float *values = draw(f.screen);
    left l = locate(values, height, width, fitting(factor, height, width));
    const uint32_t *below = l.scores + across;
    folgutan_reading columns = read_without(l.scores, across);
    folgutan_reading rows = read_without(below, down_of(f.widened));
    check(f.columns_lost ? peaks(l.scores, across) : peaks(below, down_of(f.widened)), f.where,
          "the frame's score");
    check(columns.count + f.columns_lost == l.located.board.c, f.where, "columns without the score");
    check(rows.count + f.rows_lost == l.located.board.r, f.where, "rows without the score");
    drop(l);
    free(values);
}

void test_locate(void)
{
    refusals();
    /* over all of the edge picture: the largest far corner there is */
    read_board("locate of a board, narrowed, over all of the picture",
               (screen){{70, 70, 2, 1, 13, 11, 1}, 3}, 3, (bounds){0, 67, 0, 67});
    for (size_t at = 0; at < COUNT(halves); at++)
        halved(halves[at]);
    for (size_t at = 0; at < COUNT(blanks); at++)
        too_small(blanks[at]);
    for (size_t factor = LEAST; factor <= MOST; factor++) {
        smallest_loaded(factor);
        for (size_t over = 0; over < factor * factor; over++)
            narrowed_blocks(factor, over / factor, over % factor);
        /* what needs no narrowing is the same for each factor */
        for (size_t at = 0; at < COUNT(unread); at++)
            if (unread[at].screen.times == 1 || unread[at].screen.times == factor)
                unread_board(unread[at], factor);
        for (size_t at = 0; at < COUNT(framed); at++)
            framed_board(framed[at], factor);
        read_board("locate of a board", (screen){{60, 64, 7, 5, 12, 11, 2}, 1}, factor,
                   (bounds){4, 56, 2, 60});
        /* with a margin, which the widening goes out into by 1 to 4 points */
        read_board("locate of a board, narrowed", (screen){{86, 89, 9, 7, 13, 11, 2}, factor},
                   factor, (bounds){6, 75, 1, 85});
    }
}
