/* The header and the library as a C user sees them: layouts, and every answer of each call with
 * what it leaves behind. */
#include "folgutan.h"

#include "calls.h"
#include "check.h"

#include <stdio.h>
#include <stdlib.h>
#include <string.h>

_Static_assert(sizeof(size_t) == 8, "the library is for x86-64");
_Static_assert(sizeof(float) == 4, "binary32");

_Static_assert(offsetof(folgutan_board, height) == 0, "height");
_Static_assert(offsetof(folgutan_board, width) == 8, "width");
_Static_assert(offsetof(folgutan_board, r_1) == 16, "r_1");
_Static_assert(offsetof(folgutan_board, c_1) == 24, "c_1");
_Static_assert(offsetof(folgutan_board, r_2) == 32, "r_2");
_Static_assert(offsetof(folgutan_board, c_2) == 40, "c_2");
_Static_assert(offsetof(folgutan_board, r0) == 48, "r0");
_Static_assert(offsetof(folgutan_board, c0) == 56, "c0");
_Static_assert(offsetof(folgutan_board, r) == 64, "r");
_Static_assert(offsetof(folgutan_board, c) == 72, "c");
_Static_assert(offsetof(folgutan_board, pixelr) == 80, "pixelr");
_Static_assert(offsetof(folgutan_board, pixelc) == 84, "pixelc");
_Static_assert(sizeof(folgutan_board) == 88, "folgutan_board");

_Static_assert(offsetof(folgutan_loaded, board) == 0, "board");
_Static_assert(offsetof(folgutan_loaded, answer) == 88, "answer");
_Static_assert(sizeof(folgutan_loaded) == 96, "folgutan_loaded");

_Static_assert(offsetof(folgutan_located, board) == 0, "board");
_Static_assert(offsetof(folgutan_located, answer) == 88, "answer");
_Static_assert(offsetof(folgutan_located, quarterr) == 92, "quarterr");
_Static_assert(offsetof(folgutan_located, quarterc) == 96, "quarterc");
_Static_assert(offsetof(folgutan_located, votesr) == 100, "votesr");
_Static_assert(offsetof(folgutan_located, votesc) == 104, "votesc");
_Static_assert(offsetof(folgutan_located, narrowed) == 108, "narrowed");
_Static_assert(sizeof(folgutan_located) == 112, "folgutan_located");

_Static_assert(offsetof(folgutan_reading, answer) == 0, "answer");
_Static_assert(offsetof(folgutan_reading, pitch) == 4, "pitch");
_Static_assert(offsetof(folgutan_reading, offset) == 8, "offset");
_Static_assert(offsetof(folgutan_reading, count) == 16, "count");
_Static_assert(offsetof(folgutan_reading, votes) == 24, "votes");
_Static_assert(sizeof(folgutan_reading) == 32, "folgutan_reading");

_Static_assert(offsetof(folgutan_printed, answer) == 0, "answer");
_Static_assert(offsetof(folgutan_printed, length) == 8, "length");
_Static_assert(sizeof(folgutan_printed) == 16, "folgutan_printed");

_Static_assert(FOLGUTAN_LEAST_SIDE == 12 && FOLGUTAN_MOST_SIDE == 4096, "limits");
_Static_assert(FOLGUTAN_DONE == 0 && FOLGUTAN_BAD_SIDE == 1, "answers");
_Static_assert(FOLGUTAN_SHORT_PIXELS == 2 && FOLGUTAN_SHORT_SLICE == 3, "answers");
_Static_assert(FOLGUTAN_BAD_VALUE == 4 && FOLGUTAN_TOO_SMALL == 5, "answers");
_Static_assert(FOLGUTAN_COLUMNS_NO_GAP == 6 && FOLGUTAN_COLUMNS_TOO_FAR == 7, "answers");
_Static_assert(FOLGUTAN_ROWS_NO_GAP == 8 && FOLGUTAN_ROWS_TOO_FAR == 9, "answers");
_Static_assert(FOLGUTAN_NO_GAP == 6 && FOLGUTAN_TOO_FAR == 7, "answers");
_Static_assert(FOLGUTAN_BAD_PITCH == 10 && FOLGUTAN_BAD_NUMBER == 11, "answers");
_Static_assert(FOLGUTAN_OUTSIDE == 12 && FOLGUTAN_BAD_FACTOR == 13, "answers");
_Static_assert(FOLGUTAN_NOT_ON_BOARD == 14 && FOLGUTAN_TOO_WIDE == 15, "answers");
_Static_assert(FOLGUTAN_LEAST_PLANE_SIDE == 4, "limits");
_Static_assert(FOLGUTAN_MOST_SIZE == 24 && FOLGUTAN_MOST_CELL_VALUES == 1728, "limits");
_Static_assert(FOLGUTAN_LEAST_FACTOR == 2 && FOLGUTAN_MOST_FACTOR == 5, "limits");
_Static_assert(FOLGUTAN_LEAST_LIST == 4 && FOLGUTAN_MOST_LIST == 4096, "limits");
_Static_assert(FOLGUTAN_MOST_SCORE == 4096 && FOLGUTAN_MOST_NUMBER == 4096, "limits");
_Static_assert(FOLGUTAN_MOST_MAP_COLUMNS == 80 && FOLGUTAN_MOST_MAP_ROWS == 4096, "limits");
_Static_assert(FOLGUTAN_MOST_MAP == 331797, "limits");

static unsigned long checks, failures;

void check(int holds, const char *where, const char *what)
{
    checks++;
    if (holds)
        return;
    failures++;
    fprintf(stderr, "interface: FAILED: %s: %s\n", where, what);
}

uint32_t bits_of(float x)
{
    uint32_t bits;
    memcpy(&bits, &x, sizeof bits);
    return bits;
}

uint32_t canary(size_t at)
{
    static const uint32_t patterns[] = {0xDEADBEEF, 0x7FA00001, 0xFFC12345, 0x80000000, 0x00000001};
    return patterns[at % 5];
}

float float_of(uint32_t bits)
{
    float x;
    memcpy(&x, &bits, sizeof x);
    return x;
}

void *memory(size_t n, size_t bytes)
{
    void *place = malloc((n + 1) * bytes);
    if (place == NULL) {
        fprintf(stderr, "interface: no memory\n");
        exit(1);
    }
    return place;
}

lent_floats lend(size_t len)
{
    lent_floats lent = {memory(len + 2 * MARGIN, sizeof(float)), NULL, len};
    lent.at = lent.whole + MARGIN;
    for (size_t at = 0; at < len + 2 * MARGIN; at++) {
        uint32_t bits = canary(at);
        memcpy(lent.whole + at, &bits, sizeof bits);
    }
    return lent;
}

int kept(lent_floats lent, size_t written)
{
    int same = 1;
    for (size_t at = 0; at < lent.len + 2 * MARGIN; at++)
        if (at < MARGIN || at >= MARGIN + written)
            same &= bits_of(lent.whole[at]) == canary(at);
    return same;
}

uint8_t byte_canary(size_t at)
{
    return (uint8_t)(canary(at) >> 8 | 0x80);
}

lent_bytes lend_bytes(size_t len)
{
    lent_bytes lent = {memory(len + 2 * MARGIN, 1), NULL, len};
    lent.at = lent.whole + MARGIN;
    for (size_t at = 0; at < len + 2 * MARGIN; at++)
        lent.whole[at] = byte_canary(at);
    return lent;
}

int bytes_kept(lent_bytes lent, size_t written)
{
    int same = 1;
    for (size_t at = 0; at < lent.len + 2 * MARGIN; at++)
        if (at < MARGIN || at >= MARGIN + written)
            same &= lent.whole[at] == byte_canary(at);
    return same;
}

size_t place_of(size_t corner, size_t offset, float pitch, size_t cell, size_t size, size_t i)
{
    volatile float start = (float)corner + (float)offset;
    volatile float whole = pitch * (float)cell;
    volatile float half = pitch / 2.0f;
    half = half / (float)size;
    volatile float part = half * ((float)i * 2.0f + 1.0f);
    start = start + whole;
    start = start + part;
    return (size_t)start;
}

/* The parts, each with the answers that its call can give: all of them are met in it, and no other. */
static const struct {
    size_t call;
    void (*run)(void);
    const char *answers;
} parts[] = {
    {LOAD, test_load, "0 1 2 3"},
    {GRADIENT, test_gradient, "0 1 3 4"},
    {LOCATE, test_locate, "0 1 3 4 5 6 7 8 9 13"},
    {READ_LINE, test_read_line, "0 1 3 6 7 11"},
    {SAMPLE, test_sample, "0 1 3 4 10 11 12 14"},
    {SAMPLE_BOARD, test_sample_board, "0 1 3 4 10 11 12"},
    {MAP, test_map, "0 1 3 4 10 11 15"},
};

/* The answers that a call gave, in the form of the lists above. */
static void answers_met(const measures *m, char *text, size_t room)
{
    size_t at = 0;
    text[0] = '\0';
    for (size_t answer = 0; answer < ANSWERS && at < room; answer++)
        if (m->answers[answer] > 0)
            at += (size_t)snprintf(text + at, room - at, at == 0 ? "%zu" : " %zu", answer);
}

int main(void)
{
    for (size_t at = 0; at < COUNT(parts); at++) {
        const measures *m = &measured[parts[at].call];
        clear_answers();
        parts[at].run();
        char met[80], what[200];
        answers_met(m, met, sizeof met);
        snprintf(what, sizeof what, "answers to meet %s, met %s", parts[at].answers, met);
        check(strcmp(met, parts[at].answers) == 0, m->name, what);
        printf("interface: %s met the answers %s\n", m->name, met);
    }
    for (size_t call = 0; call < CALLS; call++)
        printf("interface: %s took at most %zu of %d bytes of stack\n", measured[call].name,
               measured[call].most_stack, FOLGUTAN_MOST_STACK);
    printf("interface: %lu checks\n", checks);
    if (failures > 0)
        fprintf(stderr, "interface: %lu failed\n", failures);
    return failures > 0;
}
