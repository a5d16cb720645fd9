/* Line reading (01, Lines and votes). */
#include "folgutan.h"

#include "calls.h"
#include "check.h"

#include <stdio.h>
#include <stdlib.h>
#include <string.h>

/* One call: the reading, the list, and the entries around the scratch. */
static void line_case(const char *name, const uint32_t *list, size_t len, size_t scratch_len,
                      folgutan_reading wanted)
{
    char where[160];
    snprintf(where, sizeof where, "read_line of %s, length %zu, scratch %zu", name, len,
             scratch_len);

    uint32_t *lent = memory(len, sizeof *lent);
    uint32_t *whole = memory(scratch_len + 2 * MARGIN, sizeof *whole);
    memcpy(lent, list, len * sizeof *lent);
    for (size_t at = 0; at < scratch_len + 2 * MARGIN; at++)
        whole[at] = canary(at);

    folgutan_reading have = folgutan_read_line(lent, len, whole + MARGIN, scratch_len);

    check(have.answer == wanted.answer, where, "answer");
    check(bits_of(have.pitch) == bits_of(wanted.pitch), where, "pitch");
    check(have.offset == wanted.offset, where, "offset");
    check(have.count == wanted.count, where, "count");
    check(have.votes == wanted.votes, where, "votes");
    check(memcmp(lent, list, len * sizeof *lent) == 0, where, "list unchanged");
    int around = 1;
    for (size_t at = 0; at < MARGIN; at++) {
        size_t after = MARGIN + scratch_len + at;
        around &= whole[at] == canary(at) && whole[after] == canary(after);
    }
    check(around, where, "entries around the scratch");

    free(lent);
    free(whole);
}

static folgutan_reading refusal(uint32_t answer)
{
    folgutan_reading reading = {answer, 0.0f, 0, 0, 0};
    return reading;
}

static folgutan_reading found(float pitch, size_t offset, size_t count, size_t votes)
{
    folgutan_reading reading = {FOLGUTAN_DONE, pitch, offset, count, votes};
    return reading;
}

/* Zeros, with tens at the places given, which are below `len`; SIZE_MAX is none. */
static uint32_t *tens(size_t len, size_t a, size_t b, size_t c)
{
    uint32_t *list = memory(len, sizeof *list);
    for (size_t at = 0; at < len; at++)
        list[at] = at == a || at == b || at == c ? 10 : 0;
    return list;
}

static void worked_case(const char *name, size_t len, size_t a, size_t b, size_t c,
                        folgutan_reading wanted)
{
    uint32_t *list = tens(len, a, b, c);
    line_case(name, list, len, 4 * len, wanted);
    line_case(name, list, len, 4 * len + 50, wanted);
    line_case(name, list, len, 4 * len - 1, refusal(FOLGUTAN_SHORT_SLICE));
    line_case(name, list, len, 0, refusal(FOLGUTAN_SHORT_SLICE));
    free(list);
}

/* 01, Ruler cases. */
static void worked_cases(void)
{
    worked_case("tens at 3, 13, 23", 30, 3, 13, 23, found(10.0f, 3, 2, 3));
    worked_case("tens at 3, 12", 30, 3, 12, SIZE_MAX, found(9.0f, 3, 1, 2));
    worked_case("tens at 3, 11", 30, 3, 11, SIZE_MAX, refusal(FOLGUTAN_NO_GAP));
    worked_case("zeros", 30, SIZE_MAX, SIZE_MAX, SIZE_MAX, refusal(FOLGUTAN_NO_GAP));
    worked_case("tens at 3, 208", 300, 3, 208, SIZE_MAX, found(200.0f, 3, 1, 1));
    worked_case("tens at 3, 209", 300, 3, 209, SIZE_MAX, refusal(FOLGUTAN_TOO_FAR));
}

static void line_lengths(void)
{
    enum { most = 4098 };
    static uint32_t list[most];
    static const struct {
        size_t len;
        uint32_t answer;
    } plain[] = {{0, 1}, {1, 1}, {3, 1}, {4, 6}, {5, 6}, {8, 6}, {9, 6},
                 {4095, 6}, {4096, 6}, {4097, 1}, {4098, 1}};
    for (size_t at = 0; at < COUNT(plain); at++) {
        size_t len = plain[at].len;
        memset(list, 0, sizeof list);
        line_case("zeros", list, len, 4 * len, refusal(plain[at].answer));
        line_case("zeros", list, len, 4 * len + 9, refusal(plain[at].answer));
        /* the length is found first, then the scratch, then an entry */
        uint32_t fault = plain[at].answer == 1 ? FOLGUTAN_BAD_SIDE : FOLGUTAN_SHORT_SLICE;
        uint32_t entry = plain[at].answer == 1 ? FOLGUTAN_BAD_SIDE : FOLGUTAN_BAD_NUMBER;
        line_case("zeros", list, len, 0, refusal(fault));
        if (len == 0)
            continue;
        line_case("zeros", list, len, 4 * len - 1, refusal(fault));
        static const size_t places[] = {0, 1, 2};
        for (size_t p = 0; p < COUNT(places); p++) {
            size_t place = places[p] * (len - 1) / 2;
            list[place] = 4097;
            line_case("4097", list, len, 4 * len, refusal(entry));
            line_case("4097", list, len, 4 * len - 1, refusal(fault));
            list[place] = UINT32_MAX;
            line_case("the largest entry", list, len, 4 * len, refusal(entry));
            list[place] = 4096;
            line_case("4096", list, len, 4 * len, refusal(plain[at].answer));
            list[place] = 0;
        }
    }
    /* past the list's end nothing is looked at */
    list[9] = 4097;
    line_case("zeros, then 4097", list, 9, 36, refusal(FOLGUTAN_NO_GAP));
}

static void line_small(void)
{
    static const uint32_t nine[] = {9, 0, 0, 0, 0, 0, 0, 0, 10};
    line_case("nine entries", nine, 9, 36, found(8.0f, 0, 1, 2));
    static const uint32_t most[] = {4095, 0, 0, 0, 0, 0, 0, 0, 4096};
    line_case("nine entries up to 4096", most, 9, 36, found(8.0f, 0, 1, 2));
    /* smoothing makes a third line in the middle */
    static const uint32_t even[] = {4096, 0, 0, 0, 0, 0, 0, 0, 4096};
    line_case("nine entries, both ends 4096", even, 9, 36, refusal(FOLGUTAN_NO_GAP));

    /* lines at every 16th place of the longest list */
    enum { len = 4096, pitch = 16 };
    static uint32_t comb[len];
    for (size_t at = 7; at < len; at += pitch)
        comb[at] = 4096;
    line_case("a comb", comb, len, 4 * len, found(16.0f, 7, (4087 - 7 + 2) / 16, 256));
}

void test_read_line(void)
{
    worked_cases();
    line_lengths();
    line_small();
}
