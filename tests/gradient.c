/* The gradient (01, Gradient and threshold). */
#include "folgutan.h"

#include "calls.h"
#include "check.h"

#include <math.h>
#include <stdio.h>
#include <stdlib.h>
#include <string.h>

/* Plane values of many kinds, all of them 0.0 to 1.0. */
static float plane_value(size_t at)
{
    static const uint32_t edge[] = {0x00000000, 0x00000001, 0x007FFFFF, 0x00800000, 0x3F800000,
                                    0x3F7FFFFF, 0x3F000000, 0x3EAAAAAB};
    if (at % 11 == 3)
        return float_of(edge[at / 11 % COUNT(edge)]);
    return (float)(at * 7919 % 256) / 255.0f;
}

/* The rule itself, in its order. */
static float wanted(const float *planes, size_t height, size_t width, size_t i, size_t j)
{
    float most = 0.0f;
    for (size_t k = 0; k < 3; k++) {
        const float *a = planes + k * height * width + i * width + j;
        volatile float g = -a[0];
        g -= a[1];
        g -= a[2];
        g += a[2 * width];
        g += a[2 * width + 1];
        g += a[2 * width + 2];
        if (fabsf(g) > most)
            most = fabsf(g);
        g = -a[0];
        g -= a[width];
        g -= a[2 * width];
        g += a[2];
        g += a[width + 2];
        g += a[2 * width + 2];
        if (fabsf(g) > most)
            most = fabsf(g);
    }
    return most;
}

/* One call: the answer, every entry of the output and around it, and the planes. At `bad` they hold
 * `bits`. */
static void gradient_case(size_t height, size_t width, size_t planes_len, size_t out_len,
                          size_t bad, uint32_t bits, uint32_t answer)
{
    char where[200];
    snprintf(where, sizeof where,
             "gradient of height %zu, width %zu, %zu plane values, %zu outputs, %08x at %zu",
             height, width, planes_len, out_len, bits, bad);

    float *planes = memory(planes_len, sizeof *planes);
    float *before = memory(planes_len, sizeof *before);
    for (size_t at = 0; at < planes_len; at++)
        planes[at] = at == bad ? float_of(bits) : plane_value(at);
    memcpy(before, planes, planes_len * sizeof *planes);
    lent_floats out = lend(out_len);

    uint32_t have = folgutan_gradient(height, width, planes, planes_len, out.at, out_len);

    check(have == answer, where, "answer");
    size_t written = 0;
    if (answer == FOLGUTAN_DONE) {
        written = (height - 2) * (width - 2);
        int values = 1;
        for (size_t at = 0; at < written; at++)
            values &= bits_of(out.at[at])
                      == bits_of(wanted(planes, height, width, at / (width - 2), at % (width - 2)));
        check(values, where, "gradients");
    }
    check(kept(out, written), where, "entries that keep their content");
    check(memcmp(planes, before, planes_len * sizeof *planes) == 0, where, "planes unchanged");

    free(planes);
    free(before);
    free(out.whole);
}

static void gradient_lengths(void)
{
    static const size_t sides[][2] = {{4, 4}, {4, 5}, {5, 4}, {5, 5}, {12, 12}, {17, 31},
                                      {4, 4096}, {4096, 4}, {12, 4096}, {4096, 5}};
    for (size_t at = 0; at < COUNT(sides); at++) {
        size_t height = sides[at][0], width = sides[at][1];
        size_t planes = 3 * height * width, out = (height - 2) * (width - 2);
        gradient_case(height, width, planes, out, NOWHERE, 0, FOLGUTAN_DONE);
        gradient_case(height, width, planes + 1, out + 1, NOWHERE, 0, FOLGUTAN_DONE);
        gradient_case(height, width, planes + 37, out + 100, NOWHERE, 0, FOLGUTAN_DONE);
        gradient_case(height, width, planes - 1, out, NOWHERE, 0, FOLGUTAN_SHORT_SLICE);
        gradient_case(height, width, planes, out - 1, NOWHERE, 0, FOLGUTAN_SHORT_SLICE);
        gradient_case(height, width, planes - 1, out - 1, NOWHERE, 0, FOLGUTAN_SHORT_SLICE);
        gradient_case(height, width, 0, out, NOWHERE, 0, FOLGUTAN_SHORT_SLICE);
        gradient_case(height, width, planes, 0, NOWHERE, 0, FOLGUTAN_SHORT_SLICE);
        gradient_case(height, width, 0, 0, NOWHERE, 0, FOLGUTAN_SHORT_SLICE);
    }
}

static void gradient_bad_sides(void)
{
    static const size_t bad[] = {0, 1, 2, 3, 4097, (size_t)1 << 32, (size_t)1 << 63, SIZE_MAX};
    static const size_t good[] = {4, 4096};
    static const size_t lengths[][2] = {{0, 0}, {0, 600}, {600, 0}, {600, 600}};
    for (size_t len = 0; len < COUNT(lengths); len++)
        for (size_t a = 0; a < COUNT(bad); a++) {
            size_t planes = lengths[len][0], out = lengths[len][1];
            for (size_t b = 0; b < COUNT(bad); b++)
                gradient_case(bad[a], bad[b], planes, out, 5, 0xFFC00000, FOLGUTAN_BAD_SIDE);
            for (size_t b = 0; b < COUNT(good); b++) {
                gradient_case(bad[a], good[b], planes, out, 5, 0xFFC00000, FOLGUTAN_BAD_SIDE);
                gradient_case(good[b], bad[a], planes, out, NOWHERE, 0, FOLGUTAN_BAD_SIDE);
            }
        }
    /* slices that are long enough */
    gradient_case(3, 12, 3 * 3 * 12, 10, NOWHERE, 0, FOLGUTAN_BAD_SIDE);
    gradient_case(12, 3, 3 * 3 * 12, 10, NOWHERE, 0, FOLGUTAN_BAD_SIDE);
    gradient_case(4, 4097, 3 * 4 * 4097, 2 * 4095, NOWHERE, 0, FOLGUTAN_BAD_SIDE);
    gradient_case(4097, 4, 3 * 4 * 4097, 2 * 4095, NOWHERE, 0, FOLGUTAN_BAD_SIDE);
}

/* Values at the limits, at the first and the last place, in the middle and past the end. */
static void gradient_values(void)
{
    static const uint32_t fit[] = {0x00000000, 0x00000001, 0x007FFFFF, 0x3F7FFFFF, 0x3F800000};
    static const uint32_t unfit[] = {0x3F800001, 0x80000000, 0x80000001, 0xBF800000, 0x40000000,
                                     0x7F7FFFFF, 0x7F800000, 0xFF800000, 0x7FC00000, 0xFFC00000,
                                     0x7F800001, 0x7FA00001, 0xFFFFFFFF};
    static const size_t sides[][2] = {{4, 4}, {5, 4}, {12, 13}, {4, 4096}};
    for (size_t s = 0; s < COUNT(sides); s++) {
        size_t height = sides[s][0], width = sides[s][1];
        size_t planes = 3 * height * width, out = (height - 2) * (width - 2);
        size_t places[] = {0, 1, height * width - 1, height * width, planes / 2, planes - 1};
        for (size_t p = 0; p < COUNT(places); p++) {
            for (size_t v = 0; v < COUNT(fit); v++)
                gradient_case(height, width, planes, out, places[p], fit[v], FOLGUTAN_DONE);
            for (size_t v = 0; v < COUNT(unfit); v++) {
                gradient_case(height, width, planes, out, places[p], unfit[v], FOLGUTAN_BAD_VALUE);
                /* too short as well: that is found first */
                gradient_case(height, width, planes, out - 1, places[p], unfit[v],
                              FOLGUTAN_SHORT_SLICE);
            }
        }
        for (size_t v = 0; v < COUNT(unfit); v++)
            gradient_case(height, width, planes + 1, out, planes, unfit[v], FOLGUTAN_DONE);
    }
}

void test_gradient(void)
{
    gradient_lengths();
    gradient_bad_sides();
    gradient_values();
}
