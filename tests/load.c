/* Loading (01, Load). */
#include "folgutan.h"

#include "calls.h"
#include "check.h"

#include <stdio.h>
#include <stdlib.h>
#include <string.h>

static uint8_t pixel_byte(size_t at)
{
    return (uint8_t)(at * 7 + at / 251);
}

/* One call: the answer, the record, every entry of the planes and around them, and the pixels. */
static void load_case(size_t height, size_t width, size_t pixels_len, size_t planes_len,
                      uint32_t answer)
{
    char where[160];
    snprintf(where, sizeof where,
             "load of height %zu, width %zu, %zu pixel bytes, %zu plane values",
             height, width, pixels_len, planes_len);

    size_t whole = planes_len + 2 * MARGIN;
    uint8_t *pixel_memory = malloc(pixels_len + 4);
    uint32_t *patterns = malloc(whole * sizeof *patterns);
    float *planes = malloc(whole * sizeof *planes);
    if (pixel_memory == NULL || patterns == NULL || planes == NULL) {
        fprintf(stderr, "interface: no memory\n");
        exit(1);
    }
    /* bytes may start at any address */
    static unsigned turn;
    uint8_t *pixels = pixel_memory + turn++ % 4;
    for (size_t at = 0; at < pixels_len; at++)
        pixels[at] = pixel_byte(at);
    for (size_t at = 0; at < whole; at++)
        patterns[at] = canary(at);
    memcpy(planes, patterns, whole * sizeof *planes);

    folgutan_loaded loaded =
        folgutan_load(height, width, pixels, pixels_len, planes + MARGIN, planes_len);

    folgutan_board board = {0};
    size_t written = 0;
    if (answer == FOLGUTAN_DONE) {
        board.height = height;
        board.width = width;
        written = 3 * height * width;
    }
    check(loaded.answer == answer, where, "answer");
    /* by its bytes: the record has no gaps, and a fresh pitch is 0.0, not -0.0 */
    check(memcmp(&loaded.board, &board, sizeof board) == 0, where, "record");

    int values = 1;
    for (size_t at = 0; at < written; at++) {
        size_t plane = at / (height * width), pixel = at % (height * width);
        float value = (float)pixel_byte(4 * pixel + 2 - plane) / 255.0f;
        values &= bits_of(planes[MARGIN + at]) == bits_of(value);
    }
    if (answer == FOLGUTAN_DONE)
        check(values, where, "plane values");
    size_t rest = MARGIN + written;
    check(memcmp(planes, patterns, MARGIN * sizeof *planes) == 0
              && memcmp(planes + rest, patterns + rest, (whole - rest) * sizeof *planes) == 0,
          where, "entries that keep their content");

    int same = 1;
    for (size_t at = 0; at < pixels_len; at++)
        same &= pixels[at] == pixel_byte(at);
    check(same, where, "pixels unchanged");

    free(pixel_memory);
    free(patterns);
    free(planes);
}

/* Slices that fit, longer ones and short ones. */
static void load_lengths(void)
{
    static const size_t sides[][2] = {{12, 12}, {12, 13}, {13, 12}, {17, 31}, {64, 60},
                                      {12, 4096}, {4096, 12}};
    for (size_t at = 0; at < COUNT(sides); at++) {
        size_t height = sides[at][0], width = sides[at][1], area = height * width;
        load_case(height, width, 4 * area, 3 * area, FOLGUTAN_DONE);
        load_case(height, width, 4 * area + 1, 3 * area + 1, FOLGUTAN_DONE);
        load_case(height, width, 4 * area + 37, 4 * area, FOLGUTAN_DONE);
        load_case(height, width, 4 * area - 1, 3 * area, FOLGUTAN_SHORT_PIXELS);
        load_case(height, width, 4 * area, 3 * area - 1, FOLGUTAN_SHORT_SLICE);
        load_case(height, width, 4 * area - 1, 3 * area - 1, FOLGUTAN_SHORT_PIXELS);
        load_case(height, width, 0, 3 * area, FOLGUTAN_SHORT_PIXELS);
        load_case(height, width, 4 * area, 0, FOLGUTAN_SHORT_SLICE);
        load_case(height, width, 0, 0, FOLGUTAN_SHORT_PIXELS);
    }
}

/* A side outside its limits answers first, whatever the slices are. Of the last four, products with
 * the other side, 3 and 4 wrap. */
static void load_bad_sides(void)
{
    static const size_t bad[] = {0, 1, 11, 4097, 65536,
                                 (size_t)1 << 32, (size_t)1 << 62, (size_t)1 << 63, SIZE_MAX};
    static const size_t good[] = {12, 4096};
    static const size_t lengths[][2] = {{0, 0}, {0, 600}, {600, 0}, {600, 600}};
    for (size_t len = 0; len < COUNT(lengths); len++) {
        size_t pixels_len = lengths[len][0], planes_len = lengths[len][1];
        for (size_t a = 0; a < COUNT(bad); a++) {
            for (size_t b = 0; b < COUNT(bad); b++)
                load_case(bad[a], bad[b], pixels_len, planes_len, FOLGUTAN_BAD_SIDE);
            for (size_t b = 0; b < COUNT(good); b++) {
                load_case(bad[a], good[b], pixels_len, planes_len, FOLGUTAN_BAD_SIDE);
                load_case(good[b], bad[a], pixels_len, planes_len, FOLGUTAN_BAD_SIDE);
            }
        }
    }
    /* slices that are long enough */
    load_case(11, 12, 4 * 11 * 12, 3 * 11 * 12, FOLGUTAN_BAD_SIDE);
    load_case(12, 11, 4 * 12 * 11, 3 * 12 * 11, FOLGUTAN_BAD_SIDE);
    load_case(12, 4097, 4 * 12 * 4097, 3 * 12 * 4097, FOLGUTAN_BAD_SIDE);
    load_case(4097, 12, 4 * 4097 * 12, 3 * 4097 * 12, FOLGUTAN_BAD_SIDE);
}

/* Values by their patterns, worked out exactly: byte / 255 to the nearest binary32. */
static void load_values(void)
{
    static const struct {
        uint8_t byte;
        uint32_t bits;
    } known[] = {
        {0, 0x00000000},   {1, 0x3B808081},   {2, 0x3C008081},   {51, 0x3E4CCCCD},
        {127, 0x3EFEFEFF}, {128, 0x3F008081}, {254, 0x3F7EFEFF}, {255, 0x3F800000},
    };
    enum { side = 12, area = side * side };
    static uint8_t pixels[4 * area];
    static float planes[3 * area];
    for (size_t at = 0; at < COUNT(known); at++)
        for (size_t place = 0; place < 3; place++) {
            char where[80];
            snprintf(where, sizeof where, "load of byte %d at place %zu", known[at].byte, place);
            memset(pixels, 0, sizeof pixels);
            pixels[4 * (area - 1) + place] = known[at].byte;
            folgutan_loaded loaded =
                folgutan_load(side, side, pixels, sizeof pixels, planes, COUNT(planes));
            check(loaded.answer == FOLGUTAN_DONE, where, "answer");
            check(bits_of(planes[(2 - place) * area + area - 1]) == known[at].bits, where, "value");
        }
}

void test_load(void)
{
    load_lengths();
    load_bad_sides();
    load_values();
}
