#include "profile.h"

#include <math.h>
#include <stdlib.h>
#include <string.h>

/* At how many places of a line is looked, at most: the cost, and the steps of a share. Sums of rises fit in 16 bits. */
enum { MOST_LOOKS = 96 };

/* Looks into the middle of cells, which tell what of a picture is noise. Noise of most levels is no longer told from lines. */
enum { NOISE_LOOKS = 512, LEAST_STEEP = 3, MOST_STEEP = 24 };

/* A line is looked for within this part of a pitch: where it is further off, so is the cell. In small cells the edge of a line itself is
 * so wide. */
#define NEAR_PART 0.125
enum { LEAST_NEAR = 2 };

static direction direction_of(direction d, double corner, double pitch, const picture *from, const reading *r)
{
    /* place i of the scores is an edge between the pixels i and i + 2 of the planes */
    double shrink = (double)from->shrink, scale = (double)r->scale / shrink;
    d.begin = corner / shrink + 1.5 * scale - 0.5;
    d.pitch = pitch / shrink;
    d.near = fmax(fmax(LEAST_NEAR, scale + 1), floor(d.pitch * NEAR_PART));
    return d;
}

direction direction_down(const picture *from, const reading *r, const grid *g)
{
    direction d = {.name = "down", .before = "top", .behind = "bottom", .count = g->rows, .side = from->height, .step = 4 * from->width};
    return direction_of(d, g->top - (double)from->box.top, g->pitch_down, from, r);
}

direction direction_across(const picture *from, const reading *r, const grid *g)
{
    direction d = {.name = "across", .before = "left", .behind = "right", .count = g->columns, .side = from->width, .step = 4};
    return direction_of(d, g->left - (double)from->box.left, g->pitch_across, from, r);
}

double line_at(const direction *d, double k)
{
    return d->begin + k * d->pitch;
}

/* By how many levels the two neighbours of a pixel differ. */
static unsigned rise_at(const uint8_t *pixel, size_t step)
{
    int most = 0;
    for (size_t k = 0; k < 3; k++) {
        int rise = abs((int)*(pixel + step + k) - (int)*(pixel + k - step));
        most = rise > most ? rise : most;
    }
    return (unsigned)most;
}

/* Look s into the inner part of a cell, spread over the cells by a step that is no factor of usual counts. */
static double inside(const direction *d, size_t s, size_t step, size_t parts)
{
    return floor(line_at(d, (double)(s * step % d->count) + 0.3 + 0.4 * (double)(s % parts) / (double)(parts - 1)));
}

unsigned steep_of(const picture *from, const direction *down, const direction *across)
{
    size_t counts[256] = {0}, looks = 0, upto = 0;
    for (size_t s = 0; s < NOISE_LOOKS && down->count > 0 && across->count > 0; s++) {
        double row = inside(down, s, 7, 5), column = inside(across, s, 11, 7);
        if (row < 1 || column < 1 || row + 1 >= (double)down->side || column + 1 >= (double)across->side)
            continue;
        const uint8_t *pixel = from->pixels + (size_t)row * down->step + (size_t)column * across->step;
        counts[rise_at(pixel, s % 2 ? down->step : across->step)]++;
        looks++;
    }
    unsigned median = 0;
    while (median < MOST_STEEP && (upto += counts[median]) * 2 < looks)
        median++;
    return 2 * median + LEAST_STEEP < MOST_STEEP ? 2 * median + LEAST_STEEP : MOST_STEEP;
}

/* Where look s of all lies: in the inner parts of cells, so that no line of that direction is met. */
static double look_at(const direction *d, size_t s, size_t looks)
{
    size_t each = looks / d->count;
    if (each <= 1)
        return line_at(d, floor((double)s * (double)d->count / (double)looks) + 0.5);
    return line_at(d, (double)(s / each) + 0.2 + 0.6 * ((double)(s % each) + 0.5) / (double)each);
}

/* The looks that lie in the picture, in bytes from its first pixel. */
static size_t looks_of(const direction *d, size_t *offsets)
{
    size_t looks = d->count == 0 ? 0 : d->count > MOST_LOOKS ? MOST_LOOKS : MOST_LOOKS / d->count * d->count, there = 0;
    for (size_t s = 0; s < looks; s++) {
        double at = floor(look_at(d, s, looks) + 0.5);
        if (at >= 0 && at < (double)d->side)
            offsets[there++] = (size_t)at * d->step;
    }
    return there;
}

/* Rises are worked out for a block of pixels at once. */
enum { BLOCK = 16 };

/* Of the pixels whose neighbours are these. The loops have a fixed length: compilers make a few wide operations of each. */
static void block_rises(const uint8_t *before, const uint8_t *behind, uint8_t *rises)
{
    uint8_t apart[4 * BLOCK];
    for (size_t b = 0; b < 4 * BLOCK; b++)
        apart[b] = before[b] > behind[b] ? (uint8_t)(before[b] - behind[b]) : (uint8_t)(behind[b] - before[b]);
    for (size_t i = 0; i < BLOCK; i++) {
        uint8_t most = apart[4 * i] > apart[4 * i + 1] ? apart[4 * i] : apart[4 * i + 1];
        rises[i] = most > apart[4 * i + 2] ? most : apart[4 * i + 2];
    }
}

/* One look at all columns: along a row of pixels. */
static void add_row(const uint8_t *row, unsigned steep, profile *out)
{
    uint8_t rises[BLOCK];
    for (size_t i = 1; i + 1 < out->side; i += BLOCK) {
        size_t length = out->side - 1 - i < BLOCK ? out->side - 1 - i : BLOCK;
        if (length == BLOCK)
            block_rises(row + 4 * (i - 1), row + 4 * (i + 1), rises);
        for (size_t j = 0; j < length; j++) {
            unsigned rise = length == BLOCK ? rises[j] : rise_at(row + 4 * (i + j), 4);
            out->share[i + j] = (uint8_t)(out->share[i + j] + (rise >= steep));
            out->rise[i + j] = (uint16_t)(out->rise[i + j] + rise);
        }
    }
}

/* All looks at row i, which is cheaper than one column after another: columns are far apart in memory. */
static void add_looks(const uint8_t *row, size_t step, const size_t *offsets, size_t looks, unsigned steep, size_t i, profile *out)
{
    uint8_t before[4 * BLOCK] = {0}, behind[4 * BLOCK] = {0}, rises[BLOCK];
    unsigned edges = 0, sum = 0;
    for (size_t s = 0; s < looks; s += BLOCK) {
        size_t length = looks - s < BLOCK ? looks - s : BLOCK;
        for (size_t j = 0; j < length; j++) {
            memcpy(before + 4 * j, row + offsets[s + j] - step, 4);
            memcpy(behind + 4 * j, row + offsets[s + j] + step, 4);
        }
        block_rises(before, behind, rises);
        for (size_t j = 0; j < length; j++) {
            edges += rises[j] >= steep;
            sum += rises[j];
        }
    }
    out->share[i] = (uint8_t)edges;
    out->rise[i] = (uint16_t)sum;
}

void profile_of(const picture *from, const direction *along, const direction *beside, unsigned steep, profile *out)
{
    size_t offsets[MOST_LOOKS], looks = looks_of(beside, offsets);
    *out = (profile){.side = along->side};
    for (size_t s = 0; along->step == 4 && s < looks; s++)
        add_row(from->pixels + offsets[s], steep, out);
    for (size_t i = 1; along->step != 4 && i + 1 < along->side; i++)
        add_looks(from->pixels + i * along->step, along->step, offsets, looks, steep, i, out);
    for (size_t i = 0; i < along->side && looks > 0; i++) {
        out->share[i] = (uint8_t)(100u * out->share[i] / looks);
        out->rise[i] = (uint16_t)(4u * out->rise[i] / looks);
    }
}

unsigned share_near(const profile *p, double first, double last)
{
    unsigned most = 0;
    for (double at = fmax(floor(first + 0.5), 0); at <= last && at < (double)p->side; at++)
        most = p->share[(size_t)at] > most ? p->share[(size_t)at] : most;
    return most;
}

unsigned rise_near(const profile *p, double first, double last)
{
    unsigned most = 0;
    for (double at = fmax(floor(first + 0.5), 0); at <= last && at < (double)p->side; at++)
        most = p->rise[(size_t)at] > most ? p->rise[(size_t)at] : most;
    return most;
}

/* Of a line that goes on, so much is an edge, in percent, and no gap is longer, in pixels: another thing beside the board ends with one. */
enum { WHOLE = 90, MOST_GAP = 2 };

static bool goes_on(const uint8_t *first, const direction *along, const direction *beside, unsigned steep, double begin, double end)
{
    unsigned seen = 0, looks = 0, gap = 0;
    for (double at = fmax(floor(begin + 0.5), 0); at <= end && at < (double)beside->side; at++, looks++) {
        bool edge = rise_at(first + (size_t)at * beside->step, along->step) >= steep;
        seen += edge;
        gap = edge ? 0 : gap + 1;
        if (gap > MOST_GAP)
            return false;
    }
    return looks > 0 && 100 * seen >= WHOLE * looks;
}

double line_through(const picture *from, const direction *along, const direction *beside, unsigned steep, double at, double reach,
                    double begin, double end)
{
    double found = -1;
    for (double place = fmax(floor(at - reach + 0.5), 1); place <= at + reach && place + 1 < (double)along->side; place++)
        if ((found < 0 || fabs(place - at) < fabs(found - at)) &&
            goes_on(from->pixels + (size_t)place * along->step, along, beside, steep, begin, end))
            found = place;
    return found;
}
