#include "sight.h"

#include <math.h>
#include <stdlib.h>
#include <string.h>

static int rising(const void *one, const void *other)
{
    unsigned x = *(const unsigned *)one, y = *(const unsigned *)other;
    return (x > y) - (x < y);
}

/* The entry that has so many of four parts of the others below it. */
static unsigned quarter_of(const unsigned *list, size_t length, size_t quarters)
{
    unsigned sorted[MOST_LINES];
    memcpy(sorted, list, length * sizeof *list);
    qsort(sorted, length, sizeof *sorted, rising);
    return sorted[length * quarters / 4];
}

static void sight_of(const picture *from, direction along, direction beside, unsigned steep, sight *out)
{
    out->along = along;
    out->beside = beside;
    out->steep = steep;
    profile_of(from, &along, &beside, steep, &out->seen);
    out->lines = along.count < MOST_LINES ? along.count + 1 : MOST_LINES;
    for (size_t k = 0; k < out->lines; k++) {
        double at = line_at(&along, (double)k);
        out->shares[k] = share_near(&out->seen, at - along.near, at + along.near);
        out->rises[k] = rise_near(&out->seen, at - along.near, at + along.near);
    }
    out->typical = quarter_of(out->shares, out->lines, 3);
    out->typical_rise = quarter_of(out->rises, out->lines, 2);
}

void sights_of(const picture *from, const reading *r, const grid *g, sight *down, sight *across)
{
    direction d = direction_down(from, r, g), a = direction_across(from, r, g);
    unsigned steep = steep_of(from, &d, &a);
    sight_of(from, d, a, steep, down);
    sight_of(from, a, d, steep, across);
}

/* How far a line is looked for: less than to the middle of a cell. */
#define REACH_PART 0.45

/* The line is where nearly as much is an edge, and nearly as steep, as of the best: the place nearest to where the grid puts it, and those
 * beside it, since both sides of a line are edges. */
double sight_stray(const sight *s, size_t k, bool *seen)
{
    const profile *p = &s->seen;
    double at = line_at(&s->along, (double)k), reach = fmax(3, REACH_PART * s->along.pitch);
    unsigned share = share_near(p, at - reach, at + reach), rise = rise_near(p, at - reach, at + reach);
    double nearest = -1, sum = 0, count = 0;
    *seen = rise > 0 && 2 * rise >= s->typical_rise;
    for (double i = fmax(floor(at - reach + 0.5), 0); i <= at + reach && i < (double)p->side; i++)
        if (4 * p->rise[(size_t)i] >= 3 * rise && 5 * p->share[(size_t)i] >= 4 * share &&
            (nearest < 0 || fabs(i - at) < fabs(nearest - at)))
            nearest = i;
    for (double i = fmax(nearest - 2, 0); nearest >= 0 && i <= nearest + 2 && i < (double)p->side; i++)
        if (4 * p->rise[(size_t)i] >= 3 * rise) {
            sum += i - at;
            count++;
        }
    return count > 0 ? sum / count : 0;
}
