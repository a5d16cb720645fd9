#include "reading.h"

#include "memory.h"

#include <stdio.h>
#include <stdlib.h>

/* What locating needs for the time of its call alone. */
typedef struct {
    float *f32;
    uint8_t *u8;
    uint32_t *u32;
} scratch;

static bool side_fits(size_t side)
{
    return side >= FOLGUTAN_LEAST_SIDE && side <= FOLGUTAN_MOST_SIDE;
}

/* Lent entries must have a value. The sides fit, so that no product here overflows. */
static bool lend(reading *out, scratch *work, size_t area, size_t sides)
{
    out->planes_len = 3 * area;
    out->planes = memory_of(out->planes_len, sizeof *out->planes);
    out->edges = memory_of(area, sizeof *out->edges);
    out->scores = memory_of(sides, sizeof *out->scores);
    work->f32 = memory_of(area, sizeof *work->f32);
    work->u8 = memory_of(area, sizeof *work->u8);
    work->u32 = memory_of(4 * sides, sizeof *work->u32);
    return out->planes && out->edges && out->scores && work->f32 && work->u8 && work->u32;
}

static void read_lent(const picture *from, reading *out, scratch *work, size_t area, size_t sides)
{
    folgutan_loaded loaded = folgutan_load(from->height, from->width, from->pixels, 4 * area, out->planes, out->planes_len);
    out->located.answer = loaded.answer;
    if (loaded.answer == FOLGUTAN_DONE)
        out->located = folgutan_locate(loaded.board, out->factor, out->planes, out->planes_len, out->edges, area, out->scores, sides,
                                       work->f32, area, work->u8, area, work->u32, 4 * sides);
}

static bool is_part(const picture *from)
{
    return from->box.width < from->whole_width || from->box.height < from->whole_height;
}

/* What makes the sides larger, if anything was asked for that made them small. */
static const char *way_to_larger(const picture *from)
{
    bool shrunk = from->shrink > 1 && from->box.width >= FOLGUTAN_LEAST_SIDE && from->box.height >= FOLGUTAN_LEAST_SIDE;
    return shrunk ? "; give a smaller --shrink" : is_part(from) ? "; give a larger --box" : "";
}

static void say_bad_side(const picture *from, reading *r)
{
    const char *what = from->shrink > 1 || is_part(from) ? "what is read has" : "the picture has";
    size_t least = from->height < from->width ? from->height : from->width;
    size_t most = from->height < from->width ? from->width : from->height;
    if (most > FOLGUTAN_MOST_SIDE)
        snprintf(r->bad_side, sizeof r->bad_side,
                 "no board: %s %zu by %zu pixels, at most %d a side are read; give its part with --box, or --shrink %zu", what,
                 from->width, from->height, FOLGUTAN_MOST_SIDE, from->shrink * ((most - 1) / FOLGUTAN_MOST_SIDE + 1));
    else if (least < FOLGUTAN_LEAST_SIDE)
        snprintf(r->bad_side, sizeof r->bad_side, "no board: %s %zu by %zu pixels, at least %d a side are needed%s", what, from->width,
                 from->height, FOLGUTAN_LEAST_SIDE, way_to_larger(from));
    else
        snprintf(r->bad_side, sizeof r->bad_side,
                 "no board: %s %zu by %zu pixels, at least %zu a side are needed with --factor %zu; give a smaller factor", what,
                 from->width, from->height, 4 * r->factor, r->factor);
}

/* Of a part that was given, a closer one is. */
static const char *refused_as(uint32_t answer, bool part)
{
    switch (answer) {
    case FOLGUTAN_DONE: return "";
    case FOLGUTAN_TOO_SMALL:
        return part ? "no board: nothing like a grid covers more than a third of the box; give a closer --box"
                    : "no board: nothing like a grid covers more than a third of the picture; give its part with --box";
    case FOLGUTAN_COLUMNS_NO_GAP:
        return part ? "no board: no two lines across are more than 5 pixels apart; give a larger window, or a closer --box"
                    : "no board: no two lines across are more than 5 pixels apart; give a larger window, or the board's part with --box";
    case FOLGUTAN_COLUMNS_TOO_FAR:
        return "no board: the lines across are 206 pixels or more apart; make them closer with --shrink 2 or more";
    case FOLGUTAN_ROWS_NO_GAP:
        return part ? "no board: no two lines down are more than 5 pixels apart; give a larger window, or a closer --box"
                    : "no board: no two lines down are more than 5 pixels apart; give a larger window, or the board's part with --box";
    case FOLGUTAN_ROWS_TOO_FAR:
        return "no board: the lines down are 206 pixels or more apart; make them closer with --shrink 2 or more";
    case FOLGUTAN_BAD_FACTOR: return "no board: the factor is not 2 to 5; give another --factor";
    default: return "no board: the library declines the picture";
    }
}

bool reading_make(const picture *from, size_t factor, reading *out)
{
    *out = (reading){.factor = factor, .scale = from->shrink, .part = is_part(from)};
    if (side_fits(from->height) && side_fits(from->width)) {
        size_t area = from->height * from->width, sides = from->height + from->width;
        scratch work = {0};
        bool lent = lend(out, &work, area, sides);
        if (lent)
            read_lent(from, out, &work, area, sides);
        free(work.f32);
        free(work.u8);
        free(work.u32);
        if (!lent) {
            reading_free(out);
            return false;
        }
    } else {
        out->located.answer = FOLGUTAN_BAD_SIDE;
    }
    for (uint32_t times = 0; times < out->located.narrowed; times++)
        out->scale *= factor;
    if (out->located.answer == FOLGUTAN_BAD_SIDE)
        say_bad_side(from, out);
    return true;
}

void reading_free(reading *r)
{
    free(r->planes);
    free(r->edges);
    free(r->scores);
    *r = (reading){0};
}

const char *reading_refusal(const reading *r)
{
    return r->located.answer == FOLGUTAN_BAD_SIDE ? r->bad_side : refused_as(r->located.answer, r->part);
}
