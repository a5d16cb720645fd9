#include "output.h"

#include <string.h>

const char *result_status(const result *r)
{
    if (!r->board)
        return "no board";
    return r->doubt->count > 0 ? "doubtful" : "ok";
}

static value number(const char *name, size_t n)
{
    return (value){.name = name, .kind = VALUE_NUMBER, .number = n};
}

static value board_number(const result *r, const char *name, size_t n)
{
    value v = number(name, n);
    if (!r->board)
        v.kind = VALUE_NONE;
    return v;
}

static value board_decimal(const result *r, const char *name, double d)
{
    return (value){.name = name, .kind = r->board ? VALUE_DECIMAL : VALUE_NONE, .decimal = d};
}

void values_before(const result *r, value out[VALUES_BEFORE])
{
    out[0] = number("width", r->from->whole_width);
    out[1] = number("height", r->from->whole_height);
    out[2] = number("answer", r->reading->located.answer);
}

void values_after(const result *r, value out[VALUES_AFTER])
{
    static const grid none;
    const grid *g = r->board ? r->grid : &none;
    const folgutan_located *l = &r->reading->located;
    out[0] = board_number(r, "rows", g->rows);
    out[1] = board_number(r, "columns", g->columns);
    out[2] = board_decimal(r, "top", g->top);
    out[3] = board_decimal(r, "left", g->left);
    out[4] = board_decimal(r, "pitch_down", g->pitch_down);
    out[5] = board_decimal(r, "pitch_across", g->pitch_across);
    out[6] = board_number(r, "votes_down", l->votesr);
    out[7] = board_number(r, "votes_across", l->votesc);
    out[8] = number("narrowed", l->narrowed);
    out[9] = number("factor", r->reading->factor);
    out[10] = (value){.name = "extended", .kind = VALUE_TRUTH, .number = g->extended};
}

void value_print(sink *to, const value *v, const char *none)
{
    switch (v->kind) {
    case VALUE_NONE: sink_text(to, none); break;
    case VALUE_NUMBER: sink_number(to, v->number); break;
    case VALUE_DECIMAL: sink_decimal(to, v->decimal); break;
    case VALUE_TRUTH: sink_text(to, v->number ? "true" : "false"); break;
    }
}
