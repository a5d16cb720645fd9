#include "judged.h"

static bool make(const picture *from, const options *o, size_t factor, judged *out)
{
    if (!reading_make(from, factor, &out->reading))
        return false;
    out->board = out->reading.located.answer == FOLGUTAN_DONE;
    if (out->board) {
        grid_of(from, &out->reading, &o->expected, o->part.has_box, &out->grid);
        doubt_of(from, &out->reading, &out->grid, &o->expected, o->part.has_box, &out->doubt);
    }
    return true;
}

static bool sure(const judged *j)
{
    return j->board && j->doubt.count == 0;
}

/* The first factor's reading is in `out`. */
static bool make_other(const picture *from, const options *o, judged *out)
{
    static const size_t others[] = {2, 4, 5};
    judged next;
    for (size_t i = 0; i < sizeof others / sizeof others[0]; i++) {
        if (!make(from, o, others[i], &next)) {
            judged_free(out);
            return false;
        }
        if (sure(&next) || (next.board && !out->board)) {
            judged_free(out);
            *out = next;
            if (sure(out))
                return true;
        } else {
            judged_free(&next);
        }
    }
    return true;
}

bool judged_make(const picture *from, const options *o, judged *out)
{
    if (!make(from, o, o->factor != 0 ? o->factor : OPTION_DEFAULT_FACTOR, out))
        return false;
    /* what is not narrowed reads the same with every factor */
    if (o->factor != 0 || sure(out) || out->reading.located.narrowed == 0)
        return true;
    return make_other(from, o, out);
}

void judged_free(judged *j)
{
    reading_free(&j->reading);
}
