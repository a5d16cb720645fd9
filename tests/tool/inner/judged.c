/* Which factor `auto` takes, of readings that are made up: one answer, one doubt and one number of narrowings for each factor. */
#include "judged.h"

#include <stdio.h>
#include <stdlib.h>
#include <string.h>

/* What the reading of a factor is like. */
typedef enum { SURE, DOUBTED, NONE, NO_MEMORY } kind;

typedef struct {
    const char *name;
    kind kinds[6]; /* by factor: 2 to 5 */
    uint32_t narrowed; /* by the first factor */
    size_t asked;      /* 0: auto */
    bool done;
    size_t factor;     /* that is to be taken */
    const char *order; /* of the factors that are read */
} row;

static const row *current;
static char order[16];
static int held; /* readings that are not freed */

bool reading_make(const picture *from, size_t factor, reading *out)
{
    (void)from;
    size_t length = strlen(order);
    order[length] = (char)('0' + factor);
    order[length + 1] = '\0';
    memset(out, 0, sizeof *out);
    if (current->kinds[factor] == NO_MEMORY)
        return false;
    held++;
    out->factor = factor;
    out->planes = malloc(sizeof *out->planes);
    out->located.answer = current->kinds[factor] == NONE ? FOLGUTAN_TOO_SMALL : FOLGUTAN_DONE;
    out->located.narrowed = current->narrowed;
    return true;
}

void reading_free(reading *r)
{
    held--;
    free(r->planes);
    r->planes = NULL;
}

void grid_of(const picture *from, const reading *r, const expected *size, bool has_box, grid *out)
{
    (void)from, (void)size, (void)has_box;
    *out = (grid){.rows = r->factor};
}

void doubt_of(const picture *from, const reading *r, const grid *g, const expected *size, bool has_box, doubt *out)
{
    (void)from, (void)size, (void)has_box;
    out->count = current->kinds[r->factor] == DOUBTED && g->rows == r->factor;
}

static const row rows[] = {
    {"3 is sure", {0, 0, SURE, SURE, SURE, SURE}, 1, 0, true, 3, "3"},
    {"2 before 4", {0, 0, SURE, DOUBTED, SURE, SURE}, 1, 0, true, 2, "32"},
    {"4 before 5", {0, 0, DOUBTED, DOUBTED, SURE, SURE}, 1, 0, true, 4, "324"},
    {"5 is the last", {0, 0, NONE, NONE, DOUBTED, SURE}, 2, 0, true, 5, "3245"},
    {"all are doubted: 3", {0, 0, DOUBTED, DOUBTED, DOUBTED, DOUBTED}, 1, 0, true, 3, "3245"},
    {"3 has a board, and no other", {0, 0, NONE, DOUBTED, NONE, NONE}, 1, 0, true, 3, "3245"},
    {"3 has none: the first that has", {0, 0, NONE, NONE, DOUBTED, DOUBTED}, 1, 0, true, 4, "3245"},
    {"2 is before 4, doubted both", {0, 0, DOUBTED, NONE, DOUBTED, NONE}, 1, 0, true, 2, "3245"},
    {"a sure one behind a doubted one", {0, 0, DOUBTED, NONE, NONE, SURE}, 1, 0, true, 5, "3245"},
    {"no board: 3", {0, 0, NONE, NONE, NONE, NONE}, 3, 0, true, 3, "3245"},
    {"not narrowed: no other is read", {0, 0, SURE, DOUBTED, SURE, SURE}, 0, 0, true, 3, "3"},
    {"not narrowed, and no board", {0, 0, SURE, NONE, SURE, SURE}, 0, 0, true, 3, "3"},
    {"4 is asked for", {0, 0, SURE, SURE, DOUBTED, SURE}, 1, 4, true, 4, "4"},
    {"2 is asked for", {0, 0, NONE, SURE, SURE, SURE}, 1, 2, true, 2, "2"},
    {"no memory for 3", {0, 0, SURE, NO_MEMORY, SURE, SURE}, 1, 0, false, 0, "3"},
    {"no memory for 4", {0, 0, DOUBTED, DOUBTED, NO_MEMORY, SURE}, 1, 0, false, 0, "324"},
    {"no memory for 5, with none before", {0, 0, NONE, NONE, NONE, NO_MEMORY}, 1, 0, false, 0, "3245"},
};

static bool as_expected(const row *r)
{
    picture from = {0};
    options o = {.factor = r->asked};
    judged j;
    current = r;
    order[0] = '\0';
    held = 0;
    bool done = judged_make(&from, &o, &j);
    bool good = done == r->done && strcmp(order, r->order) == 0 && held == (done ? 1 : 0);
    if (done) {
        kind taken = r->kinds[j.reading.factor];
        good = good && j.reading.factor == r->factor && j.board == (taken != NONE);
        good = good && (!j.board || (j.grid.rows == r->factor && j.doubt.count == (taken == DOUBTED)));
        judged_free(&j);
    }
    return good && held == 0;
}

int main(void)
{
    int failed = 0;
    size_t count = sizeof rows / sizeof rows[0];
    for (size_t i = 0; i < count; i++)
        if (!as_expected(&rows[i])) {
            failed++;
            printf("FAILED auto: %s\n", rows[i].name);
        }
    printf("judged: %zu checks, %d failed\n", count, failed);
    return failed > 0;
}
