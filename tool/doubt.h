/* Whether a reading is to be doubted, and why, in words. A heuristic: no part of what is proved. */
#ifndef DOUBT_H
#define DOUBT_H

#include "grid.h"

enum { DOUBT_MOST = 8, DOUBT_LONGEST = 200 };

typedef struct {
    size_t count; /* 0: the reading is ok */
    char reasons[DOUBT_MOST][DOUBT_LONGEST];
} doubt;

/* Of a reading with the answer 0. */
void doubt_of(const picture *from, const reading *r, const grid *g, const expected *size, bool has_box, doubt *out);

/* Says what is to be warned of besides: a box with less than 6 pixels of margin around the board. NULL or a text. */
const char *doubt_box_warning(const picture *from, const reading *r, const grid *g, bool has_box);

#endif
