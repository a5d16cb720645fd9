/* What the library reads in a picture. */
#ifndef READING_H
#define READING_H

#include "folgutan.h"
#include "picture.h"

enum { READING_LONGEST = 200 };

typedef struct {
    size_t factor;
    folgutan_located located; /* as the library hands it back, in pixels of the planes as they are left. Where loading declines, its answer
                               * alone */
    size_t scale;             /* the side of a pixel of these planes, in pixels of the picture as it came in: shrink * factor^narrowed */
    float *planes;            /* as locating leaves them */
    size_t planes_len;        /* as they were lent */
    uint8_t *edges;           /* the edge picture that was scored */
    uint32_t *scores;         /* the column scores, then the row scores */
    bool part;                /* a box was read that is not all of the picture */
    char bad_side[READING_LONGEST]; /* why the sides are declined, where they are */
} reading;

/* Reads a picture; false where there is no memory for it. A reading without a board is a reading, too. */
bool reading_make(const picture *from, size_t factor, reading *out);
void reading_free(reading *r);

/* Why there is no board, in words, and what to do. */
const char *reading_refusal(const reading *r);

#endif
