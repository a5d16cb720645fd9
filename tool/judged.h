/* A reading with its grid and what is to be doubted of it. */
#ifndef JUDGED_H
#define JUDGED_H

#include "doubt.h"
#include "options.h"

typedef struct {
    reading reading;
    bool board; /* the two below are set */
    grid grid;
    doubt doubt;
} judged;

/* Reads a picture with the factor of the options, or of `auto` with the first of 3, 2, 4 and 5 whose reading has a board and no doubt; if
 * there is none, with 3, or else with the first that has a board. False where there is no memory. */
bool judged_make(const picture *from, const options *o, judged *out);
void judged_free(judged *j);

#endif
