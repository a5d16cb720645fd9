/* What the parts of the test of readings, grids and doubts share. */
#ifndef TEST_READING_H
#define TEST_READING_H

#include "doubt.h"

/* Counts a check; one that fails is named. */
void check(bool holds, const char *what);

void test_doubt(void);

#endif
