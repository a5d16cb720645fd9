/* The words of the command line. */
#ifndef OPTIONS_H
#define OPTIONS_H

#include "grid.h"

typedef enum { FORMAT_TEXT, FORMAT_JSON, FORMAT_CSV, FORMAT_MAP } format;

enum {
    OPTION_MOST_PLACE = 1000000, /* of a box's numbers */
    OPTION_MOST_SHRINK = 64,
    OPTION_DEFAULT_FACTOR = 3
};

typedef struct {
    bool help, version; /* nothing else is done */
    bool quiet;
    format format;
    part part;
    expected expected;
    size_t factor;       /* 0: auto */
    size_t size;         /* points a side that are sampled in a cell */
    const char *overlay; /* NULL: none */
    char **files;        /* the pictures, in words that the command line lent */
    size_t file_count;
} options;

/* Reads the words behind the program's name, and sorts the pictures to their front. Where they are wrong, one line is said, and the
 * answer is STATUS_USAGE. */
status options_read(size_t count, char **words, options *out);

#endif
