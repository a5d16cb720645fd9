/* The bytes of a picture file or of standard input, up to a limit. */
#ifndef INPUT_H
#define INPUT_H

#include "status.h"

#include <stdbool.h>
#include <stddef.h>
#include <stdint.h>
#include <stdio.h>

/* The bytes that tell what kind of file it is. */
enum { INPUT_FIRST = 8 };

/* Why fewer bytes came than were asked for. */
typedef enum {
    INPUT_MORE = 0, /* all came so far */
    INPUT_ENDED,
    INPUT_LIMIT,    /* it is longer than may be read */
    INPUT_FAILED
} input_end;

typedef struct input {
    const char *name; /* for messages */
    FILE *file;
    uint8_t first[INPUT_FIRST]; /* read ahead; input_read hands them out first */
    size_t first_len;
    size_t taken, most; /* bytes that were handed out; never more than `most` are */
    input_end end;
    int error; /* the errno of INPUT_FAILED */
} input;

/* Opens FILE, or standard input for "-". Where it cannot, or there is nothing in it, it says why and answers STATUS_FILE. */
status input_open(input *in, const char *file);
void input_close(input *in);

/* The same of an open file, which stays the caller's. */
status input_of(input *in, FILE *file, const char *name);

/* Hands out the next bytes: fewer than asked for only where `end` then says why. */
size_t input_read(input *in, uint8_t *to, size_t length);

#endif
