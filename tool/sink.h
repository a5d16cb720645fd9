/* Standard output, through a buffer. */
#ifndef SINK_H
#define SINK_H

#include <stdbool.h>
#include <stddef.h>

enum { SINK_ROOM = 65536 };

typedef struct {
    int error; /* of the first write that failed; then nothing more is written */
    size_t used;
    char bytes[SINK_ROOM];
} sink;

void sink_bytes(sink *to, const char *bytes, size_t count);
void sink_text(sink *to, const char *text);
void sink_number(sink *to, size_t number);

/* With as many digits behind the point as are needed, at most six, whatever the locale: eighths are exact. */
void sink_decimal(sink *to, double value);

/* Writes out what is held; false where this, or a write before, failed. */
bool sink_flush(sink *to);

#endif
