/* What is printed of a picture. */
#ifndef OUTPUT_H
#define OUTPUT_H

#include "doubt.h"
#include "options.h"
#include "sink.h"

typedef struct {
    const char *file;
    const picture *from;
    const reading *reading;
    bool board; /* without one the three below hold nothing */
    const grid *grid;
    const doubt *doubt;
    const cell *cells; /* NULL where the grid has none */
} result;

typedef struct {
    sink *sink;
    bool several; /* more than one picture is asked for */
    bool begun;   /* one of them was printed: the next is set off from it */
} output;

/* Each writes a result in its format. The answer is STATUS_OK, or STATUS_FILE where it cannot be told in this format: then one line is
 * said. Whether the sink takes it is not looked at. */
status text_write(output *to, const result *r);
status json_write(output *to, const result *r);
status csv_write(output *to, const result *r);
status map_write(output *to, const result *r);

/* The header line, with pictures or without. */
void csv_begin(output *to);

/* "ok", "doubtful" or "no board". */
const char *result_status(const result *r);

/* The values that the text and the JSON have of a result, in their order. */
typedef struct {
    const char *name;
    enum { VALUE_NONE, VALUE_NUMBER, VALUE_DECIMAL, VALUE_TRUTH } kind;
    size_t number; /* of a truth: 0 or 1 */
    double decimal;
} value;

enum { VALUES_BEFORE = 3, VALUES_AFTER = 11 };

/* width, height and answer; then, behind status and reasons, rows to extended. */
void values_before(const result *r, value out[VALUES_BEFORE]);
void values_after(const result *r, value out[VALUES_AFTER]);

/* Prints a value: of VALUE_NONE the word that stands for it. */
void value_print(sink *to, const value *v, const char *none);

typedef enum { MAP_DONE, MAP_TOO_WIDE, MAP_FAILED } map_outcome;

/* Prints the map of a result with a board. Of MAP_FAILED, which is an error, a line is said. */
map_outcome map_print(sink *to, const result *r);

#endif
