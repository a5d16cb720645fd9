#include "message.h"
#include "output.h"

#include <stdlib.h>
#include <string.h>

enum { LINE = FOLGUTAN_MOST_MAP_COLUMNS };

/* As the library marks the levels of the green plane. */
static char mark(const cell *c)
{
    if (!c->there)
        return '?';
    return c->green < 43 ? '.' : c->green < 85 ? ':' : c->green < 128 ? 'o' : c->green < 213 ? 'O' : '#';
}

/* The map of a grid that begins off the picture, which the library cannot be handed: as the library prints it. */
static void print_rows(sink *to, const grid *g, const cell *cells)
{
    char line[LINE + 1];
    sink_text(to, "rows columns\n");
    sink_number(to, g->rows);
    sink_text(to, " ");
    sink_number(to, g->columns);
    sink_text(to, "\n");
    memset(line, ' ', LINE);
    line[LINE] = '\n';
    for (size_t x = 0; x < g->rows; x++) {
        for (size_t y = 0; y < g->columns; y++)
            line[y] = mark(&cells[x * g->columns + y]);
        sink_bytes(to, line, sizeof line);
    }
}

static map_outcome print_own(sink *to, const result *r)
{
    cell *cells = grid_cells(r->reading, r->grid, 1);
    if (cells == NULL) {
        message_error(r->file, "no memory for the map");
        return MAP_FAILED;
    }
    print_rows(to, r->grid, cells);
    free(cells);
    return MAP_DONE;
}

map_outcome map_print(sink *to, const result *r)
{
    const grid *g = r->grid;
    if (g->columns > FOLGUTAN_MOST_MAP_COLUMNS)
        return MAP_TOO_WIDE;
    if (g->rows_before > 0 || g->columns_before > 0)
        return print_own(to, r);
    uint8_t *text = calloc(FOLGUTAN_MOST_MAP + 1, 1);
    if (text == NULL) {
        message_error(r->file, "no memory for the map");
        return MAP_FAILED;
    }
    folgutan_printed map = folgutan_map(g->board, r->reading->planes, r->reading->planes_len, text, FOLGUTAN_MOST_MAP);
    if (map.answer != FOLGUTAN_DONE)
        message_error(r->file, "the map cannot be printed, answer %u of the library", (unsigned)map.answer);
    else
        sink_bytes(to, (const char *)text, map.length);
    free(text);
    return map.answer == FOLGUTAN_DONE ? MAP_DONE : MAP_FAILED;
}

status map_write(output *to, const result *r)
{
    if (!r->board)
        return STATUS_OK;
    if (r->grid->columns > FOLGUTAN_MOST_MAP_COLUMNS) {
        message_error(r->file, "the map has at most %d columns, and this board has %zu: --csv and --json have all cells",
                      FOLGUTAN_MOST_MAP_COLUMNS, r->grid->columns);
        return STATUS_FILE;
    }
    if (to->begun)
        sink_text(to->sink, "\n");
    to->begun = true;
    return map_print(to->sink, r) == MAP_DONE ? STATUS_OK : STATUS_FILE;
}
