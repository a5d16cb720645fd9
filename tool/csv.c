#include "output.h"

#include <string.h>

void csv_begin(output *to)
{
    sink_text(to->sink, to->several ? "file,row,column,red,green,blue\n" : "row,column,red,green,blue\n");
}

/* As RFC 4180 asks: a field that needs quotes has them, and its own twice. */
static void print_field(sink *to, const char *text)
{
    bool quoted = text[strcspn(text, "\",\r\n")] != '\0';
    if (quoted)
        sink_text(to, "\"");
    for (; *text != '\0'; text++) {
        if (*text == '"')
            sink_text(to, "\"");
        sink_bytes(to, text, 1);
    }
    if (quoted)
        sink_text(to, "\"");
}

static void print_cell(sink *to, const cell *c)
{
    if (!c->there) {
        sink_text(to, ",,,\n");
        return;
    }
    sink_text(to, ",");
    sink_number(to, c->red);
    sink_text(to, ",");
    sink_number(to, c->green);
    sink_text(to, ",");
    sink_number(to, c->blue);
    sink_text(to, "\n");
}

status csv_write(output *to, const result *r)
{
    size_t rows = r->board ? r->grid->rows : 0, columns = r->board ? r->grid->columns : 0;
    for (size_t x = 0; x < rows; x++)
        for (size_t y = 0; y < columns; y++) {
            if (to->several) {
                print_field(to->sink, r->file);
                sink_text(to->sink, ",");
            }
            sink_number(to->sink, x);
            sink_text(to->sink, ",");
            sink_number(to->sink, y);
            print_cell(to->sink, &r->cells[x * columns + y]);
        }
    return STATUS_OK;
}
