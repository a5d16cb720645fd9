#include "output.h"
#include "utf8.h"

static const char hex[] = "0123456789abcdef";

static void print_escaped(sink *to, char c)
{
    if (c == '"' || c == '\\') {
        sink_bytes(to, "\\", 1);
        sink_bytes(to, &c, 1);
    } else {
        char code[6] = {'\\', 'u', '0', '0', hex[(unsigned char)c >> 4], hex[c & 15]};
        sink_bytes(to, code, sizeof code);
    }
}

/* A byte that is no text becomes U+FFFD. */
static void print_string(sink *to, const char *text)
{
    sink_text(to, "\"");
    while (*text != '\0') {
        size_t length = utf8_length(text);
        if (length == 0)
            sink_text(to, "\xef\xbf\xbd");
        else if (*text == '"' || *text == '\\' || (unsigned char)*text < ' ')
            print_escaped(to, *text);
        else
            sink_bytes(to, text, length);
        text += length > 0 ? length : 1;
    }
    sink_text(to, "\"");
}

static void print_values(sink *to, const value *values, size_t count)
{
    for (size_t i = 0; i < count; i++) {
        sink_text(to, ",\"");
        sink_text(to, values[i].name);
        sink_text(to, "\":");
        value_print(to, &values[i], "null");
    }
}

static void print_reasons(sink *to, const result *r)
{
    sink_text(to, ",\"reasons\":[");
    if (!r->board)
        print_string(to, reading_refusal(r->reading));
    for (size_t i = 0; r->board && i < r->doubt->count; i++) {
        sink_text(to, i > 0 ? "," : "");
        print_string(to, r->doubt->reasons[i]);
    }
    sink_text(to, "]");
}

static void print_cell(sink *to, const cell *c)
{
    if (!c->there) {
        sink_text(to, "null");
        return;
    }
    char text[9] = {'"', '#', hex[c->red >> 4], hex[c->red & 15], hex[c->green >> 4], hex[c->green & 15], hex[c->blue >> 4],
                    hex[c->blue & 15], '"'};
    sink_bytes(to, text, sizeof text);
}

static void print_cells(sink *to, const result *r)
{
    size_t rows = r->board ? r->grid->rows : 0, columns = r->board ? r->grid->columns : 0;
    sink_text(to, ",\"cells\":[");
    for (size_t x = 0; x < rows; x++) {
        sink_text(to, x > 0 ? ",[" : "[");
        for (size_t y = 0; y < columns; y++) {
            sink_text(to, y > 0 ? "," : "");
            print_cell(to, &r->cells[x * columns + y]);
        }
        sink_text(to, "]");
    }
    sink_text(to, "]");
}

status json_write(output *to, const result *r)
{
    value before[VALUES_BEFORE], after[VALUES_AFTER];
    values_before(r, before);
    values_after(r, after);
    sink_text(to->sink, "{\"file\":");
    print_string(to->sink, r->file);
    print_values(to->sink, before, VALUES_BEFORE);
    sink_text(to->sink, ",\"status\":\"");
    sink_text(to->sink, result_status(r));
    sink_text(to->sink, "\"");
    print_reasons(to->sink, r);
    print_values(to->sink, after, VALUES_AFTER);
    print_cells(to->sink, r);
    sink_text(to->sink, "}\n");
    return STATUS_OK;
}
