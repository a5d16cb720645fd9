#include "output.h"
#include "utf8.h"

/* A name stays in its line: a byte of a control character, or one that is no text, is shown as '?'. */
static void print_name(sink *to, const char *name)
{
    while (*name != '\0') {
        size_t length = utf8_shown(name);
        if (length == 0) {
            sink_text(to, "?");
            name++;
        } else {
            sink_bytes(to, name, length);
            name += length;
        }
    }
}

static void print_values(sink *to, const value *values, size_t count)
{
    for (size_t i = 0; i < count; i++) {
        sink_text(to, values[i].name);
        sink_text(to, " ");
        value_print(to, &values[i], "none");
        sink_text(to, "\n");
    }
}

static void print_reasons(sink *to, const result *r)
{
    sink_text(to, "reasons ");
    if (!r->board)
        sink_text(to, reading_refusal(r->reading));
    else if (r->doubt->count == 0)
        sink_text(to, "none");
    for (size_t i = 0; r->board && i < r->doubt->count; i++) {
        sink_text(to, i > 0 ? "; " : "");
        sink_text(to, r->doubt->reasons[i]);
    }
    sink_text(to, "\n");
}

static status print_map(sink *to, const result *r)
{
    map_outcome outcome = map_print(to, r);
    if (outcome == MAP_TOO_WIDE) {
        sink_text(to, "map more than ");
        sink_number(to, FOLGUTAN_MOST_MAP_COLUMNS);
        sink_text(to, " columns: --csv and --json have all cells\n");
    }
    return outcome == MAP_FAILED ? STATUS_FILE : STATUS_OK;
}

status text_write(output *to, const result *r)
{
    value before[VALUES_BEFORE], after[VALUES_AFTER];
    values_before(r, before);
    values_after(r, after);
    if (to->begun)
        sink_text(to->sink, "\n");
    to->begun = true;
    sink_text(to->sink, "file ");
    print_name(to->sink, r->file);
    sink_text(to->sink, "\n");
    print_values(to->sink, before, VALUES_BEFORE);
    sink_text(to->sink, "status ");
    sink_text(to->sink, result_status(r));
    sink_text(to->sink, "\n");
    print_reasons(to->sink, r);
    print_values(to->sink, after, VALUES_AFTER);
    if (!r->board)
        return STATUS_OK;
    if (r->grid->extended)
        sink_text(to->sink, "note this grid is not the proved reading: it was placed in the box by the expected size\n");
    return print_map(to->sink, r);
}
