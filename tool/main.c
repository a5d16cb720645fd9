#define _XOPEN_SOURCE 700

#include "drawing.h"
#include "help.h"
#include "judged.h"
#include "message.h"
#include "options.h"
#include "output.h"
#include "png_out.h"
#include "version.h"

#include <signal.h>
#include <stdlib.h>
#include <string.h>

static status larger(status a, status b)
{
    return a > b ? a : b;
}

static status no_memory(const char *file, const picture *p)
{
    message_error(file, "no memory for a picture of %zu by %zu pixels: give a part of it with --box", p->width, p->height);
    return STATUS_FILE;
}

static status flushed(sink *to)
{
    if (sink_flush(to))
        return STATUS_OK;
    message_error("standard output", "cannot be written: %s", strerror(to->error));
    return STATUS_FILE;
}

/* Where the format has no place for it. */
static void say_doubts(const options *o, const result *r)
{
    if (o->format != FORMAT_CSV && o->format != FORMAT_MAP)
        return;
    for (size_t i = 0; i < r->doubt->count; i++)
        message_warning(r->file, "doubtful: %s", r->doubt->reasons[i]);
    if (r->grid->extended)
        message_warning(r->file, "this grid is not the proved reading: it was placed in the box by the expected size");
}

static status judgement(const options *o, const result *r)
{
    if (!r->board) {
        message_warning(r->file, "%s", reading_refusal(r->reading));
        return STATUS_NO_BOARD;
    }
    const char *warning = doubt_box_warning(r->from, r->reading, r->grid, o->part.has_box);
    if (warning != NULL)
        message_warning(r->file, "%s", warning);
    say_doubts(o, r);
    return r->doubt->count > 0 ? STATUS_DOUBTFUL : STATUS_OK;
}

static status write_result(const options *o, output *to, const result *r)
{
    status (*const writers[])(output *, const result *) = {
        [FORMAT_TEXT] = text_write, [FORMAT_JSON] = json_write, [FORMAT_CSV] = csv_write, [FORMAT_MAP] = map_write};
    status s = writers[o->format](to, r);
    return larger(s, flushed(to->sink));
}

static status write_overlay(const options *o, const result *r)
{
    drawing d = {.from = r->from, .has_box = o->part.has_box, .reading = r->reading, .grid = r->board ? r->grid : NULL, .size = o->size};
    if (o->overlay == NULL)
        return STATUS_OK;
    if (!drawing_make(&d))
        return no_memory(r->file, r->from);
    return png_out(o->overlay, r->from->whole_width, r->from->whole_height, r->from->whole);
}

/* Samples what was read, and writes it. */
static status write_all(const options *o, output *to, result *r)
{
    bool any = r->board && r->grid->rows > 0 && r->grid->columns > 0;
    cell *cells = any ? grid_cells(r->reading, r->grid, o->size) : NULL;
    if (any && cells == NULL)
        return no_memory(r->file, r->from);
    r->cells = cells;
    status s = judgement(o, r);
    s = larger(s, write_result(o, to, r));
    free(cells);
    return larger(s, write_overlay(o, r));
}

/* The planes hold what is needed from now on. */
static void drop_pixels(picture *p)
{
    if (p->pixels != p->whole)
        free(p->pixels);
    p->pixels = NULL;
}

static status do_picture(const options *o, output *to, const char *file)
{
    picture from;
    judged j;
    status s = picture_read(file, &o->part, &from);
    if (s != STATUS_OK)
        return s;
    if (judged_make(&from, o, &j)) {
        result r = {.file = file, .from = &from, .reading = &j.reading, .board = j.board, .grid = &j.grid, .doubt = &j.doubt};
        drop_pixels(&from);
        s = write_all(o, to, &r);
        judged_free(&j);
    } else {
        s = no_memory(file, &from);
    }
    picture_free(&from);
    return s;
}

static status do_pictures(const options *o, sink *out)
{
    output to = {.sink = out, .several = o->file_count > 1};
    if (o->overlay != NULL && png_out_same(o->overlay, o->files[0])) {
        message_error(o->overlay, "--overlay would overwrite the picture; see folgutan --help");
        return STATUS_USAGE;
    }
    if (o->format == FORMAT_CSV)
        csv_begin(&to);
    status s = STATUS_OK;
    for (size_t i = 0; i < o->file_count && out->error == 0; i++)
        s = larger(s, do_picture(o, &to, o->files[i]));
    return s;
}

int main(int count, char **words)
{
    static sink out; /* its buffer is too much for a stack */
    options o;
    signal(SIGPIPE, SIG_IGN);
    signal(SIGXFSZ, SIG_IGN);
    status s = options_read(count > 0 ? (size_t)count - 1 : 0, words + 1, &o);
    if (s != STATUS_OK)
        return (int)s;
    message_quiet(o.quiet);
    if (o.help)
        sink_text(&out, help_text);
    else if (o.version)
        sink_text(&out, "folgutan " FOLGUTAN_VERSION "\n");
    else
        s = do_pictures(&o, &out);
    /* a failure in the midst was said already */
    return (int)(out.error != 0 ? STATUS_FILE : larger(s, flushed(&out)));
}
