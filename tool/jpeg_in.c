#include "jpeg_in.h"

#include "jpeg_marks.h"
#include "message.h"

#include <stdlib.h>
#include <string.h>
#include <turbojpeg.h>

/* Each scan is a pass over all pixels. The file's limit is a power of two. */
enum { MOST_SCANS = 32, MOST_BYTES = 64 << 20 };

typedef struct {
    uint8_t *bytes;
    size_t length;
} file_bytes;

bool jpeg_in_is(const input *in)
{
    return in->first_len >= 3 && memcmp(in->first, "\xff\xd8\xff", 3) == 0;
}

static status say(const input *in, const char *what)
{
    message_error(in->name, "%s", what);
    return STATUS_FILE;
}

/* All the file, if it is below the limit. */
static status read_all(input *in, file_bytes *f)
{
    size_t room = 1 << 16;
    f->bytes = malloc(room);
    while (f->bytes != NULL) {
        f->length += input_read(in, f->bytes + f->length, room - f->length);
        if (in->end == INPUT_ENDED)
            return STATUS_OK;
        if (in->end == INPUT_FAILED) {
            message_error(in->name, "cannot be read to its end: %s", strerror(in->error));
            return STATUS_FILE;
        }
        if (room == MOST_BYTES) {
            message_error(in->name, "a JPEG file of %d bytes or more: save it smaller", MOST_BYTES);
            return STATUS_FILE;
        }
        room *= 2;
        uint8_t *more = realloc(f->bytes, room);
        if (more == NULL)
            free(f->bytes);
        f->bytes = more;
    }
    return say(in, "no memory to read a JPEG file");
}

/* What is refused before its sides are looked at. */
static status check_colours(const input *in, const jpeg_marks *m)
{
    if (!m->has_frame)
        return say(in, "a JPEG file that was cut short, or is damaged: nothing says how large its picture is");
    if (m->precision != 8)
        return say(in, "a JPEG file with samples that have not 8 bits: save it with 8 bits");
    if (m->components == 4)
        return say(in, "a JPEG file with CMYK or YCCK colours: save it as RGB or grey");
    if (m->components != 1 && m->components != 3)
        return say(in, "a JPEG file that is neither grey nor has three colours: save it as RGB or grey");
    return STATUS_OK;
}

/* The coefficients of a picture in several scans are all held, beside its pixels. The sides are not 0 any more. */
static status check_scans(const input *in, const jpeg_marks *m)
{
    if (m->scans == 0)
        return say(in, "a JPEG file that was cut short, or is damaged: it has no picture data");
    if (m->scans > MOST_SCANS) {
        message_error(in->name, "a JPEG file with %zu scans, more than %d: save it without progression", m->scans, MOST_SCANS);
        return STATUS_FILE;
    }
    if ((!m->progressive && m->scans == 1) || m->width <= LAYING_MOST_HELD / m->height)
        return STATUS_OK;
    message_error(in->name, "%zu by %zu pixels in several scans: more than %d pixels have to be saved without progression", m->width,
                  m->height, LAYING_MOST_HELD);
    return STATUS_FILE;
}

static status say_damaged(const input *in, tjhandle from)
{
    message_error(in->name, "a JPEG file that was cut short, or is damaged: %s", tjGetErrorStr2(from));
    return STATUS_FILE;
}

/* Decodes to `pixels`. Any warning is an error: what follows one is guessed. */
static status decode(const input *in, const file_bytes *f, const jpeg_marks *m, tjhandle with, uint8_t *pixels)
{
    int width = 0, height = 0, sampling = 0, colours = 0;
    int header = tjDecompressHeader3(with, f->bytes, f->length, &width, &height, &sampling, &colours);
    if (header != 0 && width == 0)
        return say_damaged(in, with);
    if ((size_t)width != m->width || (size_t)height != m->height)
        return say(in, "a damaged JPEG file: it says twice how large its picture is");
    if (tjDecompress2(with, f->bytes, f->length, pixels, width, width * LAYING_PIXEL, height, TJPF_BGRA,
                      TJFLAG_STOPONWARNING | TJFLAG_LIMITSCANS) != 0)
        return say_damaged(in, with);
    return STATUS_OK;
}

static status hand_over(const input *in, laying *to, const file_bytes *f, const jpeg_marks *m)
{
    uint8_t *held = NULL, *pixels = laying_direct(to);
    if (pixels == NULL)
        pixels = held = malloc(m->width * m->height * LAYING_PIXEL);
    tjhandle with = tjInitDecompress();
    status s = STATUS_FILE;
    if (pixels == NULL || with == NULL)
        message_error(in->name, "no memory for %zu by %zu pixels", m->width, m->height);
    else
        s = decode(in, f, m, with, pixels);
    for (size_t y = 0; s == STATUS_OK && y < m->height; y++)
        laying_row(to, y, pixels + y * m->width * LAYING_PIXEL);
    if (with != NULL)
        tjDestroy(with);
    free(held);
    return s;
}

status jpeg_in(input *in, laying *to)
{
    file_bytes f = {NULL, 0};
    to->given_whole = true;
    status s = read_all(in, &f);
    if (s == STATUS_OK) {
        jpeg_marks m = jpeg_marks_of(f.bytes, f.length);
        s = check_colours(in, &m);
        if (s == STATUS_OK)
            s = laying_begin(to, m.width, m.height, m.orientation);
        if (s == STATUS_OK)
            s = check_scans(in, &m);
        if (s == STATUS_OK)
            s = hand_over(in, to, &f, &m);
    }
    free(f.bytes);
    return s;
}
