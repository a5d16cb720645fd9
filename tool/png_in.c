#include "png_in.h"

#include "exif.h"
#include "message.h"

#include <png.h>
#include <stdlib.h>
#include <string.h>

/* Bytes that may come before the image data, and behind it; that all of it may have; of a chunk that is kept. A chunk takes two or three
 * reads, however little is in it. */
#define MOST_BESIDE ((size_t)16 << 20)
#define MOST_BYTES ((size_t)256 << 20)
#define MOST_CHUNK ((size_t)1 << 20)
#define MOST_READS 2000000

/* Nothing that is changed after setjmp is a local variable. */
typedef struct {
    input *in;
    laying *to;
    png_structp png;
    png_infop info;
    uint8_t *pixels, *held; /* one row, or all of them; what of it was got here */
    size_t reads, width, height;
    size_t most_row, most_bytes; /* that may be read for one more row, and at all */
    unsigned orientation, laid; /* as the file has it so far; as the rows are handed over */
    bool interlaced, has_alpha, behind; /* all rows were read */
    char trouble[120];
} decoder;

bool png_in_is(const input *in)
{
    return in->first_len == INPUT_FIRST && png_sig_cmp(in->first, 0, INPUT_FIRST) == 0;
}

static void on_error(png_structp png, png_const_charp why)
{
    decoder *d = png_get_error_ptr(png);
    snprintf(d->trouble, sizeof d->trouble, "%s", why);
    png_longjmp(png, 1);
}

static void on_warning(png_structp png, png_const_charp why)
{
    (void)png;
    (void)why;
}

static void on_read(png_structp png, png_bytep to, size_t length)
{
    decoder *d = png_get_io_ptr(png);
    if (++d->reads > MOST_READS)
        png_error(png, "more than half a million chunks");
    if (input_read(d->in, to, length) < length)
        png_error(png, "too few bytes");
}

/* The chunks that are kept: eXIf alone. */
static int on_chunk(png_structp png, png_unknown_chunkp chunk)
{
    decoder *d = png_get_user_chunk_ptr(png);
    if (memcmp(chunk->name, "eXIf", 4) == 0)
        d->orientation = exif_orientation(chunk->data, chunk->size);
    return 1;
}

/* Neither text nor profiles are needed, and they are skipped as they are; so is all that libpng does not know. */
static void set_limits(decoder *d)
{
    png_structp png = d->png;
    png_set_read_fn(png, d, on_read);
    png_set_crc_action(png, PNG_CRC_ERROR_QUIT, PNG_CRC_ERROR_QUIT);
    png_set_user_limits(png, PNG_UINT_31_MAX, PNG_UINT_31_MAX); /* the sides are checked by laying_begin */
    png_set_chunk_malloc_max(png, MOST_CHUNK);
    png_set_chunk_cache_max(png, 1);
    png_set_keep_unknown_chunks(png, PNG_HANDLE_CHUNK_NEVER, NULL, -1);
    png_set_keep_unknown_chunks(png, PNG_HANDLE_CHUNK_ALWAYS, (png_const_bytep) "eXIf", 1);
    png_set_read_user_chunk_fn(png, d, on_chunk);
}

/* Whatever is stored, rows are 8 bits of blue, green, red and alpha. */
static void set_format(decoder *d)
{
    png_structp png = d->png;
    d->has_alpha = (png_get_color_type(png, d->info) & PNG_COLOR_MASK_ALPHA) != 0 || png_get_valid(png, d->info, PNG_INFO_tRNS) != 0;
    png_set_expand(png);
    png_set_scale_16(png);
    png_set_gray_to_rgb(png);
    png_set_bgr(png);
    png_set_add_alpha(png, 255, PNG_FILLER_AFTER);
}

/* The bytes that image data can take: what the pixels do, a filter for each row and pass, and some more where they were not made smaller,
 * or come in many chunks. For a row that is read no more than it can have: libpng would unpack all that follows the last one. */
static void set_image_limits(decoder *d)
{
    size_t row = png_get_rowbytes(d->png, d->info) + 16;
    size_t all = row * d->height;
    all += all / 16 + ((size_t)1 << 20);
    d->most_row = row + row / 16 + ((size_t)1 << 15);
    d->most_bytes = d->in->taken + (all < MOST_BYTES ? all : MOST_BYTES);
}

static status begin(decoder *d)
{
    d->in->most = MOST_BESIDE;
    png_read_info(d->png, d->info);
    d->width = png_get_image_width(d->png, d->info);
    d->height = png_get_image_height(d->png, d->info);
    d->laid = d->orientation;
    status s = laying_begin(d->to, d->width, d->height, d->laid);
    if (s != STATUS_OK)
        return s;
    set_image_limits(d);
    set_format(d);
    d->interlaced = png_set_interlace_handling(d->png) > 1;
    png_read_update_info(d->png, d->info);
    if (png_get_rowbytes(d->png, d->info) != d->width * LAYING_PIXEL)
        png_error(d->png, "its rows cannot be made 8 bits a sample");
    return STATUS_OK;
}

/* Memory for one row, or, of an interlaced picture, for all: it comes in passes. */
static status get_memory(decoder *d)
{
    size_t rows = d->interlaced ? d->height : 1;
    d->pixels = d->interlaced ? laying_direct(d->to) : NULL;
    if (d->pixels != NULL)
        return STATUS_OK;
    if (d->interlaced && d->width > LAYING_MOST_HELD / d->height) {
        message_error(d->to->file, "%zu by %zu pixels, interlaced: more than %d pixels have to be saved without interlacing", d->width,
                      d->height, LAYING_MOST_HELD);
        return STATUS_FILE;
    }
    d->pixels = d->held = calloc(rows, d->width * LAYING_PIXEL);
    if (d->held != NULL)
        return STATUS_OK;
    message_error(d->to->file, "no memory for %zu by %zu pixels", d->width, d->height);
    return STATUS_FILE;
}

static void lay_on_white(uint8_t *row, size_t count)
{
    for (uint8_t *pixel = row; count > 0; count--, pixel += LAYING_PIXEL) {
        unsigned alpha = pixel[3];
        for (size_t k = 0; k < 3; k++)
            pixel[k] = (uint8_t)((pixel[k] * alpha + 255 * (255 - alpha) + 127) / 255);
        pixel[3] = 255;
    }
}

static void take_row(decoder *d, size_t y, uint8_t *row)
{
    if (d->has_alpha)
        lay_on_white(row, d->width);
    laying_row(d->to, y, row);
}

static void read_row(decoder *d, uint8_t *row)
{
    size_t most = d->in->taken + d->most_row;
    d->in->most = most < d->most_bytes ? most : d->most_bytes;
    png_read_row(d->png, row, NULL);
}

static void read_rows(decoder *d)
{
    size_t step = d->interlaced ? d->width * LAYING_PIXEL : 0;
    if (d->interlaced)
        for (int pass = 0; pass < PNG_INTERLACE_ADAM7_PASSES; pass++)
            for (size_t y = 0; y < d->height; y++)
                read_row(d, d->pixels + y * step);
    for (size_t y = 0; y < d->height; y++) {
        if (!d->interlaced)
            read_row(d, d->pixels);
        take_row(d, y, d->pixels + y * step);
    }
}

/* The chunks behind the rows, up to the last one, and nothing behind that. */
static status read_end(decoder *d)
{
    d->behind = true;
    d->in->most = d->in->taken + MOST_BESIDE;
    png_read_end(d->png, d->info);
    if (d->orientation == d->laid)
        return STATUS_OK;
    message_error(d->to->file, "a PNG file that says behind its picture how it is turned: save it anew, upright");
    return STATUS_FILE;
}

static void say_trouble(const decoder *d)
{
    switch (d->in->end) {
    case INPUT_ENDED:
        message_error(d->to->file, "a PNG file that was cut short: it ends before its %s does", d->behind ? "last chunk" : "picture");
        break;
    case INPUT_LIMIT:
        if (d->most_bytes == 0 || d->behind)
            message_error(d->to->file, "a PNG file with more than %zu bytes %s its picture", MOST_BESIDE, d->behind ? "behind" : "before");
        else
            message_error(d->to->file, "a PNG file with more data than its picture can have");
        break;
    case INPUT_FAILED: message_error(d->to->file, "cannot be read to its end: %s", strerror(d->in->error)); break;
    default: message_error(d->to->file, "a damaged PNG file: %s", d->trouble); break;
    }
}

static status decode(decoder *d)
{
    if (setjmp(png_jmpbuf(d->png))) {
        say_trouble(d);
        return STATUS_FILE;
    }
    set_limits(d);
    status s = begin(d);
    if (s == STATUS_OK)
        s = get_memory(d);
    if (s != STATUS_OK)
        return s;
    read_rows(d);
    return read_end(d);
}

status png_in(input *in, laying *to)
{
    decoder d = {.in = in, .to = to, .orientation = 1};
    d.png = png_create_read_struct(PNG_LIBPNG_VER_STRING, &d, on_error, on_warning);
    d.info = d.png != NULL ? png_create_info_struct(d.png) : NULL;
    status s = STATUS_FILE;
    if (d.info != NULL)
        s = decode(&d);
    else
        message_error(to->file, "no memory to read a PNG file");
    png_destroy_read_struct(&d.png, &d.info, NULL);
    free(d.held);
    return s;
}
