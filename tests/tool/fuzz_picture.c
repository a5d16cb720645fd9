/* Reads whatever bytes come as a picture file: for libFuzzer. The last byte tells which part is wanted, and can be any byte of a file of
 * any kind. Links without message.c: messages are made here, and not shown. */
#include "input.h"
#include "laying.h"
#include "message.h"
#include "picture.h"

#include <stdarg.h>
#include <stdlib.h>
#include <string.h>
#include <zlib.h>

int LLVMFuzzerTestOneInput(const uint8_t *bytes, size_t length);
size_t LLVMFuzzerMutate(uint8_t *bytes, size_t length, size_t most);
size_t LLVMFuzzerCustomMutator(uint8_t *bytes, size_t length, size_t most, unsigned seed);

static int errors;

void message_error(const char *file, const char *format, ...)
{
    char text[1000] = "";
    va_list words;
    va_start(words, format);
    vsnprintf(text, sizeof text, format, words);
    va_end(words);
    if (file == NULL || text[0] == '\0' || strchr(text, '\n') != NULL)
        abort();
    errors++;
}

static void must(bool right)
{
    if (!right)
        abort();
}

/* Every pixel has a value, and is opaque. */
static void look(const uint8_t *pixels, size_t width, size_t height)
{
    must(width > 0 && height > 0);
    for (size_t i = 0; i < width * height; i++)
        must(pixels[4 * i + 3] == 255);
}

int LLVMFuzzerTestOneInput(const uint8_t *bytes, size_t length)
{
    if (length == 0)
        return 0;
    uint8_t kind = bytes[length - 1];
    part wanted = {.has_box = kind & 1, .shrink = 1 + (kind >> 1 & 3), .keep_whole = kind & 8};
    if (wanted.has_box)
        wanted.box = (box){1 + (kind >> 4), 1 + (kind >> 5), kind >> 6, kind >> 7};
    FILE *file = fmemopen((void *)(uintptr_t)bytes, length, "rb");
    must(file != NULL);
    input in;
    picture p;
    errors = 0;
    status s = input_of(&in, file, "fuzz");
    if (s == STATUS_OK) {
        s = picture_take(&in, &wanted, &p);
        must(s == STATUS_OK || (p.pixels == NULL && p.whole == NULL));
        must(s == STATUS_OK || s == STATUS_FILE || s == STATUS_USAGE);
    }
    must(errors == (s == STATUS_OK ? 0 : 1));
    if (s == STATUS_OK) {
        must(p.width <= LAYING_MOST_SIDE && p.height <= LAYING_MOST_SIDE);
        must(p.width == p.box.width / p.shrink && p.height == p.box.height / p.shrink);
        must(p.box.left + p.box.width <= p.whole_width && p.box.top + p.box.height <= p.whole_height);
        must((p.whole != NULL) == wanted.keep_whole);
        look(p.pixels, p.width, p.height);
        if (p.whole != NULL)
            look(p.whole, p.whole_width, p.whole_height);
        picture_free(&p);
    }
    fclose(file);
    return 0;
}

static size_t number(const uint8_t *from)
{
    return (size_t)from[0] << 24 | (size_t)from[1] << 16 | (size_t)from[2] << 8 | from[3];
}

/* Gives each chunk of a PNG file the sum it should have: else hardly any would be looked at. */
static void mend(uint8_t *bytes, size_t length)
{
    for (size_t at = 8; length - at >= 12;) {
        size_t data = number(bytes + at);
        if (data > length - at - 12)
            return;
        uint32_t sum = (uint32_t)crc32(0, bytes + at + 4, (uInt)(data + 4));
        for (int i = 0; i < 4; i++)
            bytes[at + 8 + data + (size_t)i] = (uint8_t)(sum >> (24 - 8 * i));
        at += data + 12;
    }
}

/* Every eighth PNG file keeps the sums it got. */
size_t LLVMFuzzerCustomMutator(uint8_t *bytes, size_t length, size_t most, unsigned seed)
{
    length = LLVMFuzzerMutate(bytes, length, most);
    if (seed % 8 != 0 && length >= 8 && memcmp(bytes, "\x89PNG\r\n\x1a\n", 8) == 0)
        mend(bytes, length);
    return length;
}
