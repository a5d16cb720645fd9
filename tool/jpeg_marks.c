#include "jpeg_marks.h"

#include "exif.h"

#include <string.h>

enum {
    MARK_SOF0 = 0xc0,
    MARK_DHT = 0xc4,
    MARK_JPG = 0xc8,
    MARK_DAC = 0xcc,
    MARK_SOF15 = 0xcf,
    MARK_RST0 = 0xd0,
    MARK_RST7 = 0xd7,
    MARK_SOI = 0xd8,
    MARK_EOI = 0xd9,
    MARK_SOS = 0xda,
    MARK_APP1 = 0xe1,
    MARK_TEM = 0x01
};

static bool is_frame(unsigned mark)
{
    return mark >= MARK_SOF0 && mark <= MARK_SOF15 && mark != MARK_DHT && mark != MARK_JPG && mark != MARK_DAC;
}

static bool is_alone(unsigned mark)
{
    return mark == 0 || mark == MARK_TEM || (mark >= MARK_RST0 && mark <= MARK_SOI);
}

/* The next marker from `*at` on, or -1. What lies between markers is passed over, as the decoder does: so the scan that it would
 * come to is counted. */
static int next_mark(const uint8_t *bytes, size_t length, size_t *at)
{
    while (*at < length) {
        const uint8_t *found = memchr(bytes + *at, 0xff, length - *at);
        if (found == NULL)
            return -1;
        size_t i = (size_t)(found - bytes);
        while (i < length && bytes[i] == 0xff)
            i++;
        if (i == length)
            return -1;
        *at = i + 1;
        if (!is_alone(bytes[i]))
            return bytes[i];
    }
    return -1;
}

static void look(jpeg_marks *m, unsigned mark, const uint8_t *segment, size_t length, bool *exif)
{
    if (mark == MARK_SOS)
        m->scans++;
    if (is_frame(mark) && !m->has_frame && length >= 6) {
        m->has_frame = true;
        m->precision = segment[0];
        m->height = (size_t)segment[1] << 8 | segment[2];
        m->width = (size_t)segment[3] << 8 | segment[4];
        m->components = segment[5];
        m->progressive = (mark & 3) == 2; /* SOF2, SOF6, SOF10 and SOF14 */
    }
    if (mark == MARK_APP1 && !*exif && length > 6 && memcmp(segment, "Exif\0", 6) == 0) {
        *exif = true;
        m->orientation = exif_orientation(segment + 6, length - 6);
    }
}

jpeg_marks jpeg_marks_of(const uint8_t *bytes, size_t length)
{
    jpeg_marks m = {.orientation = 1};
    size_t at = 0;
    bool exif = false;
    for (int mark = next_mark(bytes, length, &at); mark >= 0 && mark != MARK_EOI; mark = next_mark(bytes, length, &at)) {
        if (length - at < 2)
            break;
        size_t segment = (size_t)bytes[at] << 8 | bytes[at + 1];
        if (segment < 2 || segment > length - at)
            break;
        look(&m, (unsigned)mark, bytes + at + 2, segment - 2, &exif);
        at += segment;
    }
    return m;
}
