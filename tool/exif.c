#include "exif.h"

#include <stdbool.h>

enum { ENTRY = 12, TAG_ORIENTATION = 0x0112, TYPE_SHORT = 3, UPRIGHT = 1, MOST_ORIENTATION = 8 };

/* A number of `bytes` bytes. */
static uint32_t number(const uint8_t *from, unsigned bytes, bool big)
{
    uint32_t value = 0;
    for (unsigned i = 0; i < bytes; i++)
        value = value << 8 | from[big ? i : bytes - 1 - i];
    return value;
}

unsigned exif_orientation(const uint8_t *block, size_t length)
{
    if (length < 8 || block[0] != block[1] || (block[0] != 'I' && block[0] != 'M'))
        return UPRIGHT;
    bool big = block[0] == 'M';
    size_t at = number(block + 4, 4, big);
    if (number(block + 2, 2, big) != 42 || at > length || length - at < 2)
        return UPRIGHT;
    size_t entries = number(block + at, 2, big);
    at += 2;
    for (; entries > 0 && length - at >= ENTRY; entries--, at += ENTRY) {
        const uint8_t *entry = block + at;
        if (number(entry, 2, big) != TAG_ORIENTATION)
            continue;
        uint32_t value = number(entry + 8, 2, big);
        bool known = number(entry + 2, 2, big) == TYPE_SHORT && number(entry + 4, 4, big) == 1;
        return known && value >= UPRIGHT && value <= MOST_ORIENTATION ? value : UPRIGHT;
    }
    return UPRIGHT;
}
