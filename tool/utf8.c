#include "utf8.h"

#include <stdbool.h>
#include <stdint.h>

/* A text ends in a zero, which is in no range: nothing behind it is looked at. */
static bool between(char c, uint8_t least, uint8_t most)
{
    return (uint8_t)c >= least && (uint8_t)c <= most;
}

static bool follow(const char *text, size_t count)
{
    for (size_t i = 0; i < count; i++)
        if (!between(text[i], 0x80, 0xbf))
            return false;
    return true;
}

size_t utf8_length(const char *text)
{
    uint8_t first = (uint8_t)text[0];
    if (first < 0x80)
        return 1;
    if (first >= 0xc2 && first <= 0xdf)
        return follow(text + 1, 1) ? 2 : 0;
    /* the second byte's range shuts out long forms, surrogates, and what is above U+10FFFF */
    if (first >= 0xe0 && first <= 0xef) {
        uint8_t least = first == 0xe0 ? 0xa0 : 0x80, most = first == 0xed ? 0x9f : 0xbf;
        return between(text[1], least, most) && follow(text + 2, 1) ? 3 : 0;
    }
    if (first >= 0xf0 && first <= 0xf4) {
        uint8_t least = first == 0xf0 ? 0x90 : 0x80, most = first == 0xf4 ? 0x8f : 0xbf;
        return between(text[1], least, most) && follow(text + 2, 2) ? 4 : 0;
    }
    return 0;
}

size_t utf8_shown(const char *text)
{
    bool control = between(text[0], 0, 0x1f) || text[0] == 0x7f || (text[0] == '\xc2' && between(text[1], 0x80, 0x9f));
    return control ? 0 : utf8_length(text);
}
