#include "screen_in.h"

#include "message.h"

#include <stdlib.h>
#include <string.h>

static const char heading[] = "height width\n";

bool screen_in_is(const input *in)
{
    return in->first_len == INPUT_FIRST && memcmp(in->first, heading, INPUT_FIRST) == 0;
}

/* One to four digits, then the byte `end`. */
static bool read_number(input *in, uint8_t end, size_t *number)
{
    size_t value = 0;
    for (int digits = 0;; digits++) {
        uint8_t c;
        if (input_read(in, &c, 1) == 0)
            return false;
        if (c == end && digits > 0) {
            *number = value;
            return true;
        }
        if (c < '0' || c > '9' || digits == 4)
            return false;
        value = 10 * value + (size_t)(c - '0');
    }
}

static bool read_heading(input *in, size_t *height, size_t *width)
{
    uint8_t names[sizeof heading - 1];
    return input_read(in, names, sizeof names) == sizeof names && memcmp(names, heading, sizeof names) == 0 &&
           read_number(in, ' ', height) && read_number(in, '\n', width);
}

static bool read_rows(input *in, laying *to, uint8_t *row, size_t height, size_t width)
{
    for (size_t y = 0; y < height; y++) {
        if (input_read(in, row, width * LAYING_PIXEL) < width * LAYING_PIXEL)
            return false;
        for (size_t x = 0; x < width; x++)
            row[x * LAYING_PIXEL + 3] = 255;
        laying_row(to, y, row);
    }
    return true;
}

static void say_short(const input *in)
{
    if (in->end == INPUT_FAILED)
        message_error(in->name, "cannot be read to its end: %s", strerror(in->error));
    else
        message_error(in->name, "a screen file that was cut short: it ends before its picture does");
}

status screen_in(input *in, laying *to)
{
    size_t height, width;
    if (!read_heading(in, &height, &width)) {
        if (in->end != INPUT_MORE)
            say_short(in);
        else
            message_error(in->name, "a damaged screen file: its first two lines are not \"height width\" and the two numbers");
        return STATUS_FILE;
    }
    status s = laying_begin(to, width, height, 1);
    if (s != STATUS_OK)
        return s;
    uint8_t *row = malloc(width * LAYING_PIXEL);
    if (row == NULL) {
        message_error(in->name, "no memory for %zu by %zu pixels", width, height);
        return STATUS_FILE;
    }
    if (!read_rows(in, to, row, height, width)) {
        say_short(in);
        s = STATUS_FILE;
    }
    free(row);
    return s;
}
