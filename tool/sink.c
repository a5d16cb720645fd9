#define _POSIX_C_SOURCE 200809L

#include "sink.h"

#include <errno.h>
#include <math.h>
#include <stdint.h>
#include <string.h>
#include <unistd.h>

bool sink_flush(sink *to)
{
    for (size_t done = 0; to->error == 0 && done < to->used;) {
        ssize_t now = write(STDOUT_FILENO, to->bytes + done, to->used - done);
        if (now >= 0)
            done += (size_t)now;
        else if (errno != EINTR)
            to->error = errno;
    }
    to->used = 0;
    return to->error == 0;
}

void sink_bytes(sink *to, const char *bytes, size_t count)
{
    while (count > 0) {
        if (to->used == SINK_ROOM)
            sink_flush(to);
        size_t room = SINK_ROOM - to->used, now = count < room ? count : room;
        memcpy(to->bytes + to->used, bytes, now);
        to->used += now;
        bytes += now;
        count -= now;
    }
}

void sink_text(sink *to, const char *text)
{
    sink_bytes(to, text, strlen(text));
}

/* The last `least` digits at least. */
static void digits(sink *to, uint64_t number, size_t least)
{
    char text[24];
    size_t at = sizeof text;
    while (number > 0 || sizeof text - at < least) {
        text[--at] = (char)('0' + number % 10);
        number /= 10;
    }
    sink_bytes(to, text + at, sizeof text - at);
}

void sink_number(sink *to, size_t number)
{
    digits(to, number, 1);
}

void sink_decimal(sink *to, double value)
{
    /* places of a picture: far below 2^53 millionths */
    uint64_t millionths = (uint64_t)(fabs(value) * 1e6 + 0.5);
    uint64_t fraction = millionths % 1000000;
    size_t places = 6;
    if (value < 0 && millionths > 0)
        sink_text(to, "-");
    sink_number(to, (size_t)(millionths / 1000000));
    if (fraction == 0)
        return;
    for (; fraction % 10 == 0; places--)
        fraction /= 10;
    sink_text(to, ".");
    digits(to, fraction, places);
}
