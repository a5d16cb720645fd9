#include "message.h"

#include "utf8.h"

#include <stdarg.h>
#include <stddef.h>
#include <stdio.h>

/* A path of Linux, a text, and some more. */
enum { LINE_MOST = 6000, TEXT_MOST = 1000 };

typedef struct {
    char bytes[LINE_MOST];
    size_t length;
} line;

static bool quiet_set;

void message_quiet(bool quiet)
{
    quiet_set = quiet;
}

/* What does not fit is left out; there is always room for the line's end. */
static void add(line *to, const char *text)
{
    while (*text != '\0') {
        size_t length = utf8_shown(text);
        size_t bytes = length > 0 ? length : 1;
        if (bytes > sizeof to->bytes - 2 - to->length)
            return;
        for (size_t i = 0; i < bytes; i++)
            to->bytes[to->length++] = length > 0 ? text[i] : '?';
        text += bytes;
    }
}

static void say(const char *file, const char *format, va_list words)
{
    char text[TEXT_MOST] = "";
    vsnprintf(text, sizeof text, format, words);
    line out = {.length = 0};
    add(&out, "folgutan: ");
    if (file != NULL) {
        add(&out, file);
        add(&out, ": ");
    }
    add(&out, text);
    out.bytes[out.length++] = '\n';
    fwrite(out.bytes, 1, out.length, stderr);
}

void message_error(const char *file, const char *format, ...)
{
    va_list words;
    va_start(words, format);
    say(file, format, words);
    va_end(words);
}

void message_warning(const char *file, const char *format, ...)
{
    if (quiet_set)
        return;
    va_list words;
    va_start(words, format);
    say(file, format, words);
    va_end(words);
}
