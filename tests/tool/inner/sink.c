/* How numbers are printed, and that all bytes go out, in their order. */
#define _POSIX_C_SOURCE 200809L

#include "sink.h"

#include <errno.h>
#include <fcntl.h>
#include <stdio.h>
#include <string.h>
#include <unistd.h>

static const struct {
    double value;
    const char *text;
} decimals[] = {
    {0, "0"}, {-0.0, "0"}, {1, "1"}, {10, "10"}, {4096, "4096"}, {26.25, "26.25"}, {26.5, "26.5"}, {26.75, "26.75"}, {0.125, "0.125"},
    {0.375, "0.375"}, {-0.125, "-0.125"}, {-20, "-20"}, {-1234.75, "-1234.75"}, {100.0625, "100.0625"}, {0.015625, "0.015625"},
    {0.000001, "0.000001"}, {0.0000004, "0"}, {-0.0000004, "0"}, {0.9999996, "1"}, {1.000001, "1.000001"}, {0.1, "0.1"},
    {1.0 / 3.0, "0.333333"}, {2.0 / 3.0, "0.666667"}, {1000000.05, "1000000.05"}, {163840000.75, "163840000.75"},
};

static const struct {
    size_t value;
    const char *text;
} numbers[] = {{0, "0"}, {7, "7"}, {10, "10"}, {4096, "4096"}, {1000000, "1000000"}, {18446744073709551615u, "18446744073709551615"}};

static int failed;
static size_t checks;

static void check(bool good, const char *what)
{
    checks++;
    failed += !good;
    if (!good)
        fprintf(stderr, "FAILED sink: %s\n", what);
}

static sink out;

static void holds(const char *text)
{
    check(out.used == strlen(text) && memcmp(out.bytes, text, out.used) == 0, text);
    out.used = 0;
}

static void print_numbers(void)
{
    for (size_t i = 0; i < sizeof decimals / sizeof decimals[0]; i++) {
        sink_decimal(&out, decimals[i].value);
        holds(decimals[i].text);
    }
    for (size_t i = 0; i < sizeof numbers / sizeof numbers[0]; i++) {
        sink_number(&out, numbers[i].value);
        holds(numbers[i].text);
    }
}

static bool read_all(int descriptor, char *to, size_t count)
{
    for (size_t done = 0; done < count;) {
        ssize_t now = read(descriptor, to + done, count - done);
        if (now <= 0)
            return false;
        done += (size_t)now;
    }
    return true;
}

/* More than the buffer holds, in pieces that do not divide it. Standard output is a file here. */
static void all_goes_out(const char *file)
{
    enum { PIECES = 3000, LONG = 101 };
    char piece[LONG], got[LONG];
    int descriptor = open(file, O_RDWR | O_CREAT | O_TRUNC, 0600);
    check(descriptor >= 0 && dup2(descriptor, STDOUT_FILENO) == STDOUT_FILENO, "a file as standard output");
    for (int i = 0; i < PIECES; i++) {
        memset(piece, 'a' + i % 26, sizeof piece);
        sink_bytes(&out, piece, sizeof piece);
    }
    check(sink_flush(&out) && out.used == 0, "flushed");
    check(lseek(descriptor, 0, SEEK_SET) == 0, "read again");
    bool same = true;
    for (int i = 0; i < PIECES && same; i++) {
        memset(piece, 'a' + i % 26, sizeof piece);
        same = read_all(descriptor, got, sizeof got) && memcmp(piece, got, sizeof piece) == 0;
    }
    check(same, "the same bytes");
    check(!read_all(descriptor, got, 1), "and no more");
    close(descriptor);
    unlink(file);
}

/* A failure stays, and nothing more is written. */
static void fails(void)
{
    int full = open("/dev/full", O_WRONLY);
    check(full >= 0 && dup2(full, STDOUT_FILENO) == STDOUT_FILENO, "/dev/full as standard output");
    check(sink_flush(&out), "nothing to write does not fail");
    sink_text(&out, "text");
    check(!sink_flush(&out) && out.error == ENOSPC, "a full device");
    check(dup2(STDERR_FILENO, STDOUT_FILENO) == STDOUT_FILENO, "an output that takes bytes");
    sink_text(&out, "this must not be written\n");
    check(!sink_flush(&out) && out.error == ENOSPC && out.used == 0, "a failure stays");
    close(full);
}

int main(int count, char **words)
{
    if (count != 2)
        return 2;
    print_numbers();
    all_goes_out(words[1]);
    fails();
    fprintf(stderr, "sink: %zu checks, %d failed\n", checks, failed);
    return failed > 0;
}
