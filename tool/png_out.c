#define _XOPEN_SOURCE 700

#include "png_out.h"

#include "message.h"

#include <errno.h>
#include <png.h>
#include <setjmp.h>
#include <signal.h>
#include <stdio.h>
#include <stdlib.h>
#include <string.h>
#include <sys/stat.h>
#include <unistd.h>

/* On screenshots the filter `up` alone makes files as small as all filters tried row by row, in a fraction of the time. */
enum { COMPRESSION = 3 };

/* Where the PNG goes: links are followed, so that the file they name is written; one that names none is refused. */
typedef struct {
    const char *file; /* as it was given */
    char *target, *beside;
    mode_t mode;
} place;

static void place_free(place *p)
{
    free(p->beside);
    free(p->target);
}

static status failed(const place *p, const char *why)
{
    message_error(p->file, "cannot be written: %s", why);
    return STATUS_FILE;
}

static mode_t default_mode(void)
{
    mode_t mask = umask(0);
    umask(mask);
    return 0666 & ~mask;
}

bool png_out_same(const char *file, const char *input)
{
    struct stat a, b;
    int found = strcmp(input, "-") == 0 ? fstat(STDIN_FILENO, &b) : stat(input, &b);
    return found == 0 && stat(file, &a) == 0 && a.st_dev == b.st_dev && a.st_ino == b.st_ino;
}

/* The target, if it is there, must be a regular file: a device would be replaced by a file. */
static status looked_at(place *p)
{
    struct stat there;
    p->mode = default_mode();
    if (stat(p->file, &there) != 0) {
        int error = errno;
        if (lstat(p->file, &there) == 0)
            return failed(p, error == ENOENT ? "it is a link to a file that is not there" : strerror(error));
        p->target = strdup(p->file);
        return p->target != NULL ? STATUS_OK : failed(p, "no memory");
    }
    if (S_ISDIR(there.st_mode))
        return failed(p, strerror(EISDIR));
    if (!S_ISREG(there.st_mode))
        return failed(p, "it is no regular file");
    p->mode = there.st_mode & 0777;
    p->target = realpath(p->file, NULL);
    return p->target != NULL ? STATUS_OK : failed(p, strerror(errno));
}

/* Opens the file beside the target. */
static FILE *opened(place *p)
{
    static const char end[] = ".XXXXXX";
    size_t length = strlen(p->target);
    p->beside = malloc(length + sizeof end);
    if (p->beside == NULL)
        return NULL;
    memcpy(p->beside, p->target, length);
    memcpy(p->beside + length, end, sizeof end);
    int descriptor = mkstemp(p->beside);
    if (descriptor < 0)
        return NULL;
    FILE *out = fdopen(descriptor, "wb");
    if (out == NULL || fchmod(descriptor, p->mode) != 0) {
        int error = errno;
        unlink(p->beside);
        out != NULL ? (void)fclose(out) : (void)close(descriptor);
        errno = error;
        return NULL;
    }
    return out;
}

static void quiet_warning(png_structp png, png_const_charp text)
{
    (void)png;
    (void)text;
}

/* The text stays with libpng, and errno tells more: the line is said where the file is named. */
static void jump(png_structp png, png_const_charp text)
{
    (void)text;
    longjmp(png_jmpbuf(png), 1);
}

/* Nothing that changes after setjmp is looked at after the jump. */
static bool encoded(png_structp png, png_infop info, FILE *out, png_uint_32 width, png_uint_32 height, const uint8_t *pixels)
{
    if (setjmp(png_jmpbuf(png)))
        return false;
    png_init_io(png, out);
    png_set_user_limits(png, PNG_UINT_31_MAX, PNG_UINT_31_MAX);
    png_set_compression_level(png, COMPRESSION);
    png_set_filter(png, PNG_FILTER_TYPE_BASE, PNG_FILTER_UP);
    png_set_IHDR(png, info, width, height, 8, PNG_COLOR_TYPE_RGB, PNG_INTERLACE_NONE, PNG_COMPRESSION_TYPE_DEFAULT,
                 PNG_FILTER_TYPE_DEFAULT);
    png_write_info(png, info);
    png_set_filler(png, 0, PNG_FILLER_AFTER);
    png_set_bgr(png);
    for (png_uint_32 row = 0; row < height; row++)
        png_write_row(png, pixels + (size_t)row * width * 4);
    png_write_end(png, info);
    return true;
}

/* 0, or the number of the error. */
static int write_png(FILE *out, size_t width, size_t height, const uint8_t *pixels)
{
    errno = 0;
    png_structp png = png_create_write_struct(PNG_LIBPNG_VER_STRING, NULL, jump, quiet_warning);
    png_infop info = png != NULL ? png_create_info_struct(png) : NULL;
    bool done = info != NULL && encoded(png, info, out, (png_uint_32)width, (png_uint_32)height, pixels);
    int error = done ? 0 : errno != 0 ? errno : EIO;
    png_destroy_write_struct(&png, &info);
    return error;
}

/* What would end the program, and leave the file beside the target there, has to wait. */
static void hold_signals(sigset_t *before)
{
    sigset_t ends;
    sigemptyset(&ends);
    sigaddset(&ends, SIGINT);
    sigaddset(&ends, SIGTERM);
    sigaddset(&ends, SIGHUP);
    sigprocmask(SIG_BLOCK, &ends, before);
}

static status write_place(place *p, size_t width, size_t height, const uint8_t *pixels)
{
    FILE *out = opened(p);
    if (out == NULL)
        return failed(p, strerror(errno));
    int error = write_png(out, width, height, pixels);
    if (fclose(out) != 0 && error == 0)
        error = errno;
    if (error == 0 && rename(p->beside, p->target) != 0)
        error = errno;
    if (error == 0)
        return STATUS_OK;
    unlink(p->beside);
    return failed(p, strerror(error));
}

status png_out(const char *file, size_t width, size_t height, const uint8_t *pixels)
{
    place p = {.file = file};
    status s = looked_at(&p);
    if (s == STATUS_OK) {
        sigset_t before;
        hold_signals(&before);
        s = write_place(&p, width, height, pixels);
        sigprocmask(SIG_SETMASK, &before, NULL);
    }
    place_free(&p);
    return s;
}
