#include "input.h"

#include "message.h"

#include <errno.h>
#include <string.h>

static const char *trouble(int error)
{
    switch (error) {
    case ENOENT: return "there is no such file";
    case EACCES: return "no permission to read it";
    case EISDIR: return "a directory, no picture file";
    default: return strerror(error);
    }
}

status input_of(input *in, FILE *file, const char *name)
{
    *in = (input){.name = name, .file = file, .most = SIZE_MAX};
    errno = 0;
    in->first_len = fread(in->first, 1, sizeof in->first, file);
    if (in->first_len == sizeof in->first || (in->first_len > 0 && !ferror(file)))
        return STATUS_OK;
    if (ferror(file))
        message_error(name, "cannot be read: %s", trouble(errno));
    else
        message_error(name, "empty: there is no picture in it");
    return STATUS_FILE;
}

status input_open(input *in, const char *file)
{
    FILE *from = strcmp(file, "-") == 0 ? stdin : fopen(file, "rb");
    if (from == NULL) {
        *in = (input){.name = file};
        message_error(file, "cannot be opened: %s", trouble(errno));
        return STATUS_FILE;
    }
    status s = input_of(in, from, file);
    if (s != STATUS_OK)
        input_close(in);
    return s;
}

void input_close(input *in)
{
    if (in->file != NULL && in->file != stdin)
        fclose(in->file);
    in->file = NULL;
}

size_t input_read(input *in, uint8_t *to, size_t length)
{
    size_t wanted = length, got = 0;
    if (wanted > in->most - in->taken)
        wanted = in->most - in->taken;
    while (got < wanted && in->taken < in->first_len) {
        to[got++] = in->first[in->taken++];
    }
    if (got < wanted) {
        errno = 0;
        size_t came = fread(to + got, 1, wanted - got, in->file);
        got += came;
        in->taken += came;
    }
    if (got < wanted) {
        in->end = ferror(in->file) ? INPUT_FAILED : INPUT_ENDED;
        in->error = errno;
    } else if (got < length) {
        in->end = INPUT_LIMIT;
    }
    return got;
}
