#include "picture.h"

#include "input.h"
#include "jpeg_in.h"
#include "laying.h"
#include "message.h"
#include "png_in.h"
#include "screen_in.h"

#include <stdlib.h>

static status decode(input *in, laying *to)
{
    if (png_in_is(in))
        return png_in(in, to);
    if (jpeg_in_is(in))
        return jpeg_in(in, to);
    if (screen_in_is(in))
        return screen_in(in, to);
    message_error(in->name, "neither PNG, JPEG nor a screen file");
    return STATUS_FILE;
}

status picture_take(input *in, const part *wanted, picture *out)
{
    *out = (picture){.pixels = NULL};
    laying to = {.file = in->name, .wanted = wanted, .out = out};
    status s = decode(in, &to);
    laying_end(&to);
    if (s != STATUS_OK)
        picture_free(out);
    return s;
}

status picture_read(const char *file, const part *wanted, picture *out)
{
    input in;
    *out = (picture){.pixels = NULL};
    status s = input_open(&in, file);
    if (s != STATUS_OK)
        return s;
    s = picture_take(&in, wanted, out);
    input_close(&in);
    return s;
}

void picture_free(picture *p)
{
    free(p->whole);
    free(p->pixels);
    *p = (picture){.pixels = NULL};
}
