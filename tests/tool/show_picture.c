/* show_picture FILE [BOX] [SHRINK] [whole]: reads a picture as the program does, and writes what it got: a line with the sides of the whole
 * picture and of the part, and its pixels, 4 bytes each; with `whole` those of the whole picture behind them. BOX is WxH+X+Y. Exits with
 * the status. */
#include "picture.h"

#include <stdio.h>
#include <stdlib.h>
#include <string.h>

static int usage(void)
{
    fprintf(stderr, "usage: show_picture FILE [WxH+X+Y] [SHRINK] [whole]\n");
    return STATUS_USAGE;
}

int main(int count, char **words)
{
    if (count < 2)
        return usage();
    part wanted = {.shrink = 1};
    for (int i = 2; i < count; i++) {
        box b;
        if (strcmp(words[i], "whole") == 0) {
            wanted.keep_whole = true;
        } else if (sscanf(words[i], "%zux%zu+%zu+%zu", &b.width, &b.height, &b.left, &b.top) == 4) {
            wanted.has_box = true;
            wanted.box = b;
        } else if (sscanf(words[i], "%zu", &wanted.shrink) != 1) {
            return usage();
        }
    }
    picture p;
    status s = picture_read(words[1], &wanted, &p);
    if (s != STATUS_OK)
        return s;
    printf("%zu %zu %zu %zu\n", p.whole_width, p.whole_height, p.width, p.height);
    fwrite(p.pixels, 4, p.width * p.height, stdout);
    if (p.whole != NULL)
        fwrite(p.whole, 4, p.whole_width * p.whole_height, stdout);
    picture_free(&p);
    return fflush(stdout) == 0 ? STATUS_OK : STATUS_FILE;
}
