#include "laying.h"

#include "message.h"

#include <stdlib.h>
#include <string.h>

/* Orientations 5 to 8 make rows columns; these are mirrored before that. */
static bool is_turned(unsigned orientation)
{
    return orientation >= 5;
}

static bool mirrored_across(unsigned orientation)
{
    return orientation == 2 || orientation == 3 || orientation == 7 || orientation == 8;
}

static bool mirrored_down(unsigned orientation)
{
    return orientation == 3 || orientation == 4 || orientation == 6 || orientation == 7;
}

static laying_steps steps_of(unsigned orientation, size_t width, size_t height)
{
    laying_steps steps = {0, 1, (ptrdiff_t)width};
    if (is_turned(orientation))
        steps = (laying_steps){0, (ptrdiff_t)height, 1};
    if (mirrored_across(orientation)) {
        steps.corner += steps.across * ((ptrdiff_t)width - 1);
        steps.across = -steps.across;
    }
    if (mirrored_down(orientation)) {
        steps.corner += steps.down * ((ptrdiff_t)height - 1);
        steps.down = -steps.down;
    }
    return steps;
}

static bool is_large(size_t width, size_t height)
{
    return width > LAYING_MOST_SIDE || height > LAYING_MOST_SIDE;
}

/* Where the picture is held whole, beside what is read of it. The sides are not 0. */
static status check_kept(const laying *l, size_t width, size_t height, unsigned orientation)
{
    bool keep = l->wanted->keep_whole, twice = keep && l->given_whole && orientation > 1;
    size_t most = twice ? LAYING_MOST_HELD : LAYING_MOST_KEPT;
    if (!(keep || l->given_whole) || !is_large(width, height) || width <= most / height)
        return STATUS_OK;
    if (keep)
        message_error(l->file, "%zu by %zu pixels, more than %zu with --overlay: cut it to its board in another program", width, height,
                      most);
    else
        message_error(l->file, "%zu by %zu pixels, more than %zu of a JPEG file: save it as PNG, or cut it to its board in another program",
                      width, height, most);
    return STATUS_FILE;
}

/* What no part helps against comes first. */
static status check_whole(const laying *l, size_t width, size_t height, unsigned orientation)
{
    bool a_part = l->wanted->has_box || l->wanted->shrink > 1;
    if (width == 0 || height == 0) {
        message_error(l->file, "%zu by %zu pixels: there is no picture in it", width, height);
        return STATUS_FILE;
    }
    if (width > LAYING_MOST_WHOLE_SIDE || height > LAYING_MOST_WHOLE_SIDE || width > LAYING_MOST_PIXELS / height) {
        message_error(l->file, "%zu by %zu pixels, more than %d a side or %d in all: cut it to its board in another program", width,
                      height, LAYING_MOST_WHOLE_SIDE, LAYING_MOST_PIXELS);
        return STATUS_FILE;
    }
    status s = check_kept(l, width, height, orientation);
    if (s == STATUS_OK && !a_part && is_large(width, height)) {
        message_error(l->file, "%zu by %zu pixels, more than %d a side: give a part of it with --box, or make it smaller with --shrink",
                      width, height, LAYING_MOST_SIDE);
        return STATUS_FILE;
    }
    return s;
}

static status check_part(const laying *l, size_t width, size_t height)
{
    const box *b = &l->out->box;
    const char *what = l->wanted->has_box ? "the box" : "the picture";
    if (b->left > width || b->width > width - b->left || b->top > height || b->height > height - b->top) {
        message_error(l->file, "the box %zux%zu+%zu+%zu does not lie in the picture, which has %zu by %zu pixels", b->width, b->height,
                      b->left, b->top, width, height);
        return STATUS_USAGE;
    }
    if (l->out->width == 0 || l->out->height == 0) {
        message_error(l->file, "%s of %zu by %zu pixels is too small for --shrink %zu: nothing is left", what, b->width, b->height,
                      l->out->shrink);
        return STATUS_USAGE;
    }
    if (l->out->width > LAYING_MOST_SIDE || l->out->height > LAYING_MOST_SIDE) {
        message_error(l->file, "%s has %zu by %zu pixels, more than %d a side: give a %s, or a larger --shrink", what, l->out->width,
                      l->out->height, LAYING_MOST_SIDE, l->wanted->has_box ? "smaller --box" : "part of it with --box");
        return STATUS_FILE;
    }
    return STATUS_OK;
}

/* The part in stored pixels. It is a whole number of blocks, so that the blocks are the same ones however the picture is stored. */
static void place_part(laying *l, unsigned orientation)
{
    const picture *p = l->out;
    bool turned = is_turned(orientation);
    size_t across = (turned ? p->height : p->width) * p->shrink, down = (turned ? p->width : p->height) * p->shrink;
    l->left = turned ? p->box.top : p->box.left;
    l->top = turned ? p->box.left : p->box.top;
    if (mirrored_across(orientation))
        l->left = l->width - l->left - across;
    if (mirrored_down(orientation))
        l->top = l->height - l->top - down;
    l->right = l->left + across;
    l->bottom = l->top + down;
    l->whole = steps_of(orientation, l->width, l->height);
    l->part = steps_of(orientation, across / p->shrink, down / p->shrink);
}

/* Sides within their limits: no product overflows. */
static bool get_memory(laying *l)
{
    picture *p = l->out;
    p->pixels = malloc(p->width * p->height * LAYING_PIXEL);
    if (p->pixels == NULL)
        return false;
    if (p->shrink > 1 && (l->sums = calloc((l->right - l->left) / p->shrink * 3, sizeof *l->sums)) == NULL)
        return false;
    return !l->wanted->keep_whole || (p->whole = malloc(l->width * l->height * LAYING_PIXEL)) != NULL;
}

status laying_begin(laying *l, size_t width, size_t height, unsigned orientation)
{
    picture *p = l->out;
    l->width = width;
    l->height = height;
    p->whole_width = is_turned(orientation) ? height : width;
    p->whole_height = is_turned(orientation) ? width : height;
    p->box = l->wanted->has_box ? l->wanted->box : (box){p->whole_width, p->whole_height, 0, 0};
    p->shrink = l->wanted->shrink > 1 ? l->wanted->shrink : 1;
    p->width = p->box.width / p->shrink;
    p->height = p->box.height / p->shrink;
    status s = check_whole(l, p->whole_width, p->whole_height, orientation);
    if (s == STATUS_OK)
        s = check_part(l, p->whole_width, p->whole_height);
    if (s != STATUS_OK)
        return s;
    place_part(l, orientation);
    if (get_memory(l))
        return STATUS_OK;
    message_error(l->file, "no memory for %zu by %zu pixels", p->whole_width, p->whole_height);
    return STATUS_FILE;
}

void laying_end(laying *l)
{
    free(l->sums);
    l->sums = NULL;
}

/* Stored as it is upright. */
static bool is_plain(const laying *l)
{
    return l->whole.corner == 0 && l->whole.across == 1 && l->whole.down == (ptrdiff_t)l->width;
}

uint8_t *laying_direct(const laying *l)
{
    const picture *p = l->out;
    if (!is_plain(l))
        return NULL;
    if (p->whole != NULL)
        return p->whole;
    return p->width == l->width && p->height == l->height ? p->pixels : NULL;
}

/* Places pixels of one row. */
static void place(uint8_t *to, laying_steps steps, size_t y, const uint8_t *from, size_t count)
{
    to += (steps.corner + steps.down * (ptrdiff_t)y) * LAYING_PIXEL;
    if (to == from)
        return;
    if (steps.across == 1) {
        memcpy(to, from, count * LAYING_PIXEL);
        return;
    }
    for (size_t x = 0; x < count; x++)
        memcpy(to + steps.across * (ptrdiff_t)x * LAYING_PIXEL, from + x * LAYING_PIXEL, LAYING_PIXEL);
}

static void add_row(laying *l, const uint8_t *from, size_t blocks)
{
    size_t n = l->out->shrink;
    for (size_t i = 0; i < blocks; i++, from += n * LAYING_PIXEL) {
        uint32_t blue = 0, green = 0, red = 0; /* at most 255 times a side */
        for (const uint8_t *pixel = from; pixel < from + n * LAYING_PIXEL; pixel += LAYING_PIXEL) {
            blue += pixel[0];
            green += pixel[1];
            red += pixel[2];
        }
        l->sums[3 * i] += blue;
        l->sums[3 * i + 1] += green;
        l->sums[3 * i + 2] += red;
    }
}

/* The mean of each block, to the nearest; the sums begin anew. */
static void place_means(laying *l, size_t y, size_t blocks)
{
    uint64_t count = (uint64_t)l->out->shrink * l->out->shrink;
    for (size_t i = 0; i < blocks; i++) {
        uint8_t *to = l->out->pixels + (l->part.corner + l->part.down * (ptrdiff_t)y + l->part.across * (ptrdiff_t)i) * LAYING_PIXEL;
        for (size_t k = 0; k < 3; k++)
            to[k] = (uint8_t)((2 * l->sums[3 * i + k] + count) / (2 * count));
        to[3] = 255;
    }
    memset(l->sums, 0, 3 * blocks * sizeof *l->sums);
}

void laying_row(laying *l, size_t y, const uint8_t *row)
{
    picture *p = l->out;
    if (p->whole != NULL)
        place(p->whole, l->whole, y, row, l->width);
    if (y < l->top || y >= l->bottom)
        return;
    const uint8_t *from = row + l->left * LAYING_PIXEL;
    y -= l->top;
    if (p->shrink == 1) {
        place(p->pixels, l->part, y, from, l->right - l->left);
        return;
    }
    size_t blocks = (l->right - l->left) / p->shrink;
    add_row(l, from, blocks);
    if (y % p->shrink == p->shrink - 1)
        place_means(l, y / p->shrink, blocks);
}
