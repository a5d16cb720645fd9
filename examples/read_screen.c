/* read_screen FILE: reads a screen file and prints what the library finds.
 *
 * A screen file has the line "height width", a line with both numbers (one to
 * four digits each, one space between), each ended by one line feed, then
 * 4 bytes a pixel, rows first. */
#include "folgutan.h"

#include <stdio.h>
#include <stdlib.h>
#include <string.h>

typedef struct {
    size_t height, width;
    uint8_t *pixels; /* all the bytes after the two lines */
    size_t pixels_len;
} screen;

/* One to four digits, then the byte `end`. */
static int read_number(FILE *in, int end, size_t *number)
{
    size_t value = 0;
    for (int digits = 0;; digits++) {
        int c = getc(in);
        if (c == end && digits > 0) {
            *number = value;
            return 1;
        }
        if (c < '0' || c > '9' || digits == 4)
            return 0;
        value = 10 * value + (size_t)(c - '0');
    }
}

static int read_heading(FILE *in, screen *s)
{
    const char *names = "height width\n";
    for (const char *c = names; *c != '\0'; c++)
        if (getc(in) != *c)
            return 0;
    return read_number(in, ' ', &s->height) && read_number(in, '\n', &s->width);
}

/* The rest of the file. There is always room for one byte more, so the
 * pointer is not NULL even where the rest is empty. */
static int read_pixels(FILE *in, screen *s)
{
    size_t room = 1 << 16;
    s->pixels_len = 0;
    s->pixels = malloc(room);
    while (s->pixels != NULL) {
        s->pixels_len += fread(s->pixels + s->pixels_len, 1, room - s->pixels_len, in);
        if (s->pixels_len < room)
            return !ferror(in);
        room *= 2;
        uint8_t *more = realloc(s->pixels, room);
        if (more == NULL)
            free(s->pixels);
        s->pixels = more;
    }
    return 0;
}

/* Numbers of four digits: their product with 3 fits. */
static size_t plane_values(const screen *s)
{
    return 3 * s->height * s->width;
}

static const char *meaning(uint32_t answer)
{
    switch (answer) {
    case FOLGUTAN_DONE: return "done";
    case FOLGUTAN_BAD_SIDE: return "a side is outside its limits";
    case FOLGUTAN_SHORT_PIXELS: return "too few pixel bytes";
    case FOLGUTAN_SHORT_SLICE: return "a lent slice is too short";
    case FOLGUTAN_BAD_VALUE: return "a plane value is not 0.0 to 1.0";
    case FOLGUTAN_TOO_SMALL: return "too small";
    case FOLGUTAN_COLUMNS_NO_GAP: return "columns without a gap above 5";
    case FOLGUTAN_COLUMNS_TOO_FAR: return "columns too far apart";
    case FOLGUTAN_ROWS_NO_GAP: return "rows without a gap above 5";
    case FOLGUTAN_ROWS_TOO_FAR: return "rows too far apart";
    case FOLGUTAN_BAD_PITCH: return "a pitch is not 8.0 to 200.0";
    case FOLGUTAN_BAD_NUMBER: return "a number is above its limit";
    case FOLGUTAN_OUTSIDE: return "a sampled place is not in the picture";
    case FOLGUTAN_BAD_FACTOR: return "a factor is not 2 to 5";
    case FOLGUTAN_NOT_ON_BOARD: return "a cell is not on the board";
    case FOLGUTAN_TOO_WIDE: return "more columns than are printed";
    default: return "unknown";
    }
}

static void print_load(const folgutan_loaded *loaded, const float *planes)
{
    printf("load: answer %u, %s\n", (unsigned)loaded->answer, meaning(loaded->answer));
    if (loaded->answer != FOLGUTAN_DONE)
        return;
    size_t height = loaded->board.height, width = loaded->board.width;
    size_t row = height / 2, column = width / 2;
    size_t at = row * width + column, plane = height * width;
    printf("sides: height %zu, width %zu\n", height, width);
    printf("centre pixel, row %zu, column %zu: planes %.6f %.6f %.6f\n", row, column,
           planes[at], planes[plane + at], planes[2 * plane + at]);
}

/* Prints the map of a board that was found, or why it has none. Answers 0 if it
 * did. */
static int print_map(folgutan_board board, const float *planes, size_t planes_len)
{
    /* enough for every map, and too much for a stack */
    uint8_t *text = calloc(FOLGUTAN_MOST_MAP, 1);
    if (text == NULL) {
        fprintf(stderr, "no memory for the map\n");
        return 1;
    }
    folgutan_printed map = folgutan_map(board, planes, planes_len, text, FOLGUTAN_MOST_MAP);
    if (map.answer == FOLGUTAN_DONE)
        fwrite(text, 1, map.length, stdout);
    else
        printf("map: answer %u, %s\n", (unsigned)map.answer, meaning(map.answer));
    free(text);
    return 0;
}

/* Samples one point of each cell: all in one call, which reads the planes once,
 * or, where a cell is off the picture, each by itself. 0 where that is so of it. */
static void sample_cells(folgutan_board board, const float *planes, size_t planes_len, float *cells,
                         int *there)
{
    size_t count = board.r * board.c;
    uint32_t answer = folgutan_sample_board(board, planes, planes_len, 1, cells, 3 * count);
    for (size_t n = 0; n < count; n++) {
        there[n] = answer == FOLGUTAN_DONE;
        if (answer == FOLGUTAN_OUTSIDE)
            there[n] = folgutan_sample(board, planes, planes_len, n / board.c, n % board.c, 1,
                                       cells + 3 * n, 3)
                       == FOLGUTAN_DONE;
    }
}

/* Prints the middle of each cell in plane 1, or ? off the picture. */
static void print_cells(folgutan_board board, const float *planes, size_t planes_len)
{
    size_t count = board.r * board.c;
    float *cells = calloc(3 * count + 1, sizeof *cells);
    int *there = calloc(count + 1, sizeof *there);
    if (cells != NULL && there != NULL) {
        sample_cells(board, planes, planes_len, cells, there);
        for (size_t n = 0; n < count; n++) {
            if (there[n])
                printf("%.2f", cells[3 * n + 1]);
            else
                printf("?");
            printf((n + 1) % board.c == 0 ? "\n" : " ");
        }
    } else {
        fprintf(stderr, "no memory for the cells\n");
    }
    free(there);
    free(cells);
}

/* The factor that the Rust original narrows by. */
enum { FACTOR = 3 };

/* Locates the board in the loaded planes and prints it, with the middle of each
 * cell from plane 1, and its map. Answers 0 if a board was found and printed. */
static int print_board(folgutan_board board, float *planes, size_t planes_len)
{
    size_t area = board.height * board.width, sides = board.height + board.width;
    uint8_t *edges = calloc(area, 1), *scratch_u8 = calloc(area, 1);
    uint32_t *scores = calloc(sides, sizeof *scores);
    uint32_t *scratch_u32 = calloc(4 * sides, sizeof *scratch_u32);
    float *scratch_f32 = calloc(area, sizeof *scratch_f32);
    int found = 1;
    if (edges && scratch_u8 && scores && scratch_u32 && scratch_f32) {
        folgutan_located l = folgutan_locate(board, FACTOR, planes, planes_len, edges, area, scores,
                                             sides, scratch_f32, area, scratch_u8, area,
                                             scratch_u32, 4 * sides);
        printf("locate: answer %u, %s\n", (unsigned)l.answer, meaning(l.answer));
        if (l.answer == FOLGUTAN_DONE) {
            printf("board: %zu rows, %zu columns, corners (%zu, %zu) and (%zu, %zu), "
                   "offsets %zu and %zu\n",
                   l.board.r, l.board.c, l.board.r_1, l.board.c_1, l.board.r_2, l.board.c_2,
                   l.board.r0, l.board.c0);
            printf("pitches: %.2f down with %u votes, %.2f across with %u votes\n", l.board.pixelr,
                   (unsigned)l.votesr, l.board.pixelc, (unsigned)l.votesc);
            print_cells(l.board, planes, planes_len);
            found = print_map(l.board, planes, planes_len);
        }
    } else {
        fprintf(stderr, "no memory for the slices\n");
    }
    free(scratch_f32);
    free(scratch_u32);
    free(scores);
    free(scratch_u8);
    free(edges);
    return found;
}

int main(int count, char **words)
{
    if (count != 2) {
        fprintf(stderr, "usage: read_screen FILE\n");
        return 2;
    }
    FILE *in = fopen(words[1], "rb");
    if (in == NULL) {
        perror(words[1]);
        return 2;
    }
    screen s;
    if (!read_heading(in, &s)) {
        fprintf(stderr, "%s: no screen file: its first two lines are wrong\n", words[1]);
        fclose(in);
        return 2;
    }
    int whole = read_pixels(in, &s);
    fclose(in);
    if (!whole) {
        fprintf(stderr, "%s: cannot be read to its end\n", words[1]);
        return 2;
    }

    /* The library refuses sides and pixels that do not fit; the planes it is
     * lent always do. calloc, since lent entries must have a value. */
    size_t planes_len = plane_values(&s);
    float *planes = calloc(planes_len + 1, sizeof *planes);
    if (planes == NULL) {
        fprintf(stderr, "no memory for the planes\n");
        free(s.pixels);
        return 2;
    }
    folgutan_loaded loaded =
        folgutan_load(s.height, s.width, s.pixels, s.pixels_len, planes, planes_len);
    print_load(&loaded, planes);
    int status = 1;
    if (loaded.answer == FOLGUTAN_DONE)
        status = print_board(loaded.board, planes, planes_len);

    free(planes);
    free(s.pixels);
    return status;
}
