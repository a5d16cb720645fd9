/* Folgutan: finds the cells of a board on a screen picture.
 *
 * Link with libfolgutan.a. Comments name sections of the scope paper as
 * "01, Load", and later requests as "02, R-1".
 *
 * Lent slices. A slice is passed as a pointer and the number of its entries.
 * - The pointer is never NULL, not even where the number is 0, and is aligned
 *   for its type; all the entries are there, and have been given a value.
 * - A slice without const overlaps no other slice of the same call.
 * - No other thread writes a slice, or reads one without const, before the
 *   call returns.
 * - Nothing is kept: once a call returned, the slices are the caller's again.
 * The library allocates nothing, holds no state, and never fails but by its
 * answer, on condition that the slices are as said and that the calling thread
 * has FOLGUTAN_MOST_STACK bytes of stack left. It counts on the floating-point
 * environment that a C program starts with: rounding to nearest, and subnormal
 * numbers kept. */
#ifndef FOLGUTAN_H
#define FOLGUTAN_H

#include <stddef.h>
#include <stdint.h>

#ifdef __cplusplus
extern "C" {
#endif

/* The bytes of stack that a call takes at most, whatever it is handed, its
 * arguments included. Where fewer are left, it can trap. */
#define FOLGUTAN_MOST_STACK 65536

/* Limits of both sides of a screen that is loaded (01, Load). */
#define FOLGUTAN_LEAST_SIDE 12
#define FOLGUTAN_MOST_SIDE 4096

/* The least side of planes that are worked on: a narrowed screen is smaller
 * than a loaded one. */
#define FOLGUTAN_LEAST_PLANE_SIDE 4

/* Limits of the factor that locating narrows by (02, R-1). */
#define FOLGUTAN_LEAST_FACTOR 2
#define FOLGUTAN_MOST_FACTOR 5

/* Limits of a list of scores: its length and its entries. */
#define FOLGUTAN_LEAST_LIST 4
#define FOLGUTAN_MOST_LIST 4096
#define FOLGUTAN_MOST_SCORE 4096

/* Limits of sampling: both pitches, the numbers of a cell, the record's corner
 * and offsets, of a board that is sampled whole also its counts, the size of a
 * sampled cell, and how many values it has (02, R-2): an output of
 * FOLGUTAN_MOST_CELL_VALUES entries, 1728, is never too short for
 * folgutan_sample. */
#define FOLGUTAN_LEAST_PITCH 8.0f
#define FOLGUTAN_MOST_PITCH 200.0f
#define FOLGUTAN_MOST_NUMBER 4096
#define FOLGUTAN_MOST_SIZE 24
#define FOLGUTAN_MOST_CELL_VALUES (3 * FOLGUTAN_MOST_SIZE * FOLGUTAN_MOST_SIZE)

/* Limits of a printed map (02, R-6): the columns and rows of the board, and how
 * long its text is: an output of FOLGUTAN_MOST_MAP bytes is never too short. */
#define FOLGUTAN_MOST_MAP_COLUMNS 80
#define FOLGUTAN_MOST_MAP_ROWS 4096
#define FOLGUTAN_MOST_MAP 331797

/* Answers. Where a call finds several faults, its own list of refusals says
 * which is found first (01, How each operation declines). */
#define FOLGUTAN_DONE 0         /* the work was done */
#define FOLGUTAN_BAD_SIDE 1     /* a side is outside its limits */
#define FOLGUTAN_SHORT_PIXELS 2 /* too few pixel bytes */
#define FOLGUTAN_SHORT_SLICE 3  /* another lent slice is too short */
#define FOLGUTAN_BAD_VALUE 4    /* a plane value is not 0.0 to 1.0, or is -0.0 */
#define FOLGUTAN_TOO_SMALL 5    /* no board was found before the screen was too small */
#define FOLGUTAN_COLUMNS_NO_GAP 6  /* no two neighbouring lines more than 5 apart */
#define FOLGUTAN_COLUMNS_TOO_FAR 7 /* the lines are 206 or more apart */
#define FOLGUTAN_ROWS_NO_GAP 8     /* as 6, of the rows */
#define FOLGUTAN_ROWS_TOO_FAR 9    /* as 7, of the rows */
#define FOLGUTAN_BAD_PITCH 10      /* a pitch is not 8.0 to 200.0 */
#define FOLGUTAN_BAD_NUMBER 11     /* a number is above its limit */
#define FOLGUTAN_OUTSIDE 12        /* a sampled place is not in the picture */
#define FOLGUTAN_BAD_FACTOR 13     /* a factor is not 2 to 5 */
#define FOLGUTAN_NOT_ON_BOARD 14   /* a cell is not on the board */
#define FOLGUTAN_TOO_WIDE 15       /* a board has more columns than are printed */

/* Reading one list has the two answers of the columns. */
#define FOLGUTAN_NO_GAP FOLGUTAN_COLUMNS_NO_GAP
#define FOLGUTAN_TOO_FAR FOLGUTAN_COLUMNS_TOO_FAR

/* The board record (01, Load; 02, R-5). It is passed and handed back by
 * value. */
typedef struct {
    size_t height, width;  /* sides of the picture in the planes, in pixels */
    size_t r_1, c_1;       /* the corner: top row and left column of the board */
    size_t r_2, c_2;       /* the far corner: bottom row and right column of the
                            * board themselves, not one past. Zeros after
                            * loading; set by locating on FOLGUTAN_DONE alone,
                            * and looked at by no call */
    size_t r0, c0;         /* where the grid of cells begins, from the corner:
                            * the smallest offset with the most votes. No line
                            * has to lie there */
    size_t r, c;           /* rows and columns of cells */
    float pixelr, pixelc;  /* pitch of the cells, down and across, in pixels */
} folgutan_board;

/* What loading hands back. */
typedef struct {
    folgutan_board board;
    uint32_t answer;
} folgutan_loaded;

/* Makes three planes of a screen (01, Load).
 *
 * pixels: 4 bytes a pixel, rows first; 4 * height * width bytes are read, and
 *   byte 3 of each pixel and all bytes further on are ignored.
 * planes: plane k (0, 1, 2) is the height * width entries from
 *   k * height * width on, rows first: byte 2 - k of each pixel divided by
 *   255.0, to the nearest binary32.
 *
 * FOLGUTAN_DONE: the first 3 * height * width entries of planes are written,
 *   and those further on keep their content. The record has the two sides,
 *   and zeros otherwise.
 * Refusals, the first that holds:
 *   FOLGUTAN_BAD_SIDE      height or width is outside 12 to 4096
 *   FOLGUTAN_SHORT_PIXELS  pixels_len is below 4 * height * width
 *   FOLGUTAN_SHORT_SLICE   planes_len is below 3 * height * width
 *   Then nothing is written, and the record is all zeros. */
folgutan_loaded folgutan_load(size_t height, size_t width,
                              const uint8_t *pixels, size_t pixels_len,
                              float *planes, size_t planes_len);

/* The gradient of three planes (01, Gradient and threshold).
 *
 * planes: as loading leaves them; plane k (0, 1, 2) is the height * width
 *   entries from k * height * width on, rows first.
 * out: (height - 2) * (width - 2) values, rows first: at (i, j) the largest
 *   magnitude of the six sums over the 3 by 3 points from (i, j) on.
 *
 * FOLGUTAN_DONE: the first (height - 2) * (width - 2) entries of out are
 *   written, and those further on keep their content.
 * Refusals, the first that holds:
 *   FOLGUTAN_BAD_SIDE     height or width is outside 4 to 4096
 *   FOLGUTAN_SHORT_SLICE  planes_len is below 3 * height * width, or out_len
 *                         below (height - 2) * (width - 2)
 *   FOLGUTAN_BAD_VALUE    one of the first 3 * height * width plane values is
 *                         not 0.0 to 1.0, or is -0.0
 *   Then nothing is written. */
uint32_t folgutan_gradient(size_t height, size_t width,
                           const float *planes, size_t planes_len,
                           float *out, size_t out_len);

/* What locating hands back. Quarters and votes are 0 unless the answer is 0;
 * narrowed is 0 after FOLGUTAN_BAD_FACTOR, FOLGUTAN_BAD_SIDE,
 * FOLGUTAN_SHORT_SLICE and FOLGUTAN_BAD_VALUE. */
typedef struct {
    folgutan_board board;
    uint32_t answer;
    uint32_t quarterr, quarterc;  /* the pitches in quarters of a pixel */
    uint32_t votesr, votesc;      /* of each pitch with its offset */
    uint32_t narrowed;            /* how often the planes were narrowed */
} folgutan_located;

/* Finds a board in the planes of a screen (01, Locating; 02, R-1 and R-3 to
 *
 *
 * board: only its sides, h and w, are looked at.
 * factor: 2 to 5, the same for each narrowing of the call. Both sides are
 *   divided by it, and rows and columns left over fall away. A point of the
 *   narrowed planes is entry factor * factor / 2, rounded down and counted
 *   from 0, of its factor by factor block sorted rising: the third of 4
 *   values, the fifth of 9, the ninth of 16, the thirteenth of 25. The Rust
 *   original narrows by 3. A screen that needs no narrowing reads the same
 *   with every factor that its sides allow.
 * planes: 3 * h * w values, as loading leaves them.
 * edges: at least h * w bytes.
 * scores: at least h + w entries.
 * scratch_f32, scratch_u8: at least h * w entries each; scratch_u32: at least
 *   4 * (h + w). What these entries hold does not matter, and they are free
 *   afterwards. Entries further on keep their content.
 *
 * FOLGUTAN_DONE: the record is the board's. Its sides, corners, offsets and
 *   pitches are in pixels of the planes as they are left, also after a
 *   narrowing: sampling takes this record and these planes as they are. With n
 *   narrowings a pixel of them is factor^n by factor^n pixels of the screen as
 *   it came in. r_1 + 4 <= r_2 <= height - 3 and c_1 + 4 <= c_2 <= width - 3.
 *   The count of rows or of columns can be 0. The cells need not end at the far
 *   corner, and points of the last ones can lie past it.
 * Refusals, the first that holds:
 *   FOLGUTAN_BAD_FACTOR   factor is outside 2 to 5
 *   FOLGUTAN_BAD_SIDE     h or w is below 12, below 4 * factor (16 for 4, 20
 *                         for 5), or above 4096: a screen that was loaded can
 *                         be too small for its factor
 *   FOLGUTAN_SHORT_SLICE  one of the six slices is too short
 *   FOLGUTAN_BAD_VALUE    one of the first 3 * h * w plane values is not 0.0
 *                         to 1.0, or is -0.0
 *   Then nothing is written, scratch included, and the record is handed back
 *   as given. Further refusals:
 *   FOLGUTAN_TOO_SMALL        a board that covers more than a third of the
 *                             picture was not found before a side, less 2, was
 *                             64 or below
 *   FOLGUTAN_COLUMNS_NO_GAP   no two neighbouring column lines are more than 5
 *                             apart
 *   FOLGUTAN_COLUMNS_TOO_FAR  column lines are some 206 or more apart
 *   FOLGUTAN_ROWS_NO_GAP, FOLGUTAN_ROWS_TOO_FAR  the same of the rows
 *   Then the record has the new sides, and its other fields are as given: after
 *   a narrowing a far corner as given can lie past the sides.
 * Whatever the answer: a record given with r_1 < r_2 < height and
 *   c_1 < c_2 < width has it afterwards too, wherever its sides are unchanged.
 *
 * After FOLGUTAN_DONE and the further refusals:
 * - planes hold the picture, narrowed as often as `narrowed` says and packed by
 *   the new sides, then 0.0 up to the old 3 * h * w;
 * - edges start with the edge picture of the planes as they are left, with
 *   board.height and board.width as they are handed back
 *   (height - 2) * (width - 2) bytes, rows first, 1 for set and 0 for unset.
 *   Unless the answer is FOLGUTAN_TOO_SMALL, it is the picture that was scored;
 * - scores start with the column scores, followed by the row scores. The board
 *   spans the columns c_1 to c_2 and the rows r_1 to r_2 of the edge picture.
 *   Each column from c_1 to c_2 has one score, in order, c_2 - c_1 + 1 of them;
 *   then each row from r_1 to r_2 has one, r_2 - r_1 + 1. (The Rust original has
 *   none for column c_2 - 2 and none for row r_2 - 2.) Both spans are at least
 *   4, and both lists together have at most h + w - 4 entries. After
 *   FOLGUTAN_DONE these four are the record's, so that row scores begin at entry
 *   board.c_2 - board.c_1 + 1; after the refusals they are not handed back.
 *   After FOLGUTAN_TOO_SMALL scores are unchanged.
 * Entries further on keep their content: behind a narrowed edge picture nothing
 * is left of an earlier one. */
folgutan_located folgutan_locate(folgutan_board board, size_t factor,
                                 float *planes, size_t planes_len,
                                 uint8_t *edges, size_t edges_len,
                                 uint32_t *scores, size_t scores_len,
                                 float *scratch_f32, size_t scratch_f32_len,
                                 uint8_t *scratch_u8, size_t scratch_u8_len,
                                 uint32_t *scratch_u32, size_t scratch_u32_len);

/* What a line reading hands back: zeros unless the answer is 0. */
typedef struct {
    uint32_t answer;
    float pitch;    /* in pixels, a multiple of 0.25: 8.0 to 200.0 */
    size_t offset;  /* where the grid of cells begins: the smallest one with
                     * the most votes. No line has to lie there */
    size_t count;   /* of cells; it can be 0 */
    size_t votes;   /* of this pitch with this offset: at least 1 */
} folgutan_reading;

/* Reads pitch, offset and count of a list of scores (01, Lines and votes).
 *
 * list: the scores, and only they: its length is the number of scores.
 * scratch: at least 4 * list_len entries. What these entries hold does not
 *   matter, and they are free afterwards, on refusals too. Entries further on
 *   keep their content.
 *
 * FOLGUTAN_DONE: the reading.
 * Refusals, the first that holds:
 *   FOLGUTAN_BAD_SIDE     list_len is outside 4 to 4096
 *   FOLGUTAN_SHORT_SLICE  scratch_len is below 4 * list_len
 *   FOLGUTAN_BAD_NUMBER   an entry is above 4096
 *   FOLGUTAN_NO_GAP       no two neighbouring lines are more than 5 apart
 *   FOLGUTAN_TOO_FAR      the lines are some 206 or more apart
 *   Then pitch, offset, count and votes are zeros. */
folgutan_reading folgutan_read_line(const uint32_t *list, size_t list_len,
                                    uint32_t *scratch, size_t scratch_len);

/* Samples one cell of a board (01, Cell sampling; 02, R-2 and R-5).
 *
 * board: a record from locating, or one of the caller's own. Sides, corner,
 *   offsets, pitches and the counts r and c are taken; r_2 and c_2 are not
 *   looked at.
 * planes: as locating leaves them.
 * x, y: the board row and the board column of the cell, x below board.r and y
 *   below board.c.
 * out: 3 * size * size values; entry k * size * size + i * size + j is plane k
 *   at point (i, j) of the cell. Size 0 writes nothing, and size 24, the
 *   largest, FOLGUTAN_MOST_CELL_VALUES values.
 *
 * Each call reads all planes for FOLGUTAN_BAD_VALUE, whatever the size of the
 * cell: one pass over the planes (3 to 4 ms at 1920 by 1080). All cells of a
 * board take one such pass by folgutan_sample_board.
 *
 * FOLGUTAN_DONE: the first 3 * size * size entries of out are written, and
 *   those further on keep their content.
 * Refusals, the first that holds:
 *   FOLGUTAN_BAD_SIDE     board.height or board.width is outside 4 to 4096
 *   FOLGUTAN_SHORT_SLICE  planes_len is below 3 * height * width
 *   FOLGUTAN_BAD_VALUE    one of these plane values is not 0.0 to 1.0, or is
 *                         -0.0
 *   FOLGUTAN_BAD_PITCH    pixelr or pixelc is not 8.0 to 200.0
 *   FOLGUTAN_BAD_NUMBER   x, y, r_1, c_1, r0 or c0 is above 4096, or size
 *                         above 24
 *   FOLGUTAN_NOT_ON_BOARD x is not below board.r, or y not below board.c; at
 *                         size 0 too. Where a count is 0, that is every cell
 *   FOLGUTAN_SHORT_SLICE  out_len is below 3 * size * size
 *   FOLGUTAN_OUTSIDE      a sampled row or column is not in the picture, which
 *                         can be so of a cell on the board of a located record
 *   Then nothing is written. */
uint32_t folgutan_sample(folgutan_board board,
                         const float *planes, size_t planes_len,
                         size_t x, size_t y, size_t size,
                         float *out, size_t out_len);

/* Samples every cell of a board: each as folgutan_sample gives it, with one
 * check of the planes.
 *
 * board, planes: as for folgutan_sample.
 * out: 3 * board.r * board.c * size * size values: the cells one after another,
 *   rows first, each of 3 * size * size values: cell (x, y) begins at
 *   (x * board.c + y) * 3 * size * size. At size 0, and of a board without rows
 *   or without columns, there is no value, and nothing is written; all checks
 *   are made, but no cell is there to be refused.
 *
 * FOLGUTAN_DONE: the first 3 * board.r * board.c * size * size entries of out
 *   are written, and those further on keep their content.
 * Refusals, the first that holds:
 *   FOLGUTAN_BAD_SIDE     board.height or board.width is outside 4 to 4096
 *   FOLGUTAN_SHORT_SLICE  planes_len is below 3 * height * width
 *   FOLGUTAN_BAD_VALUE    one of these plane values is not 0.0 to 1.0, or is
 *                         -0.0
 *   FOLGUTAN_BAD_PITCH    pixelr or pixelc is not 8.0 to 200.0
 *   FOLGUTAN_BAD_NUMBER   r_1, c_1, r0, c0, r or c is above 4096, or size above
 *                         24
 *   FOLGUTAN_SHORT_SLICE  out_len is below 3 * board.r * board.c * size * size
 *   FOLGUTAN_OUTSIDE      a sampled row or column of some cell is not in the
 *                         picture, which can be so of a located record. Which
 *                         cell it is, the answer does not tell. Rows and columns
 *                         grow with the cell's x and y: with smaller counts the
 *                         cells that are in the picture are sampled
 *   Then nothing is written. */
uint32_t folgutan_sample_board(folgutan_board board,
                               const float *planes, size_t planes_len,
                               size_t size,
                               float *out, size_t out_len);

/* What printing hands back. */
typedef struct {
    uint32_t answer;
    size_t length;  /* of the text in bytes; 0 unless the answer is 0 */
} folgutan_printed;

/* Prints the map of a board (02, R-6), as
 *
 *   rows columns
 *   2 8
 *   ..::oo??
 *   ##....??
 *
 * A line of names, a line with board.r and board.c, then a line for each board
 * row: a mark for each cell, and spaces at the right, which are not shown
 * above, up to 80 characters. Each line ends in one line feed; no zero follows
 * the text.
 *
 * A mark tells the level of the cell's green plane, plane 1, at the point that
 * folgutan_sample takes at size 1: 255.0 * v + 0.5 without its fraction, each
 * operation rounded to binary32. For a screen loaded from bytes and not
 * narrowed that is byte 1 of the pixel.
 *   .  0 to 42      :  43 to 84     o  85 to 127
 *   O  128 to 212   #  213 to 255   ?  the point is not in the picture
 *
 * board: a record from locating, or one of the caller's own. Sides, corner,
 *   offsets, pitches and the counts r and c are taken; r_2 and c_2 are not
 *   looked at. With board.r 0 the text is the first two lines, with board.c 0
 *   each board row is 80 spaces.
 * planes: as locating leaves them. They are checked for FOLGUTAN_BAD_VALUE
 *   once, which takes nearly all the time of a call.
 * out: with digits(n) the decimal digits of n, 13 + digits(board.r) + 1 +
 *   digits(board.c) + 1 + 81 * board.r bytes, at most FOLGUTAN_MOST_MAP.
 *
 * FOLGUTAN_DONE: the first `length` bytes of out are the text, and those
 *   further on keep their content.
 * Refusals, the first that holds:
 *   FOLGUTAN_BAD_SIDE     board.height or board.width is outside 4 to 4096
 *   FOLGUTAN_SHORT_SLICE  planes_len is below 3 * height * width
 *   FOLGUTAN_BAD_VALUE    one of these plane values is not 0.0 to 1.0, or is
 *                         -0.0
 *   FOLGUTAN_BAD_PITCH    pixelr or pixelc is not 8.0 to 200.0
 *   FOLGUTAN_BAD_NUMBER   r_1, c_1, r0 or c0 is above 4096
 *   FOLGUTAN_TOO_WIDE     board.c is above 80
 *   FOLGUTAN_BAD_NUMBER   board.r is above 4096
 *   FOLGUTAN_SHORT_SLICE  out_len is below the length of the text
 *   Then nothing is written, and the length is 0. */
folgutan_printed folgutan_map(folgutan_board board,
                              const float *planes, size_t planes_len,
                              uint8_t *out, size_t out_len);

#ifdef __cplusplus
}
#endif

#endif
