/* Writes a PNG. */
#ifndef PNG_OUT_H
#define PNG_OUT_H

#include "status.h"

#include <stdbool.h>
#include <stddef.h>
#include <stdint.h>

/* Writes pixels of blue, green, red and a fourth byte, rows first, to FILE, by a file beside it that is renamed: FILE is there as a
 * whole, or as it was. Where it cannot, one line is said, and the answer is STATUS_FILE. */
status png_out(const char *file, size_t width, size_t height, const uint8_t *pixels);

/* FILE is the file that is read: as `input` names it, or as standard input, "-". */
bool png_out_same(const char *file, const char *input);

#endif
