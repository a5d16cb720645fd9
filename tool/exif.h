/* The one thing that is taken from an Exif block: how the picture is to be turned. */
#ifndef EXIF_H
#define EXIF_H

#include <stddef.h>
#include <stdint.h>

/* The orientation of a block, 1 to 8, from its byte order on (in a JPEG, behind "Exif" and two zeros). 1, upright as it is stored, where
 * the block has none or is damaged. */
unsigned exif_orientation(const uint8_t *block, size_t length);

#endif
