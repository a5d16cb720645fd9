/* What the parts of the interface test share. Each call of the library has a part of its own. */
#ifndef CHECK_H
#define CHECK_H

#include <stddef.h>
#include <stdint.h>

/* Counts a check; one that fails is named by the case and by what was looked at. */
void check(int holds, const char *where, const char *what);

uint32_t bits_of(float x);

/* Patterns for entries that must keep their content: none is a value that the library writes, and
 * some are no number. */
uint32_t canary(size_t at);

/* The binary32 with these bits. */
float float_of(uint32_t bits);

/* Memory of n entries of this many bytes, or the end of the test. */
void *memory(size_t n, size_t bytes);

/* A list of binary32 with a margin of canaries on both sides: the entries themselves hold canaries
 * too, and start at `at`. */
typedef struct {
    float *whole, *at;
    size_t len;
} lent_floats;

/* Entries around a lent slice, so that a write outside it shows. */
#define MARGIN 16

lent_floats lend(size_t len);

/* All entries but the first `written` are as lend made them, those around included. */
int kept(lent_floats lent, size_t written);

/* A canary of one byte: above 127, so that it is in no text. */
uint8_t byte_canary(size_t at);

/* The same of bytes. */
typedef struct {
    uint8_t *whole, *at;
    size_t len;
} lent_bytes;

lent_bytes lend_bytes(size_t len);
int bytes_kept(lent_bytes lent, size_t written);

/* The place of a bad value where there is none. */
#define NOWHERE SIZE_MAX

/* The sampled row or column of point i of a cell, each operation rounded once. */
size_t place_of(size_t corner, size_t offset, float pitch, size_t cell, size_t size, size_t i);

#define COUNT(list) (sizeof(list) / sizeof((list)[0]))

/* The parts. */
void test_load(void);
void test_gradient(void);
void test_locate(void);
void test_read_line(void);
void test_sample(void);
void test_sample_board(void);
void test_map(void);

#endif
