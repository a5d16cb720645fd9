/* The calls of the library as the parts make them: each runs on a stack of FOLGUTAN_MOST_STACK bytes
 * and no more, and its answer is counted. */
#ifndef CALLS_H
#define CALLS_H

#include "folgutan.h"

folgutan_loaded measured_load(size_t height, size_t width, const uint8_t *pixels,
                              size_t pixels_len, float *planes, size_t planes_len);
uint32_t measured_gradient(size_t height, size_t width, const float *planes, size_t planes_len,
                           float *out, size_t out_len);
folgutan_located measured_locate(folgutan_board board, size_t factor, float *planes,
                                 size_t planes_len, uint8_t *edges, size_t edges_len,
                                 uint32_t *scores, size_t scores_len, float *scratch_f32,
                                 size_t scratch_f32_len, uint8_t *scratch_u8,
                                 size_t scratch_u8_len, uint32_t *scratch_u32,
                                 size_t scratch_u32_len);
folgutan_reading measured_read_line(const uint32_t *list, size_t list_len, uint32_t *scratch,
                                    size_t scratch_len);
uint32_t measured_sample(folgutan_board board, const float *planes, size_t planes_len, size_t x,
                         size_t y, size_t size, float *out, size_t out_len);
uint32_t measured_sample_board(folgutan_board board, const float *planes, size_t planes_len,
                               size_t size, float *out, size_t out_len);
folgutan_printed measured_map(folgutan_board board, const float *planes, size_t planes_len,
                              uint8_t *out, size_t out_len);

/* So that no part makes a call that is not measured. */
#ifndef CALLS_UNMEASURED
#define folgutan_load measured_load
#define folgutan_gradient measured_gradient
#define folgutan_locate measured_locate
#define folgutan_read_line measured_read_line
#define folgutan_sample measured_sample
#define folgutan_sample_board measured_sample_board
#define folgutan_map measured_map
#endif

/* Of one call: the most stack that it took, and how often it gave each answer since the counts were
 * last cleared. */
enum { ANSWERS = 16 };
typedef struct {
    const char *name;
    size_t most_stack;
    unsigned long answers[ANSWERS];
} measures;

enum { LOAD, GRADIENT, LOCATE, READ_LINE, SAMPLE, SAMPLE_BOARD, MAP, CALLS };
extern measures measured[CALLS];

void clear_answers(void);

#endif
