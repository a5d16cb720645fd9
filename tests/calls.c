/* The measured calls: the arguments go through a record to the stack that the call runs on. */
#define CALLS_UNMEASURED
#include "calls.h"

#include "check.h"
#include "stack.h"

#include <string.h>

measures measured[CALLS] = {
    [LOAD] = {.name = "load"},           [GRADIENT] = {.name = "gradient"},
    [LOCATE] = {.name = "locate"},       [READ_LINE] = {.name = "read_line"},
    [SAMPLE] = {.name = "sample"},       [SAMPLE_BOARD] = {.name = "sample_board"},
    [MAP] = {.name = "map"},
};

void clear_answers(void)
{
    for (size_t call = 0; call < CALLS; call++)
        memset(measured[call].answers, 0, sizeof measured[call].answers);
}

static void measure(size_t call, void (*run)(void *), void *with)
{
    measures *m = &measured[call];
    size_t taken = stack_taken(m->name, run, with);
    if (taken > m->most_stack)
        m->most_stack = taken;
}

static void count(size_t call, uint32_t answer)
{
    check(answer < ANSWERS, measured[call].name, "a number that is an answer");
    if (answer < ANSWERS)
        measured[call].answers[answer]++;
}

typedef struct {
    size_t height, width, pixels_len, planes_len;
    const uint8_t *pixels;
    float *planes;
    folgutan_loaded out;
} load_call;

static void run_load(void *with)
{
    load_call *c = with;
    c->out =
        folgutan_load(c->height, c->width, c->pixels, c->pixels_len, c->planes, c->planes_len);
}

folgutan_loaded measured_load(size_t height, size_t width, const uint8_t *pixels,
                              size_t pixels_len, float *planes, size_t planes_len)
{
    load_call c = {.height = height, .width = width, .pixels = pixels, .pixels_len = pixels_len,
                   .planes = planes, .planes_len = planes_len};
    measure(LOAD, run_load, &c);
    count(LOAD, c.out.answer);
    return c.out;
}

typedef struct {
    size_t height, width, planes_len, out_len;
    const float *planes;
    float *out;
    uint32_t answer;
} gradient_call;

static void run_gradient(void *with)
{
    gradient_call *c = with;
    c->answer =
        folgutan_gradient(c->height, c->width, c->planes, c->planes_len, c->out, c->out_len);
}

uint32_t measured_gradient(size_t height, size_t width, const float *planes, size_t planes_len,
                           float *out, size_t out_len)
{
    gradient_call c = {.height = height, .width = width, .planes = planes,
                       .planes_len = planes_len, .out = out, .out_len = out_len};
    measure(GRADIENT, run_gradient, &c);
    count(GRADIENT, c.answer);
    return c.answer;
}

typedef struct {
    folgutan_board board;
    size_t factor;
    float *planes, *scratch_f32;
    uint8_t *edges, *scratch_u8;
    uint32_t *scores, *scratch_u32;
    size_t planes_len, edges_len, scores_len, scratch_f32_len, scratch_u8_len, scratch_u32_len;
    folgutan_located out;
} locate_call;

static void run_locate(void *with)
{
    locate_call *c = with;
    c->out = folgutan_locate(c->board, c->factor, c->planes, c->planes_len, c->edges, c->edges_len,
                             c->scores, c->scores_len, c->scratch_f32, c->scratch_f32_len,
                             c->scratch_u8, c->scratch_u8_len, c->scratch_u32, c->scratch_u32_len);
}

folgutan_located measured_locate(folgutan_board board, size_t factor, float *planes,
                                 size_t planes_len, uint8_t *edges, size_t edges_len,
                                 uint32_t *scores, size_t scores_len, float *scratch_f32,
                                 size_t scratch_f32_len, uint8_t *scratch_u8,
                                 size_t scratch_u8_len, uint32_t *scratch_u32,
                                 size_t scratch_u32_len)
{
    locate_call c = {.board = board, .factor = factor, .planes = planes, .planes_len = planes_len,
                     .edges = edges, .edges_len = edges_len, .scores = scores,
                     .scores_len = scores_len, .scratch_f32 = scratch_f32,
                     .scratch_f32_len = scratch_f32_len, .scratch_u8 = scratch_u8,
                     .scratch_u8_len = scratch_u8_len, .scratch_u32 = scratch_u32,
                     .scratch_u32_len = scratch_u32_len};
    measure(LOCATE, run_locate, &c);
    count(LOCATE, c.out.answer);
    return c.out;
}

typedef struct {
    const uint32_t *list;
    uint32_t *scratch;
    size_t list_len, scratch_len;
    folgutan_reading out;
} read_line_call;

static void run_read_line(void *with)
{
    read_line_call *c = with;
    c->out = folgutan_read_line(c->list, c->list_len, c->scratch, c->scratch_len);
}

folgutan_reading measured_read_line(const uint32_t *list, size_t list_len, uint32_t *scratch,
                                    size_t scratch_len)
{
    read_line_call c = {.list = list, .list_len = list_len, .scratch = scratch,
                        .scratch_len = scratch_len};
    measure(READ_LINE, run_read_line, &c);
    count(READ_LINE, c.out.answer);
    return c.out;
}

typedef struct {
    folgutan_board board;
    const float *planes;
    float *out;
    size_t planes_len, x, y, size, out_len;
    uint32_t answer;
} sample_call;

static void run_sample(void *with)
{
    sample_call *c = with;
    c->answer = folgutan_sample(c->board, c->planes, c->planes_len, c->x, c->y, c->size, c->out,
                                c->out_len);
}

uint32_t measured_sample(folgutan_board board, const float *planes, size_t planes_len, size_t x,
                         size_t y, size_t size, float *out, size_t out_len)
{
    sample_call c = {.board = board, .planes = planes, .planes_len = planes_len, .x = x, .y = y,
                     .size = size, .out = out, .out_len = out_len};
    measure(SAMPLE, run_sample, &c);
    count(SAMPLE, c.answer);
    return c.answer;
}

static void run_sample_board(void *with)
{
    sample_call *c = with;
    c->answer =
        folgutan_sample_board(c->board, c->planes, c->planes_len, c->size, c->out, c->out_len);
}

uint32_t measured_sample_board(folgutan_board board, const float *planes, size_t planes_len,
                               size_t size, float *out, size_t out_len)
{
    sample_call c = {.board = board, .planes = planes, .planes_len = planes_len, .size = size,
                     .out = out, .out_len = out_len};
    measure(SAMPLE_BOARD, run_sample_board, &c);
    count(SAMPLE_BOARD, c.answer);
    return c.answer;
}

typedef struct {
    folgutan_board board;
    const float *planes;
    uint8_t *out;
    size_t planes_len, out_len;
    folgutan_printed printed;
} map_call;

static void run_map(void *with)
{
    map_call *c = with;
    c->printed = folgutan_map(c->board, c->planes, c->planes_len, c->out, c->out_len);
}

folgutan_printed measured_map(folgutan_board board, const float *planes, size_t planes_len,
                              uint8_t *out, size_t out_len)
{
    map_call c = {.board = board, .planes = planes, .planes_len = planes_len, .out = out,
                  .out_len = out_len};
    measure(MAP, run_map, &c);
    count(MAP, c.printed.answer);
    return c.printed;
}
