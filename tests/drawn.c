/* Lines, raised cells between them, and the ground around. */
#include "drawn.h"

size_t cells(size_t side, size_t from, size_t pitch)
{
    return (side - from - 1) / pitch;
}

static uint8_t level(drawn d, size_t row, size_t column)
{
    if (row < d.top || row > d.top + cells(d.height, d.top, d.down) * d.down || column < d.left
        || column > d.left + cells(d.width, d.left, d.across) * d.across)
        return GROUND;
    size_t i = (row - d.top) % d.down, j = (column - d.left) % d.across;
    if (i == 0 || j == 0)
        return LINE;
    if (i <= d.rim || j <= d.rim)
        return LIGHT;
    return i + d.rim >= d.down || j + d.rim >= d.across ? SHADE : FACE;
}

size_t height_of(screen s)
{
    return s.times * s.board.height;
}

size_t width_of(screen s)
{
    return s.times * s.board.width + (s.times > 1);
}

uint8_t point(screen s, size_t row, size_t column)
{
    size_t bar = height_of(s) / 2 - BAR / 2;
    if (s.times > 1 && row >= bar && row < bar + BAR)
        return BAR_LEVEL;
    return level(s.board, row / s.times, column / s.times);
}
