/* The same file as C++: the header and its declarations are both languages'. */
#include "compile_header.c"

/* A board from zero in one line, as cabinet.h says. */
uint16_t host_in_cpp(uint8_t *points, size_t points_length);
uint16_t host_in_cpp(uint8_t *points, size_t points_length)
{
    struct cabinet board = {};
    board.points = points;
    board.points_length = points_length;
    return cabinet_take_back(&board);
}
