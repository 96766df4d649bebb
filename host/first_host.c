#include "cabinet.h"
#include <stdio.h>
static uint8_t points[CABINET_POINTS_BYTES(500)], journal[32768];
static struct cabinet board = {.points = points, .points_length = sizeof points, .journal = journal,
    .journal_length = sizeof journal, .fitted = 0xFF, .station = 0x99, .first_integer = 200, .first_flag = 600};
int main(void)
{
    const char frame[] = "!99200001234567829\r\n"; /* a test call to station 99H; all eight axes are fitted */
    cabinet_answer_frame(&board, (const uint8_t *)frame, sizeof frame - 1);
    return fwrite(board.reply, 1, board.reply_length, stdout) != board.reply_length;
}
