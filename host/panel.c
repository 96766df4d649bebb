#include "cabinet.h"
#include <stdio.h>
static uint8_t points[CABINET_POINTS_BYTES(500)], journal[32768];
static struct cabinet board = {.points = points, .points_length = sizeof points, .journal = journal,
    .journal_length = sizeof journal, .fitted = 0xFF, .station = 0x99, .first_integer = 200, .first_flag = 600};
int main(void)
{
    const char frame[] = "!9924400100103001E001E00640000C350FFFFFFFFF3\r\n"; /* point 1, axes 1 and 2 */
    struct cabinet_shown shown;
    if (cabinet_check_frame(&board, (const uint8_t *)frame, sizeof frame - 1, &shown) == CABINET_ACCEPTED) {
        printf("%XH: %zu from %03zX, store? ", (unsigned)shown.message, shown.count, shown.start);
        fflush(stdout);
        if (getchar() != 'y')
            return 0; /* nothing was stored */
    }
    cabinet_act_frame(&board, (const uint8_t *)frame, sizeof frame - 1); /* checks again; stores, or refuses */
    return fwrite(board.reply, 1, board.reply_length, stdout) != board.reply_length;
}
