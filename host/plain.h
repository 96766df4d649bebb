/*
 * plain.h: the five calls of cabinet.h, written plainly by hand in C from the documents.
 *
 * Parameters, numbers and replies are those of cabinet.h. Compiled with
 *   -Dplain_receive=cabinet_receive -Dplain_answer=cabinet_answer -Dplain_check=cabinet_check
 *   -Dplain_act=cabinet_act -Dplain_step_back=cabinet_step_back
 * it makes an archive that stands in for the board's own.
 */
#ifndef PLAIN_H
#define PLAIN_H

#include <stddef.h>
#include <stdint.h>

#ifdef __cplusplus
extern "C" {
#endif

uint8_t plain_receive(const uint8_t *received, size_t received_length,
                      size_t *start, size_t *length, size_t *drop);

uint16_t plain_answer(const uint8_t *frame, size_t frame_length,
                      uint8_t *points, size_t points_length,
                      uint8_t *columns, size_t columns_length,
                      uint8_t *integers, size_t integers_length,
                      uint8_t *flags, size_t flags_length,
                      uint8_t *journal, size_t journal_length,
                      size_t *used, size_t *effective,
                      const uint8_t *axes, size_t axes_length,
                      uint8_t fitted, uint8_t station, uint8_t release, uint8_t unchecked,
                      uint16_t first_integer, uint16_t first_flag,
                      uint8_t *reply, size_t reply_area_length, size_t *reply_length,
                      uint8_t *sum);

uint16_t plain_check(const uint8_t *frame, size_t frame_length,
                     const uint8_t *points, size_t points_length,
                     const uint8_t *columns, size_t columns_length,
                     const uint8_t *integers, size_t integers_length,
                     const uint8_t *flags, size_t flags_length,
                     const uint8_t *journal, size_t journal_length,
                     size_t used, size_t effective,
                     const uint8_t *axes, size_t axes_length,
                     uint8_t fitted, uint8_t station, uint8_t release, uint8_t unchecked,
                     uint16_t first_integer, uint16_t first_flag,
                     uint8_t *sum, uint16_t *message, size_t *start, size_t *count);

uint16_t plain_act(const uint8_t *frame, size_t frame_length,
                   uint8_t *points, size_t points_length,
                   uint8_t *columns, size_t columns_length,
                   uint8_t *integers, size_t integers_length,
                   uint8_t *flags, size_t flags_length,
                   uint8_t *journal, size_t journal_length,
                   size_t *used, size_t *effective,
                   const uint8_t *axes, size_t axes_length,
                   uint8_t fitted, uint8_t station, uint8_t release, uint8_t unchecked,
                   uint16_t first_integer, uint16_t first_flag,
                   uint8_t *reply, size_t reply_area_length, size_t *reply_length,
                   uint8_t *sum);

uint16_t plain_step_back(uint8_t *points, size_t points_length,
                         uint8_t *columns, size_t columns_length,
                         uint8_t *integers, size_t integers_length,
                         uint8_t *flags, size_t flags_length,
                         uint8_t *journal, size_t journal_length,
                         size_t *used, size_t *effective,
                         uint16_t first_integer, uint16_t first_flag);

#ifdef __cplusplus
}
#endif

#endif
