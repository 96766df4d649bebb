/* Compiled, not run: cabinet.h stands alone, may be included twice, and declares the calls so. */
#include "cabinet.h"
#include "cabinet.h"

#if CABINET_VERSION < 7
#error "an older cabinet.h"
#endif

typedef uint8_t receive_call(const uint8_t *, size_t, size_t *, size_t *, size_t *);
typedef uint16_t answer_call(const uint8_t *, size_t, uint8_t *, size_t, uint8_t *, size_t,
                             uint8_t *, size_t, uint8_t *, size_t, uint8_t *, size_t, size_t *, size_t *,
                             const uint8_t *, size_t, uint8_t, uint8_t, uint8_t, uint8_t, uint16_t, uint16_t,
                             uint8_t *, size_t, size_t *, uint8_t *);
typedef uint16_t check_call(const uint8_t *, size_t, const uint8_t *, size_t, const uint8_t *, size_t,
                            const uint8_t *, size_t, const uint8_t *, size_t, const uint8_t *, size_t,
                            size_t, size_t, const uint8_t *, size_t,
                            uint8_t, uint8_t, uint8_t, uint8_t, uint16_t, uint16_t,
                            uint8_t *, uint16_t *, size_t *, size_t *);
typedef uint16_t step_back_call(uint8_t *, size_t, uint8_t *, size_t, uint8_t *, size_t, uint8_t *, size_t,
                                uint8_t *, size_t, size_t *, size_t *, uint16_t, uint16_t);
typedef uint16_t answer_frame_call(struct cabinet *, const uint8_t *, size_t);
typedef uint16_t check_frame_call(const struct cabinet *, const uint8_t *, size_t, struct cabinet_shown *);
typedef uint16_t take_back_call(struct cabinet *);

struct calls {
    receive_call *receive;
    answer_call *answer;
    check_call *check;
    answer_call *act;
    step_back_call *step_back;
    answer_frame_call *answer_frame;
    check_frame_call *check_frame;
    answer_frame_call *act_frame;
    take_back_call *take_back;
};

extern const struct calls declared_calls;
const struct calls declared_calls = {cabinet_receive, cabinet_answer, cabinet_check, cabinet_act,
                                     cabinet_step_back, cabinet_answer_frame, cabinet_check_frame,
                                     cabinet_act_frame, cabinet_take_back};

/* A board is set up from zero, field by field, and its calls' numbers are compared by name. */
int host_in_both_languages(const uint8_t *frame, size_t frame_length);
int host_in_both_languages(const uint8_t *frame, size_t frame_length)
{
    static uint8_t points[CABINET_POINTS_BYTES(1)], journal[CABINET_LEAST_JOURNAL_BYTES(1)];
    static struct cabinet board;
    struct cabinet_shown shown;
    board.points = points;
    board.points_length = sizeof points;
    board.journal = journal;
    board.journal_length = sizeof journal;
    board.fitted = 0xFF;
    board.station = 0x99;
    board.release = CABINET_SMALL_LETTERS_TOO;
    board.forbid_unchecked = 1;
    board.first_integer = 200;
    board.first_flag = 600;
    if (cabinet_check_frame(&board, frame, frame_length, &shown) == CABINET_ACCEPTED)
        return shown.message == 0x244 && shown.start == 1 && shown.count == 1 &&
               cabinet_act_frame(&board, frame, frame_length) == CABINET_ACCEPTED ? 6 : 5;
    if (cabinet_answer_frame(&board, frame, frame_length) != CABINET_ACCEPTED)
        return shown.sum == CABINET_SUM_SWITCHED_OFF && board.sum == shown.sum ? 4 : 0;
    switch (cabinet_take_back(&board)) {
    case CABINET_ACCEPTED: return 1;
    case CABINET_REFUSED_NO_WRITE_LEFT: return 2;
    case CABINET_REFUSED_EFFECTIVE_COUNT: return board.effective == 0 ? 3 : 7;
    default: return 3;
    }
}

/* The lengths and numbers of documents 01 and 02: an array of -1 bytes would not compile. */
typedef char lengths_are_right[
    CABINET_POINTS_BYTES(CABINET_MOST_POINTS) == 60000 && CABINET_LEAST_JOURNAL_BYTES(500) == 20500 &&
    CABINET_LEAST_JOURNAL_BYTES(CABINET_MOST_POINTS) <= CABINET_MOST_JOURNAL_BYTES &&
    CABINET_INTEGERS_BYTES == 400 && CABINET_FLAGS_BYTES == 300 && CABINET_AXES_BYTES == 72 ? 1 : -1];
typedef char numbers_are_right[
    CABINET_ACCEPTED == 0 && CABINET_REFUSED_NO_WRITE_LEFT == 9 && CABINET_REFUSED_MESSAGE == 101 &&
    CABINET_REFUSED_PATTERN == 107 && CABINET_REFUSED_VARIABLES == 10 && CABINET_REFUSED_SWITCHED_OFF == 12 &&
    CABINET_REFUSED_EFFECTIVE_COUNT == 11 && CABINET_REFUSED_RELEASE == 13 &&
    CABINET_REFUSED_CHANGE_TYPE == 108 && CABINET_TOO_LONG == 3 &&
    CABINET_SUM_UNTESTED == 0 && CABINET_SUM_TRUE == 1 && CABINET_SUM_SWITCHED_OFF == 2 &&
    CABINET_SUM_WRONG == 3 ? 1 : -1];
