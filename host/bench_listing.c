/*
 * bench_listing.c: plays document 01's bench listing through cabinet.h and compares every byte.
 *
 * The input is received in pieces of every length, found, answered, then stepped back and queried. Then
 * test calls with line ends in them are received so, integer variables and flags are written, queried and
 * stepped back, frames in small letters are answered under each cabinet release, and frames with true and
 * wrong SCs and '@@' with that allowed and forbidden; then frames are checked and then acted on; at last the
 * count of effective points is kept, replied and refused. Exits 0 where all is as the listing and the
 * documents say, 1 at the first difference.
 */
#include "cabinet.h"

#include <stdio.h>
#include <string.h>

enum { POINTS_HELD = 500, JOURNAL_BYTES = 32768, STATION = 0x99, FITTED = 0xFF, GUARD = 0xEE };
enum { FIRST_INTEGER = 200, FIRST_FLAG = 600 };

static const char input[] = "!99200001234567829\r\n"
                            "!9924400100103001E001E00640000C350FFFFFFFFF3\r\n"
                            "!99299@@\r\n";
static const char output[] = "#9920000123456782B\r\n#9924400100151\r\n&991012A\r\n";

/* Line ends as the ten bytes; a head of a test call among them; one that doesn't end, a frame inside it. */
static const char test_calls[] = "ab!99200\r\n\r\n\r\n\r\n\r\n98\r\n"
                                 "!99200!\r\n!99200\r@@\r\n"
                                 "!99200!99299@@\r\n0000"
                                 "!99200001234567829\r\n";
static const char said_back[] = "#99200\r\n\r\n\r\n\r\n\r\n9A\r\n#99200!\r\n!99200\r91\r\n"
                                "&991012A\r\n#9920000123456782B\r\n";

/* Point 1 after the second frame: axes 1 and 2, 0.30 G both, 100 mm/sec, 50.000 and -0.001 mm. */
static const uint8_t point_1[CABINET_SLOT_BYTES] = {0x03, 0, 0, 30, 0, 30, 0, 100,
                                                    0x00, 0x00, 0xC3, 0x50, 0xFF, 0xFF, 0xFF, 0xFF};

/* The entry of the second frame: tag, length 2+40, start 1, and the old slot, which was zero. */
static const uint8_t entry[5] = {0x50, 0, 42, 0, 1};

/* Integers 200 and 201 as written, 42 and -1, flag 601 on, and their two entries: both were zero. */
static const uint8_t integers[8] = {0, 0, 0, 42, 0xFF, 0xFF, 0xFF, 0xFF};
static const uint8_t flags[2] = {0, 1};
static const uint8_t entries[19] = {0x49, 0, 10, 0, 200, 0, 0, 0, 0, 0, 0, 0, 0, 0x46, 0, 3, 0x02, 0x59, 0};

static uint8_t points[CABINET_POINTS_BYTES(POINTS_HELD)];
static uint8_t journal[JOURNAL_BYTES];
static struct cabinet board = {
    .points = points, .points_length = sizeof points,
    .journal = journal, .journal_length = sizeof journal,
    .fitted = FITTED, .station = STATION,
    .first_integer = FIRST_INTEGER, .first_flag = FIRST_FLAG
};

/* Received and not yet dropped; the replies so far. */
static uint8_t line[CABINET_LONGEST_FRAME_BYTES];
static size_t held;
static uint8_t sent[256];
static size_t sent_length;

static int failed_in(const char *part, const char *what, size_t piece)
{
    fprintf(stderr, "%s, pieces of %lu: %s\n", part, (unsigned long)piece, what);
    return 1;
}

static int failed(const char *what, size_t piece)
{
    return failed_in("bench listing", what, piece);
}

/* Whether the area begins with these bytes and is zero after them. */
static int is_then_zero(const uint8_t *area, size_t area_length, const uint8_t *bytes, size_t length)
{
    size_t i;
    if (memcmp(area, bytes, length) != 0)
        return 0;
    for (i = length; i < area_length; i++)
        if (area[i] != 0)
            return 0;
    return 1;
}

/* Integers are as written so far (1) or fresh (0), and so are flags. */
static int variables_are(int integers_written, int flags_written)
{
    return is_then_zero(board.integers, sizeof board.integers,
                        integers, integers_written ? sizeof integers : 0) &&
           is_then_zero(board.flags, sizeof board.flags, flags, flags_written ? sizeof flags : 0);
}

/* Points, journal, used length and count are as after the write (1) or fresh (0); all else is fresh. */
static int areas_are(int written)
{
    return is_then_zero(points, sizeof points, point_1, written ? sizeof point_1 : 0) &&
           is_then_zero(board.columns, sizeof board.columns, board.columns, 0) &&
           is_then_zero(journal, sizeof journal, entry, written ? sizeof entry : 0) && variables_are(0, 0) &&
           is_then_zero(board.axes, sizeof board.axes, board.axes, 0) && board.used == (written ? 45u : 0u) &&
           board.effective == (written ? 1u : 0u);
}

static void start_fresh(void)
{
    memset(points, 0, sizeof points);
    memset(journal, 0, sizeof journal);
    memset(board.columns, 0, sizeof board.columns);
    memset(board.integers, 0, sizeof board.integers);
    memset(board.flags, 0, sizeof board.flags);
    memset(board.axes, 0, sizeof board.axes);
    board.used = 0;
    board.effective = 0;
    held = 0;
    sent_length = 0;
}

/* Answers one frame; whether the reply stands at the front of the reply area, and nothing beyond it. */
static int answer(const uint8_t *frame, size_t length, uint16_t *number)
{
    size_t i;
    memset(board.reply, GUARD, sizeof board.reply);
    *number = cabinet_answer_frame(&board, frame, length);
    for (i = board.reply_length; i < sizeof board.reply; i++)
        if (board.reply[i] != GUARD)
            return 0;
    return board.reply_length <= sizeof board.reply;
}

/* Takes more bytes from the line and answers every frame that is whole; 0 where something is wrong. */
static int receive(const uint8_t *bytes, size_t count)
{
    uint8_t found;
    memcpy(line + held, bytes, count);
    held += count;
    do {
        size_t start, length, drop;
        uint16_t number;
        found = cabinet_receive(line, held, &start, &length, &drop);
        if (drop > held || (found != CABINET_FRAME && (start != 0 || length != 0)))
            return 0;
        if (found == CABINET_FRAME) {
            if (start + length != drop)
                return 0;
            if (!answer(line + start, length, &number) || board.reply_length > sizeof sent - sent_length)
                return 0;
            memcpy(sent + sent_length, board.reply, board.reply_length);
            sent_length += board.reply_length;
        }
        held -= drop;
        memmove(line, line + drop, held);
    } while (found == CABINET_FRAME || found == CABINET_TOO_LONG);
    return 1;
}

/* Takes all these bytes from the line, in pieces of one length; 0 where something is wrong. */
static int receive_in_pieces(const char *bytes, size_t total, size_t piece)
{
    size_t at;
    for (at = 0; at < total; at += piece)
        if (!receive((const uint8_t *)bytes + at, total - at < piece ? total - at : piece))
            return 0;
    return 1;
}

/* One command whose whole reply and number are known. */
static int answers(const char *command, enum cabinet_refusal number, const char *expected)
{
    uint16_t given;
    return answer((const uint8_t *)command, strlen(command), &given) && given == number &&
           board.reply_length == strlen(expected) && memcmp(board.reply, expected, board.reply_length) == 0;
}

/* One step back whose number is known; it has no reply. */
static int steps_back(enum cabinet_refusal number)
{
    return cabinet_take_back(&board) == number && board.reply_length == 0;
}

/* The whole listing in pieces of one length, then the step back and the queries. */
static int play(size_t piece)
{
    start_fresh();
    if (!receive_in_pieces(input, sizeof input - 1, piece))
        return failed("finder", piece);
    if (held != 0)
        return failed("bytes left over", piece);
    if (sent_length != sizeof output - 1 || memcmp(sent, output, sent_length) != 0)
        return failed("output", piece);
    if (!areas_are(1))
        return failed("areas after the listing", piece);
    if (!answers("!9920900100555\r\n", CABINET_REFUSED_SC, "") || !areas_are(1))
        return failed("wrong SC", piece);
    if (!answers("!99209001005@@\r\n", CABINET_ACCEPTED,
                 "#9920900100103001E001E00640000C350FFFFFFFFF6\r\n"))
        return failed("query before the step back", piece);
    if (!steps_back(CABINET_ACCEPTED) || !areas_are(0))
        return failed("step back", piece);
    if (!answers("!9920900100554\r\n", CABINET_ACCEPTED, "#99209000C0\r\n") || !areas_are(0))
        return failed("query after the step back", piece);
    if (!steps_back(CABINET_REFUSED_NO_WRITE_LEFT) || !areas_are(0))
        return failed("step back with nothing left", piece);
    return 0;
}

/* Test calls in pieces of one length, and one of 21 bytes that is handed over. */
static int play_test_calls(size_t piece)
{
    start_fresh();
    if (!receive_in_pieces(test_calls, sizeof test_calls - 1, piece) || held != 0)
        return failed_in("test calls", "finder", piece);
    if (sent_length != sizeof said_back - 1 || memcmp(sent, said_back, sent_length) != 0)
        return failed_in("test calls", "output", piece);
    if (!answers("!9920000123456789@@\r\n", CABINET_REFUSED_FRAME, "") || !areas_are(0))
        return failed_in("test calls", "one of 21 bytes", piece);
    return 0;
}

/* Two integers and a flag written and queried, with refusals between. */
static int write_variables(void)
{
    return answers("!9924C000C8020000002AFFFFFFFF6C\r\n", CABINET_ACCEPTED, "#9924C000C802AB\r\n") &&
           answers("!9920E000C802A7\r\n", CABINET_ACCEPTED, "#9920E000C8020000002AFFFFFFFF6C\r\n") &&
           answers("!9920E0012B01A0\r\n", CABINET_ACCEPTED, "#9920E0012B010000000022\r\n") &&
           answers("!9920E0012B02A1\r\n", CABINET_REFUSED_NOT_HELD, "&991062F\r\n") &&
           answers("!9924B00025929D\r\n", CABINET_REFUSED_CHANGE_TYPE, "&9910831\r\n") && variables_are(1, 0) &&
           answers("!9924B00025919C\r\n", CABINET_ACCEPTED, "#9924B3D\r\n") &&
           answers("!9920D000258000931\r\n", CABINET_ACCEPTED, "#9920D00025800090200F5\r\n") &&
           variables_are(1, 1) && is_then_zero(journal, sizeof journal, entries, sizeof entries) &&
           board.used == sizeof entries;
}

/* Settings that run past their fields are refused by both calls, and nothing is done. */
static int refuses_settings(uint16_t first_integer, uint16_t first_flag)
{
    int refused;
    board.first_integer = first_integer;
    board.first_flag = first_flag;
    refused = answers("!9920E000C802A7\r\n", CABINET_REFUSED_VARIABLES, "") &&
              steps_back(CABINET_REFUSED_VARIABLES) && variables_are(1, 1) && board.used == sizeof entries;
    board.first_integer = FIRST_INTEGER;
    board.first_flag = FIRST_FLAG;
    return refused;
}

static int variables_failed(const char *what)
{
    fprintf(stderr, "integers and flags: %s\n", what);
    return 1;
}

static int play_variables(void)
{
    start_fresh();
    if (!write_variables())
        return variables_failed("writes, queries and refusals");
    if (!refuses_settings(3997, FIRST_FLAG) || !refuses_settings(FIRST_INTEGER, 65237))
        return variables_failed("settings");
    if (!steps_back(CABINET_ACCEPTED) || !variables_are(1, 0) ||
        !answers("!9920D000258000931\r\n", CABINET_ACCEPTED, "#9920D00025800090000F3\r\n"))
        return variables_failed("step back of a flag");
    if (!steps_back(CABINET_ACCEPTED) || !areas_are(0) ||
        !answers("!9920E000C802A7\r\n", CABINET_ACCEPTED, "#9920E000C8020000000000000000A9\r\n"))
        return variables_failed("step back of integers");
    return 0;
}

static int letters_failed(const char *what, uint8_t release)
{
    fprintf(stderr, "small letters, release %u: %s\n", (unsigned)release, what);
    return 1;
}

/* Capitals only: one small letter in ID, station, content or SC is refused, each by its own number. */
static int play_capitals_only(uint8_t release)
{
    start_fresh();
    board.release = release;
    if (!answers("!9A24e0012C0130@@\r\n", CABINET_REFUSED_MESSAGE, "&9A10132\r\n") ||
        !answers("!9a208@@\r\n", CABINET_REFUSED_STATION, "") ||
        !answers("!9A2100012c01@@\r\n", CABINET_REFUSED_DIGIT, "&9A10233\r\n") ||
        !answers("!9A2120Fa6\r\n", CABINET_REFUSED_SC, "") || !areas_are(0))
        return letters_failed("refusals", release);
    if (!answers("!9A200abcdefABCD8C\r\n", CABINET_ACCEPTED, "#9A200abcdefABCD8E\r\n"))
        return letters_failed("test call", release);
    return 0;
}

/* Small letters too: the same are accepted, replies are in capitals, and what is stored is the value. */
static int play_small_letters(uint8_t release)
{
    static const uint8_t stored[2] = {0x4A, 0x4B};
    start_fresh();
    board.release = release;
    if (!answers("!9a208@@\r\n", CABINET_ACCEPTED, "#9A208000C7\r\n") ||
        !answers("!9a20835\r\n", CABINET_REFUSED_SC, "") || /* the sum of the capitals */
        !answers("!9A2100012c01@@\r\n", CABINET_ACCEPTED, "#9A2100012C0100F7\r\n") ||
        !answers("!9A2100012g01@@\r\n", CABINET_REFUSED_DIGIT, "&9A10233\r\n") ||
        !answers("!9A200abcdefABCD8C\r\n", CABINET_ACCEPTED, "#9A200abcdefABCD8E\r\n") || !areas_are(0))
        return letters_failed("queries", release);
    if (!answers("!9a24e0012c024a4B19\r\n", CABINET_ACCEPTED, "#9A24E48\r\n") ||
        !is_then_zero(board.columns, sizeof board.columns, stored, sizeof stored))
        return letters_failed("write", release);
    board.release = CABINET_CAPITALS_ONLY;
    if (!answers("!9A2100012C0296\r\n", CABINET_ACCEPTED, "#9A2100012C024A4B83\r\n") ||
        !steps_back(CABINET_ACCEPTED) || !areas_are(0))
        return letters_failed("read back and stepped back", release);
    return 0;
}

/* A release that isn't set is 1; another than 1 and 2 is refused, and nothing is done. */
static int play_releases(void)
{
    int wrong;
    board.station = 0x9A;
    wrong = play_capitals_only(0) || play_capitals_only(CABINET_CAPITALS_ONLY) ||
            play_small_letters(CABINET_SMALL_LETTERS_TOO);
    board.release = 3;
    if (!wrong && (!answers("!9A208@@\r\n", CABINET_REFUSED_RELEASE, "") || !areas_are(0)))
        wrong = letters_failed("refused", 3);
    board.release = 0;
    board.station = STATION;
    return wrong;
}

static int sums_failed(const char *what)
{
    fprintf(stderr, "sums: %s\n", what);
    return 1;
}

/* One command whose number, reply and sum are known. */
static int tells(const char *command, enum cabinet_refusal number, const char *expected,
                 enum cabinet_sum sum)
{
    board.sum = GUARD;
    return answers(command, number, expected) && board.sum == sum;
}

/* What is the same whether '@@' is allowed or not: told with a later refusal, not with an earlier one. */
static int tells_other_sums(void)
{
    return tells("!992082D\r\n", CABINET_ACCEPTED, "#99208000BF\r\n", CABINET_SUM_TRUE) &&
           tells("!992082E\r\n", CABINET_REFUSED_SC, "", CABINET_SUM_WRONG) &&
           tells("!99208@D\r\n", CABINET_REFUSED_SC, "", CABINET_SUM_WRONG) &&
           tells("!992082@\r\n", CABINET_REFUSED_SC, "", CABINET_SUM_WRONG) &&
           tells("!9A20835\r\n", CABINET_REFUSED_STATION, "", CABINET_SUM_TRUE) &&
           tells("!9929937\r\n", CABINET_REFUSED_MESSAGE, "&991012A\r\n", CABINET_SUM_TRUE) &&
           tells("!99208@@\r", CABINET_REFUSED_FRAME, "", CABINET_SUM_UNTESTED);
}

/* '@@' allowed, as where the field isn't set, and forbidden by any other value. */
static int play_sums(void)
{
    static const char write[] = "!9924E0012C0130@@\r\n";
    start_fresh();
    if (!tells_other_sums() ||
        !tells("!99208@@\r\n", CABINET_ACCEPTED, "#99208000BF\r\n", CABINET_SUM_SWITCHED_OFF) ||
        !tells("!9A208@@\r\n", CABINET_REFUSED_STATION, "", CABINET_SUM_SWITCHED_OFF) ||
        !tells("!99299@@\r\n", CABINET_REFUSED_MESSAGE, "&991012A\r\n", CABINET_SUM_SWITCHED_OFF))
        return sums_failed("'@@' allowed");
    for (board.forbid_unchecked = 1; board.forbid_unchecked != 0; board.forbid_unchecked <<= 1)
        if (!tells_other_sums() ||
            !tells("!9A208@@\r\n", CABINET_REFUSED_SWITCHED_OFF, "", CABINET_SUM_SWITCHED_OFF) ||
            !tells(write, CABINET_REFUSED_SWITCHED_OFF, "", CABINET_SUM_SWITCHED_OFF) || !areas_are(0))
            return sums_failed("'@@' forbidden");
    if (!tells(write, CABINET_ACCEPTED, "#9924E40\r\n", CABINET_SUM_SWITCHED_OFF) ||
        !steps_back(CABINET_ACCEPTED) || board.sum != CABINET_SUM_UNTESTED || !areas_are(0))
        return sums_failed("written and stepped back");
    return 0;
}

static int looking_failed(const char *what)
{
    fprintf(stderr, "looking first: %s\n", what);
    return 1;
}

/* One check of which all is known; it leaves every byte of the board, of points and of the journal. */
static int shows(const char *command, enum cabinet_refusal number, uint16_t message, size_t start,
                 size_t count, enum cabinet_sum sum)
{
    static uint8_t points_before[sizeof points], journal_before[sizeof journal];
    static struct cabinet before;
    struct cabinet_shown shown = {.message = 0x5555, .start = 0x5555, .count = 0x5555, .sum = GUARD};
    memset(board.reply, GUARD, sizeof board.reply);
    memcpy(points_before, points, sizeof points);
    memcpy(journal_before, journal, sizeof journal);
    memcpy(&before, &board, sizeof board);
    return cabinet_check_frame(&board, (const uint8_t *)command, strlen(command), &shown) == number &&
           shown.message == message && shown.start == start && shown.count == count && shown.sum == sum &&
           memcmp(&before, &board, sizeof board) == 0 && memcmp(points_before, points, sizeof points) == 0 &&
           memcmp(journal_before, journal, sizeof journal) == 0;
}

/* One act of which all is known; there is nothing in the reply area beyond the reply. */
static int does(const char *command, enum cabinet_refusal number, const char *expected, enum cabinet_sum sum)
{
    size_t i;
    board.sum = GUARD;
    memset(board.reply, GUARD, sizeof board.reply);
    if (cabinet_act_frame(&board, (const uint8_t *)command, strlen(command)) != number || board.sum != sum ||
        board.reply_length != strlen(expected) || memcmp(board.reply, expected, board.reply_length) != 0)
        return 0;
    for (i = board.reply_length; i < sizeof board.reply; i++)
        if (board.reply[i] != GUARD)
            return 0;
    return 1;
}

/* The bench listing's frames, and a flag's: shown, then done; the write can be stepped back. */
static int look_and_do(void)
{
    static const char write[] = "!9924400100103001E001E00640000C350FFFFFFFFF3\r\n";
    return shows("!99200001234567829\r\n", CABINET_ACCEPTED, 0x200, 0, 0, CABINET_SUM_TRUE) &&
           does("!99200001234567829\r\n", CABINET_ACCEPTED, "#9920000123456782B\r\n", CABINET_SUM_TRUE) &&
           shows(write, CABINET_ACCEPTED, 0x244, 1, 1, CABINET_SUM_TRUE) && areas_are(0) &&
           does(write, CABINET_ACCEPTED, "#9924400100151\r\n", CABINET_SUM_TRUE) && areas_are(1) &&
           shows("!99209001005@@\r\n", CABINET_ACCEPTED, 0x209, 1, 5, CABINET_SUM_SWITCHED_OFF) &&
           does("!99209001005@@\r\n", CABINET_ACCEPTED, "#9920900100103001E001E00640000C350FFFFFFFFF6\r\n",
                CABINET_SUM_SWITCHED_OFF) && areas_are(1) &&
           steps_back(CABINET_ACCEPTED) && areas_are(0) &&
           shows("!9924B00025919C\r\n", CABINET_ACCEPTED, 0x24B, 601, 1, CABINET_SUM_TRUE) &&
           does("!9924B00025919C\r\n", CABINET_ACCEPTED, "#9924B3D\r\n", CABINET_SUM_TRUE) &&
           variables_are(0, 1) && steps_back(CABINET_ACCEPTED) && areas_are(0);
}

/* Refused by both with one number; what is shown of it is nothing. */
static int look_and_refuse(void)
{
    static const char other[] = "!9A20835\r\n", unknown[] = "!99299@@\r\n", beyond[] = "!992091F50016B\r\n";
    return shows("!992082E\r\n", CABINET_REFUSED_SC, 0, 0, 0, CABINET_SUM_WRONG) &&
           does("!992082E\r\n", CABINET_REFUSED_SC, "", CABINET_SUM_WRONG) &&
           shows("!99208@@\r", CABINET_REFUSED_FRAME, 0, 0, 0, CABINET_SUM_UNTESTED) &&
           does("!99208@@\r", CABINET_REFUSED_FRAME, "", CABINET_SUM_UNTESTED) &&
           shows(other, CABINET_REFUSED_STATION, 0, 0, 0, CABINET_SUM_TRUE) &&
           does(other, CABINET_REFUSED_STATION, "", CABINET_SUM_TRUE) &&
           shows(unknown, CABINET_REFUSED_MESSAGE, 0, 0, 0, CABINET_SUM_SWITCHED_OFF) &&
           does(unknown, CABINET_REFUSED_MESSAGE, "&991012A\r\n", CABINET_SUM_SWITCHED_OFF) &&
           shows(beyond, CABINET_REFUSED_NOT_HELD, 0, 0, 0, CABINET_SUM_TRUE) &&
           does(beyond, CABINET_REFUSED_NOT_HELD, "&991062F\r\n", CABINET_SUM_TRUE) && areas_are(0);
}

/* The same after something changed between the two: acting goes by what is there then. */
static int look_and_change(void)
{
    static const char write[] = "!9924E0012C0130@@\r\n";
    int right = shows(write, CABINET_ACCEPTED, 0x24E, 300, 1, CABINET_SUM_SWITCHED_OFF);
    board.forbid_unchecked = 1;
    right = right && does(write, CABINET_REFUSED_SWITCHED_OFF, "", CABINET_SUM_SWITCHED_OFF) && areas_are(0) &&
            shows(write, CABINET_REFUSED_SWITCHED_OFF, 0, 0, 0, CABINET_SUM_SWITCHED_OFF);
    board.forbid_unchecked = 0;
    return right && does(write, CABINET_ACCEPTED, "#9924E40\r\n", CABINET_SUM_SWITCHED_OFF) &&
           board.columns[0] == 0x30 && steps_back(CABINET_ACCEPTED) && areas_are(0);
}

static int play_looking(void)
{
    start_fresh();
    if (!look_and_do())
        return looking_failed("shown and done");
    if (!look_and_refuse())
        return looking_failed("refused");
    if (!look_and_change())
        return looking_failed("changed between");
    return 0;
}

static int count_failed(const char *what)
{
    fprintf(stderr, "kept count: %s\n", what);
    return 1;
}

/* Point 2 and then points 1 and 2, of axis 1; and both cleared. */
static const char write_one[] = "!9924400200101001E001E00640000C350@@\r\n";
static const char write_two[] = "!9924400100201001E001E00640000C35001001E001E00640000C350@@\r\n";
static const char clear_two[] = "!9924600100252\r\n";

/* One frame that leaves this count, which 208H then replies. */
static int leaves(const char *command, enum cabinet_refusal number, const char *expected, size_t effective,
                  const char *replied)
{
    return answers(command, number, expected) && board.effective == effective &&
           answers("!992082D\r\n", CABINET_ACCEPTED, replied) && board.effective == effective;
}

/* Over an empty slot, over both, a clear of both; then stepped back, one after the other. */
static int keeps_the_count(void)
{
    return leaves(write_one, CABINET_ACCEPTED, "#9924400200152\r\n", 1, "#99208001C0\r\n") &&
           leaves(write_two, CABINET_ACCEPTED, "#9924400100252\r\n", 2, "#99208002C1\r\n") &&
           leaves(clear_two, CABINET_ACCEPTED, "#9924631\r\n", 0, "#99208000BF\r\n") &&
           steps_back(CABINET_ACCEPTED) && board.effective == 2 &&
           steps_back(CABINET_ACCEPTED) && board.effective == 1 &&
           leaves("!9924E0012C0130@@\r\n", CABINET_ACCEPTED, "#9924E40\r\n", 1, "#99208001C0\r\n") &&
           steps_back(CABINET_ACCEPTED) && board.effective == 1 &&
           steps_back(CABINET_ACCEPTED) && areas_are(0);
}

/* A count that isn't the slots': nothing is written and nothing stepped back; 208H replies it up to N. */
static int refuses_counts(void)
{
    static const size_t wrong[] = {0, 2, POINTS_HELD, POINTS_HELD + 1, 257, SIZE_MAX};
    size_t i;
    if (!answers(write_one, CABINET_ACCEPTED, "#9924400200152\r\n"))
        return 0;
    for (i = 0; i < sizeof wrong / sizeof wrong[0]; i++) {
        board.effective = wrong[i];
        if (!tells(write_two, CABINET_REFUSED_EFFECTIVE_COUNT, "", CABINET_SUM_SWITCHED_OFF) ||
            !tells("!99244@@\r\n", CABINET_REFUSED_EFFECTIVE_COUNT, "", CABINET_SUM_SWITCHED_OFF) ||
            !shows(clear_two, CABINET_REFUSED_EFFECTIVE_COUNT, 0, 0, 0, CABINET_SUM_TRUE) ||
            !does(clear_two, CABINET_REFUSED_EFFECTIVE_COUNT, "", CABINET_SUM_TRUE) ||
            !steps_back(CABINET_REFUSED_EFFECTIVE_COUNT) ||
            !tells("!98246001002@@\r\n", CABINET_REFUSED_STATION, "", CABINET_SUM_SWITCHED_OFF) ||
            !answers("!9924B00025919C\r\n", CABINET_ACCEPTED, "#9924B3D\r\n") || board.effective != wrong[i])
            return 0;
        board.effective = 1;
        if (!steps_back(CABINET_ACCEPTED) || board.effective != 1)
            return 0;
    }
    board.effective = POINTS_HELD;
    if (!answers("!992082D\r\n", CABINET_ACCEPTED, "#992081F4DA\r\n"))
        return 0;
    board.effective = POINTS_HELD + 1;
    if (!answers("!992082D\r\n", CABINET_REFUSED_EFFECTIVE_COUNT, "") || board.effective != POINTS_HELD + 1)
        return 0;
    board.effective = 1;
    return steps_back(CABINET_ACCEPTED) && areas_are(0);
}

static int play_counts(void)
{
    start_fresh();
    if (!keeps_the_count())
        return count_failed("written, cleared and stepped back");
    if (!refuses_counts())
        return count_failed("refused");
    return 0;
}

int main(void)
{
    size_t piece;
    for (piece = 1; piece < sizeof input; piece++)
        if (play(piece) != 0)
            return 1;
    for (piece = 1; piece < sizeof test_calls; piece++)
        if (play_test_calls(piece) != 0)
            return 1;
    if (play_variables() != 0 || play_releases() != 0 || play_sums() != 0 || play_looking() != 0 ||
        play_counts() != 0)
        return 1;
    printf("bench listing: every byte as document 01 has it, in pieces of 1 to %lu\n",
           (unsigned long)(sizeof input - 1));
    printf("test calls: line ends and all said back, in pieces of 1 to %lu\n",
           (unsigned long)(sizeof test_calls - 1));
    printf("integers and flags: written, queried, refused and stepped back as the documents say\n");
    printf("small letters: refused under release 1, accepted under release 2, replied in capitals\n");
    printf("sums: true, switched off and wrong told, '@@' accepted where it is allowed and refused where not\n");
    printf("looking first: checks show what acting then does, or its refusal, and leave every byte\n");
    printf("kept count: true after writes, clears and steps back, replied by 208H, refused where it isn't\n");
    return 0;
}
