/*
 * cabinet.h: the board's answers to the store's computer, for the board's C host.
 *
 * Five calls: finding a frame in the received bytes (cabinet_receive), answering one frame
 * (cabinet_answer_frame), the same in two halves for a panel that looks before storing
 * (cabinet_check_frame, cabinet_act_frame), and the service panel's step back (cabinet_take_back). The last
 * four are made on a struct cabinet, which has all that they need by name; below them stand the archive's
 * own calls on numbers and byte areas, cabinet_answer, cabinet_check, cabinet_act and cabinet_step_back.
 * What they promise is document 01's and, of integer variables and flags (request a), of a count that is
 * kept (request b), of test calls with line ends in them (request c), of '@@' forbidden and told (request f),
 * of looking before storing (request g) and of small letters (request l), document 02's; section names below
 * are document 01's.
 *
 * Link with libboard.a. C99 or later, or C++11 or later.
 *
 *
 * THE AREAS
 *
 *   points     40*N bytes, N from 1 to 1,500: points 1 to N, a slot of 40 bytes each. N is the area's
 *              length over 40 and isn't handed over. A slot holds axis pattern (1 byte; bit 0 for
 *              axis 1; 00 means not effective), a zero byte, acceleration and deceleration (2 each, in
 *              0.01 G), speed (2, in mm/sec) and eight positions (4 each, signed, in 0.001 mm), high
 *              byte first.
 *   columns    700 bytes: string columns 300 to 999 of program 00, one byte each.
 *   integers   400 bytes: 100 global integer variables, four bytes each, signed, high byte first. Their
 *              numbers are first_integer to first_integer+99.
 *   flags      300 bytes: 300 global flags, one byte each, on where it isn't 00; 24BH stores 00 or 01.
 *              Their numbers are first_flag to first_flag+299.
 *   journal    40*N+500 to 65,536 bytes, with a used length beside it. Its used part is whole entries,
 *              oldest first: tag (50H points, 53H columns, 49H integers, 46H flags), a two-byte length of
 *              what follows, start number (2), the old bytes of what was named. An entry names at most
 *              what one write can: N points, 255 columns, 100 integers, 1 flag.
 *   axes       72 bytes: eight axis records of nine bytes, axis 1 first: status (1), sensor (1, 0 to
 *              15), error code (2, 0 to 4,095), encoder (1), position (4, signed), high byte first.
 *   reply      at least 1,024 bytes, where the reply is written.
 *
 * Beside the used length a second number is kept, the count of effective points: how many slots have a
 * pattern that isn't 00. 244H, 246H and the step back keep it true and test it against the slots first
 * (refusal 11). 208H replies it without looking at a slot, and tests only that it isn't above N.
 *
 * Fresh is all zero bytes in points, columns, integers, flags and journal, used length 0 and count 0.
 *
 * Two settings say where the numbers of integers and flags begin: first_integer, at most 3,996, since a
 * frame has three digits for such a number, and first_flag, at most 65,236, since it has four.
 *
 * A third names the cabinet release, and with it the letters that count as digits 10 to 15 in a frame's ID,
 * station, content and SC: release 1, 'A' to 'F'; release 2, 'A' to 'F' and 'a' to 'f'. The SC is always the
 * sum of the bytes as sent. What is stored is the value, and replies are in capitals, also where they repeat
 * what was sent; the ten bytes of a test call (200H) are any under both releases, and come back as sent. A
 * frame that release 1 accepts has the same answer under release 2. The release may change from call to call.
 *
 * A fourth says whether a frame may carry '@@' for its SC and is then not checked. Where that is forbidden,
 * such a frame changes nothing and is refused, with 12 where no earlier test refuses it; every other frame
 * has the same answer either way. Mind the two names: that of cabinet_answer, cabinet_check and cabinet_act
 * is unchecked, and 0 forbids; struct cabinet's is forbid_unchecked, and 0 allows, so that a host which
 * doesn't set it stays as it is. This setting too may change from call to call.
 *
 *
 * OWNERSHIP
 *
 *   - All areas belong to the host and are lent for the time of one call. Nothing is allocated, no
 *     pointer is kept and nothing is remembered between calls.
 *   - Every pointer points to as many bytes as its length says (or to one number) and is never null,
 *     not even where the length is 0.
 *   - An area or number that a call may write (points, columns, integers, flags, journal, reply, *used,
 *     *effective, *reply_length, *sum, *message, *start, *count, *length, *drop) overlaps no other one handed
 *     to the same call. The frame may be a part of the received bytes; it is no part of a struct cabinet.
 *     What a call only reads is const; cabinet_check reads all areas and writes none.
 *   - Lengths and bytes may be any: a wrong length, a spoiled byte or a damaged frame is refused as
 *     the table says, and nothing undefined is done.
 *   - For the step back to give back what was there, and for 208H to reply what is there: start fresh, use
 *     the same areas throughout, leave first_integer and first_flag as they were at fresh, hand each call
 *     the used length and the count the last one handed back (a check hands none back), and let nothing
 *     else write them. Then refusal 11 never comes.
 *   - Calls on different areas may run at the same time. Of calls on the same areas only checks may, any
 *     number of them, each with out numbers of its own.
 *
 *
 * REFUSAL NUMBERS, IN THE ORDER TESTED
 *
 * An accepted call has number 0. Each number is given exactly when its condition holds and none
 * earlier does. The step back tests 2, 3, 10, 4, 11, then 9; answering a frame and acting on it test all
 * but 9; checking it tests all but 1 and 9. Their names are those of enum cabinet_refusal.
 *
 *   No.  When                                                        Reply  Left
 *   ---  ----------------------------------------------------------  -----  ------------------------
 *     1  reply area under 1,024                                      none   nothing written
 *     2  points area not a multiple of 40 from 40 to 60,000          none   same
 *     3  columns area isn't 700                                      none   same
 *    10  integers area isn't 400, flags area isn't 300,              none   same
 *        first_integer+99 above FFFH, or first_flag+299 above FFFFH
 *     4  journal length wrong, used length beyond it, or used part   none   same
 *        not whole well-formed entries
 *     5  not eight axis records, or a sensor or error code too       none   same
 *        large, or no fitted axis
 *    13  release neither 1 nor 2                                     none   same
 *     6  not '!' first, CR LF last, 10 to 1,023 bytes; or a 200H     none   same
 *        frame of another length than 20, whatever its station
 *    12  SC is '@@', and that is forbidden                           none   same
 *     7  SC neither true, in digits of this release, nor '@@'        none   same
 *     8  station differs or isn't digits of this release             none   same
 *    11  a 244H, a 246H or a step back with a kept count that        none   same
 *        isn't the number of effective slots; a 208H with one
 *        above N; whatever the frame's content
 *     9  step back with used length 0                                none   same
 *   101  message unknown                                             error  10 reply bytes written,
 *                                                                           nothing else
 *   102  a content byte isn't a digit of this release (not 200H)     error  same
 *   103  content length isn't this message's (a 200H's is 6)         error  same
 *   104  program number not 00                                       error  same
 *   105  count zero (24BH has no count)                              error  same
 *   106  a number from start to start+count-1 not held               error  same
 *   107  in 244H, a pattern 00 or with an unfitted axis              error  same
 *   108  in 24BH, a change type other than 0 and 1                   error  same
 *
 * An error reply is '&', station, the three digits of the number, SC, CR, LF.
 *
 *
 * THE SERVICE LOG
 *
 * With every answer comes what the sum test said of the frame (enum cabinet_sum), also where the frame is
 * then refused. Frames that used '@@' are logged in three lines, as the loop below has them:
 *
 *   uint16_t number = cabinet_answer_frame(&board, line + start, length);
 *   if (board.sum == CABINET_SUM_SWITCHED_OFF)
 *       service_log(number, line + start, length);
 *
 * The number says what became of the frame: 0 where it was done, 12 where '@@' is forbidden, 8, 11 or 101 to
 * 108 where something else was wrong. A frame that an earlier test refuses (1 to 6, 10, 13) is not tested,
 * and so not logged, whatever its SC.
 *
 *
 * LOOK BEFORE STORING
 *
 * A panel that shows "write 45 points from 001" and asks before it stores makes two calls in place of
 * cabinet_answer_frame: it checks, shows, asks, and acts.
 *
 *   #include "cabinet.h"
 *   #include <stdbool.h>
 *
 *   bool ask(uint16_t message, size_t start, size_t count);          // these three are the panel's own;
 *   void motion_read(uint8_t *axes);                                 // ask is true at once for a query
 *   void serial_write(const uint8_t *bytes, size_t length);
 *
 *   void look_and_store(struct cabinet *board, const uint8_t *frame, size_t length)
 *   {
 *       struct cabinet_shown shown;
 *       motion_read(board->axes);
 *       if (cabinet_check_frame(board, frame, length, &shown) == CABINET_ACCEPTED &&
 *           !ask(shown.message, shown.start, shown.count))           // show, ask
 *           return;                                                  // nothing is changed or replied
 *       motion_read(board->axes);                                    // asking took its time
 *       cabinet_act_frame(board, frame, length);                     // done, or refused by its number
 *       if (board->reply_length > 0)
 *           serial_write(board->reply, board->reply_length);
 *   }
 *
 * Acting checks again, by the same rules: it needs no check before it, and where something was changed
 * between the two it goes by what is there then. With nothing between, check and act give what
 * cabinet_answer_frame gives, every byte of it, and what the check showed is what is done: a 244H shown with
 * start 1 and count 45 writes points 1 to 45 and no other, and a query writes none. A refused frame is
 * refused with the same number by both, and its error reply, where there is one, is written by acting. A
 * frame that is not acted on has no reply, and the store's computer waits for one in vain. For the service
 * log a frame is logged once: by what the act tells of the sum or, where there is no act, by shown.sum.
 *
 * Ask of writes alone: 244H and 246H (points), 24BH (a flag), 24CH (integers), 24EH (columns). A query stores
 * nothing, and a poll should not wait for a person. Start and count are values; show the start as the
 * frames write it, in hexadecimal (point 010 is 16): three digits, of a flag four. Keep the frame's bytes
 * until the act.
 *
 *
 * A HOST'S LOOP
 *
 *   #include "cabinet.h"
 *   #include <string.h>
 *
 *   size_t serial_read(uint8_t *to, size_t room);                    // these four are the host's own
 *   void serial_write(const uint8_t *bytes, size_t length);
 *   void motion_read(uint8_t *axes);
 *   void service_log(uint16_t number, const uint8_t *frame, size_t length);
 *
 *   static uint8_t points[CABINET_POINTS_BYTES(500)], journal[32768];
 *   static uint8_t line[2 * CABINET_LONGEST_FRAME_BYTES];            // received and not yet dropped
 *   static size_t held;
 *   static struct cabinet board = {
 *       .points = points, .points_length = sizeof points,
 *       .journal = journal, .journal_length = sizeof journal,
 *       .fitted = 0xFF, .station = 0x99, .release = CABINET_SMALL_LETTERS_TOO,
 *       .first_integer = 200, .first_flag = 600                      // else zero: fresh, '@@' allowed
 *   };
 *
 *   int main(void)
 *   {
 *       for (;;) {
 *           uint8_t found;
 *           held += serial_read(line + held, sizeof line - held);
 *           do {
 *               size_t start, length, drop;
 *               found = cabinet_receive(line, held, &start, &length, &drop);
 *               if (found == CABINET_FRAME) {
 *                   motion_read(board.axes);
 *                   uint16_t number = cabinet_answer_frame(&board, line + start, length);
 *                   if (board.sum == CABINET_SUM_SWITCHED_OFF)
 *                       service_log(number, line + start, length);   // accepted or refused
 *                   if (board.reply_length > 0)
 *                       serial_write(board.reply, board.reply_length);
 *               }
 *               held -= drop;                                        // also where there is no frame
 *               memmove(line, line + drop, held);
 *           } while (found == CABINET_FRAME || found == CABINET_TOO_LONG);
 *       }
 *   }
 *
 * The receive buffer needs at least CABINET_LONGEST_FRAME_BYTES: then after "wait" there is always
 * room for one more byte.
 */
#ifndef CABINET_H
#define CABINET_H

#include <stddef.h>
#include <stdint.h>

#ifdef __cplusplus
extern "C" {
#endif

/*
 * Rises by one with every change of this header that a host can see: a call, a field, a length or a
 * number added or changed. A host that needs what came with version 2 says
 *   #if CABINET_VERSION < 2
 *   #error "an older cabinet.h"
 *   #endif
 * The header and the archive belong together: take both from the same state of the repository.
 *
 * Version 2: integers, flags and their settings, in cabinet_answer, cabinet_step_back and struct cabinet;
 * messages 20DH, 20EH, 24BH and 24CH, refused 101 before; refusals 10 and 108; a least journal of 40*N+500
 * bytes, 40*N+300 before.
 * Version 3: cabinet_receive takes 20 bytes as a test call, so line ends may be among its ten bytes; before,
 * it cut the frame at the first. A 200H frame of another length is refused 6, without a reply; before, 103.
 * Version 4: the cabinet release, in cabinet_answer behind the station and in struct cabinet; refusal 13.
 * Version 5: whether '@@' is allowed, in cabinet_answer behind the release and in struct cabinet; refusal 12;
 * what the sum test said, cabinet_answer's last parameter and in struct cabinet. So cabinet_answer has two
 * parameters more; a host with a struct cabinet stays as it is.
 * Version 6: cabinet_check and cabinet_act, and over a struct cabinet cabinet_check_frame and
 * cabinet_act_frame. All else is as it was.
 * Version 7: the count of effective points, behind the used length in cabinet_answer, cabinet_check,
 * cabinet_act and cabinet_step_back, and in struct cabinet; refusal 11. A host with a struct cabinet that
 * starts fresh stays as it is; one that goes on with points written under an earlier version first sets the
 * count to the number of slots whose first byte isn't 00, else its 244H, 246H and steps back are refused 11
 * and 208H replies what it was handed.
 */
#define CABINET_VERSION 7

/* Lengths in bytes ("The areas", "Frame"), and how many there are: points at most, integers, flags. */
#define CABINET_SLOT_BYTES 40
#define CABINET_MOST_POINTS 1500
#define CABINET_POINTS_BYTES(points_held) (CABINET_SLOT_BYTES * (points_held))
#define CABINET_COLUMNS_BYTES 700
#define CABINET_INTEGER_BYTES 4
#define CABINET_INTEGERS_HELD 100
#define CABINET_INTEGERS_BYTES (CABINET_INTEGER_BYTES * CABINET_INTEGERS_HELD)
#define CABINET_FLAGS_HELD 300
#define CABINET_FLAGS_BYTES CABINET_FLAGS_HELD
#define CABINET_LEAST_JOURNAL_BYTES(points_held) (CABINET_POINTS_BYTES(points_held) + 500)
#define CABINET_MOST_JOURNAL_BYTES 65536
#define CABINET_RECORD_BYTES 9
#define CABINET_AXES_BYTES (8 * CABINET_RECORD_BYTES)
#define CABINET_REPLY_BYTES 1024
#define CABINET_SHORTEST_FRAME_BYTES 10
#define CABINET_LONGEST_FRAME_BYTES 1023
#define CABINET_ERROR_REPLY_BYTES 10

/* What cabinet_receive answers ("Finding a frame in the received bytes"). */
enum cabinet_found {
    CABINET_FRAME = 0,   /* a frame was found */
    CABINET_NOTHING = 1, /* there is no '!', or each was skipped (cabinet_receive, below) */
    CABINET_WAIT = 2,    /* there is a '!', its frame hasn't ended: come back with more bytes */
    CABINET_TOO_LONG = 3 /* no CR LF in the 1,023 bytes from the '!' on */
};

/* The cabinet release: which letters the store's computer may send as digits 10 to 15. */
enum cabinet_release {
    CABINET_CAPITALS_ONLY = 1,    /* 'A' to 'F' */
    CABINET_SMALL_LETTERS_TOO = 2 /* 'A' to 'F' and 'a' to 'f' */
};

/* What the sum test said of a frame. */
enum cabinet_sum {
    CABINET_SUM_UNTESTED = 0,     /* an earlier test refused the call: nothing is said of the SC */
    CABINET_SUM_TRUE = 1,         /* the SC is that of the bytes before it, in digits of this release */
    CABINET_SUM_SWITCHED_OFF = 2, /* it is '@@' */
    CABINET_SUM_WRONG = 3         /* anything else: '@' once, or small letters under release 1, too */
};

/* What the other calls answer, in the order tested: the table "Refusal numbers" above. */
enum cabinet_refusal {
    CABINET_ACCEPTED = 0,
    CABINET_REFUSED_REPLY_AREA = 1,
    CABINET_REFUSED_POINTS_AREA = 2,
    CABINET_REFUSED_COLUMNS_AREA = 3,
    CABINET_REFUSED_VARIABLES = 10,
    CABINET_REFUSED_JOURNAL = 4,
    CABINET_REFUSED_AXES = 5,
    CABINET_REFUSED_RELEASE = 13,
    CABINET_REFUSED_FRAME = 6,
    CABINET_REFUSED_SWITCHED_OFF = 12,
    CABINET_REFUSED_SC = 7,
    CABINET_REFUSED_STATION = 8,
    CABINET_REFUSED_EFFECTIVE_COUNT = 11,
    CABINET_REFUSED_NO_WRITE_LEFT = 9,
    CABINET_REFUSED_MESSAGE = 101,
    CABINET_REFUSED_DIGIT = 102,
    CABINET_REFUSED_CONTENT_LENGTH = 103,
    CABINET_REFUSED_PROGRAM = 104,
    CABINET_REFUSED_COUNT = 105,
    CABINET_REFUSED_NOT_HELD = 106,
    CABINET_REFUSED_PATTERN = 107,
    CABINET_REFUSED_CHANGE_TYPE = 108
};

/*
 * Finds the first frame in the received bytes.
 *
 *   received, received_length   the bytes received and not yet dropped, oldest first; not written
 *   start, length   out: the frame is the *length bytes from received[*start] on, '!' first and CR LF
 *                   last; both are 0 where there is no frame
 *   drop            out: how many bytes at the front are used up or dropped, at most received_length:
 *                     CABINET_FRAME     all up to the frame's end (*start + *length)
 *                     CABINET_NOTHING   all
 *                     CABINET_WAIT      what stood before the '!' whose frame hasn't ended
 *                     CABINET_TOO_LONG  all up to and with the '!' from which no CR LF comes
 *
 * Returns CABINET_FRAME, CABINET_NOTHING, CABINET_WAIT or CABINET_TOO_LONG. After CABINET_FRAME and
 * CABINET_TOO_LONG, drop and call again: another frame may be there.
 *
 * A test call may have line ends among its ten bytes: where two bytes that aren't the pair CR LF, and then
 * '200', follow the '!', the frame is 20 bytes long. With fewer there the answer is CABINET_WAIT, also
 * where another frame stands among them; a 200H that was sent too short so takes the bytes behind it as its
 * own. Where the last two of the 20 aren't CR LF, that '!' is skipped and the same call looks on from the
 * byte after it; what it then finds is counted from received[0] all the same, skipped bytes are dropped with
 * the rest, and with no further '!' all is dropped. Any other frame ends at its first CR LF.
 *
 * A frame found may still be refused by cabinet_answer, cabinet_check and cabinet_act; it may have 3 to
 * 1,023 bytes.
 */
uint8_t cabinet_receive(const uint8_t *received, size_t received_length,
                        size_t *start, size_t *length, size_t *drop);

/*
 * Answers one frame: does what it asks, all of it, and writes the reply; or refuses it. Easier to call:
 * cabinet_answer_frame below.
 *
 *   frame, frame_length           one whole frame, '!' to CR LF; not written
 *   points, points_length         the points area; written by 244H and 246H
 *   columns, columns_length       the columns area; written by 24EH
 *   integers, integers_length     the integers area; written by 24CH
 *   flags, flags_length           the flags area; written by 24BH
 *   journal, journal_length       the journal; each accepted 244H, 246H, 24BH, 24CH or 24EH adds one
 *                                 entry, after dropping oldest entries, and no more than needed, until
 *                                 it fits; bytes beyond the used length are then 00
 *   used            in and out: the journal's used length; a refused call and a query leave it
 *   effective       in and out: the kept count of effective points. An accepted 244H or 246H hands back how
 *                   many slots have a pattern that isn't 00 after it; any other call, and any refused one,
 *                   leaves it. 208H replies it
 *   axes, axes_length             the eight axis records; not written
 *   fitted          the fitted axes, bit 0 for axis 1; not 0
 *   station         the board's station, two digits in a frame (99H for "99")
 *   release         the cabinet release: CABINET_CAPITALS_ONLY (1) or CABINET_SMALL_LETTERS_TOO (2)
 *   unchecked       0 forbids '@@' for an SC (refusal 12), any other value allows it; the opposite of
 *                   struct cabinet's forbid_unchecked
 *   first_integer   the number of the first integer variable
 *   first_flag      the number of the first flag
 *   reply, reply_area_length      the reply area; bytes beyond the reply stay
 *   reply_length    out: how many bytes of the reply area are the reply; 0 where there is none
 *   sum             out: what the sum test said, enum cabinet_sum: also where 12, 7 or a later test refuses
 *                   the frame; CABINET_SUM_UNTESTED where an earlier one does (1 to 6, 10, 13)
 *
 * Returns CABINET_ACCEPTED, else the refusal number (1 to 8 and 10 to 13: no reply; 101 to 108: the ten bytes
 * of an error reply).
 *
 * Replies to accepted frames, each '#', station, message ID, content, SC, CR, LF, and the content's digits:
 *
 *   200H  test call                   the ten bytes unchanged                              20 bytes
 *   208H  number of effective points  3                                                    13
 *   209H  effective point query       number listed 3; for each: number 3, pattern 2,      13 to 1,024
 *                                     acceleration, deceleration, speed 4, 8 for each axis
 *   20DH  flag query                  program 2, start 4, count 4, 2 for each eight flags  22 to 96
 *                                     begun: the first of the eight in bit 0, bits beyond
 *                                     the count 0
 *   20EH  integer variable query      program 2, start 3, count 2, 8 for each integer      25 to 817
 *   210H  string query                program 2, start 3, count 2, 2 for each column       19 to 527
 *   212H  axis status                 pattern 2; for each axis: status 2, sensor 1,        12 to 140
 *                                     error code 3, encoder 2, position 8
 *   244H  point range write           start 3, count 3                                     16
 *   246H  point clear                 none                                                 10
 *   24BH  flag status change          none                                                 10
 *   24CH  integer variable change     program 2, start 3, count 2                          17
 *   24EH  string change               none                                                 10
 */
uint16_t cabinet_answer(const uint8_t *frame, size_t frame_length,
                        uint8_t *points, size_t points_length,
                        uint8_t *columns, size_t columns_length,
                        uint8_t *integers, size_t integers_length,
                        uint8_t *flags, size_t flags_length,
                        uint8_t *journal, size_t journal_length,
                        size_t *used, size_t *effective,
                        const uint8_t *axes, size_t axes_length,
                        uint8_t fitted, uint8_t station, uint8_t release, uint8_t unchecked,
                        uint16_t first_integer, uint16_t first_flag,
                        uint8_t *reply, size_t reply_area_length, size_t *reply_length,
                        uint8_t *sum);

/*
 * Checks one frame: says what answering it would do, or its refusal, and changes nothing. No area is
 * written, and there is no reply. Easier to call: cabinet_check_frame below.
 *
 *   frame to first_flag   as in cabinet_answer, all of it only read: the used length and the count of
 *                   effective points by value, no reply area
 *   sum             out: what the sum test said, as cabinet_answer tells it where its reply area is long
 *                   enough
 *   message         out: the ID of the message that would be done, as a number, 0x244 for 244H; 0 where the
 *                   frame is refused
 *   start, count    out: the run that the message names, count numbers from start on; of 24BH the flag's
 *                   number and 1. Both are 0 where it names none (200H, 208H, 212H) and where the frame is
 *                   refused; where there is a run the count isn't 0, and its start may be
 *
 * Returns CABINET_ACCEPTED where the frame would be done, else the number that cabinet_act and
 * cabinet_answer refuse it with where the reply area is long enough: 2 to 8, 10 to 13 or 101 to 108, never
 * 1.
 */
uint16_t cabinet_check(const uint8_t *frame, size_t frame_length,
                       const uint8_t *points, size_t points_length,
                       const uint8_t *columns, size_t columns_length,
                       const uint8_t *integers, size_t integers_length,
                       const uint8_t *flags, size_t flags_length,
                       const uint8_t *journal, size_t journal_length,
                       size_t used, size_t effective,
                       const uint8_t *axes, size_t axes_length,
                       uint8_t fitted, uint8_t station, uint8_t release, uint8_t unchecked,
                       uint16_t first_integer, uint16_t first_flag,
                       uint8_t *sum, uint16_t *message, size_t *start, size_t *count);

/*
 * Acts on one frame: checks it again, by the rules of cabinet_check, and does it, with the reply; or refuses
 * it. 1 is tested before them. Parameters and result are those of cabinet_answer, and on the same call it
 * gives the same, every number and every byte. Easier to call: cabinet_act_frame below.
 */
uint16_t cabinet_act(const uint8_t *frame, size_t frame_length,
                     uint8_t *points, size_t points_length,
                     uint8_t *columns, size_t columns_length,
                     uint8_t *integers, size_t integers_length,
                     uint8_t *flags, size_t flags_length,
                     uint8_t *journal, size_t journal_length,
                     size_t *used, size_t *effective,
                     const uint8_t *axes, size_t axes_length,
                     uint8_t fitted, uint8_t station, uint8_t release, uint8_t unchecked,
                     uint16_t first_integer, uint16_t first_flag,
                     uint8_t *reply, size_t reply_area_length, size_t *reply_length,
                     uint8_t *sum);

/*
 * Steps back: takes away the latest accepted write that the journal still holds. Easier to call:
 * cabinet_take_back below.
 *
 *   points, points_length         the points area   }
 *   columns, columns_length       the columns area  } the last entry's old bytes
 *   integers, integers_length     the integers area } are put back into one of them
 *   flags, flags_length           the flags area    }
 *   journal, journal_length       the journal; loses its last entry, and bytes beyond the used length
 *                                 are then 00
 *   used            in and out: the journal's used length; a refused call leaves it
 *   effective       in and out: the kept count of effective points; an accepted step back, of any kind,
 *                   hands back how many slots have a pattern that isn't 00 after it, a refused one leaves it
 *   first_integer   the number of the first integer variable
 *   first_flag      the number of the first flag
 *
 * Returns CABINET_ACCEPTED where a write was taken back, else the refusal number: 2, 3, 10, 4, 11, or 9
 * where no write is left. There is no reply.
 */
uint16_t cabinet_step_back(uint8_t *points, size_t points_length,
                           uint8_t *columns, size_t columns_length,
                           uint8_t *integers, size_t integers_length,
                           uint8_t *flags, size_t flags_length,
                           uint8_t *journal, size_t journal_length,
                           size_t *used, size_t *effective,
                           uint16_t first_integer, uint16_t first_flag);

/*
 * A board: all that the calls below need, by name. Areas whose length is the host's choice are lent;
 * those of one fixed length are inside, so refusals 1 and 3 don't come, and 10 only for the settings.
 *
 * Start from all zero and set the lent areas and the settings, by name. In C by a designated
 * initialiser, as the loop above does; in C++:
 *   struct cabinet board = {};
 *   board.points = points;
 *   board.points_length = sizeof points;
 * Never by position: a later version may put a field anywhere. In a field added later zero is fresh, a
 * setting that is allowed, or the rule as it was before, so that a host which starts fresh and doesn't know
 * the field stays as it is.
 */
struct cabinet {
    /* lent areas ("The areas", "Ownership" above): set before the first call */
    uint8_t *points;
    size_t points_length;
    uint8_t *journal;
    size_t journal_length;

    /* settings */
    uint8_t fitted;           /* the fitted axes, bit 0 for axis 1; not 0 */
    uint8_t station;          /* two digits in a frame (0x99 for "99") */
    uint8_t release;          /* enum cabinet_release; 0, not set, is CABINET_CAPITALS_ONLY */
    uint8_t forbid_unchecked; /* 0 allows '@@' for an SC, as ever; any other value forbids it (refusal 12) */
    uint16_t first_integer;   /* number of the first integer variable, 0 to 3,996 */
    uint16_t first_flag;      /* number of the first flag, 0 to 65,236 */

    /* the axis records as they are now: the host writes them before each frame */
    uint8_t axes[CABINET_AXES_BYTES];

    /* kept from call to call, written by the calls alone */
    uint8_t columns[CABINET_COLUMNS_BYTES];
    uint8_t integers[CABINET_INTEGERS_BYTES];
    uint8_t flags[CABINET_FLAGS_BYTES];
    size_t used;      /* the journal's used length */
    size_t effective; /* the count of effective points */

    /* what the last answer, act or step back gave; a check leaves it */
    uint8_t reply[CABINET_REPLY_BYTES];
    size_t reply_length; /* so many bytes of it; 0 where there is no reply */
    uint8_t sum;         /* enum cabinet_sum; CABINET_SUM_UNTESTED at fresh and after a step back */
};

/*
 * Answers one frame, '!' to CR LF, as cabinet_answer does, under release 1 where board->release is 0, and
 * with '@@' allowed where board->forbid_unchecked is 0. The reply is the first board->reply_length bytes of
 * board->reply, and board->sum is what the sum test said. Returns CABINET_ACCEPTED or the refusal number.
 */
static inline uint16_t cabinet_answer_frame(struct cabinet *board,
                                            const uint8_t *frame, size_t frame_length)
{
    return cabinet_answer(frame, frame_length, board->points, board->points_length,
                          board->columns, sizeof board->columns,
                          board->integers, sizeof board->integers, board->flags, sizeof board->flags,
                          board->journal, board->journal_length, &board->used, &board->effective,
                          board->axes, sizeof board->axes, board->fitted, board->station,
                          board->release == 0 ? (uint8_t)CABINET_CAPITALS_ONLY : board->release,
                          board->forbid_unchecked == 0, board->first_integer, board->first_flag,
                          board->reply, sizeof board->reply, &board->reply_length, &board->sum);
}

/* What cabinet_check_frame says of a frame; all of it is written by the call, and read by name. */
struct cabinet_shown {
    uint16_t message; /* the ID of the message that would be done, 0x244 for 244H; 0 where it is refused */
    size_t start;     /* the run that the message names: its first number, and how many; of 24BH the flag's */
    size_t count;     /* number and 1; both 0 where it names none (200H, 208H, 212H) or is refused */
    uint8_t sum;      /* enum cabinet_sum */
};

/*
 * Checks one frame, '!' to CR LF, as cabinet_check does, and changes nothing of the board. Returns
 * CABINET_ACCEPTED where cabinet_act_frame would do it, else the refusal number, never 1.
 */
static inline uint16_t cabinet_check_frame(const struct cabinet *board, const uint8_t *frame,
                                           size_t frame_length, struct cabinet_shown *shown)
{
    return cabinet_check(frame, frame_length, board->points, board->points_length,
                         board->columns, sizeof board->columns,
                         board->integers, sizeof board->integers, board->flags, sizeof board->flags,
                         board->journal, board->journal_length, board->used, board->effective,
                         board->axes, sizeof board->axes, board->fitted, board->station,
                         board->release == 0 ? (uint8_t)CABINET_CAPITALS_ONLY : board->release,
                         board->forbid_unchecked == 0, board->first_integer, board->first_flag,
                         &shown->sum, &shown->message, &shown->start, &shown->count);
}

/*
 * Acts on one frame, '!' to CR LF, as cabinet_act does: checks it again and does it. Reply, sum and number
 * as cabinet_answer_frame gives them.
 */
static inline uint16_t cabinet_act_frame(struct cabinet *board,
                                         const uint8_t *frame, size_t frame_length)
{
    return cabinet_act(frame, frame_length, board->points, board->points_length,
                       board->columns, sizeof board->columns,
                       board->integers, sizeof board->integers, board->flags, sizeof board->flags,
                       board->journal, board->journal_length, &board->used, &board->effective,
                       board->axes, sizeof board->axes, board->fitted, board->station,
                       board->release == 0 ? (uint8_t)CABINET_CAPITALS_ONLY : board->release,
                       board->forbid_unchecked == 0, board->first_integer, board->first_flag,
                       board->reply, sizeof board->reply, &board->reply_length, &board->sum);
}

/*
 * Takes back the latest accepted write that the journal still holds, as cabinet_step_back does. There
 * is no reply. Returns CABINET_ACCEPTED or the refusal number, CABINET_REFUSED_NO_WRITE_LEFT where no
 * write is left.
 */
static inline uint16_t cabinet_take_back(struct cabinet *board)
{
    board->reply_length = 0;
    board->sum = CABINET_SUM_UNTESTED;
    return cabinet_step_back(board->points, board->points_length,
                             board->columns, sizeof board->columns,
                             board->integers, sizeof board->integers, board->flags, sizeof board->flags,
                             board->journal, board->journal_length, &board->used, &board->effective,
                             board->first_integer, board->first_flag);
}

#ifdef __cplusplus
}
#endif

#endif
