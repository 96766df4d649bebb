/*
 * plain.c: the board's five calls, written plainly by hand from documents 01, 02 (requests a, b, c, f, g, l)
 * and 000.
 *
 * No heap and no second buffers: replies are written where they are lent, old bytes go straight into
 * the journal. A frame is read once for its sum and once for its fields. Any bytes and any lengths
 * may be handed over: every length is tested before a byte of its area is touched.
 */
#include "plain.h"

#include <string.h>

enum {
    SLOT = 40,
    MOST_POINTS_LENGTH = 60000,
    COLUMNS_LENGTH = 700,
    FIRST_COLUMN = 300,
    LAST_COLUMN = 999,
    INTEGER = 4,
    INTEGERS = 100,
    MOST_INTEGER = 0xFFF, /* the largest number that its field of a frame holds */
    FLAGS = 300,
    MOST_FLAG = 0xFFFF,
    AXES = 8,
    RECORD = 9,
    SHORTEST_FRAME = 10,
    LONGEST_FRAME = 1023,
    LONGEST_REPLY = 1024,
    TEST_CALL_FRAME = 20, /* of ten bytes, line ends or not */
    ID_AT = 3,
    CONTENT_AT = 6,
    END = 4, /* SC, CR, LF */
    POINTS_TAG = 0x50,
    COLUMNS_TAG = 0x53,
    INTEGERS_TAG = 0x49,
    FLAGS_TAG = 0x46,
    ENTRY_HEAD = 5, /* tag, length, start number */
    ENTRY_START = 2, /* the start number is part of the length */
    MOST_ENTRY_COLUMNS = 255,
    JOURNAL_MORE = 500, /* the least journal is longer than the points by this */
    MOST_JOURNAL = 65536
};

/* ---- digits ---- */

/* The rules that releases 1 and 2 name, as the bit that a digit has in the table below. */
enum { CAPITALS_ONLY = 0x40, SMALL_TOO = 0x80 };

/* A digit's value with the bits of the rules under which it is one; 0 for any other byte. */
static const uint8_t digit[256] = {
    ['0'] = 0xC0, ['1'] = 0xC1, ['2'] = 0xC2, ['3'] = 0xC3, ['4'] = 0xC4, ['5'] = 0xC5,
    ['6'] = 0xC6, ['7'] = 0xC7, ['8'] = 0xC8, ['9'] = 0xC9, ['A'] = 0xCA, ['B'] = 0xCB,
    ['C'] = 0xCC, ['D'] = 0xCD, ['E'] = 0xCE, ['F'] = 0xCF,
    ['a'] = 0x8A, ['b'] = 0x8B, ['c'] = 0x8C, ['d'] = 0x8D, ['e'] = 0x8E, ['f'] = 0x8F
};

static const uint8_t digit_of[16] = {'0', '1', '2', '3', '4', '5', '6', '7',
                                     '8', '9', 'A', 'B', 'C', 'D', 'E', 'F'};

/* One bits of a digit. */
static const uint8_t ones_of[16] = {0, 1, 1, 2, 1, 2, 2, 3, 1, 2, 2, 3, 2, 3, 3, 4};

static unsigned ones(unsigned pattern)
{
    return (unsigned)ones_of[pattern >> 4] + ones_of[pattern & 15];
}

/* Whether two bytes are digits under this rule. */
static int are_digits(const uint8_t *field, unsigned rule)
{
    return (digit[field[0]] & digit[field[1]] & rule) != 0;
}

/* The byte two digits stand for; they are known to be digits. */
static uint8_t two(const uint8_t *field)
{
    return (uint8_t)(digit[field[0]] << 4 | (digit[field[1]] & 15));
}

/* The number three digits stand for. */
static unsigned three(const uint8_t *field)
{
    return (unsigned)(digit[field[0]] & 15) << 8 | two(field + 1);
}

/* The number four digits stand for. */
static unsigned four(const uint8_t *field)
{
    return (unsigned)two(field) << 8 | two(field + 2);
}

/* `count` bytes from twice as many digits. */
static void take_bytes(uint8_t *to, const uint8_t *field, size_t count)
{
    size_t i;
    for (i = 0; i < count; i++)
        to[i] = two(field + 2 * i);
}

/* A number of two bytes, high byte first. */
static unsigned pair(const uint8_t *bytes)
{
    return (unsigned)bytes[0] << 8 | bytes[1];
}

/* ---- replies ---- */

/* A reply being written, and the sum of what stands in it so far. */
struct text {
    uint8_t *at;
    unsigned sum;
};

static void put(struct text *text, unsigned byte)
{
    *text->at++ = (uint8_t)byte;
    text->sum += byte;
}

static void put_two(struct text *text, unsigned byte)
{
    put(text, digit_of[byte >> 4]);
    put(text, digit_of[byte & 15]);
}

static void put_three(struct text *text, unsigned number)
{
    put(text, digit_of[number >> 8 & 15]);
    put_two(text, number & 255);
}

/* Two digits for each byte. The place and the sum are kept in registers on the way. */
static void put_bytes(struct text *text, const uint8_t *bytes, size_t count)
{
    uint8_t *at = text->at, high, low;
    unsigned sum = text->sum;
    size_t i;
    for (i = 0; i < count; i++, at += 2) {
        high = digit_of[bytes[i] >> 4];
        low = digit_of[bytes[i] & 15];
        at[0] = high;
        at[1] = low;
        sum += (unsigned)high + low;
    }
    text->at = at;
    text->sum = sum;
}

/* Bytes as they are. */
static void put_same(struct text *text, const uint8_t *bytes, size_t count)
{
    uint8_t *at = text->at;
    unsigned sum = text->sum;
    size_t i;
    for (i = 0; i < count; i++) {
        at[i] = bytes[i];
        sum += bytes[i];
    }
    text->at = at + count;
    text->sum = sum;
}

/* Digits of the command, in capitals: bit 6 is a letter's, and bit 5 then makes it small. */
static void put_digits(struct text *text, const uint8_t *digits, size_t count)
{
    uint8_t *at = text->at;
    unsigned sum = text->sum;
    size_t i;
    for (i = 0; i < count; i++) {
        at[i] = (uint8_t)(digits[i] & ~((digits[i] & 0x40) >> 1));
        sum += at[i];
    }
    text->at = at + count;
    text->sum = sum;
}

/* SC, CR and LF; the reply's length. */
static size_t close_reply(struct text *text, const uint8_t *reply)
{
    unsigned sc = text->sum & 255;
    put_two(text, sc);
    put(text, '\r');
    put(text, '\n');
    return (size_t)(text->at - reply);
}

static size_t error_reply(uint8_t *reply, uint8_t station, uint16_t number)
{
    struct text text = {reply, 0};
    put(&text, '&');
    put_two(&text, station);
    put(&text, '1'); /* 101 to 108 */
    put(&text, '0');
    put(&text, digit_of[number - 100]);
    return close_reply(&text, reply);
}

/* ---- areas ---- */

/* What the tests of a call's areas read and what they find: of the areas nothing is written through it. */
struct seen {
    const uint8_t *points;
    const uint8_t *journal;
    size_t journal_length;
    size_t used;
    size_t effective; /* the kept count */
    size_t held; /* N */
    size_t first_integer, last_integer;
    size_t first_flag, last_flag;
    size_t last; /* where the last entry begins, if there is one */
};

/* The areas of a call that passed tests 2, 3, 10 and 4, to be written. */
struct areas {
    uint8_t *points;
    uint8_t *columns;
    uint8_t *integers;
    uint8_t *flags;
    uint8_t *journal;
    struct seen seen;
};

/* Whether the numbers from start to start+count-1 are among first to last. */
static int is_held(size_t start, size_t count, size_t first, size_t last)
{
    return start >= first && start <= last && count <= last - start + 1;
}

/* Length of the well-formed entry at the front of `left` bytes, 0 where there is none. */
static size_t entry_length(const struct seen *seen, const uint8_t *entry, size_t left)
{
    size_t follows, old, start;
    int good = 0;
    if (left < ENTRY_HEAD)
        return 0;
    follows = pair(entry + 1);
    start = pair(entry + 3);
    if (follows <= ENTRY_START || follows - ENTRY_START > left - ENTRY_HEAD)
        return 0;
    old = follows - ENTRY_START;
    if (entry[0] == POINTS_TAG)
        good = old % SLOT == 0 && is_held(start, old / SLOT, 1, seen->held);
    else if (entry[0] == COLUMNS_TAG)
        good = old <= MOST_ENTRY_COLUMNS && is_held(start, old, FIRST_COLUMN, LAST_COLUMN);
    else if (entry[0] == INTEGERS_TAG)
        good = old % INTEGER == 0 && is_held(start, old / INTEGER, seen->first_integer, seen->last_integer);
    else if (entry[0] == FLAGS_TAG)
        good = old == 1 && is_held(start, 1, seen->first_flag, seen->last_flag);
    return good ? ENTRY_HEAD + old : 0;
}

/* Whether the used part is whole well-formed entries; finds the last one. */
static int walk_journal(struct seen *seen)
{
    size_t at = 0, length;
    seen->last = 0;
    while (at < seen->used) {
        length = entry_length(seen, seen->journal + at, seen->used - at);
        if (length == 0)
            return 0;
        seen->last = at;
        at += length;
    }
    return 1;
}

/* Tests 2, 3, 10 and 4, which a step back makes too; 0 where none holds. */
static uint16_t test_areas(struct seen *seen, size_t points_length, size_t columns_length,
                           size_t integers_length, size_t flags_length)
{
    if (points_length % SLOT != 0 || points_length < SLOT || points_length > MOST_POINTS_LENGTH)
        return 2;
    if (columns_length != COLUMNS_LENGTH)
        return 3;
    seen->last_integer = seen->first_integer + INTEGERS - 1;
    seen->last_flag = seen->first_flag + FLAGS - 1;
    if (integers_length != INTEGER * INTEGERS || seen->last_integer > MOST_INTEGER ||
        flags_length != FLAGS || seen->last_flag > MOST_FLAG)
        return 10;
    if (seen->journal_length < points_length + JOURNAL_MORE || seen->journal_length > MOST_JOURNAL)
        return 4;
    seen->held = points_length / SLOT;
    return seen->used <= seen->journal_length && walk_journal(seen) ? 0 : 4;
}

/* How many of so many slots have a pattern. */
static size_t effective_among(const uint8_t *slot, size_t count)
{
    const uint8_t *end = slot + SLOT * count;
    size_t effective = 0;
    for (; slot < end; slot += SLOT)
        effective += slot[0] != 0;
    return effective;
}

/* Whether the kept count is the slots'; else a write, a clear and a step back are refused by 11. */
static int count_is_true(const struct seen *seen)
{
    return seen->effective == effective_among(seen->points, seen->held);
}

/* Bytes of the oldest entries to be dropped, no more than needed, until `length` more fit. */
static size_t to_drop(const struct areas *areas, size_t length)
{
    size_t dropped = 0;
    while (areas->seen.used - dropped + length > areas->seen.journal_length)
        dropped += ENTRY_HEAD - ENTRY_START + pair(areas->journal + dropped + 1);
    return dropped;
}

/* Adds the entry that keeps `length` old bytes; what stands beyond it becomes 00. */
static void keep_old(struct areas *areas, uint8_t tag, unsigned start,
                     const uint8_t *old, size_t length)
{
    size_t dropped = to_drop(areas, ENTRY_HEAD + length);
    size_t kept = areas->seen.used - dropped;
    uint8_t *entry = areas->journal + kept;
    if (dropped > 0)
        memmove(areas->journal, areas->journal + dropped, kept);
    entry[0] = tag;
    entry[1] = (uint8_t)((ENTRY_START + length) >> 8);
    entry[2] = (uint8_t)(ENTRY_START + length);
    entry[3] = (uint8_t)(start >> 8);
    entry[4] = (uint8_t)start;
    memcpy(entry + ENTRY_HEAD, old, length);
    areas->seen.used = kept + ENTRY_HEAD + length;
    memset(areas->journal + areas->seen.used, 0, areas->seen.journal_length - areas->seen.used);
}

/* Where the bytes of a held number begin. */
static uint8_t *place_of(const struct areas *areas, uint8_t tag, size_t start)
{
    if (tag == POINTS_TAG)
        return areas->points + SLOT * (start - 1);
    if (tag == COLUMNS_TAG)
        return areas->columns + (start - FIRST_COLUMN);
    if (tag == INTEGERS_TAG)
        return areas->integers + INTEGER * (start - areas->seen.first_integer);
    return areas->flags + (start - areas->seen.first_flag);
}

/* Puts the last entry's old bytes back and removes it. */
static void take_back(struct areas *areas)
{
    uint8_t *entry = areas->journal + areas->seen.last;
    size_t length = areas->seen.used - areas->seen.last - ENTRY_HEAD;
    uint8_t *place = place_of(areas, entry[0], pair(entry + 3));
    if (entry[0] == POINTS_TAG) {
        areas->seen.effective -= effective_among(place, length / SLOT);
        areas->seen.effective += effective_among(entry + ENTRY_HEAD, length / SLOT);
    }
    memcpy(place, entry + ENTRY_HEAD, length);
    memset(entry, 0, areas->seen.journal_length - areas->seen.last);
    areas->seen.used = areas->seen.last;
}

/* ---- frames ---- */

/* Test 5: eight records within their limits, and a fitted axis. */
static int axes_are_good(const uint8_t *axes, size_t axes_length, uint8_t fitted)
{
    size_t axis;
    unsigned over = 0;
    if (axes_length != AXES * RECORD || fitted == 0)
        return 0;
    for (axis = 0; axis < AXES; axis++) /* sensor, and the error code's high byte: at most 15 */
        over |= (unsigned)(axes[RECORD * axis + 1] | axes[RECORD * axis + 2]) >> 4;
    return over == 0;
}

static int is_pair(const uint8_t *bytes)
{
    return bytes[0] == '\r' && bytes[1] == '\n';
}

static int is_test_call(const uint8_t *id)
{
    return id[0] == '2' && id[1] == '0' && id[2] == '0';
}

/* Test 6. */
static int has_shape(const uint8_t *frame, size_t length)
{
    return length >= SHORTEST_FRAME && length <= LONGEST_FRAME && frame[0] == '!' &&
           is_pair(frame + length - 2) && (length == TEST_CALL_FRAME || !is_test_call(frame + ID_AT));
}

/* What the sum test says, as an answer tells it. */
enum { UNTESTED = 0, TRUE_SC = 1, SWITCHED_OFF = 2, WRONG_SC = 3 };

/* The sum test; on the way, *digits becomes 0 where a content byte isn't a digit under this rule. */
static uint8_t sum_test(const uint8_t *frame, size_t length, unsigned rule, unsigned *digits)
{
    const uint8_t *sc = frame + length - END;
    unsigned sum = 0, all = rule;
    size_t i;
    for (i = 0; i < CONTENT_AT; i++)
        sum += frame[i];
    for (i = CONTENT_AT; i < length - END; i++) {
        sum += frame[i];
        all &= digit[frame[i]];
    }
    *digits = all;
    if (two(sc) == (sum & 255) && are_digits(sc, rule))
        return TRUE_SC;
    return sc[0] == '@' && sc[1] == '@' ? SWITCHED_OFF : WRONG_SC;
}

/* Test 8. */
static int has_station(const uint8_t *frame, uint8_t station, unsigned rule)
{
    return two(frame + 1) == station && are_digits(frame + 1, rule);
}

/* ---- messages ---- */

enum {
    TEST_CALL = 0x200,
    POINT_COUNT = 0x208,
    POINT_LIST = 0x209,
    FLAG_QUERY = 0x20D,
    INTEGER_QUERY = 0x20E,
    COLUMN_QUERY = 0x210,
    AXIS_STATUS = 0x212,
    POINT_WRITE = 0x244,
    POINT_CLEAR = 0x246,
    FLAG_WRITE = 0x24B,
    INTEGER_WRITE = 0x24C,
    COLUMN_WRITE = 0x24E,
    UNKNOWN = 0
};

/* What a frame asks. */
struct asked {
    unsigned message;
    const uint8_t *content;
    size_t length; /* of the content */
    size_t start, count;
};

static unsigned message_of(const uint8_t *id, unsigned rule)
{
    /* In three digits or not at all. */
    unsigned all = digit[id[0]] & digit[id[1]] & digit[id[2]] & rule;
    unsigned message = three(id);
    if (all == 0)
        return UNKNOWN;
    switch (message) {
    case TEST_CALL: case POINT_COUNT: case POINT_LIST: case FLAG_QUERY: case INTEGER_QUERY:
    case COLUMN_QUERY: case AXIS_STATUS: case POINT_WRITE: case POINT_CLEAR: case FLAG_WRITE:
    case INTEGER_WRITE: case COLUMN_WRITE:
        return message;
    default:
        return UNKNOWN;
    }
}

/*
 * Whether exactly `count` points follow, each as long as its own pattern says (103). *faulty becomes 1
 * where a pattern is 00 or has an unfitted axis (107).
 */
static int points_follow(const struct asked *asked, uint8_t fitted, int *faulty)
{
    size_t at = 6, point;
    unsigned pattern;
    for (point = 0; point < asked->count; point++) {
        if (asked->length - at < 14)
            return 0;
        pattern = two(asked->content + at);
        at += 14;
        if (asked->length - at < 8 * ones(pattern))
            return 0;
        at += 8 * ones(pattern);
        if (pattern == 0 || (pattern & ~(unsigned)fitted) != 0)
            *faulty = 1;
    }
    return at == asked->length;
}

/* 105, then 106; 0 where neither holds. */
static uint16_t judge_numbers(const struct asked *asked, size_t first, size_t last)
{
    if (asked->count == 0)
        return 105;
    return is_held(asked->start, asked->count, first, last) ? 0 : 106;
}

/* 103 to 107 of 209H, 244H and 246H: start 3, count 3, and for 244H the points. */
static uint16_t judge_points(struct asked *asked, size_t held, uint8_t fitted)
{
    int faulty = 0;
    uint16_t number;
    if (asked->length < 6)
        return 103;
    asked->start = three(asked->content);
    asked->count = three(asked->content + 3);
    if (asked->message == POINT_WRITE ? !points_follow(asked, fitted, &faulty) : asked->length != 6)
        return 103;
    number = judge_numbers(asked, 1, held);
    return number == 0 && faulty ? 107 : number;
}

/* 103 to 106 of 20EH, 210H, 24CH and 24EH: program 2, start 3, count 2, in the writes more for each. */
static uint16_t judge_run(struct asked *asked, size_t digits_each, size_t first, size_t last)
{
    if (asked->length < 7)
        return 103;
    asked->start = three(asked->content + 2);
    asked->count = two(asked->content + 5);
    if (asked->length != 7 + digits_each * asked->count)
        return 103;
    if (two(asked->content) != 0)
        return 104;
    return judge_numbers(asked, first, last);
}

/* 103 to 106 of 20DH: program 2, start 4, count 4. */
static uint16_t judge_flags(struct asked *asked, size_t first, size_t last)
{
    if (asked->length != 10)
        return 103;
    asked->start = four(asked->content + 2);
    asked->count = four(asked->content + 6);
    if (two(asked->content) != 0)
        return 104;
    return judge_numbers(asked, first, last);
}

/* 103, 104, 106 and 108 of 24BH: program 2, flag 4, change type 1. */
static uint16_t judge_flag(struct asked *asked, size_t first, size_t last)
{
    if (asked->length != 7)
        return 103;
    asked->start = four(asked->content + 2);
    asked->count = 1;
    if (two(asked->content) != 0)
        return 104;
    if (!is_held(asked->start, 1, first, last))
        return 106;
    return asked->content[6] == '0' || asked->content[6] == '1' ? 0 : 108;
}

/* 101 to 108; 0 where none holds. `digits` is what the sum test found of the content. */
static uint16_t judge(struct asked *asked, unsigned digits, const struct seen *seen, uint8_t fitted)
{
    if (asked->message == UNKNOWN)
        return 101;
    if (digits == 0 && asked->message != TEST_CALL)
        return 102;
    switch (asked->message) {
    case TEST_CALL:
        return 0; /* test 6 saw its length */
    case POINT_COUNT:
        return asked->length == 0 ? 0 : 103;
    case AXIS_STATUS:
        return asked->length == 2 ? 0 : 103;
    case COLUMN_QUERY:
        return judge_run(asked, 0, FIRST_COLUMN, LAST_COLUMN);
    case COLUMN_WRITE:
        return judge_run(asked, 2, FIRST_COLUMN, LAST_COLUMN);
    case INTEGER_QUERY:
        return judge_run(asked, 0, seen->first_integer, seen->last_integer);
    case INTEGER_WRITE:
        return judge_run(asked, 2 * INTEGER, seen->first_integer, seen->last_integer);
    case FLAG_QUERY:
        return judge_flags(asked, seen->first_flag, seen->last_flag);
    case FLAG_WRITE:
        return judge_flag(asked, seen->first_flag, seen->last_flag);
    default:
        return judge_points(asked, seen->held, fitted);
    }
}

/* 11, by the message and whatever its content; 0 where it doesn't hold. 208H looks at no slot. */
static uint16_t test_count(const struct seen *seen, unsigned message)
{
    if (message == POINT_COUNT)
        return seen->effective <= seen->held ? 0 : 11;
    if (message == POINT_WRITE || message == POINT_CLEAR)
        return count_is_true(seen) ? 0 : 11;
    return 0;
}

/* ---- queries ---- */

static void put_point(struct text *text, size_t number, const uint8_t *slot)
{
    unsigned axes = slot[0];
    const uint8_t *position = slot + 8;
    put_three(text, (unsigned)number);
    put_two(text, slot[0]);
    put_bytes(text, slot + 2, 6);
    for (; axes != 0; axes >>= 1, position += 4)
        if (axes & 1)
            put_bytes(text, position, 4);
}

/* The leading effective points that fit; their number goes in front once it is known. */
static void put_point_list(struct text *text, const struct areas *areas, const struct asked *asked)
{
    const uint8_t *limit = text->at - CONTENT_AT + LONGEST_REPLY - END;
    const uint8_t *slot = place_of(areas, POINTS_TAG, asked->start);
    struct text front = *text;
    size_t number, listed = 0;
    text->at += 3;
    for (number = asked->start; number < asked->start + asked->count; number++, slot += SLOT) {
        if (slot[0] == 0)
            continue;
        if ((size_t)(limit - text->at) < 17 + 8 * ones(slot[0]))
            break;
        put_point(text, number, slot);
        listed++;
    }
    front.sum = 0;
    put_three(&front, (unsigned)listed);
    text->sum += front.sum;
}

/* Four flags as a digit's value, the first in bit 0. */
static unsigned four_flags(const uint8_t *flags)
{
    return (unsigned)((flags[0] != 0) | (flags[1] != 0) << 1 | (flags[2] != 0) << 2 | (flags[3] != 0) << 3);
}

/* Two digits for each eight flags begun. The place and the sum are kept in registers on the way. */
static void put_flags(struct text *text, const uint8_t *flags, size_t count)
{
    uint8_t *at = text->at, high, low;
    unsigned sum = text->sum, rest = 0;
    size_t i;
    for (; count >= 8; count -= 8, flags += 8, at += 2) {
        high = digit_of[four_flags(flags + 4)];
        low = digit_of[four_flags(flags)];
        at[0] = high;
        at[1] = low;
        sum += (unsigned)high + low;
    }
    text->at = at;
    text->sum = sum;
    for (i = 0; i < count; i++)
        rest |= (unsigned)(flags[i] != 0) << i;
    if (count > 0)
        put_two(text, rest);
}

static void put_axes(struct text *text, const uint8_t *axes, unsigned pattern)
{
    const uint8_t *record = axes;
    put_two(text, pattern);
    for (; pattern != 0; pattern >>= 1, record += RECORD) {
        if ((pattern & 1) == 0)
            continue;
        put_two(text, record[0]);
        put(text, digit_of[record[1]]);
        put_three(text, pair(record + 2));
        put_bytes(text, record + 4, 5);
    }
}

/* ---- writes ---- */

/* One slot from a point of a 244H; what follows the point in the frame. */
static const uint8_t *store_point(uint8_t *slot, const uint8_t *point)
{
    unsigned axes = two(point);
    uint8_t *position = slot + 8;
    slot[0] = (uint8_t)axes;
    slot[1] = 0;
    take_bytes(slot + 2, point + 2, 6);
    point += 14;
    for (; position < slot + SLOT; position += 4, axes >>= 1) {
        if (axes & 1) {
            take_bytes(position, point, 4);
            point += 8;
        } else {
            memset(position, 0, 4);
        }
    }
    return point;
}

static void write_points(struct areas *areas, const struct asked *asked)
{
    uint8_t *slot = place_of(areas, POINTS_TAG, asked->start);
    const uint8_t *point = asked->content + 6;
    size_t left;
    keep_old(areas, POINTS_TAG, (unsigned)asked->start, slot, SLOT * asked->count);
    areas->seen.effective += asked->count - effective_among(slot, asked->count);
    for (left = asked->count; left > 0; left--, slot += SLOT)
        point = store_point(slot, point);
}

static void clear_points(struct areas *areas, const struct asked *asked)
{
    uint8_t *slot = place_of(areas, POINTS_TAG, asked->start);
    keep_old(areas, POINTS_TAG, (unsigned)asked->start, slot, SLOT * asked->count);
    areas->seen.effective -= effective_among(slot, asked->count);
    memset(slot, 0, SLOT * asked->count);
}

static void write_columns(struct areas *areas, const struct asked *asked)
{
    uint8_t *place = place_of(areas, COLUMNS_TAG, asked->start);
    keep_old(areas, COLUMNS_TAG, (unsigned)asked->start, place, asked->count);
    take_bytes(place, asked->content + 7, asked->count);
}

static void write_integers(struct areas *areas, const struct asked *asked)
{
    uint8_t *place = place_of(areas, INTEGERS_TAG, asked->start);
    keep_old(areas, INTEGERS_TAG, (unsigned)asked->start, place, INTEGER * asked->count);
    take_bytes(place, asked->content + 7, INTEGER * asked->count);
}

static void write_flag(struct areas *areas, const struct asked *asked)
{
    uint8_t *place = place_of(areas, FLAGS_TAG, asked->start);
    keep_old(areas, FLAGS_TAG, (unsigned)asked->start, place, 1);
    *place = asked->content[6] == '1';
}

/* Does what is asked and puts the reply's content. */
static void carry_out(struct text *text, struct areas *areas, const struct asked *asked,
                      const uint8_t *axes, uint8_t fitted)
{
    switch (asked->message) {
    case TEST_CALL:
        put_same(text, asked->content, 10);
        break;
    case POINT_COUNT:
        put_three(text, (unsigned)areas->seen.effective);
        break;
    case POINT_LIST:
        put_point_list(text, areas, asked);
        break;
    case COLUMN_QUERY:
        put_digits(text, asked->content, 7);
        put_bytes(text, place_of(areas, COLUMNS_TAG, asked->start), asked->count);
        break;
    case INTEGER_QUERY:
        put_digits(text, asked->content, 7);
        put_bytes(text, place_of(areas, INTEGERS_TAG, asked->start), INTEGER * asked->count);
        break;
    case FLAG_QUERY:
        put_digits(text, asked->content, 10);
        put_flags(text, place_of(areas, FLAGS_TAG, asked->start), asked->count);
        break;
    case AXIS_STATUS:
        put_axes(text, axes, two(asked->content) & (unsigned)fitted);
        break;
    case POINT_WRITE:
        put_digits(text, asked->content, 6);
        write_points(areas, asked);
        break;
    case POINT_CLEAR:
        clear_points(areas, asked);
        break;
    case INTEGER_WRITE:
        put_digits(text, asked->content, 7);
        write_integers(areas, asked);
        break;
    case FLAG_WRITE:
        write_flag(areas, asked);
        break;
    default:
        write_columns(areas, asked);
        break;
    }
}

/* ---- the calls ---- */

/* Where the first CR LF begins, or `length`. */
static size_t find_pair(const uint8_t *bytes, size_t length)
{
    const uint8_t *end = bytes + length, *from = bytes, *cr;
    while (end - from >= 2) {
        cr = memchr(from, '\r', (size_t)(end - from) - 1);
        if (cr == NULL)
            break;
        if (cr[1] == '\n')
            return (size_t)(cr - bytes);
        from = cr + 1;
    }
    return length;
}

/* Whether a test call begins at a '!': its six bytes are there, and the station's two aren't CR LF. */
static int begins_test_call(const uint8_t *mark, size_t there)
{
    return there >= CONTENT_AT && is_test_call(mark + ID_AT) && !is_pair(mark + 1);
}

/* Whether a '!' is skipped: a test call's whose 20 bytes are there and don't end in CR LF. */
static int is_skipped(const uint8_t *mark, size_t there)
{
    return there >= TEST_CALL_FRAME && begins_test_call(mark, there) && !is_pair(mark + TEST_CALL_FRAME - 2);
}

/* The '!' after a skipped one, or NULL. It is often near: memchr's call costs more than a few bytes do. */
static const uint8_t *next_mark(const uint8_t *from, const uint8_t *end)
{
    const uint8_t *by_hand = end - from > TEST_CALL_FRAME ? from + TEST_CALL_FRAME : end;
    for (; from < by_hand; from++)
        if (*from == '!')
            return from;
    return from < end ? memchr(from, '!', (size_t)(end - from)) : NULL;
}

/* The first '!' that isn't skipped, or NULL. */
static const uint8_t *find_mark(const uint8_t *received, size_t length)
{
    const uint8_t *end = received + length;
    const uint8_t *mark = length > 0 ? memchr(received, '!', length) : NULL;
    while (mark != NULL && is_skipped(mark, (size_t)(end - mark)))
        mark = next_mark(mark + 1, end);
    return mark;
}

/* Length of the frame at a '!' that isn't skipped, 0 where its end isn't there. */
static size_t length_from(const uint8_t *mark, size_t there)
{
    size_t window = there < LONGEST_FRAME ? there : LONGEST_FRAME, pair_at;
    if (begins_test_call(mark, there))
        return there < TEST_CALL_FRAME ? 0 : TEST_CALL_FRAME;
    pair_at = find_pair(mark, window);
    return pair_at < window ? pair_at + 2 : 0;
}

uint8_t plain_receive(const uint8_t *received, size_t received_length,
                      size_t *start, size_t *length, size_t *drop)
{
    const uint8_t *mark = find_mark(received, received_length);
    size_t before, there;
    *start = 0;
    *length = 0;
    *drop = received_length;
    if (mark == NULL)
        return 1;
    before = (size_t)(mark - received);
    there = received_length - before;
    *length = length_from(mark, there);
    if (*length > 0) {
        *start = before;
        *drop = before + *length;
        return 0;
    }
    *drop = there < LONGEST_FRAME ? before : before + 1;
    return there < LONGEST_FRAME ? 2 : 3;
}

/* The rule that a release names, 0 where it names none. */
static unsigned rule_of(uint8_t release)
{
    return release == 1 ? CAPITALS_ONLY : release == 2 ? SMALL_TOO : 0;
}

/*
 * Tests 5 to 8, with 13 after 5 and 12 in 7's place; 0 where none holds. *sum is what the sum test says,
 * where none before it refuses, and *digits what it finds of the content.
 */
static uint16_t test_frame(const uint8_t *frame, size_t frame_length,
                           const uint8_t *axes, size_t axes_length,
                           uint8_t fitted, uint8_t station, unsigned rule, uint8_t unchecked,
                           uint8_t *sum, unsigned *digits)
{
    if (!axes_are_good(axes, axes_length, fitted))
        return 5;
    if (rule == 0)
        return 13;
    if (!has_shape(frame, frame_length))
        return 6;
    *sum = sum_test(frame, frame_length, rule, digits);
    if (*sum == WRONG_SC)
        return 7;
    if (*sum == SWITCHED_OFF && unchecked == 0)
        return 12;
    return has_station(frame, station, rule) ? 0 : 8;
}

/* What a frame that passed all tests without a reply asks; its fields are read when it is judged. */
static struct asked read_frame(const uint8_t *frame, size_t frame_length, unsigned rule)
{
    struct asked asked = {message_of(frame + ID_AT, rule), frame + CONTENT_AT,
                          frame_length - CONTENT_AT - END, 0, 0};
    return asked;
}

/*
 * The first half of a frame's answer, which checking and acting go through: all tests but 1, in their order,
 * the first of them on the areas' lengths and the journal; 0 where none holds. Nothing that is lent is
 * written. *sum is what the sum test says, and *asked is set where no refusal up to 8 holds.
 */
static uint16_t look(const uint8_t *frame, size_t frame_length, size_t points_length, size_t columns_length,
                     size_t integers_length, size_t flags_length, struct seen *seen,
                     const uint8_t *axes, size_t axes_length,
                     uint8_t fitted, uint8_t station, uint8_t release, uint8_t unchecked,
                     uint8_t *sum, struct asked *asked)
{
    unsigned rule = rule_of(release), digits = 0;
    uint16_t number;
    *sum = UNTESTED;
    number = test_areas(seen, points_length, columns_length, integers_length, flags_length);
    if (number == 0)
        number = test_frame(frame, frame_length, axes, axes_length, fitted, station, rule, unchecked,
                            sum, &digits);
    if (number != 0)
        return number;
    *asked = read_frame(frame, frame_length, rule);
    number = test_count(seen, asked->message);
    return number != 0 ? number : judge(asked, digits, seen, fitted);
}

uint16_t plain_check(const uint8_t *frame, size_t frame_length,
                     const uint8_t *points, size_t points_length,
                     const uint8_t *columns, size_t columns_length,
                     const uint8_t *integers, size_t integers_length,
                     const uint8_t *flags, size_t flags_length,
                     const uint8_t *journal, size_t journal_length,
                     size_t used, size_t effective,
                     const uint8_t *axes, size_t axes_length,
                     uint8_t fitted, uint8_t station, uint8_t release, uint8_t unchecked,
                     uint16_t first_integer, uint16_t first_flag,
                     uint8_t *sum, uint16_t *message, size_t *start, size_t *count)
{
    struct seen seen = {points, journal, journal_length, used, effective, 0,
                        first_integer, 0, first_flag, 0, 0};
    struct asked asked = {UNKNOWN, NULL, 0, 0, 0};
    uint16_t number = look(frame, frame_length, points_length, columns_length, integers_length, flags_length,
                           &seen, axes, axes_length, fitted, station, release, unchecked, sum, &asked);
    (void)columns, (void)integers, (void)flags; /* no test reads what is kept in them */
    *message = number == 0 ? (uint16_t)asked.message : 0;
    *start = number == 0 ? asked.start : 0;
    *count = number == 0 ? asked.count : 0;
    return number;
}

uint16_t plain_act(const uint8_t *frame, size_t frame_length,
                   uint8_t *points, size_t points_length,
                   uint8_t *columns, size_t columns_length,
                   uint8_t *integers, size_t integers_length,
                   uint8_t *flags, size_t flags_length,
                   uint8_t *journal, size_t journal_length,
                   size_t *used, size_t *effective,
                   const uint8_t *axes, size_t axes_length,
                   uint8_t fitted, uint8_t station, uint8_t release, uint8_t unchecked,
                   uint16_t first_integer, uint16_t first_flag,
                   uint8_t *reply, size_t reply_area_length, size_t *reply_length,
                   uint8_t *sum)
{
    struct areas areas = {points, columns, integers, flags, journal,
                          {points, journal, journal_length, *used, *effective, 0,
                           first_integer, 0, first_flag, 0, 0}};
    struct text text = {reply, 0};
    struct asked asked;
    uint16_t number;
    *reply_length = 0;
    *sum = UNTESTED;
    if (reply_area_length < LONGEST_REPLY)
        return 1;
    number = look(frame, frame_length, points_length, columns_length, integers_length, flags_length,
                  &areas.seen, axes, axes_length, fitted, station, release, unchecked, sum, &asked);
    if (number > 100)
        *reply_length = error_reply(reply, station, number);
    if (number != 0)
        return number;
    put(&text, '#');
    put_digits(&text, frame + 1, CONTENT_AT - 1); /* station and message ID are the command's */
    carry_out(&text, &areas, &asked, axes, fitted);
    *reply_length = close_reply(&text, reply);
    *used = areas.seen.used;
    *effective = areas.seen.effective;
    return 0;
}

/* In a single call: acting needs no check before it. */
uint16_t plain_answer(const uint8_t *frame, size_t frame_length,
                      uint8_t *points, size_t points_length,
                      uint8_t *columns, size_t columns_length,
                      uint8_t *integers, size_t integers_length,
                      uint8_t *flags, size_t flags_length,
                      uint8_t *journal, size_t journal_length,
                      size_t *used, size_t *effective,
                      const uint8_t *axes, size_t axes_length,
                      uint8_t fitted, uint8_t station, uint8_t release, uint8_t unchecked,
                      uint16_t first_integer, uint16_t first_flag,
                      uint8_t *reply, size_t reply_area_length, size_t *reply_length,
                      uint8_t *sum)
{
    return plain_act(frame, frame_length, points, points_length, columns, columns_length,
                     integers, integers_length, flags, flags_length, journal, journal_length,
                     used, effective, axes, axes_length, fitted, station, release, unchecked,
                     first_integer, first_flag, reply, reply_area_length, reply_length, sum);
}

uint16_t plain_step_back(uint8_t *points, size_t points_length,
                         uint8_t *columns, size_t columns_length,
                         uint8_t *integers, size_t integers_length,
                         uint8_t *flags, size_t flags_length,
                         uint8_t *journal, size_t journal_length,
                         size_t *used, size_t *effective,
                         uint16_t first_integer, uint16_t first_flag)
{
    struct areas areas = {points, columns, integers, flags, journal,
                          {points, journal, journal_length, *used, *effective, 0,
                           first_integer, 0, first_flag, 0, 0}};
    uint16_t number = test_areas(&areas.seen, points_length, columns_length, integers_length, flags_length);
    if (number != 0)
        return number;
    if (!count_is_true(&areas.seen))
        return 11;
    if (areas.seen.used == 0)
        return 9;
    take_back(&areas);
    *used = areas.seen.used;
    *effective = areas.seen.effective;
    return 0;
}
