/*
 * play_vectors.c: plays the second program's vectors (second/README.md, "Vectors") through cabinet.h.
 *
 * Reads operations from standard input and writes a line for each call; what it writes must be the
 * vectors' stdout byte for byte. Exits 2 where the operations are malformed.
 */
#include "cabinet.h"

#include <stdio.h>
#include <stdlib.h>
#include <string.h>

/* What stands in the numbers of a check, and in the sum, before the call: one that isn't set is seen. */
#define UNSET 0x55

enum { POINTS, COLUMNS, INTEGERS, FLAGS, JOURNAL, REPLY, AXES, PARTS };

/* Some are longer than the board takes: it must refuse those lengths too. */
static uint8_t points[CABINET_POINTS_BYTES(CABINET_MOST_POINTS)], columns[CABINET_COLUMNS_BYTES + 20];
static uint8_t integers[CABINET_INTEGERS_BYTES + 20], flags[CABINET_FLAGS_BYTES + 20];
static uint8_t journal[CABINET_MOST_JOURNAL_BYTES + 64], reply[CABINET_REPLY_BYTES + 76];
static uint8_t axes[CABINET_AXES_BYTES + 8];
static uint8_t *const area[PARTS] = {points, columns, integers, flags, journal, reply, axes};
static const size_t most[PARTS] = {sizeof points, sizeof columns, sizeof integers, sizeof flags,
                                   sizeof journal, sizeof reply, sizeof axes};
static size_t lent[PARTS];
static size_t used, effective;
static uint8_t fitted, station, release, unchecked;
static uint16_t first_integer, first_flag;

static uint8_t operations[262144];
static size_t at, end;

static void malformed(void)
{
    fprintf(stderr, "malformed operation before byte %lu\n", (unsigned long)at);
    exit(2);
}

/* The next `count` bytes. */
static const uint8_t *take(size_t count)
{
    const uint8_t *taken = operations + at;
    if (count > end - at)
        malformed();
    at += count;
    return taken;
}

/* The next number of `width` bytes, high byte first. */
static uint64_t number(size_t width)
{
    const uint8_t *bytes = take(width);
    uint64_t value = 0;
    while (width-- > 0)
        value = value << 8 | *bytes++;
    return value;
}

static size_t part(void)
{
    size_t named = (size_t)number(1);
    if (named >= PARTS)
        malformed();
    return named;
}

static void lend(size_t named, size_t length)
{
    if (length > most[named])
        malformed();
    lent[named] = length;
}

/* Fitted axes, station, release, and whether '@@' is allowed. */
static void take_four_settings(void)
{
    fitted = (uint8_t)number(1);
    station = (uint8_t)number(1);
    release = (uint8_t)number(1);
    unchecked = (uint8_t)number(1);
}

static void take_first_numbers(void)
{
    first_integer = (uint16_t)number(2);
    first_flag = (uint16_t)number(2);
}

static void board(void)
{
    size_t named;
    for (named = 0; named < PARTS; named++)
        memset(area[named], named == REPLY ? 0xEE : 0, most[named]);
    lend(POINTS, CABINET_POINTS_BYTES((size_t)number(2)));
    take_four_settings();
    lend(JOURNAL, (size_t)number(4));
    take_first_numbers();
    lend(COLUMNS, CABINET_COLUMNS_BYTES);
    lend(INTEGERS, CABINET_INTEGERS_BYTES);
    lend(FLAGS, CABINET_FLAGS_BYTES);
    lend(REPLY, CABINET_REPLY_BYTES);
    lend(AXES, CABINET_AXES_BYTES);
    used = 0;
    effective = 0;
}

static void spoil(void)
{
    size_t named = part(), offset = (size_t)number(4);
    if (offset >= most[named])
        malformed();
    area[named][offset] = (uint8_t)number(1);
}

/* Digests of the first `count` parts, and the line's end. */
static void print_digests(size_t count)
{
    size_t named, i;
    for (named = 0; named < count; named++) {
        uint64_t h = 0;
        for (i = 0; i < lent[named]; i++)
            h = (h * 31 + area[named][i] + 1) % 4294967291u;
        printf(" %08lX", (unsigned long)h);
    }
    printf("\n");
}

/* 'F' answers a frame, 'A' acts on it. */
static void answer(int kind)
{
    size_t length = (size_t)number(2), reply_length = UNSET;
    const uint8_t *frame = take(length);
    uint8_t sum = UNSET;
    unsigned given = (kind == 'F' ? cabinet_answer : cabinet_act)(
        frame, length, points, lent[POINTS], columns, lent[COLUMNS], integers, lent[INTEGERS],
        flags, lent[FLAGS], journal, lent[JOURNAL], &used, &effective, axes, lent[AXES],
        fitted, station, release, unchecked, first_integer, first_flag,
        reply, lent[REPLY], &reply_length, &sum);
    printf("%c %u %lu %lu %lu %u", kind, given, (unsigned long)reply_length, (unsigned long)used,
           (unsigned long)effective, sum);
    print_digests(AXES); /* all before the axes, which no call writes */
}

static void check(void)
{
    size_t length = (size_t)number(2), start = UNSET, count = UNSET;
    const uint8_t *frame = take(length);
    uint8_t sum = UNSET;
    uint16_t message = UNSET;
    unsigned given = cabinet_check(frame, length, points, lent[POINTS], columns, lent[COLUMNS],
                                   integers, lent[INTEGERS], flags, lent[FLAGS],
                                   journal, lent[JOURNAL], used, effective, axes, lent[AXES],
                                   fitted, station, release, unchecked, first_integer, first_flag,
                                   &sum, &message, &start, &count);
    printf("C %u %u %lu %lu %u", given, (unsigned)message, (unsigned long)start, (unsigned long)count, sum);
    print_digests(REPLY); /* all before the reply */
}

static void step_back(void)
{
    unsigned given = cabinet_step_back(points, lent[POINTS], columns, lent[COLUMNS],
                                       integers, lent[INTEGERS], flags, lent[FLAGS],
                                       journal, lent[JOURNAL], &used, &effective, first_integer, first_flag);
    printf("S %u %lu %lu", given, (unsigned long)used, (unsigned long)effective);
    print_digests(REPLY); /* all before the reply */
}

static void find(void)
{
    size_t received_length = (size_t)number(2), start, length, drop;
    const uint8_t *received = take(received_length);
    unsigned found = cabinet_receive(received, received_length, &start, &length, &drop);
    printf("R %u %lu %lu %lu\n", found, (unsigned long)start, (unsigned long)length,
           (unsigned long)drop);
}

/* Plays one operation; 0 after the end. */
static int play(void)
{
    size_t named;
    int kind = (int)number(1);
    switch (kind) {
    case 'B': board(); return 1;
    case 'X': spoil(); return 1;
    case 'U': used = (size_t)number(8); return 1;
    case 'N': effective = (size_t)number(8); return 1;
    case 'L': named = part(); lend(named, (size_t)number(4)); return 1;
    case 'P': take_four_settings(); take_first_numbers(); return 1;
    case 'F':
    case 'A': answer(kind); return 1;
    case 'C': check(); return 1;
    case 'S': step_back(); return 1;
    case 'R': find(); return 1;
    case 'E': return 0;
    default: malformed(); return 0;
    }
}

int main(void)
{
    end = fread(operations, 1, sizeof operations, stdin);
    while (play())
        ;
    if (at != end)
        malformed();
    return 0;
}
