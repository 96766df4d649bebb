/*
 * play_calls.c: makes the calls that the comparison hands over (second/README.md, "Player").
 *
 * Reads operations from standard input until its end and writes what each call leaves to standard
 * output. Every area is an allocation of its lent bytes and the guards on both sides, no more, and so is
 * every number that a call writes. Exits 2 where the operations are malformed or there is no memory, 3 where
 * what it writes isn't taken, 4 where a call wrote beside a number.
 */
#include "cabinet.h"

#include <stdio.h>
#include <stdlib.h>
#include <string.h>

#define GUARD 0xC7 /* fills the guards */
#define UNSET 0x55 /* each byte of an out number before the call */

enum { HANDED, POINTS, COLUMNS, INTEGERS, FLAGS, JOURNAL, AXES, REPLY, PARTS };

/* The numbers that a call writes: what the sum test said, the message, and those of a size_t. */
enum { SUM, MESSAGE, SIZE_1, SIZE_2, SIZE_3, USED, EFFECTIVE, NUMBERS };

/* How many out numbers are sent back for each call. */
enum { OUT = 4 };

struct area {
    uint8_t *whole;  /* guard, lent bytes, guard */
    uint8_t *before; /* the lent bytes as they were before the call */
    size_t length;
};

static struct area area[PARTS];
static struct area written[NUMBERS];
static size_t guard; /* a multiple of eight, so that numbers are aligned */

static void fail(const char *why, int code)
{
    fprintf(stderr, "play_calls: %s\n", why);
    exit(code);
}

static void take(uint8_t *bytes, size_t count)
{
    if (count > 0 && fread(bytes, 1, count, stdin) != count)
        fail("malformed operation", 2);
}

/* The next number of `width` bytes, high byte first. */
static uint64_t number(size_t width)
{
    uint8_t bytes[8];
    uint64_t value = 0;
    size_t i;
    take(bytes, width);
    for (i = 0; i < width; i++)
        value = value << 8 | bytes[i];
    return value;
}

static void give(const uint8_t *bytes, size_t count)
{
    if (count > 0 && fwrite(bytes, 1, count, stdout) != count)
        fail("output isn't taken", 3);
}

static void give_number(uint64_t value, size_t width)
{
    uint8_t bytes[8];
    size_t i;
    for (i = width; i > 0; i--) {
        bytes[i - 1] = (uint8_t)value;
        value >>= 8;
    }
    give(bytes, width);
}

static struct area *part(void)
{
    size_t named = (size_t)number(1);
    if (named >= PARTS)
        fail("malformed operation", 2);
    return &area[named];
}

static uint8_t *lent(const struct area *a)
{
    return a->whole + guard;
}

static uint8_t *allocated(size_t length)
{
    uint8_t *bytes = malloc(length);
    if (bytes == NULL)
        fail("no memory", 2);
    return bytes;
}

/* The area gets this length: its bytes stay as far as they go, the others are 00. */
static void lend(struct area *a, size_t length)
{
    struct area old = *a;
    size_t kept = old.length < length ? old.length : length;
    a->whole = allocated(length + 2 * guard);
    a->before = allocated(length);
    a->length = length;
    memset(a->whole, GUARD, guard);
    memset(lent(a), 0, length);
    memset(lent(a) + length, GUARD, guard);
    if (kept > 0)
        memcpy(lent(a), lent(&old), kept);
    if (length > 0)
        memcpy(a->before, lent(a), length);
    free(old.whole);
    free(old.before);
}

/* Before anything is lent: so many guard bytes, and all areas empty. */
static void set_guard(void)
{
    size_t named;
    if (area[0].whole != NULL)
        fail("malformed operation", 2);
    guard = (size_t)number(4);
    if (guard % 8 != 0)
        fail("malformed operation", 2);
    for (named = 0; named < PARTS; named++)
        lend(&area[named], 0);
    for (named = 0; named < NUMBERS; named++)
        lend(&written[named], named == SUM ? 1 : named == MESSAGE ? sizeof(uint16_t) : sizeof(size_t));
}

static void set_length(void)
{
    struct area *a = part();
    lend(a, (size_t)number(4));
}

static void set_bytes(void)
{
    struct area *a = part();
    size_t offset = (size_t)number(4), count = (size_t)number(4);
    if (offset > a->length || count > a->length - offset)
        fail("malformed operation", 2);
    take(lent(a) + offset, count);
    memcpy(a->before + offset, lent(a) + offset, count);
}

static int guards_are_whole(const struct area *a)
{
    size_t i;
    for (i = 0; i < guard; i++)
        if (a->whole[i] != GUARD || lent(a)[a->length + i] != GUARD)
            return 0;
    return 1;
}

/* A digest of the lent bytes: eight at a time, low byte first, the last ones filled up with 00. */
static uint64_t digest(const uint8_t *bytes, size_t length)
{
    uint64_t h = length;
    while (length > 0) {
        size_t count = length < 8 ? length : 8, i;
        uint64_t word = 0;
        if (count == 8)
            word = (uint64_t)bytes[0] | (uint64_t)bytes[1] << 8 | (uint64_t)bytes[2] << 16 |
                   (uint64_t)bytes[3] << 24 | (uint64_t)bytes[4] << 32 | (uint64_t)bytes[5] << 40 |
                   (uint64_t)bytes[6] << 48 | (uint64_t)bytes[7] << 56;
        else
            for (i = 0; i < count; i++)
                word |= (uint64_t)bytes[i] << 8 * i;
        h = (h ^ word) * UINT64_C(0x9E3779B97F4A7C15);
        h ^= h >> 32;
        bytes += count;
        length -= count;
    }
    return h;
}

/* Whether the guards are whole, the bytes from the first changed one to the last, the digest. */
static void give_area(struct area *a)
{
    const uint8_t *now = lent(a);
    size_t first = 0, end = 0;
    if (a->length > 0 && memcmp(a->before, now, a->length) != 0) {
        end = a->length;
        while (a->before[first] == now[first])
            first++;
        while (a->before[end - 1] == now[end - 1])
            end--;
        memcpy(a->before + first, now + first, end - first);
    }
    give_number((uint64_t)guards_are_whole(a), 1);
    give_number(first, 4);
    give_number(end - first, 4);
    give(now + first, end - first);
    give_number(digest(now, a->length), 8);
}

/* A number that a call writes, of type size_t. */
static size_t *size(size_t named)
{
    return (size_t *)(void *)lent(&written[named]);
}

static uint16_t *message(void)
{
    return (uint16_t *)(void *)lent(&written[MESSAGE]);
}

/* Before a call: all out numbers unset, and the used length and the count as handed over. */
static void unset_numbers(size_t used, size_t effective)
{
    size_t named;
    for (named = 0; named < NUMBERS; named++)
        memset(lent(&written[named]), UNSET, written[named].length);
    *size(USED) = used;
    *size(EFFECTIVE) = effective;
}

/* After a call: nothing was written beside a number. */
static void look_beside_numbers(void)
{
    size_t named;
    for (named = 0; named < NUMBERS; named++)
        if (!guards_are_whole(&written[named]))
            fail("written beside a number", 4);
}

/* Sends so many out numbers as a call has, and for the others that they aren't set. */
static void give_out(const uint64_t *out, size_t count)
{
    size_t i;
    for (i = 0; i < OUT; i++)
        give_number(i < count ? out[i] : UINT64_C(0x5555555555555555), 8);
}

static void call(int kind)
{
    size_t used = (size_t)number(8), effective = (size_t)number(8), i;
    uint8_t fitted = (uint8_t)number(1), station = (uint8_t)number(1), release = (uint8_t)number(1);
    uint8_t unchecked = (uint8_t)number(1);
    uint16_t first_integer = (uint16_t)number(2), first_flag = (uint16_t)number(2);
    struct area *p = &area[POINTS], *c = &area[COLUMNS], *n = &area[INTEGERS], *f = &area[FLAGS];
    struct area *j = &area[JOURNAL], *x = &area[AXES], *r = &area[REPLY], *h = &area[HANDED];
    uint64_t out[OUT];
    size_t outs = 0;
    unsigned returned;

    if (p->whole == NULL)
        fail("malformed operation", 2);
    unset_numbers(used, effective);
    if (kind == 'F' || kind == 'A') {
        returned = (kind == 'F' ? cabinet_answer : cabinet_act)(
            lent(h), h->length, lent(p), p->length, lent(c), c->length, lent(n), n->length,
            lent(f), f->length, lent(j), j->length, size(USED), size(EFFECTIVE), lent(x), x->length,
            fitted, station, release, unchecked, first_integer, first_flag,
            lent(r), r->length, size(SIZE_1), lent(&written[SUM]));
        out[outs++] = *size(SIZE_1);
        out[outs++] = *lent(&written[SUM]);
    } else if (kind == 'C') {
        returned = cabinet_check(lent(h), h->length, lent(p), p->length, lent(c), c->length,
                                 lent(n), n->length, lent(f), f->length, lent(j), j->length,
                                 used, effective, lent(x), x->length, fitted, station, release, unchecked,
                                 first_integer, first_flag, lent(&written[SUM]), message(),
                                 size(SIZE_1), size(SIZE_2));
        out[outs++] = *lent(&written[SUM]);
        out[outs++] = *message();
        out[outs++] = *size(SIZE_1);
        out[outs++] = *size(SIZE_2);
    } else if (kind == 'S') {
        returned = cabinet_step_back(lent(p), p->length, lent(c), c->length, lent(n), n->length,
                                     lent(f), f->length, lent(j), j->length,
                                     size(USED), size(EFFECTIVE), first_integer, first_flag);
    } else {
        returned = cabinet_receive(lent(h), h->length, size(SIZE_1), size(SIZE_2), size(SIZE_3));
        for (i = SIZE_1; i <= SIZE_3; i++)
            out[outs++] = *size(i);
    }

    look_beside_numbers();
    give_number(returned, 2);
    give_out(out, outs);
    give_number(*size(USED), 8);
    give_number(*size(EFFECTIVE), 8);
    for (i = 0; i < PARTS; i++)
        give_area(&area[i]);
}

int main(void)
{
    int kind;
    setvbuf(stdin, NULL, _IOFBF, 65536);
    setvbuf(stdout, NULL, _IOFBF, 65536);
    while ((kind = getchar()) != EOF) {
        switch (kind) {
        case 'G': set_guard(); break;
        case 'L': set_length(); break;
        case 'W': set_bytes(); break;
        case 'F':
        case 'C':
        case 'A':
        case 'S':
        case 'R': call(kind); break;
        case 'Q':
            if (fflush(stdout) != 0)
                fail("output isn't taken", 3);
            break;
        default: fail("malformed operation", 2);
        }
    }
    if (fflush(stdout) != 0)
        fail("output isn't taken", 3);
    return 0;
}
