/*
 * benchmark.c: the archive's calls beside plain.c's, in one process, on the same buffers and frames.
 * plain.c is linked twice, compiled at -O2 and at -O3; the archive's peer is the faster of the two, row by
 * row.
 *
 * Each trial is first made by all three, a few times over; the number, the reply and every area must be
 * the same, else it exits 1. Then they are timed in turns, and the best turn of each counts. The table
 * goes to standard output.
 *
 * Every call of a trial does the same work. Before each (`put_back`) the used length is set again, so a
 * write finds the same entries before it; only its old bytes are then the ones it wrote. Where a journal
 * is full of entries as long as the write's own, one is dropped and one is added, and it is as full as
 * before. Where other entries are dropped, and before a step back, the journal's bytes are put back. What
 * putting back costs is timed alone and taken off. Points aren't put back, and so the count of effective ones
 * isn't: each call is handed the one that the last handed back.
 */
#define _POSIX_C_SOURCE 199309L /* clock_gettime */
#include "cabinet.h"
#include "plain.h"

#include <stdio.h>
#include <stdlib.h>
#include <string.h>
#include <time.h>

#define STATION 0x99
#define RELEASE CABINET_CAPITALS_ONLY
#define UNCHECKED 1
#define FITTED 0xFF
#define FIRST_INTEGER 200
#define FIRST_FLAG 600
#define RECEIVED 4096 /* bytes that the finder looks through */
#define LINE 3840.0   /* bytes a second: 38,400 baud, ten bits a byte */
#define TURNS 200     /* of each implementation; short, so that some are undisturbed */
#define TURN 2e6      /* nanoseconds at least */
#define CHECKED_CALLS 3
#define POINTS_TAG 0x50
#define COLUMNS_TAG 0x53

/* ---- the implementations ---- */

/* plain.c's calls again, under the names that they have where it is compiled at -O3 (Makefile). */
#undef PLAIN_H
#define plain_receive plain_o3_receive
#define plain_answer plain_o3_answer
#define plain_check plain_o3_check
#define plain_act plain_o3_act
#define plain_step_back plain_o3_step_back
#include "plain.h"
#undef plain_receive
#undef plain_answer
#undef plain_check
#undef plain_act
#undef plain_step_back

typedef uint16_t answer_call(const uint8_t *, size_t, uint8_t *, size_t, uint8_t *, size_t, uint8_t *, size_t,
                             uint8_t *, size_t, uint8_t *, size_t, size_t *, size_t *,
                             const uint8_t *, size_t, uint8_t, uint8_t, uint8_t, uint8_t, uint16_t, uint16_t,
                             uint8_t *, size_t, size_t *, uint8_t *);

struct calls {
    uint8_t (*receive)(const uint8_t *, size_t, size_t *, size_t *, size_t *);
    answer_call *answer;
    uint16_t (*check)(const uint8_t *, size_t, const uint8_t *, size_t, const uint8_t *, size_t,
                      const uint8_t *, size_t, const uint8_t *, size_t, const uint8_t *, size_t,
                      size_t, size_t, const uint8_t *, size_t, uint8_t, uint8_t, uint8_t, uint8_t,
                      uint16_t, uint16_t, uint8_t *, uint16_t *, size_t *, size_t *);
    answer_call *act;
    uint16_t (*step_back)(uint8_t *, size_t, uint8_t *, size_t, uint8_t *, size_t, uint8_t *, size_t,
                          uint8_t *, size_t, size_t *, size_t *, uint16_t, uint16_t);
};

enum { ARCHIVE, PLAIN_O2, PLAIN_O3, MADE };

static const struct calls made[MADE] = {
    {cabinet_receive, cabinet_answer, cabinet_check, cabinet_act, cabinet_step_back},
    {plain_receive, plain_answer, plain_check, plain_act, plain_step_back},
    {plain_o3_receive, plain_o3_answer, plain_o3_check, plain_o3_act, plain_o3_step_back}
};

/* ---- a trial ---- */

/* All that a call may write. */
struct board {
    size_t used;
    size_t reply_length;
    size_t start, length, drop; /* of the finder; a check's run is start and count */
    size_t count;
    uint8_t points[CABINET_POINTS_BYTES(CABINET_MOST_POINTS)];
    uint8_t columns[CABINET_COLUMNS_BYTES];
    uint8_t integers[CABINET_INTEGERS_BYTES];
    uint8_t flags[CABINET_FLAGS_BYTES];
    uint8_t journal[CABINET_MOST_JOURNAL_BYTES];
    uint8_t reply[CABINET_REPLY_BYTES];
    size_t effective; /* behind the areas, as message and sum: these stay aligned */
    uint16_t message;
    uint8_t sum;
};

enum kind { ANSWER, CHECK, ACT, STEP_BACK, RECEIVE };

static struct {
    char name[64];
    enum kind kind;
    size_t held; /* N */
    size_t journal_length;
    uint8_t axes[CABINET_AXES_BYTES];
    uint8_t handed[RECEIVED]; /* the frame, or the received bytes */
    size_t handed_length;
    size_t last;    /* where the last entry begins */
    size_t changed; /* from here on the journal is put back */
} trial;

static struct board built; /* as the trial begins */
static struct board work;  /* what the calls are made on, every implementation's */

static void fail(const char *why)
{
    fprintf(stderr, "benchmark: %s, N = %lu: %s\n", trial.name, (unsigned long)trial.held, why);
    exit(1);
}

static unsigned make_call(const struct calls *calls)
{
    if (trial.kind == ANSWER || trial.kind == ACT)
        return (trial.kind == ANSWER ? calls->answer : calls->act)(
            trial.handed, trial.handed_length, work.points, CABINET_POINTS_BYTES(trial.held),
            work.columns, CABINET_COLUMNS_BYTES, work.integers, CABINET_INTEGERS_BYTES,
            work.flags, CABINET_FLAGS_BYTES, work.journal, trial.journal_length,
            &work.used, &work.effective, trial.axes, CABINET_AXES_BYTES,
            FITTED, STATION, RELEASE, UNCHECKED, FIRST_INTEGER, FIRST_FLAG,
            work.reply, CABINET_REPLY_BYTES, &work.reply_length, &work.sum);
    if (trial.kind == CHECK)
        return calls->check(trial.handed, trial.handed_length, work.points,
                            CABINET_POINTS_BYTES(trial.held), work.columns, CABINET_COLUMNS_BYTES,
                            work.integers, CABINET_INTEGERS_BYTES, work.flags, CABINET_FLAGS_BYTES,
                            work.journal, trial.journal_length, work.used, work.effective, trial.axes,
                            CABINET_AXES_BYTES, FITTED, STATION, RELEASE, UNCHECKED,
                            FIRST_INTEGER, FIRST_FLAG, &work.sum, &work.message, &work.start, &work.count);
    if (trial.kind == STEP_BACK)
        return calls->step_back(work.points, CABINET_POINTS_BYTES(trial.held),
                                work.columns, CABINET_COLUMNS_BYTES,
                                work.integers, CABINET_INTEGERS_BYTES, work.flags, CABINET_FLAGS_BYTES,
                                work.journal, trial.journal_length, &work.used, &work.effective,
                                FIRST_INTEGER, FIRST_FLAG);
    return calls->receive(trial.handed, trial.handed_length, &work.start, &work.length, &work.drop);
}

static void restore_work(void)
{
    work.used = built.used;
    if (trial.changed < built.used)
        memcpy(work.journal + trial.changed, built.journal + trial.changed, built.used - trial.changed);
}

/* Called through this, so that the compiler can't leave it out where it is timed alone. */
static void (*volatile put_back)(void) = restore_work;

/* ---- making a board ---- */

/* The same bytes in every run. */
static uint8_t drawn(void)
{
    static uint32_t state = 20261115;
    state = state * 1664525u + 1013904223u;
    return (uint8_t)(state >> 24);
}

static void draw(uint8_t *bytes, size_t count)
{
    size_t i;
    for (i = 0; i < count; i++)
        bytes[i] = drawn();
}

/* No slot holds a point. */
static void draw_no_points(void)
{
    memset(built.points, 0, sizeof built.points);
    built.effective = 0;
}

/* Every so manyth slot holds an eight-axis point, the others are 00. */
static void draw_points(size_t every)
{
    size_t i;
    draw_no_points();
    for (i = every - 1; i < trial.held; i += every) {
        draw(built.points + CABINET_SLOT_BYTES * i, CABINET_SLOT_BYTES);
        built.points[CABINET_SLOT_BYTES * i] = FITTED;
        built.points[CABINET_SLOT_BYTES * i + 1] = 0;
        built.effective++;
    }
}

/* Off or on, as 24BH stores them. */
static void draw_flags(void)
{
    size_t i;
    for (i = 0; i < CABINET_FLAGS_HELD; i++)
        built.flags[i] = drawn() & 1;
}

/* Sensor and error code within their limits. */
static void draw_axes(void)
{
    size_t at;
    draw(trial.axes, CABINET_AXES_BYTES);
    for (at = 0; at < CABINET_AXES_BYTES; at += CABINET_RECORD_BYTES) {
        trial.axes[at + 1] &= 15;
        trial.axes[at + 2] &= 15;
    }
}

/* A board with N effective points and an empty journal. */
static void begin(const char *name, size_t held)
{
    snprintf(trial.name, sizeof trial.name, "%s", name);
    trial.kind = ANSWER;
    trial.held = held;
    trial.journal_length = held > 500 ? CABINET_MOST_JOURNAL_BYTES : 32768;
    trial.handed_length = 0;
    trial.last = 0;
    trial.changed = CABINET_MOST_JOURNAL_BYTES; /* none of it */
    memset(&built, 0, sizeof built);
    memset(built.reply, 0xEE, CABINET_REPLY_BYTES);
    draw(built.columns, CABINET_COLUMNS_BYTES);
    draw_points(1);
    draw_axes();
    draw(built.integers, CABINET_INTEGERS_BYTES);
    draw_flags();
}

static void add_entry(uint8_t tag, unsigned start, size_t old)
{
    uint8_t *entry = built.journal + built.used;
    entry[0] = tag;
    entry[1] = (uint8_t)((old + 2) >> 8);
    entry[2] = (uint8_t)(old + 2);
    entry[3] = (uint8_t)(start >> 8);
    entry[4] = (uint8_t)start;
    draw(entry + 5, old);
    trial.last = built.used;
    built.used += 5 + old;
}

/* Entries of one length, as many as so many bytes hold. */
static void fill_journal(size_t room, uint8_t tag, unsigned start, size_t old)
{
    while (built.used + 5 + old <= room)
        add_entry(tag, start, old);
}

/* ---- making a frame ---- */

static void say(const char *text)
{
    size_t length = strlen(text);
    memcpy(trial.handed + trial.handed_length, text, length);
    trial.handed_length += length;
}

static void say_number(unsigned long number, int digits)
{
    char text[16];
    snprintf(text, sizeof text, "%0*lX", digits, number);
    say(text);
}

static void say_drawn(size_t bytes)
{
    while (bytes-- > 0)
        say_number(drawn(), 2);
}

static void say_point(unsigned pattern)
{
    say_number(pattern, 2);
    say_drawn(6);
    for (; pattern != 0; pattern >>= 1)
        if (pattern & 1)
            say_drawn(4);
}

/* A command up to its program number, then start and count of all integers. */
static void say_integers(const char *command)
{
    say(command);
    say_number(FIRST_INTEGER, 3);
    say_number(CABINET_INTEGERS_HELD, 2);
}

static void say_points(unsigned long start, unsigned long count)
{
    unsigned long i;
    say("!99244");
    say_number(start, 3);
    say_number(count, 3);
    for (i = 0; i < count; i++)
        say_point(FITTED);
}

/* SC, or a wrong one, CR and LF behind the frame that begins at a place. */
static void close_frame(size_t from, unsigned off)
{
    unsigned sum = off;
    size_t i;
    for (i = from; i < trial.handed_length; i++)
        sum += trial.handed[i];
    say_number(sum & 255, 2);
    say("\r\n");
}

/* ---- the check ---- */

static void compare(const struct board *one, const struct board *other)
{
    if (one->used != other->used || one->reply_length != other->reply_length || one->sum != other->sum)
        fail("another used length, reply's length or sum");
    if (one->effective != other->effective)
        fail("another count of effective points");
    if (one->start != other->start || one->length != other->length || one->drop != other->drop)
        fail("another place was found");
    if (one->message != other->message || one->count != other->count)
        fail("something else was shown");
    if (memcmp(one->points, other->points, sizeof one->points) != 0)
        fail("another points area");
    if (memcmp(one->columns, other->columns, sizeof one->columns) != 0)
        fail("another columns area");
    if (memcmp(one->integers, other->integers, sizeof one->integers) != 0)
        fail("another integers area");
    if (memcmp(one->flags, other->flags, sizeof one->flags) != 0)
        fail("another flags area");
    if (memcmp(one->journal, other->journal, sizeof one->journal) != 0)
        fail("another journal");
    if (memcmp(one->reply, other->reply, sizeof one->reply) != 0)
        fail("another reply area");
}

/* What so many calls leave. */
static void make_calls(const struct calls *calls, size_t count, unsigned number, struct board *left)
{
    memcpy(&work, &built, sizeof work);
    for (; count > 0; count--) {
        put_back();
        if (make_call(calls) != number)
            fail("another number than expected");
    }
    memcpy(left, &work, sizeof work);
}

/* All leave the same after the first call and after each that follows. */
static void check(unsigned number, size_t reply_length)
{
    static struct board one, other;
    size_t count;
    int by;
    for (count = 1; count <= CHECKED_CALLS; count++) {
        make_calls(&made[ARCHIVE], count, number, &one);
        for (by = PLAIN_O2; by < MADE; by++) {
            make_calls(&made[by], count, number, &other);
            compare(&one, &other);
        }
        if (one.reply_length != reply_length)
            fail("another reply's length than expected");
    }
}

/* ---- the clock ---- */

static double now(void)
{
    struct timespec time;
    clock_gettime(CLOCK_MONOTONIC, &time);
    return 1e9 * (double)time.tv_sec + (double)time.tv_nsec;
}

/* Nanoseconds of a call with its putting back, the mean of so many. */
static double time_calls(const struct calls *calls, size_t repeats, unsigned number)
{
    unsigned wrong = 0;
    double since;
    size_t i;
    memcpy(&work, &built, sizeof work);
    make_call(calls);
    since = now();
    for (i = 0; i < repeats; i++) {
        put_back();
        wrong |= make_call(calls) ^ number;
    }
    since = now() - since;
    if (wrong != 0)
        fail("another number while it was timed");
    return since / (double)repeats;
}

/* Nanoseconds of putting back alone. */
static double time_put_back(size_t repeats)
{
    double since = now();
    size_t i;
    for (i = 0; i < repeats; i++)
        put_back();
    return (now() - since) / (double)repeats;
}

static size_t enough_repeats(const struct calls *calls, unsigned number)
{
    size_t repeats = 1;
    while (time_calls(calls, repeats, number) * (double)repeats < TURN)
        repeats *= 2;
    return repeats;
}

static double smaller(double one, double other)
{
    return one < other ? one : other;
}

/* ---- the table ---- */

static const char dashes[] = "----------------------------------------------------------------";

static void print_head(void)
{
    printf("| %-61s | %4s | %10s | %8s | %8s | %5s | %21s |\n", "Call", "N", "archive ns", "-O2 ns", "-O3 ns",
           "ratio", "times the line's rate");
    printf("|:%.61s-|-%.4s:|-%.10s:|-%.8s:|-%.8s:|-%.5s:|-%.21s:|\n", dashes, dashes, dashes, dashes, dashes,
           dashes, dashes);
}

/*
 * The ratio is to the faster of the two. `bytes` are those that the line carries for the call; a step back
 * has none. A check's frame comes on the line, its reply only by acting.
 */
static void print_row(const double best[MADE], size_t bytes)
{
    char held[16] = "-", rate[24] = "-";
    if (trial.kind != RECEIVE)
        snprintf(held, sizeof held, "%lu", (unsigned long)trial.held);
    if (bytes > 0)
        snprintf(rate, sizeof rate, "%.0f", (double)bytes / LINE * 1e9 / best[ARCHIVE]);
    printf("| %-61s | %4s | %10.0f | %8.0f | %8.0f | %5.2f | %21s |\n", trial.name, held, best[ARCHIVE],
           best[PLAIN_O2], best[PLAIN_O3], best[ARCHIVE] / smaller(best[PLAIN_O2], best[PLAIN_O3]), rate);
    fflush(stdout);
}

/* The call is checked, then timed: all in turns, the best turn of each. */
static void run(unsigned number, size_t reply_length)
{
    size_t repeats[MADE];
    double best[MADE], rest = 1e18;
    int turn, by;
    check(number, reply_length);
    for (by = 0; by < MADE; by++) {
        repeats[by] = enough_repeats(&made[by], number);
        best[by] = 1e18;
    }
    for (turn = 0; turn < TURNS; turn++) {
        for (by = 0; by < MADE; by++)
            best[by] = smaller(best[by], time_calls(&made[by], repeats[by], number));
        rest = smaller(rest, time_put_back(repeats[PLAIN_O2]));
    }
    for (by = 0; by < MADE; by++)
        best[by] -= rest;
    print_row(best, trial.kind == STEP_BACK ? 0 : trial.handed_length + reply_length);
}

static void run_frame(unsigned number, size_t reply_length)
{
    close_frame(0, 0);
    run(number, reply_length);
}

/* A frame that is checked, and shows this; or acted on. */
static void run_check(uint16_t message, size_t start, size_t count)
{
    trial.kind = CHECK;
    run_frame(CABINET_ACCEPTED, 0);
    if (work.message != message || work.start != start || work.count != count)
        fail("something else was shown than expected");
}

static void run_act(size_t reply_length)
{
    trial.kind = ACT;
    run_frame(CABINET_ACCEPTED, reply_length);
}

static void run_back(void)
{
    trial.kind = STEP_BACK;
    trial.changed = trial.last;
    run(CABINET_ACCEPTED, 0);
}

/* ---- the trials: queries, with an empty journal ---- */

static void test_call(size_t held)
{
    begin("200H", held);
    say("!992000012345678");
    run_frame(CABINET_ACCEPTED, 20);
}

static void point_count(size_t held)
{
    begin("208H", held);
    say("!99208");
    run_frame(CABINET_ACCEPTED, 13);
}

static void point_count_of_none(size_t held)
{
    begin("208H, no point effective", held);
    draw_no_points();
    say("!99208");
    run_frame(CABINET_ACCEPTED, 13);
}

static void full_list(size_t held)
{
    begin("209H, 12 eight-axis points, the first ones", held);
    say("!99209001");
    say_number(held, 3);
    run_frame(CABINET_ACCEPTED, 985);
}

/* To find them all slots are looked at. */
static void sparse_list(size_t held)
{
    begin("209H, 12 eight-axis points, far between", held);
    draw_points(held / 12);
    say("!99209001");
    say_number(held, 3);
    run_frame(CABINET_ACCEPTED, 985);
}

static void flag_query(size_t held)
{
    begin("20DH, 300 flags", held);
    say("!9920D00");
    say_number(FIRST_FLAG, 4);
    say_number(CABINET_FLAGS_HELD, 4);
    run_frame(CABINET_ACCEPTED, 96);
}

static void integer_query(size_t held)
{
    begin("20EH, 100 integers", held);
    say_integers("!9920E00");
    run_frame(CABINET_ACCEPTED, 817);
}

static void column_query(size_t held)
{
    begin("210H, 255 columns", held);
    say("!992100012CFF");
    run_frame(CABINET_ACCEPTED, 527);
}

static void axis_status(size_t held)
{
    begin("212H, 8 axes", held);
    say("!99212FF");
    run_frame(CABINET_ACCEPTED, 140);
}

/* ---- writes into an empty journal: most of it becomes 00 each time ---- */

static void write_point(size_t held)
{
    begin("244H, 1 eight-axis point", held);
    say_points(7, 1);
    run_frame(CABINET_ACCEPTED, 16);
}

static void write_points(size_t held)
{
    begin("244H, 12 eight-axis points", held);
    say_points(7, 12);
    run_frame(CABINET_ACCEPTED, 16);
}

static void clear_points(size_t held)
{
    begin("246H, 12 points", held);
    say("!9924600700C");
    run_frame(CABINET_ACCEPTED, 10);
}

static void clear_all(size_t held)
{
    begin("246H, all points", held);
    say("!99246001");
    say_number(held, 3);
    run_frame(CABINET_ACCEPTED, 10);
}

static void write_flag(size_t held)
{
    begin("24BH", held);
    say("!9924B00");
    say_number(FIRST_FLAG + 7, 4);
    say("1");
    run_frame(CABINET_ACCEPTED, 10);
}

static void write_integers(size_t held)
{
    begin("24CH, 100 integers", held);
    say_integers("!9924C00");
    say_drawn(CABINET_INTEGERS_BYTES);
    run_frame(CABINET_ACCEPTED, 17);
}

static void write_columns(size_t held)
{
    begin("24EH, 255 columns", held);
    say("!9924E0012CFF");
    say_drawn(255);
    run_frame(CABINET_ACCEPTED, 10);
}

/* ---- refused frames ---- */

static void wrong_sum(size_t held)
{
    begin("refused 7: 244H, 12 points, wrong SC", held);
    say_points(7, 12);
    close_frame(0, 1);
    run(CABINET_REFUSED_SC, 0);
}

static void unknown_message(size_t held)
{
    begin("refused 101: unknown message", held);
    say("!99299");
    run_frame(CABINET_REFUSED_MESSAGE, CABINET_ERROR_REPLY_BYTES);
}

static void wrong_count(size_t held)
{
    begin("refused 11: 244H, 1 eight-axis point, a count that isn't true", held);
    built.effective--;
    say_points(7, 1);
    run_frame(CABINET_REFUSED_EFFECTIVE_COUNT, 0);
}

static void not_held(size_t held)
{
    begin("refused 106: 209H beyond N", held);
    say("!99209001");
    say_number(held + 1, 3);
    run_frame(CABINET_REFUSED_NOT_HELD, CABINET_ERROR_REPLY_BYTES);
}

static void wrong_pattern(size_t held)
{
    begin("refused 107: 244H, 12 points, the last one 00", held);
    say_points(7, 11);
    memcpy(trial.handed + 9, "00C", 3);
    say_point(0);
    run_frame(CABINET_REFUSED_PATTERN, CABINET_ERROR_REPLY_BYTES);
}

/* ---- looking first ---- */

static void check_count(size_t held)
{
    begin("check, 208H", held);
    say("!99208");
    run_check(0x208, 0, 0);
}

static void check_points(size_t held)
{
    begin("check, 244H, 12 eight-axis points", held);
    say_points(7, 12);
    run_check(0x244, 7, 12);
}

static void act_on_points(size_t held)
{
    begin("act, 244H, 12 eight-axis points", held);
    say_points(7, 12);
    run_act(16);
}

/* ---- calls with entries in the journal ---- */

static void write_points_half_full(size_t held)
{
    begin("244H, 12 points, journal half full of such", held);
    fill_journal(trial.journal_length / 2, POINTS_TAG, 7, 12 * CABINET_SLOT_BYTES);
    say_points(7, 12);
    run_frame(CABINET_ACCEPTED, 16);
}

static void write_column_half_full(size_t held)
{
    begin("24EH, 1 column, journal half full of 12-point entries", held);
    fill_journal(trial.journal_length / 2, POINTS_TAG, 7, 12 * CABINET_SLOT_BYTES);
    say("!9924E0012C0137");
    run_frame(CABINET_ACCEPTED, 10);
}

static void write_points_full(size_t held)
{
    begin("244H, 12 points, journal full of such, 1 entry dropped", held);
    fill_journal(trial.journal_length, POINTS_TAG, 7, 12 * CABINET_SLOT_BYTES);
    say_points(7, 12);
    run_frame(CABINET_ACCEPTED, 16);
}

/* The most entries that a journal can hold: each call looks at all of them. */
static void write_column_full(size_t held)
{
    begin("24EH, 1 column, journal full of such, 1 entry dropped", held);
    fill_journal(trial.journal_length, COLUMNS_TAG, 300, 1);
    say("!9924E0012C0137");
    run_frame(CABINET_ACCEPTED, 10);
}

static void clear_full_of_columns(size_t held)
{
    begin("246H, 12 points, journal full of 1-column entries, 81 dropped", held);
    fill_journal(trial.journal_length, COLUMNS_TAG, 300, 1);
    trial.changed = 0;
    say("!9924600700C");
    run_frame(CABINET_ACCEPTED, 10);
}

static void test_call_full_of_columns(size_t held)
{
    begin("200H, journal full of 1-column entries", held);
    fill_journal(trial.journal_length, COLUMNS_TAG, 300, 1);
    say("!992000012345678");
    run_frame(CABINET_ACCEPTED, 20);
}

/* ---- steps back ---- */

/* All slots are looked at, though none changes. */
static void back_one_column(size_t held)
{
    begin("step back, 1 column, the only entry", held);
    add_entry(COLUMNS_TAG, 300, 1);
    run_back();
}

static void back_to_empty(size_t held)
{
    begin("step back, 12 points, the only entry", held);
    add_entry(POINTS_TAG, 7, 12 * CABINET_SLOT_BYTES);
    run_back();
}

static void back_from_full(size_t held)
{
    begin("step back, 12 points, journal full of such", held);
    fill_journal(trial.journal_length, POINTS_TAG, 7, 12 * CABINET_SLOT_BYTES);
    run_back();
}

static void back_from_full_of_columns(size_t held)
{
    begin("step back, 1 column, journal full of such", held);
    fill_journal(trial.journal_length, COLUMNS_TAG, 300, 1);
    run_back();
}

/* ---- the finder ---- */

/* Received bytes, up to a place without a '!'. */
static void begin_received(const char *name, size_t junk)
{
    size_t i;
    begin(name, 1);
    trial.kind = RECEIVE;
    draw(trial.handed, junk);
    for (i = 0; i < junk; i++)
        if (trial.handed[i] == '!')
            trial.handed[i] = '?';
    trial.handed_length = junk;
}

static void find_nothing(void)
{
    begin_received("finder, 4,096 bytes without '!'", RECEIVED);
    run(CABINET_NOTHING, 0);
}

static void find_short(void)
{
    begin_received("finder, 4,076 bytes, then a frame of 20", RECEIVED - 20);
    say("!992000012345678");
    close_frame(RECEIVED - 20, 0);
    run(CABINET_FRAME, 0);
}

static void find_longest(void)
{
    size_t from = RECEIVED - CABINET_LONGEST_FRAME_BYTES;
    begin_received("finder, 3,073 bytes, then a frame of 1,023", from);
    say("!99244001001");
    while (trial.handed_length < RECEIVED - 4)
        say("0");
    close_frame(from, 0);
    run(CABINET_FRAME, 0);
}

/*
 * Every '!' begins a test call whose bytes 19 and 20 are '!' and '9', so all are skipped up to byte 4,074,
 * which has 22 bytes from it on. The next, at 4,080, has 16: there the call waits, and goes no further.
 */
static void find_test_calls(void)
{
    static const char head[] = "!99200";
    begin_received("finder, 4,096 bytes of `!99200` again and again", 0);
    while (trial.handed_length < RECEIVED) {
        trial.handed[trial.handed_length] = (uint8_t)head[trial.handed_length % (sizeof head - 1)];
        trial.handed_length++;
    }
    run(CABINET_WAIT, 0);
    if (work.drop != 4080)
        fail("another drop than expected");
}

static void (*const trials[])(size_t) = {
    test_call, point_count, point_count_of_none, full_list, sparse_list, flag_query, integer_query,
    column_query, axis_status,
    write_point, write_points, clear_points, clear_all, write_flag, write_integers, write_columns,
    wrong_sum, wrong_count, unknown_message, not_held, wrong_pattern,
    check_count, check_points, act_on_points,
    write_points_half_full, write_column_half_full, write_points_full, write_column_full,
    clear_full_of_columns, test_call_full_of_columns,
    back_one_column, back_to_empty, back_from_full, back_from_full_of_columns
};

int main(void)
{
    size_t i;
    print_head();
    for (i = 0; i < sizeof trials / sizeof trials[0]; i++) {
        trials[i](500);
        trials[i](1500);
    }
    find_nothing();
    find_short();
    find_longest();
    find_test_calls();
    return 0;
}
