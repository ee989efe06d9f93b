/* The time of each operation over its time in an earlier commit's library, both called in turns in one run.
 *
 * since DIR: DIR holds what src/bin/inputs.rs writes. The functions of the earlier library have the names before_*, those of this tree's the
 * names now_*. Each number is the median over ROUNDS of the quotient of two neighbouring turns, by the thread's own time on the processor.
 * Behind it stands "refused" where both refuse, and "differs" where the two answer or leave another thing, as origins do that a later request
 * changes. Where the replies differ they stand alone, this tree's first: the work is not the same, as with a book that a later request allows. */
#define _POSIX_C_SOURCE 199309L
#include <stdio.h>
#include <stdlib.h>
#include <string.h>
#include <time.h>

#include "qafrendi.h"

enum {
    ROUNDS = 301,
    TURN = 1000000,  /* nanoseconds that a turn takes at least */
    ROOM = 1 << 14,  /* more than any book or tape of the inputs has */
    WORDS = 1 << 19, /* of an account */
    PIECE = 64,      /* symbols of a lane in a heat of pieces */
    HEAT_OUT = QAFRENDI_MOST_LANES * QAFRENDI_LONGEST_OUT,
    TEXT = 1 << 12
};

#define FUNCTIONS(side) \
    __typeof__(qafrendi_check) side##_check; \
    __typeof__(qafrendi_build) side##_build; \
    __typeof__(qafrendi_rewrite) side##_rewrite; \
    __typeof__(qafrendi_account) side##_account; \
    __typeof__(qafrendi_heat) side##_heat __attribute__((weak)); /* libraries before request 2 have none */
FUNCTIONS(before)
FUNCTIONS(now)

/* A workspace as long as this tree's library needs it; an earlier one needs no more. */
static uint8_t book[ROOM], tape[ROOM], rows[QAFRENDI_ROW_BYTES], scratch[QAFRENDI_SCRATCH], out[HEAT_OUT];
static uint64_t sets[QAFRENDI_SET_WORDS];
static uint16_t origins[HEAT_OUT], lines[WORDS];
static size_t book_length, tape_length;
static qafrendi_lane whole[QAFRENDI_MOST_LANES], pieces[QAFRENDI_MOST_LANES]; /* each lane the tape; each a piece of it, one after the other */

#define LENT_WORKSPACE rows, QAFRENDI_ROW_BYTES, sets, QAFRENDI_SET_WORDS
#define LENT_SCRATCH scratch, QAFRENDI_SCRATCH

/* What a call answers, its counts in their order. */
struct answer {
    size_t reply, place, counts[3];
};

/* Each side of each operation: what it does once. */
#define SIDES(side) \
    static struct answer side##_check_once(void) \
    { \
        qafrendi_checked r = side##_check(book, book_length); \
        return (struct answer){r.reply, r.place, {r.rules, r.states, r.arcs}}; \
    } \
    static struct answer side##_build_once(void) \
    { \
        qafrendi_built r = side##_build(book, book_length, LENT_WORKSPACE); \
        return (struct answer){r.reply, r.place, {r.left, r.right, 0}}; \
    } \
    static struct answer side##_rewrite_once(void) \
    { \
        qafrendi_rewritten r = side##_rewrite( \
            book, book_length, tape, tape_length, LENT_WORKSPACE, LENT_SCRATCH, out, QAFRENDI_LONGEST_OUT, origins, QAFRENDI_LONGEST_OUT); \
        return (struct answer){r.reply, r.place, {r.length, r.taken, 0}}; \
    } \
    static struct answer side##_account_once(void) \
    { \
        qafrendi_accounted r = side##_account(book, book_length, tape, tape_length, LENT_WORKSPACE, LENT_SCRATCH, lines, WORDS); \
        return (struct answer){r.reply, r.place, {r.candidates, 0, 0}}; \
    } \
    static struct answer side##_heat_of(qafrendi_lane *lanes) \
    { \
        qafrendi_heated r = side##_heat( \
            book, book_length, tape, tape_length, lanes, QAFRENDI_MOST_LANES, LENT_WORKSPACE, LENT_SCRATCH, out, HEAT_OUT, origins, HEAT_OUT); \
        return (struct answer){r.reply, r.place, {0, 0, 0}}; \
    } \
    static struct answer side##_heat_once(void) { return side##_heat_of(whole); } \
    static struct answer side##_pieces_once(void) { return side##_heat_of(pieces); }
SIDES(now)
SIDES(before)

typedef struct answer call(void);

static const struct operation {
    const char *name;
    call *now, *before;
} operations[] = {
    {"CHECK", now_check_once, before_check_once},
    {"BUILD", now_build_once, before_build_once},
    {"REWRITE", now_rewrite_once, before_rewrite_once},
    {"ACCOUNT", now_account_once, before_account_once},
    {"HEAT", now_heat_once, before_heat_once},
    {"HEAT of pieces", now_pieces_once, before_pieces_once},
};

enum { OPERATIONS = sizeof operations / sizeof *operations, HEATS = 2 };

/* How many of them both libraries have: heats come last. */
static int common(void)
{
    return before_heat ? OPERATIONS : OPERATIONS - HEATS;
}

static double clock_now(void)
{
    struct timespec t;
    clock_gettime(CLOCK_THREAD_CPUTIME_ID, &t);
    return 1e9 * t.tv_sec + t.tv_nsec;
}

/* nanoseconds of so many calls */
static double turn(call *f, long calls)
{
    double begun = clock_now();
    for (long i = 0; i < calls; i++)
        f();
    return clock_now() - begun;
}

static int ascending(const void *a, const void *b)
{
    double x = *(const double *)a, y = *(const double *)b;
    return (x > y) - (x < y);
}

static double ratio(const struct operation *o)
{
    static double quotients[ROUNDS];
    long calls = 1;
    while (turn(o->now, calls) < TURN)
        calls *= 2;
    for (int i = 0; i < ROUNDS; i++) {
        /* first and second change places, so that no side always follows the other's memory */
        double first = turn(i % 2 ? o->now : o->before, calls), second = turn(i % 2 ? o->before : o->now, calls);
        quotients[i] = i % 2 ? first / second : second / first;
    }
    qsort(quotients, ROUNDS, sizeof *quotients, ascending);
    return quotients[ROUNDS / 2];
}

/* The lanes over the tape, all their other fields clear. */
static void place_lanes(void)
{
    memset(whole, 0, sizeof whole);
    memset(pieces, 0, sizeof pieces);
    for (size_t i = 0; i < QAFRENDI_MOST_LANES; i++) {
        whole[i].length = tape_length;
        pieces[i].start = i * PIECE % (tape_length + 1);
        pieces[i].length = tape_length - pieces[i].start < PIECE ? tape_length - pieces[i].start : PIECE;
    }
}

/* The sum with these bytes added; the place of each counts. */
static uint64_t added(uint64_t sum, const void *from, size_t bytes)
{
    const uint8_t *at = from;
    for (size_t i = 0; i < bytes; i++)
        sum = (sum ^ at[i]) * 0x100000001b3;
    return sum;
}

static uint64_t added_lanes(uint64_t sum, const qafrendi_lane *lanes)
{
    for (size_t i = 0; i < QAFRENDI_MOST_LANES; i++) {
        size_t fields[] = {lanes[i].out, lanes[i].taken, lanes[i].reply, lanes[i].place};
        sum = added(sum, fields, sizeof fields);
    }
    return sum;
}

/* A sum of what a call leaves in buffers and lanes that were clear before. The rows are not in it: how long they are follows from the number of
 * symbols, which another library may have otherwise. */
static uint64_t left_by(call *f, struct answer *answer)
{
    place_lanes();
    memset(sets, 0, sizeof sets);
    memset(scratch, 0, sizeof scratch);
    memset(out, 0, sizeof out);
    memset(origins, 0, sizeof origins);
    memset(lines, 0, sizeof lines);
    *answer = f();
    uint64_t sum = added(0, answer, sizeof *answer);
    sum = added(sum, sets, sizeof sets);
    sum = added(sum, scratch, sizeof scratch);
    sum = added(sum, out, sizeof out);
    sum = added(sum, origins, sizeof origins);
    sum = added(sum, lines, sizeof lines);
    return added_lanes(added_lanes(sum, whole), pieces);
}

static size_t load(uint8_t *to, const char *folder, const char *name, const char *kind)
{
    char path[2 * TEXT];
    snprintf(path, sizeof path, "%s/%s%s", folder, name, kind);
    FILE *file = fopen(path, "rb");
    if (!file) {
        fprintf(stderr, "since: %s cannot be read\n", path);
        exit(1);
    }
    size_t length = fread(to, 1, ROOM, file);
    fclose(file);
    if (length == ROOM) {
        fprintf(stderr, "since: %s is too long\n", path);
        exit(1);
    }
    return length;
}

static void measure(const char *folder, const char *name)
{
    book_length = load(book, folder, name, ".book");
    tape_length = load(tape, folder, name, ".tape");
    printf("%-32s", name);
    for (int i = 0; i < common(); i++) {
        struct answer now, before;
        int same = left_by(operations[i].now, &now) == left_by(operations[i].before, &before);
        if (now.reply == before.reply)
            printf("  x%.2f %-8s", ratio(&operations[i]), !same ? "differs" : now.reply ? "refused" : "");
        else
            printf("  %2zu, %2zu        ", now.reply, before.reply);
        fflush(stdout);
    }
    printf("\n");
}

int main(int count, char **words)
{
    static uint8_t names[ROOM];
    if (count != 2)
        return 2;
    names[load(names, words[1], "names", "")] = 0;
    printf("%-32s", "time over the earlier one's");
    for (int i = 0; i < common(); i++)
        printf("  %-14s", operations[i].name);
    printf("\n");
    for (char *name = strtok((char *)names, "\n"); name; name = strtok(0, "\n"))
        measure(words[1], name);
    return 0;
}
