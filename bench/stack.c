/* The stack that each public operation uses, which may not pass QAFRENDI_STACK: it runs on a painted stack of its own, and the deepest place where
 * the paint is gone tells.
 *
 *     low                                          high
 *     [paint paint paint ... | operation | caller's arguments | caller ]
 *                            ^ deepest place written
 *
 * The same caller calls a function that does nothing; the difference of the two depths is what the operation takes below its return
 * address. What is reserved at the very bottom and never written is not seen.
 *
 * stack DIR: DIR holds what src/bin/inputs.rs writes; the texts of IMPORT are made here. For x86-64, as the library is. It ends with 'N passed, M
 * failed', an operation each, and the status is 0 only if none has failed: the same library has the same figures on every run. */
#include <stdio.h>
#include <stdlib.h>
#include <string.h>

#include "qafrendi.h"

enum {
    STACK = 1 << 16,
    REGISTERS = 6,                            /* for arguments */
    WORD = 8,                                 /* bytes */
    ROOM = 1 << 14,                           /* more than any book or tape of the inputs has, or any text */
    LINES = 16 * (QAFRENDI_LONGEST_TAPE + 1), /* every place of the longest tape by every rule; the dense book's account has more and is refused */
    HEAT_OUT = QAFRENDI_MOST_LANES * QAFRENDI_LONGEST_OUT,
    HIGHEST = 65535,                          /* state of a text, whose names count down from it, so that they are long */
    TEXT = 1 << 12
};

/* Two paints: a byte that happens to be written in one of them shows in the other. */
static const uint8_t paints[] = {0xa5, 0x5a};
static uint8_t painted[STACK] __attribute__((aligned(64)));

/* Any function; who calls it casts it back to its type. */
typedef void function(void);
typedef void caller(function *);

/* call(f), with the stack pointer at top */
void call_on(uint8_t *top, caller *call, function *f);

/* Does nothing, whatever the type that it is called by. */
function nothing;

__asm__(
    ".text\n"
    "call_on:\n"
    "    pushq %rbx\n"
    "    movq %rsp, %rbx\n"
    "    movq %rdi, %rsp\n"
    "    movq %rdx, %rdi\n"
    "    callq *%rsi\n"
    "    movq %rbx, %rsp\n"
    "    popq %rbx\n"
    "    retq\n"
    "nothing:\n"
    "    retq\n");

/* The input at hand, and what the operations are lent. */
static uint8_t book[ROOM], tape[ROOM];
static size_t book_length, tape_length;
static uint8_t rows[QAFRENDI_ROW_BYTES];
static uint64_t sets[QAFRENDI_SET_WORDS];
static uint8_t scratch[QAFRENDI_SCRATCH];
static uint8_t out[HEAT_OUT];
static uint16_t origins[HEAT_OUT];
static uint16_t lines[QAFRENDI_LINE_WORDS * LINES];
static qafrendi_lane lanes[QAFRENDI_MOST_LANES + 1];
static uint8_t text[ROOM];
static size_t text_length;

static void check(function *f)
{
    ((__typeof__(qafrendi_check) *)f)(book, book_length);
}

/* Room enough, and none: 11. */
static void build(function *f)
{
    static const size_t rooms[] = {QAFRENDI_ROW_BYTES, 0};
    for (size_t i = 0; i < sizeof rooms / sizeof *rooms; i++)
        ((__typeof__(qafrendi_build) *)f)(book, book_length, rows, rooms[i], sets, QAFRENDI_SET_WORDS);
}

/* Room enough for every output; an output that must be measured, and where it is not empty is refused: 15; no scratch: 12. */
static void rewrite(function *f)
{
    static const struct {
        size_t scratch, out;
    } rooms[] = {{QAFRENDI_SCRATCH, QAFRENDI_LONGEST_OUT}, {QAFRENDI_SCRATCH, 0}, {0, QAFRENDI_LONGEST_OUT}};
    for (size_t i = 0; i < sizeof rooms / sizeof *rooms; i++)
        ((__typeof__(qafrendi_rewrite) *)f)(
            book, book_length, tape, tape_length, rows, QAFRENDI_ROW_BYTES, sets, QAFRENDI_SET_WORDS, scratch, rooms[i].scratch,
            out, rooms[i].out, origins, rooms[i].out);
}

/* The same of ACCOUNT: 15 where there is a candidate, and 12. */
static void account(function *f)
{
    static const struct {
        size_t scratch, words;
    } rooms[] = {{QAFRENDI_SCRATCH, QAFRENDI_LINE_WORDS * LINES}, {QAFRENDI_SCRATCH, 0}, {0, QAFRENDI_LINE_WORDS * LINES}};
    for (size_t i = 0; i < sizeof rooms / sizeof *rooms; i++)
        ((__typeof__(qafrendi_account) *)f)(
            book, book_length, tape, tape_length, rows, QAFRENDI_ROW_BYTES, sets, QAFRENDI_SET_WORDS, scratch, rooms[i].scratch,
            lines, rooms[i].words);
}

/* The first line, the last, and one that is not there. */
static void show(function *f)
{
    static const size_t shown[] = {0, LINES - 1, LINES};
    for (size_t i = 0; i < sizeof shown / sizeof *shown; i++)
        ((__typeof__(qafrendi_show) *)f)(tape_length, lines, QAFRENDI_LINE_WORDS * LINES, shown[i]);
}

/* Each lane is the whole tape: ten of them, and one; then each refusal of HEAT's own, and those of a lane that the tape alone does not bring. */
static void heat(function *f)
{
    const struct {
        size_t lanes, tapes, scratch, out;
    } heats[] = {
        {QAFRENDI_MOST_LANES, tape_length, QAFRENDI_SCRATCH, HEAT_OUT},
        {1, tape_length, QAFRENDI_SCRATCH, HEAT_OUT},
        {QAFRENDI_MOST_LANES + 1, tape_length, QAFRENDI_SCRATCH, HEAT_OUT}, /* 16 */
        {QAFRENDI_MOST_LANES, 0, QAFRENDI_SCRATCH, HEAT_OUT},               /* 17 */
        {QAFRENDI_MOST_LANES, tape_length, 0, HEAT_OUT},                    /* 12 */
        {QAFRENDI_MOST_LANES, tape_length, QAFRENDI_SCRATCH, 0},            /* 15 */
    };
    for (size_t i = 0; i < sizeof heats / sizeof *heats; i++)
        ((__typeof__(qafrendi_heat) *)f)(
            book, book_length, tape, heats[i].tapes, lanes, heats[i].lanes, rows, QAFRENDI_ROW_BYTES, sets, QAFRENDI_SET_WORDS,
            scratch, heats[i].scratch, out, heats[i].out, origins, heats[i].out);
}

/* The text as each part; from state 1 on, where 64 states are too many: 21; as no part: 5; with no room: 15. */
static void import(function *f)
{
    static const struct {
        uint8_t part, first;
        size_t out;
    } imports[] = {
        {0, 0, QAFRENDI_LONGEST_PART}, {1, 0, QAFRENDI_LONGEST_PART}, {2, 0, QAFRENDI_LONGEST_PART},
        {2, 1, QAFRENDI_LONGEST_PART}, {3, 0, QAFRENDI_LONGEST_PART}, {1, 0, 0},
    };
    for (size_t i = 0; i < sizeof imports / sizeof *imports; i++)
        ((__typeof__(qafrendi_import) *)f)(text, text_length, imports[i].part, imports[i].first, out, imports[i].out);
}

/* One row: the operation, its arguments with the place of a long answer, and its stack at the worst input so far. */
static struct operation {
    const char *name;
    int arguments;
    caller *call;
    function *f;
    size_t bytes;
    char worst[TEXT];
} operations[] = {
    {"check", 3, check, (function *)qafrendi_check, 0, "every input"},
    {"build", 7, build, (function *)qafrendi_build, 0, "every input"},
    {"rewrite", 15, rewrite, (function *)qafrendi_rewrite, 0, "every input"},
    {"account", 13, account, (function *)qafrendi_account, 0, "every input"},
    {"show", 4, show, (function *)qafrendi_show, 0, "every input"},
    {"heat", 16, heat, (function *)qafrendi_heat, 0, "every input"},
    {"import", 7, import, (function *)qafrendi_import, 0, "every text"},
};

/* IMPORT comes last, for its inputs are texts. */
enum { OPERATIONS = sizeof operations / sizeof *operations, IMPORT = OPERATIONS - 1 };

/* So many arcs that run through so many states, each of which is final; then a line more. */
static const struct {
    const char *name;
    unsigned states, arcs;
    const char *more;
} texts[] = {
    {"a text of 64 states, 512 arcs", QAFRENDI_MOST_STATES, QAFRENDI_MOST_ARCS, ""},
    {"a text of one state, 512 arcs", 1, QAFRENDI_MOST_ARCS, ""},
    {"a text of one arc", 2, 1, ""},
    {"the empty text", 0, 0, ""},
    {"a text of 65 states", QAFRENDI_MOST_STATES + 1, QAFRENDI_MOST_ARCS, ""},                   /* 21 */
    {"a text of 513 arcs", QAFRENDI_MOST_STATES, QAFRENDI_MOST_ARCS + 1, ""},                    /* 21 */
    {"a text with a weight", QAFRENDI_MOST_STATES, QAFRENDI_MOST_ARCS, "1\t0\n"},                /* 20 */
    {"a text without its last newline", QAFRENDI_MOST_STATES, QAFRENDI_MOST_ARCS, "1"},          /* 18 */
    {"a text with a state too high", QAFRENDI_MOST_STATES, QAFRENDI_MOST_ARCS, "1\t65536\t1\n"}, /* 18 */
    {"a text with a label too high", QAFRENDI_MOST_STATES, QAFRENDI_MOST_ARCS, "1\t1\t33\n"},    /* 19 */
    {"a weight alone", 0, 0, "1\t0\n"},                                                          /* 20 */
    {"an empty line alone", 0, 0, "\n"},                                                         /* 18 */
    {"label 0 alone", 0, 0, "0\t0\t0\n"},                                                        /* 19 */
};

/* How deep the call goes. */
static size_t depth(caller *call, function *f)
{
    size_t deepest = 0;
    for (size_t i = 0; i < sizeof paints; i++) {
        size_t whole = 0;
        memset(painted, paints[i], STACK);
        call_on(painted + STACK, call, f);
        while (whole < STACK && painted[whole] == paints[i])
            whole++;
        if (deepest < STACK - whole)
            deepest = STACK - whole;
    }
    return deepest;
}

static void measure(struct operation *o, const char *name)
{
    o->call(o->f); /* so that nothing is done for the first time on the painted stack */
    size_t bytes = depth(o->call, o->f) - depth(o->call, nothing);
    if (o->bytes < bytes) {
        o->bytes = bytes;
        strcpy(o->worst, name);
    }
}

/* Whether the operation keeps the limit. The caller's arguments are kept aligned to two words, and the return address is one. */
static int print(const struct operation *o)
{
    size_t words = o->arguments > REGISTERS ? o->arguments - REGISTERS : 0;
    size_t pushed = (words + 1) / 2 * 2 * WORD + WORD;
    size_t sum = o->bytes + pushed;
    int kept = sum <= QAFRENDI_STACK;
    printf("%-10s%8zu%22zu%8zu   %s%s\n", o->name, o->bytes, pushed, sum, o->worst, kept ? "" : ": more than QAFRENDI_STACK");
    return kept;
}

static void stop(const char *what, const char *why)
{
    fprintf(stderr, "stack: %s: %s\n", what, why);
    exit(1);
}

static FILE *opened(const char *folder, const char *name, const char *kind)
{
    char path[TEXT];
    snprintf(path, TEXT, "%s/%s%s", folder, name, kind);
    FILE *file = fopen(path, "rb");
    if (!file)
        stop(path, "cannot be read");
    return file;
}

static size_t load(uint8_t *to, const char *folder, const char *name, const char *kind)
{
    FILE *file = opened(folder, name, kind);
    size_t length = fread(to, 1, ROOM, file);
    fclose(file);
    if (length == ROOM)
        stop(name, "too long");
    return length;
}

static void measure_all(const char *folder, const char *name)
{
    book_length = load(book, folder, name, ".book");
    tape_length = load(tape, folder, name, ".tape");
    for (size_t i = 0; i < sizeof lanes / sizeof *lanes; i++)
        lanes[i].length = tape_length;
    for (int i = 0; i < IMPORT; i++)
        measure(&operations[i], name);
}

static void add(const char *line)
{
    for (; *line; line++)
        text[text_length++] = (uint8_t)*line;
}

static void add_arc(unsigned source, unsigned destination, unsigned symbol)
{
    char line[TEXT];
    snprintf(line, TEXT, "%u\t%u\t%u\n", HIGHEST - source, HIGHEST - destination, symbol + 1);
    add(line);
}

static void add_final(unsigned state)
{
    char line[TEXT];
    snprintf(line, TEXT, "%u\n", HIGHEST - state);
    add(line);
}

static void measure_texts(void)
{
    for (size_t i = 0; i < sizeof texts / sizeof *texts; i++) {
        unsigned states = texts[i].states;
        text_length = 0;
        for (unsigned k = 0; k < texts[i].arcs; k++)
            add_arc(k % states, (k + 1) % states, k % QAFRENDI_SYMBOLS);
        for (unsigned k = 0; k < states; k++)
            add_final(k);
        add(texts[i].more);
        measure(&operations[IMPORT], texts[i].name);
    }
}

int main(int count, char **words)
{
    if (count != 2)
        stop("DIR", "the folder of the inputs is wanted");
    char name[TEXT];
    FILE *names = opened(words[1], "names", "");
    while (fgets(name, TEXT, names)) {
        name[strcspn(name, "\n")] = 0;
        measure_all(words[1], name);
    }
    fclose(names);
    measure_texts();
    printf("STACK of the library that is delivered (rt lib of crates/deck, x86-64): bytes, on a painted stack\n");
    printf("%-10s%8s%22s%8s   deepest at\n", "", "own", "arguments and return", "sum");
    int passed = 0;
    for (int i = 0; i < OPERATIONS; i++)
        passed += print(&operations[i]);
    printf("%d passed, %d failed\n", passed, OPERATIONS - passed);
    return passed < OPERATIONS;
}
