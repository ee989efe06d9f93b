/* The door: requests on standard input, each answered on standard output, so that any program can call every operation on any bytes.
 * README.md has the layout. Nothing is decided here: a request that keeps to the limits goes to its operation, and what the operation
 * answers and leaves in its buffers is written out. */
#include <stdio.h>
#include <string.h>

#include "qafrendi.h"

#if __BYTE_ORDER__ != __ORDER_LITTLE_ENDIAN__
#error "numbers go in and out as they stand in memory, which has to be with the lowest byte first"
#endif

/* ASK(answer, operation, arguments): answer = operation(arguments), for an answer of more than two words. On x86-64 C hands over, in
 * front of the arguments, a pointer to where such an answer goes. The proved module takes that pointer on every processor that
 * bin/native-lib compiles it for; where C has another way, the pointer is handed over outright. */
#ifdef __x86_64__
#define ASK(answer, operation, ...) ((answer) = operation(__VA_ARGS__))
#else
#define ASK(answer, operation, ...)                                       \
    do {                                                                  \
        extern void outright_##operation(void *, ...) __asm__(#operation); \
        outright_##operation(&(answer), __VA_ARGS__);                     \
    } while (0)
#endif

enum { CHECK = 1, BUILD, REWRITE, ACCOUNT, SHOW, HEAT, IMPORT, OPERATIONS, REFUSED = 255 };

/* In the order of a request's lengths, which is that of every operation's parameters. */
enum { BOOK, TAPE, ROWS, SETS, SCRATCH, OUT, ORIGINS, LINES, BUFFERS };

/* The most elements that a request may ask for. */
static uint8_t book[65536], tape[65536], rows[40000], scratch[65536], out[65536];
static uint64_t sets[1024];
static uint16_t origins[65536], lines[131072];

#define BUFFER(array) {array, sizeof *array, sizeof array / sizeof *array}
static const struct {
    void *elements;
    size_t width, longest; /* bytes of an element; elements */
} buffers[BUFFERS] = {
    BUFFER(book), BUFFER(tape), BUFFER(rows), BUFFER(sets), BUFFER(scratch), BUFFER(out), BUFFER(origins), BUFFER(lines),
};

/* HEAT: more than its ten, so that 16 can be asked for. A request has as many as it has lines. */
enum { LANES = 12 };
static qafrendi_lane lanes[LANES];

/* What the request at hand says. */
static size_t length[BUFFERS]; /* elements, never more than the longest */
static size_t line;            /* for IMPORT, the part in its lowest byte and the first number in the next */

/* A buffer as an operation takes it: a pointer and the length. */
#define LENT_BOOK book, length[BOOK]
#define LENT_TAPE tape, length[TAPE]
#define LENT_WORKSPACE rows, length[ROWS], sets, length[SETS]
#define LENT_SCRATCH scratch, length[SCRATCH]
#define LENT_OUT out, length[OUT]
#define LENT_OUTPUT LENT_OUT, origins, length[ORIGINS]
#define LENT_LINES lines, length[LINES]

struct answer {
    uint8_t reply;
    uint64_t place, counts[4];
    const uint8_t *part; /* what follows the buffers, and how long it is */
    size_t part_length;
};

static struct answer check(void)
{
    qafrendi_checked r;
    ASK(r, qafrendi_check, LENT_BOOK);
    return (struct answer){.reply = r.reply, .place = r.place, .counts = {r.rules, r.states, r.arcs}};
}

static struct answer build(void)
{
    qafrendi_built r;
    ASK(r, qafrendi_build, LENT_BOOK, LENT_WORKSPACE);
    return (struct answer){.reply = r.reply, .place = r.place, .counts = {r.left, r.right}};
}

static struct answer rewrite(void)
{
    qafrendi_rewritten r;
    ASK(r, qafrendi_rewrite, LENT_BOOK, LENT_TAPE, LENT_WORKSPACE, LENT_SCRATCH, LENT_OUTPUT);
    return (struct answer){.reply = r.reply, .place = r.place, .counts = {r.length, r.taken}};
}

static struct answer account(void)
{
    qafrendi_accounted r;
    ASK(r, qafrendi_account, LENT_BOOK, LENT_TAPE, LENT_WORKSPACE, LENT_SCRATCH, LENT_LINES);
    return (struct answer){.reply = r.reply, .place = r.place, .counts = {r.candidates}};
}

static struct answer show(void)
{
    qafrendi_stretch r = qafrendi_show(length[TAPE], LENT_LINES, line);
    size_t shown = r.end - r.start;
    return (struct answer){.place = r.start, .counts = {shown}, .part = tape + r.start, .part_length = shown};
}

static struct answer heat(void)
{
    qafrendi_heated r = qafrendi_heat(LENT_BOOK, LENT_TAPE, lanes, length[LINES], LENT_WORKSPACE, LENT_SCRATCH, LENT_OUTPUT);
    return (struct answer){.reply = r.reply, .place = r.place};
}

static struct answer import(void)
{
    qafrendi_written r;
    ASK(r, qafrendi_import, LENT_BOOK, line & 255, line >> 8 & 255, LENT_OUT);
    return (struct answer){.reply = r.reply, .place = r.place, .counts = {r.length}};
}

/* Buffers, one bit each. */
enum {
    BROUGHT = 1 << BOOK | 1 << TAPE,
    WORKSPACE = 1 << ROWS | 1 << SETS,
    PASSES = WORKSPACE | 1 << SCRATCH,
    OUTPUT = 1 << OUT | 1 << ORIGINS
};

/* Operations by their number: how it is called, which buffers' elements the request brings, and which buffers it is lent to write. */
static const struct {
    struct answer (*call)(void);
    unsigned brought, written;
} operations[OPERATIONS] = {
    [CHECK] = {check, BROUGHT, 0},
    [BUILD] = {build, BROUGHT, WORKSPACE},
    [REWRITE] = {rewrite, BROUGHT, PASSES | OUTPUT},
    [ACCOUNT] = {account, BROUGHT, PASSES | 1 << LINES},
    [SHOW] = {show, BROUGHT | 1 << LINES, 0},
    [HEAT] = {heat, BROUGHT, PASSES | OUTPUT},
    [IMPORT] = {import, BROUGHT, 1 << OUT},
};

/* False where the input ends before. */
static int get(void *to, size_t bytes)
{
    return fread(to, 1, bytes, stdin) == bytes;
}

static void put(const void *from, size_t bytes)
{
    fwrite(from, 1, bytes, stdout);
}

/* The lengths of a request; false where one is beyond its limit. */
static int lengths(const uint32_t *asked)
{
    for (int b = 0; b < BUFFERS; b++) {
        if (buffers[b].longest < asked[b]) return 0;
        length[b] = asked[b];
    }
    return 1;
}

/* The lanes of a request for HEAT, each field filled and then start and length as the request has them; false where the input ends before. */
static int get_lanes(uint8_t fill)
{
    memset(lanes, fill, sizeof lanes);
    for (size_t i = 0; i < length[LINES]; i++) {
        uint64_t placed[2];
        if (!get(placed, sizeof placed)) return 0;
        lanes[i].start = placed[0];
        lanes[i].length = placed[1];
    }
    return 1;
}

/* Field by field, for a lane has bytes that are none of its fields. */
static void put_lanes(void)
{
    for (size_t i = 0; i < length[LINES]; i++) {
        uint64_t numbers[] = {lanes[i].start, lanes[i].length, lanes[i].out, lanes[i].taken};
        uint64_t place = lanes[i].place;
        put(numbers, sizeof numbers);
        put(&lanes[i].reply, sizeof lanes[i].reply);
        put(&place, sizeof place);
    }
}

/* The rest of a request for an operation; false where it is refused. No length is used before all are known to keep to their limits. */
static int request(int operation)
{
    uint8_t fill;
    uint32_t numbers[BUFFERS + 1];
    if (!get(&fill, sizeof fill) || !get(numbers, sizeof numbers) || !lengths(numbers)) return 0;
    if (operation == HEAT && LANES < length[LINES]) return 0;
    line = numbers[BUFFERS];
    for (int b = 0; b < BUFFERS; b++) {
        size_t bytes = buffers[b].width * length[b];
        memset(buffers[b].elements, fill, bytes);
        if (operations[operation].brought >> b & 1 && !get(buffers[b].elements, bytes)) return 0;
    }
    return operation != HEAT || get_lanes(fill);
}

static void answer(int operation)
{
    struct answer r = operations[operation].call();
    putchar(operation);
    putchar(r.reply);
    put(&r.place, sizeof r.place);
    put(r.counts, sizeof r.counts);
    for (int b = 0; b < BUFFERS; b++)
        if (operations[operation].written >> b & 1) put(buffers[b].elements, buffers[b].width * length[b]);
    if (0 < r.part_length) put(r.part, r.part_length);
    if (operation == HEAT) put_lanes();
}

int main(void)
{
    int operation;
    while ((operation = getchar()) != EOF) {
        if (operation < CHECK || OPERATIONS <= operation || !request(operation)) {
            putchar(REFUSED);
            break;
        }
        answer(operation);
        if (fflush(stdout)) break;
    }
    return fflush(stdout) || ferror(stdout) || ferror(stdin);
}
