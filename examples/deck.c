/* The house book and the lane-four wave through the C face: every function once, with what three refusals leave, two races on one tape, the times of a touch,
 * a lap mark that is put in, and a touch from a drawing. */
#include <stdio.h>
#include <stdlib.h>

#include "house.h"
#include "qafrendi.h"

/* ripple, press, release, quiet, quiet */
static const uint8_t tape[] = {1, 2, 4, 0, 0};

enum { BOOK = sizeof house, TAPE = sizeof tape, OUT = 8, LINES = 3, WORDS = LINES * QAFRENDI_LINE_WORDS, OLD = 77 };

static uint8_t rows[QAFRENDI_ROW_BYTES];
static uint64_t sets[QAFRENDI_SET_WORDS];
static uint8_t scratch[QAFRENDI_SCRATCH];
static uint8_t out[OUT];
static uint16_t origins[OUT];
static uint16_t lines[WORDS];

/* prints an answer's reply and place; a reply other than the expected one ends the program */
static void say(const char *name, unsigned reply, unsigned expected, size_t place)
{
    printf("%s: reply %u at %zu", name, reply, place);
    if (reply != expected) {
        printf(", and not %u\n", expected);
        exit(1);
    }
}

static qafrendi_rewritten rewrite_by(const uint8_t *book, size_t length, const uint8_t *t, size_t n, size_t room)
{
    for (int i = 0; i < OUT; i++) {
        out[i] = OLD;
        origins[i] = OLD;
    }
    return qafrendi_rewrite(
        book, length, t, n, rows, QAFRENDI_ROW_BYTES, sets, QAFRENDI_SET_WORDS, scratch, QAFRENDI_SCRATCH, out, room, origins, room);
}

static qafrendi_rewritten rewrite(const uint8_t *t, size_t n, size_t room)
{
    return rewrite_by(house, BOOK, t, n, room);
}

static void print_out(qafrendi_rewritten r)
{
    printf(", %zu symbols, %zu taken; out", r.length, r.taken);
    for (int i = 0; i < OUT; i++)
        printf(" %d", out[i]);
    printf("; origins");
    for (int i = 0; i < OUT; i++)
        printf(" %d", origins[i]);
    printf("\n");
}

/* each symbol of the output with the time of its origin */
static void print_times(qafrendi_rewritten r, const double *seconds)
{
    printf(", %zu taken;", r.taken);
    for (size_t k = 0; k < r.length; k++)
        printf(" %d at %.2f", out[k], seconds[origins[k]]);
    printf("\n");
}

/* the output from `from` up to `to`, its origins as positions of the race that begins at `first` */
static void print_race(int race, size_t from, size_t to, size_t first)
{
    printf("race %d: out", race);
    for (size_t k = from; k < to; k++)
        printf(" %d from %zu", out[k], origins[k] - first);
    printf("\n");
}

/* Two races on one tape, with a marker between them that no arc of the house book is open to: each gets what it would get alone. */
static void print_races(void)
{
    enum { MARKER = 6, MARKED = 5, SECOND = MARKED + 1 }; /* the marker, its position, and where the second race begins */
    static const uint8_t races[] = {1, 2, 4, 0, 0, MARKER, 2, 4, 0, 0};
    qafrendi_rewritten w = rewrite(races, sizeof races, OUT);
    say("races", w.reply, QAFRENDI_ACCEPTED, w.place);
    print_out(w);

    /* the marker is the last symbol with its position: what a book puts in at the end of the first race has that origin too, and stands before it */
    size_t cut = w.length - 1;
    while (origins[cut] != MARKED) cut--;
    print_race(1, 0, cut, 0);
    print_race(2, cut + 1, w.length, SECOND);

    qafrendi_accounted a = qafrendi_account(
        house, BOOK, races, sizeof races, rows, QAFRENDI_ROW_BYTES, sets, QAFRENDI_SET_WORDS, scratch, QAFRENDI_SCRATCH, lines, WORDS);
    say("races account", a.reply, QAFRENDI_ACCEPTED, a.place);
    printf(", %zu candidates\n", a.candidates);
    for (const uint16_t *line = lines; line < lines + QAFRENDI_LINE_WORDS * a.candidates; line += QAFRENDI_LINE_WORDS) {
        size_t first = line[QAFRENDI_START] < SECOND ? 0 : SECOND;
        printf("race %d: rule %d from %zu to %zu, verdict %d\n", first ? 2 : 1, line[QAFRENDI_RULE], line[QAFRENDI_START] - first,
               line[QAFRENDI_END] - first, line[QAFRENDI_VERDICT]);
    }
}

int main(void)
{
    qafrendi_checked c = qafrendi_check(house, BOOK);
    say("check", c.reply, QAFRENDI_ACCEPTED, c.place);
    printf(", %zu rules, %zu states, %zu arcs\n", c.rules, c.states, c.arcs);

    qafrendi_built b = qafrendi_build(house, BOOK, rows, QAFRENDI_ROW_BYTES, sets, QAFRENDI_SET_WORDS);
    say("build", b.reply, QAFRENDI_ACCEPTED, b.place);
    printf(", %zu left sets, %zu right sets, the first %#llx and %#llx\n", b.left, b.right, (unsigned long long)sets[0],
           (unsigned long long)sets[QAFRENDI_MOST_SETS]);

    qafrendi_rewritten w = rewrite(tape, TAPE, OUT);
    say("rewrite", w.reply, QAFRENDI_ACCEPTED, w.place);
    print_out(w);
    size_t needed = w.length;

    for (int i = 0; i < WORDS; i++)
        lines[i] = OLD;
    qafrendi_accounted a = qafrendi_account(
        house, BOOK, tape, TAPE, rows, QAFRENDI_ROW_BYTES, sets, QAFRENDI_SET_WORDS, scratch, QAFRENDI_SCRATCH, lines, WORDS);
    say("account", a.reply, QAFRENDI_ACCEPTED, a.place);
    printf(", %zu candidates; lines", a.candidates);
    for (int i = 0; i < WORDS; i++)
        printf(" %d", lines[i]);
    printf("\n");

    /* which rule beat which: the finish of rule 2 lost to the noise of rule 0 */
    for (size_t line = 0; line < a.candidates; line++) {
        const uint16_t *words = lines + QAFRENDI_LINE_WORDS * line;
        if (words[QAFRENDI_VERDICT] != QAFRENDI_TAKEN)
            printf("line %zu: rule %d lost to rule %d, taken at %d\n", line, words[QAFRENDI_RULE], words[QAFRENDI_DECIDING_RULE],
                   words[QAFRENDI_DECIDING_START]);
    }

    for (size_t line = 0; line < LINES; line++) {
        qafrendi_stretch s = qafrendi_show(TAPE, lines, QAFRENDI_LINE_WORDS * a.candidates, line);
        printf("show %zu: %zu to %zu:", line, s.start, s.end);
        for (size_t i = s.start; i < s.end; i++)
            printf(" %d", tape[i]);
        printf("\n");
    }

    /* refusals: the book cut in its last arc, a symbol that is none, and an output that is one symbol too short */
    c = qafrendi_check(house, BOOK - 2);
    say("cut book", c.reply, QAFRENDI_CUT, c.place);
    printf(", %zu rules, %zu states, %zu arcs\n", c.rules, c.states, c.arcs);
    static const uint8_t no_symbol[] = {1, 2, QAFRENDI_SYMBOLS};
    w = rewrite(no_symbol, sizeof no_symbol, OUT);
    say("no symbol", w.reply, QAFRENDI_BAD_SYMBOL, w.place);
    print_out(w);
    w = rewrite(tape, TAPE, needed - 1);
    say("short output", w.reply, QAFRENDI_NO_ROOM, w.place);
    print_out(w);

    /* a heat in one call: the second lane leaves the common buffer, and the third's output follows that of the first */
    static const uint8_t tapes[] = {1, 2, 4, 0, 0, 2, 4, 0, 0};
    qafrendi_lane lanes[] = {{.start = 0, .length = 5}, {.start = 5, .length = 5}, {.start = 5, .length = 4}};
    enum { COUNT = sizeof lanes / sizeof *lanes };
    qafrendi_heated h = qafrendi_heat(
        house, BOOK, tapes, sizeof tapes, lanes, COUNT, rows, QAFRENDI_ROW_BYTES, sets, QAFRENDI_SET_WORDS, scratch, QAFRENDI_SCRATCH,
        out, OUT, origins, OUT);
    say("heat", h.reply, QAFRENDI_ACCEPTED, h.place);
    printf("\n");
    size_t at = 0;
    for (size_t i = 0; i < COUNT; at += lanes[i++].out) {
        printf("lane %zu: reply %u at %zu, %zu taken; out", i + 1, lanes[i].reply, lanes[i].place, lanes[i].taken);
        for (size_t k = at; k < at + lanes[i].out; k++)
            printf(" %d from %d", out[k], origins[k]);
        printf("\n");
    }

    print_races();

    /* a touch becomes press and release (press, any number of holds, release: state 1 to 2 to 3), and each prints with the time of its own event */
    static const uint8_t contact[] = {
        1, 2, 2, 4, 0, 0, 0, 0, 0, 0, 2, 0, 3, 2, 1, 1, 2, 1, 0, 2, 1, 2, 2, 2, 3, 3, 1, 2, 2, 2, 3, 2, 3, 3, 2, 3, 2, 4, 4, 3, 4,
    };
    static const uint8_t touch[] = {0, 2, 3, 3, 4, 5};
    static const double seconds[] = {58.10, 58.42, 58.50, 58.60, 58.71, 58.77}; /* of each event on the tape */
    w = rewrite_by(contact, sizeof contact, touch, sizeof touch, OUT);
    say("touch", w.reply, QAFRENDI_ACCEPTED, w.place);
    print_times(w, seconds);

    /* a lap mark, 11, between a turn and the next event: rule 0 has an empty focus, after press, any number of holds, release and before a push; rule 1
     * makes these a turn, 8. A word may be put in at the tape's end, so the clock has a time for that too. */
    static const uint8_t laps[] = {
        1, 1, 11, 0, 0, 0, 0, 0, 0, 0, 2, 0, 1, 2, 0, 0, 2, 0, 2, 2, 1, 3, 2, 2, 1, 2, 2, 2,
        3, 0, 2, 2, 1, 3, 1, 3, 3, 1, 3, 1, 4, 4, 2, 3, 4, 5, 5, 5,
        1, 1, 8, 0, 0, 0, 0, 0, 0, 0, 2, 0, 3, 2, 1, 1, 2, 1, 0, 2, 1, 2, 2, 2, 1, 2, 2, 2,
        3, 7, 2, 2, 8, 3, 8, 3, 3, 8, 3, 8, 4, 4, 9, 3, 10, 5, 5, 11, 4,
    };
    static const uint8_t turn[] = {0, 2, 3, 4, 5, 0};
    static const double clock[] = {58.10, 58.42, 58.50, 58.71, 58.77, 59.02, 59.10};
    w = rewrite_by(laps, sizeof laps, turn, sizeof turn, OUT);
    say("lap", w.reply, QAFRENDI_ACCEPTED, w.place);
    print_times(w, clock);
    a = qafrendi_account(
        laps, sizeof laps, turn, sizeof turn, rows, QAFRENDI_ROW_BYTES, sets, QAFRENDI_SET_WORDS, scratch, QAFRENDI_SCRATCH, lines, WORDS);
    say("lap account", a.reply, QAFRENDI_ACCEPTED, a.place);
    printf(", %zu candidates\n", a.candidates);
    for (size_t line = 0; line < a.candidates; line++) {
        qafrendi_stretch s = qafrendi_show(sizeof turn, lines, QAFRENDI_LINE_WORDS * a.candidates, line);
        printf("lap line %zu: rule %d from %zu to %zu, verdict %d\n", line, lines[QAFRENDI_LINE_WORDS * line + QAFRENDI_RULE], s.start, s.end,
               lines[QAFRENDI_LINE_WORDS * line + QAFRENDI_VERDICT]);
    }

    /* the book of the touch again, its focus from a text in OpenFst's form, where label 3 is symbol 2, the press: in front stand the rule and its left
     * part, state 0, so the focus begins with state 1; behind it the right part and the end */
    static const uint8_t drawing[] = "0\t1\t3\n1\t1\t4\n1\t2\t5\n2\n", weighted[] = "0\t1\t3\n1\t1\t4\n1\t2\t5\n2\t0.5\n";
    static const uint8_t behind[] = {2, 2, 3, 4};
    enum { FRONT = 13, FOCUS = 1 };
    static uint8_t drawn[FRONT + QAFRENDI_LONGEST_PART + sizeof behind] = {1, 2, 2, 4, 0, 0, 0, 0, 0, 0, 2, 0, 3};
    qafrendi_written i = qafrendi_import(drawing, sizeof drawing - 1, FOCUS, 1, drawn + FRONT, QAFRENDI_LONGEST_PART);
    say("import", i.reply, QAFRENDI_ACCEPTED, i.place);
    printf(", %zu bytes:", i.length);
    for (size_t k = 0; k < i.length; k++)
        printf(" %d", drawn[FRONT + k]);
    printf("\n");
    for (size_t k = 0; k < sizeof behind; k++)
        drawn[FRONT + i.length + k] = behind[k];
    w = rewrite_by(drawn, FRONT + i.length + sizeof behind, touch, sizeof touch, OUT);
    say("drawn touch", w.reply, QAFRENDI_ACCEPTED, w.place);
    print_times(w, seconds);
    i = qafrendi_import(weighted, sizeof weighted - 1, FOCUS, 1, drawn + FRONT, QAFRENDI_LONGEST_PART);
    say("weighted drawing", i.reply, QAFRENDI_NO_ACCEPTOR, i.place);
    printf(", %zu bytes\n", i.length);
    return 0;
}
