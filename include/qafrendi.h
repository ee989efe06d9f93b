/* Qafrendi for C: context rule books over the tapes of swimming touch pads.
 *
 * Link crates/deck/out/libdeck.a (`rt lib` in crates/deck; x86-64 Linux). The seven functions are proved: for any bytes they end, answer
 * what the scope document says, read and write nothing outside the buffers that they are lent, and keep nothing between calls. No
 * heap, no locks, no globals: calls on different buffers may run at once.
 *
 * A buffer is a pointer and then its length in elements. What the caller owes, as for any reference in Rust: a pointer is not null,
 * also where the length is 0, is aligned for its element, and has that many elements; a buffer that is written overlaps no other
 * buffer of the call, and nothing else reads or writes it meanwhile. Nothing is owed of the data: no book and no tape needs a look
 * before it is handed over.
 *
 * Every answer has a reply and a place; the replies are listed below, with the place that each gives.
 *
 * Tested in this order: records from the front, in one record a missing kind 1, then 2, a cut body 1, then 4, 3, 5, 6; after the
 * book 9, 10, 11, 12, 13, 14, 15. Counts are 0 on every refusal. 1 to 12 change no buffer. 13 and 14 leave the workspace all 0 and
 * nothing else changed. 15 leaves workspace and scratch as acceptance does, and the output, the origins and the account unchanged.
 * What stood in workspace and scratch before never matters.
 *
 * A heat: 16 first, nothing written; then 1 to 8, 11, 13, 14 for the whole call; then lane by lane 17, 9, 10, 12, 15.
 *
 * An import: 5 for the part first; then lines from the front, in one line 20, 18, 19; after the text 21, 15. None of them writes anything.
 *
 * No call uses more than QAFRENDI_STACK bytes of stack, its arguments and return address among them, and none recurses: measured on the
 * worst inputs known and held by the tests (`bench/run stack` prints what each function uses).
 */
#ifndef QAFRENDI_H
#define QAFRENDI_H

#include <stddef.h>
#include <stdint.h>

#ifdef __cplusplus
extern "C" {
#endif

/* The limits, and what is enough for every call: the two pieces of the workspace, the scratch, the output of the longest tape, the records of the
 * largest part, and the stack. */
enum {
    QAFRENDI_SYMBOLS = 32,
    QAFRENDI_MOST_STATES = 64,
    QAFRENDI_MOST_ARCS = 512,
    QAFRENDI_LONGEST_WORD = 8,
    QAFRENDI_LONGEST_TAPE = 4096,
    QAFRENDI_MOST_SETS = 256,                                     /* a side */
    QAFRENDI_ROW_BYTES = 2 * QAFRENDI_SYMBOLS * QAFRENDI_MOST_SETS, /* both sides, left and then right */
    QAFRENDI_SET_WORDS = 2 * QAFRENDI_MOST_SETS,
    QAFRENDI_SCRATCH = QAFRENDI_LONGEST_TAPE + 1,
    /* 9 n + 8: a longest word put in at each position, the tape's end among them, and each symbol kept */
    QAFRENDI_LONGEST_OUT = QAFRENDI_LONGEST_WORD * (QAFRENDI_LONGEST_TAPE + 1) + QAFRENDI_LONGEST_TAPE,
    QAFRENDI_LONGEST_PART = 3 * QAFRENDI_MOST_STATES + 5 * QAFRENDI_MOST_ARCS, /* a state's record has 3 bytes, an arc's 5 */
    QAFRENDI_LINE_WORDS = 6,
    QAFRENDI_MOST_LANES = 10,
    QAFRENDI_STACK = 2048
};

/* Replies                            given when                                                           place */
enum {
    QAFRENDI_ACCEPTED = 0,         /* accepted                                                             0 */
    QAFRENDI_CUT = 1,              /* the book stops before a kind byte or inside a body                   that record's offset */
    QAFRENDI_UNKNOWN_KIND = 2,     /* unknown kind                                                         offset */
    QAFRENDI_TOO_MANY = 3,         /* 17th rule, 65th state or 513th arc                                   offset */
    QAFRENDI_NO_RULE = 4,          /* state, arc or end before any rule                                    offset */
    QAFRENDI_BAD_FIELD = 5,        /* a field outside its range, a symbol above 31, lowest above highest   offset
                                      of an import: a part above 2                                         0 */
    QAFRENDI_BAD_ARC = 6,          /* an arc names a state not yet given in the latest rule, or two parts  offset */
    QAFRENDI_EMPTY_FOCUS = 7,      /* retired, and never given again: a focus may be empty                 */
    QAFRENDI_AFTER_END = 8,        /* a byte follows the end record                                        its offset */
    QAFRENDI_LONG_TAPE = 9,        /* tape longer than 4,096                                               0 */
    QAFRENDI_BAD_SYMBOL = 10,      /* a tape symbol above 31                                               first such position */
    QAFRENDI_SHORT_WORKSPACE = 11, /* workspace too short, either piece                                    0 */
    QAFRENDI_SHORT_SCRATCH = 12,   /* scratch shorter than tape_length + 1                                 0 */
    QAFRENDI_MANY_LEFT_SETS = 13,  /* more than 256 left sets                                              0 */
    QAFRENDI_MANY_RIGHT_SETS = 14, /* more than 256 right sets                                             0 */
    QAFRENDI_NO_ROOM = 15,         /* no room for the output, the account or the records                   symbols, words or bytes needed */
    QAFRENDI_MANY_LANES = 16,      /* more than ten lanes                                                  0 */
    QAFRENDI_OUTSIDE = 17,         /* a lane's stretch leaves the common buffer                            0 */
    QAFRENDI_BAD_LINE = 18,        /* a line that is no arc and no final state, a state above 65,535       that line's offset in the text */
    QAFRENDI_BAD_LABEL = 19,       /* a label 0 or above 32                                                that line's offset */
    QAFRENDI_NO_ACCEPTOR = 20,     /* a line of two or four fields, as with weights or of a transducer     that line's offset */
    QAFRENDI_LARGE_PART = 21       /* more than 512 arcs, or a state number above 63                       0 */
};

/* The words of a line of an account, in their order. */
enum {
    QAFRENDI_RULE = 0,
    QAFRENDI_START = 1,
    QAFRENDI_END = 2,
    QAFRENDI_VERDICT = 3,
    QAFRENDI_DECIDING_START = 4, /* of the taken stretch, */
    QAFRENDI_DECIDING_RULE = 5   /* and its rule: which one beat this line's; both its own where it is taken */
};

/* Verdicts. */
enum {
    QAFRENDI_TAKEN = 0,
    QAFRENDI_SHORTER = 1,          /* shorter than the taken one at the same start */
    QAFRENDI_LOWER_RULE_TAKEN = 2, /* same stretch, lower rule taken */
    QAFRENDI_INSIDE = 3            /* start strictly inside a taken stretch */
};

typedef struct {
    uint8_t reply;
    size_t place, rules, states, arcs;
} qafrendi_checked;

typedef struct {
    uint8_t reply;
    size_t place, left, right;
} qafrendi_built;

typedef struct {
    uint8_t reply;
    size_t place, length, taken;
} qafrendi_rewritten;

typedef struct {
    uint8_t reply;
    size_t place, candidates;
} qafrendi_accounted;

typedef struct {
    size_t start, end;
} qafrendi_stretch;

/* One lane of a heat: start and length of its tape in the common buffer are the caller's, and are not changed; the rest it gets back. */
typedef struct {
    size_t start, length, out, taken;
    uint8_t reply;
    size_t place;
} qafrendi_lane;

typedef struct {
    uint8_t reply;
    size_t place;
} qafrendi_heated;

/* The answer of a function that writes records: how many bytes of them, 0 on every refusal. */
typedef struct {
    uint8_t reply;
    size_t place, length;
} qafrendi_written;

/* CHECK: whether the bytes are a book, and how many rules, states and arcs it has. Replies 0 to 8.
 * Needs nothing, writes nothing. */
qafrendi_checked qafrendi_check(const uint8_t *book, size_t book_length);

/* BUILD: the two automata of a book, and how many sets each has. Replies 0 to 8, 11, 13, 14.
 * Needs rows of QAFRENDI_ROW_BYTES and sets of QAFRENDI_SET_WORDS elements or more.
 * Writes those front parts: 256 rows of QAFRENDI_SYMBOLS next numbers a side and 256 sets a side, left and then right, 0 past a side's count.
 * Never touches the book, nor the elements past those parts. */
qafrendi_built qafrendi_build(
    const uint8_t *book, size_t book_length,
    uint8_t *rows, size_t rows_length,
    uint64_t *sets, size_t sets_length);

/* REWRITE: the tape with each taken stretch replaced by its rule's word; the output's length and the number of stretches taken. Where a rule's
 * focus is empty its word is put in and nothing is removed: between two symbols, before the first, after the last.
 * Replies 0 to 15.
 * Needs the workspace as BUILD does (it builds it from the book, whatever stands there), scratch of tape_length + 1 elements or
 * more, and room for the output: tape_length symbols where no word is longer than its stretch, never more than 9 * tape_length + 8.
 * Writes the workspace; scratch 0 to tape_length, the number of the right set at each position; and, accepted, the first `length`
 * elements of out (symbols) and of origins: positions of the tape, whose times the symbols have. A kept symbol has its own; of a word each
 * symbol has the start of its stretch, but that the last of two or more has the stretch's last position. Each symbol of a word that is put in has the
 * position of the symbol after it, and tape_length at the tape's end. No origin is below one before it.
 * Two races on one tape: where a symbol that no arc of the book is open to stands between them, the output, accepted, is the first race's, the symbol
 * with its position, and the second's, its origins moved on by that position and one. No symbol after the marker has its position as origin.
 * Never touches the book, the tape, nor the elements past those. */
qafrendi_rewritten qafrendi_rewrite(
    const uint8_t *book, size_t book_length,
    const uint8_t *tape, size_t tape_length,
    uint8_t *rows, size_t rows_length,
    uint64_t *sets, size_t sets_length,
    uint8_t *scratch, size_t scratch_length,
    uint8_t *out, size_t out_length,
    uint16_t *origins, size_t origins_length);

/* ACCOUNT: every stretch that any rule could have replaced, and what became of it; the number of candidates. Replies 0 to 15.
 * Needs workspace and scratch as REWRITE does, and QAFRENDI_LINE_WORDS words a candidate.
 * Writes workspace and scratch as REWRITE does, and, accepted, the first QAFRENDI_LINE_WORDS * candidates words of lines: a line a
 * candidate, in the order of start, end, rule. Start and end are equal where nothing would be removed.
 * Two races on one tape, as with REWRITE: the lines of the first, then those of the second, with start, end and deciding start moved on alike.
 * Never touches the book, the tape, nor the elements past those. */
qafrendi_accounted qafrendi_account(
    const uint8_t *book, size_t book_length,
    const uint8_t *tape, size_t tape_length,
    uint8_t *rows, size_t rows_length,
    uint64_t *sets, size_t sets_length,
    uint8_t *scratch, size_t scratch_length,
    uint16_t *lines, size_t lines_length);

/* SHOW: the stretch of a tape that a line of an account names, from start up to and not including end; lines count from 0. If the
 * line is not wholly inside the account, or its start is above its end, or its end is past the tape, start and end are 0.
 * Always start <= end <= tape_length. Needs nothing, writes nothing. */
qafrendi_stretch qafrendi_show(size_t tape_length, const uint16_t *lines, size_t lines_length, size_t line);

/* HEAT: all lanes of a heat: one book, and up to QAFRENDI_MOST_LANES tapes in one common buffer. The book is built once, and each lane gets
 * what qafrendi_rewrite gives for its tape alone, one after another, each with the room still left.
 * Replies 0 to 8, 11, 13, 14, 16. With 16 nothing is written; with 1 to 8, 11, 13 and 14 no lane is touched, and the workspace is as
 * qafrendi_build leaves it, also where there is no lane at all. With 0 each lane has a reply of its own: 0, 9, 10, 12, 15, 17. Its place
 * is a position of its own tape, or with 15 the symbols that it needs. Lanes may overlap, and start and length may be any numbers.
 * Needs the workspace as BUILD does, scratch of the longest tape's length + 1, and room for the outputs together.
 * Writes the workspace as BUILD does, even if no lane is accepted; each lane's out, taken, reply and place; scratch as the lanes one
 * after another leave it (17, 9, 10 and 12 leave it as it was); and for each accepted lane `out` elements of out and of origins, right
 * after those of the lane before: origins are positions of its own tape. A refused lane uses no room, and its out and taken are 0.
 * Never touches the book, the tapes, nor the elements past those. */
qafrendi_heated qafrendi_heat(
    const uint8_t *book, size_t book_length,
    const uint8_t *tapes, size_t tapes_length,
    qafrendi_lane *lanes, size_t lanes_length,
    uint8_t *rows, size_t rows_length,
    uint64_t *sets, size_t sets_length,
    uint8_t *scratch, size_t scratch_length,
    uint8_t *out, size_t out_length,
    uint16_t *origins, size_t origins_length);

/* IMPORT: the state and arc records of one part (0 left, 1 focus, 2 right) of a rule, from a text in the AT&T form that OpenFst has for acceptors;
 * how many bytes they have. The part accepts exactly the words of the text. Replies 0, 5, 15, 18 to 21.
 * Each line of the text ends with a newline and has decimal numbers with a tab between two: source, destination, label of an arc; or one final state.
 * The first state of the first line is the start. Label 0 is the empty word, so label k is symbol k - 1. Leading zeros do no harm, nor does a state that is
 * named final twice. An empty text is one state with flags 0, which accepts no word.
 * The states are numbered from `first` by first appearance, so a book has the records after a rule record, with `first` states before them in the whole
 * book. They stand together: the states, then the arcs in the order of the text.
 * 20 is given by the number of fields alone, whatever stands in them, also where the newline is missing. 18 is for every other line that is not as
 * above: a missing newline, an empty line, a carriage return, a sign, a blank, five or more fields, a state above 65,535, however long.
 * Needs room for the records: QAFRENDI_LONGEST_PART bytes are always enough.
 * Writes, accepted, the first `length` elements of out. Never touches the text, nor the elements past those. */
qafrendi_written qafrendi_import(
    const uint8_t *text, size_t text_length,
    uint8_t part, uint8_t first,
    uint8_t *out, size_t out_length);

#ifdef __cplusplus
}
#endif

#endif
