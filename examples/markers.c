/* Which symbols may stand between two races on one tape, from the shell: those that no arc of the book is open to.
 * markers [BOOK]: the book is the bytes of that file; where none is said, the house book.
 * It prints them on one line, a digit (0 to 9, a to v) a symbol; the line is empty where there is none. A book that is refused prints X with the reply
 * and the place on standard error, and ends with status 1. Status 2: the command was not understood, or the book could not be read. */
#include <stdio.h>

#include "book.h"
#include "qafrendi.h"

enum { RULE = 1, STATE = 2, ARC = 3 }; /* kinds of records; a kind is a record's first byte */
enum { LOWEST = 2, HIGHEST = 3 };      /* where in an arc's record these stand */

/* The bytes of a record, its kind among them. */
static size_t record_length(uint8_t kind)
{
    switch (kind) {
    case RULE: return 10;
    case STATE: return 3;
    case ARC: return 5;
    default: return 1; /* the end: CHECK accepts no other kind */
    }
}

/* Whether any arc of an accepted book is open to the symbol. */
static int on_an_arc(book rules, uint8_t symbol)
{
    const uint8_t *end = rules.bytes + rules.length;
    for (const uint8_t *record = rules.bytes; record < end; record += record_length(*record))
        if (*record == ARC && record[LOWEST] <= symbol && symbol <= record[HIGHEST]) return 1;
    return 0;
}

int main(int arguments, char **words)
{
    if (2 < arguments) stop("markers", "usage", "markers [BOOK]");
    book rules = read_book("markers", words[1]);
    qafrendi_checked c = qafrendi_check(rules.bytes, rules.length);
    if (c.reply != QAFRENDI_ACCEPTED) {
        fprintf(stderr, "X %u %zu\n", c.reply, c.place);
        return 1;
    }
    for (uint8_t symbol = 0; symbol < QAFRENDI_SYMBOLS; symbol++)
        if (!on_an_arc(rules, symbol)) putchar(digits[symbol]);
    printf("\n");
    return fflush(stdout) != 0;
}
