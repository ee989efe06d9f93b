/* A heat from the shell: the tapes on standard input, a line a lane, a digit (0 to 9, a to v) a symbol, through one book in one call.
 * heat [BOOK]: the book is the bytes of that file; where none is said, the house book.
 * It prints of each lane what the program pads prints of a tape, but for the account: W and O, or X with the lane's reply and place. A call
 * that is refused as a whole, as one of eleven lanes is, prints one X. Status 2: the command was not understood, or the book could not be read. */
#include <stdio.h>

#include "book.h"
#include "qafrendi.h"

/* One lane more than a heat may have is kept, for the call to refuse; and one symbol more than a tape may have, for the lane's refusal. */
enum { LANES = QAFRENDI_MOST_LANES + 1, LONGEST = QAFRENDI_LONGEST_TAPE + 1 };

/* The book may put in a word of eight symbols before every symbol of every lane and at its end, and keep the symbols: 9 * 4,096 + 8 for each. */
enum { ROOM = QAFRENDI_MOST_LANES * QAFRENDI_LONGEST_OUT };

static uint8_t tapes[LANES * LONGEST];
static qafrendi_lane lanes[LANES];
static uint8_t rows[QAFRENDI_ROW_BYTES];
static uint64_t sets[QAFRENDI_SET_WORDS];
static uint8_t scratch[QAFRENDI_SCRATCH];
static uint8_t out[ROOM];
static uint16_t origins[ROOM];

/* The symbol of a character; one that is none, QAFRENDI_SYMBOLS, where it is no digit. */
static uint8_t symbol(int character)
{
    uint8_t number = 0;
    while (number < QAFRENDI_SYMBOLS && digits[number] != character) number++;
    return number;
}

/* The lanes on standard input, one after the other in the common buffer; how many there are. The rest of a line that is too long is left out. */
static size_t read_lanes(void)
{
    size_t count = 0, used = 0;
    int character;
    while (count < LANES && (character = getchar()) != EOF) {
        qafrendi_lane *lane = &lanes[count++];
        lane->start = used;
        for (; character != '\n' && character != EOF; character = getchar())
            if (used - lane->start < LONGEST) tapes[used++] = symbol(character);
        lane->length = used - lane->start;
    }
    return count;
}

int main(int arguments, char **words)
{
    if (2 < arguments) stop("heat", "usage", "heat [BOOK] < tapes");
    book rules = read_book("heat", words[1]);
    size_t count = read_lanes();
    qafrendi_heated h = qafrendi_heat(
        rules.bytes, rules.length, tapes, sizeof tapes, lanes, count, rows, QAFRENDI_ROW_BYTES, sets, QAFRENDI_SET_WORDS, scratch, QAFRENDI_SCRATCH,
        out, ROOM, origins, ROOM);
    if (h.reply != QAFRENDI_ACCEPTED) {
        printf("X %u %zu\n", h.reply, h.place);
        return 0;
    }
    size_t at = 0;
    for (size_t i = 0; i < count; at += lanes[i++].out) {
        if (lanes[i].reply != QAFRENDI_ACCEPTED) {
            printf("X %u %zu\n", lanes[i].reply, lanes[i].place);
            continue;
        }
        printf("W %zu %zu %s", lanes[i].out, lanes[i].taken, lanes[i].out ? "" : "-");
        for (size_t k = at; k < at + lanes[i].out; k++)
            putchar(digits[out[k]]);
        printf("\nO%s", lanes[i].out ? "" : " -");
        for (size_t k = at; k < at + lanes[i].out; k++)
            printf(" %d", origins[k]);
        printf("\n");
    }
    return 0;
}
