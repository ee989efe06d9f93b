/* A part of a rule from the shell: the text on standard input, in the AT&T form that OpenFst has for acceptors, becomes the state and arc records on
 * standard output. import PART FIRST: the part, 0 left, 1 focus, 2 right, and how many states the book has before it.
 * A refusal prints X with the reply and the place on standard error, nothing on standard output, and ends with status 1, as it does where the records
 * cannot be written. Status 2: the command was not understood, or the text could not be read. */
#include <stdio.h>
#include <stdlib.h>

#include "qafrendi.h"

/* Bytes of a text: far more than the 512 arcs of a part take. One that fills the room might go on, and is too long. */
enum { TEXT = 1 << 20 };

enum { HIGHEST = 255 }; /* of a byte */

static uint8_t text[TEXT];
static uint8_t out[QAFRENDI_LONGEST_PART];

static void stop(const char *what, const char *why)
{
    fprintf(stderr, "import: %s: %s\n", what, why);
    exit(2);
}

/* The number of a word of decimal digits, which is a byte. What part or state it may be is the library's to say. */
static uint8_t byte(const char *word)
{
    unsigned number = 0;
    const char *at = word;
    for (; '0' <= *at && *at <= '9' && number <= HIGHEST; at++) number = 10 * number + (unsigned)(*at - '0');
    if (at == word || *at != 0 || HIGHEST < number) stop(word, "PART and FIRST are numbers from 0 to 255");
    return (uint8_t)number;
}

int main(int count, char **words)
{
    if (count != 3) stop("usage", "import PART FIRST < text > records");
    uint8_t part = byte(words[1]), first = byte(words[2]);
    size_t length = fread(text, 1, TEXT, stdin);
    if (ferror(stdin)) stop("the text", "cannot be read");
    if (length == TEXT) stop("the text", "too long");

    qafrendi_written w = qafrendi_import(text, length, part, first, out, sizeof out);
    if (w.reply != QAFRENDI_ACCEPTED) {
        fprintf(stderr, "X %u %zu\n", w.reply, w.place);
        return 1;
    }
    fwrite(out, 1, w.length, stdout);
    return fflush(stdout) != 0;
}
