/* The book of a command, for heat.c and markers.c: the bytes of the file that it names, or the house book where it names none. */
#ifndef BOOK_H
#define BOOK_H

#include <stdio.h>
#include <stdlib.h>

#include "house.h"
#include "qafrendi.h"

enum { BOOK = 65536 }; /* bytes of a book from a file: far more than CHECK accepts */

typedef struct {
    const uint8_t *bytes;
    size_t length;
} book;

/* Of the symbols, from 0 on. */
static const char digits[QAFRENDI_SYMBOLS + 1] = "0123456789abcdefghijklmnopqrstuv";

static void stop(const char *command, const char *what, const char *why)
{
    fprintf(stderr, "%s: %s: %s\n", command, what, why);
    exit(2);
}

/* The name is null where the command has none. */
static book read_book(const char *command, const char *name)
{
    static uint8_t bytes[BOOK + 1]; /* one more, for a file that has more */
    if (!name) return (book){house, sizeof house};
    FILE *file = fopen(name, "rb");
    if (!file) stop(command, name, "cannot be read");
    size_t length = fread(bytes, 1, sizeof bytes, file);
    if (ferror(file)) stop(command, name, "cannot be read");
    if (BOOK < length) stop(command, name, "too long for a book");
    fclose(file);
    return (book){bytes, length};
}

#endif
