/* The house book, 148 bytes. Noise: after a ripple, press release; turn: press, holds, release before a push; finish: the same before two quiets. */
#ifndef HOUSE_H
#define HOUSE_H

#include <stdint.h>

static const uint8_t house[] = {
    1, 1, 10, 0, 0, 0, 0, 0, 0, 0,
    2, 0, 1,  2, 0, 2,  2, 1, 1,  2, 1, 0,  2, 1, 2,  2, 2, 3,
    3, 0, 1, 1, 1,  3, 2, 2, 2, 3,  3, 3, 4, 4, 4,
    1, 1, 8, 0, 0, 0, 0, 0, 0, 0,
    2, 0, 3,  2, 1, 1,  2, 1, 0,  2, 1, 2,  2, 2, 1,  2, 2, 2,
    3, 7, 2, 2, 8,  3, 8, 3, 3, 8,  3, 8, 4, 4, 9,  3, 10, 5, 5, 11,
    1, 1, 9, 0, 0, 0, 0, 0, 0, 0,
    2, 0, 3,  2, 1, 1,  2, 1, 0,  2, 1, 2,  2, 2, 1,  2, 2, 0,  2, 2, 2,
    3, 13, 2, 2, 14,  3, 14, 3, 3, 14,  3, 14, 4, 4, 15,  3, 16, 0, 0, 17,  3, 17, 0, 0, 18,
    4,
};

#endif
