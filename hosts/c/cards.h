/* The cards of the fixed list, on standard input: each stands behind its length in four bytes. */
#include "jambolive.h"

#include <stdio.h>
#include <stdlib.h>

static uint8_t card[JL_CARD_BYTES + 1];
static size_t bytes;

/* Reads the next card; 0 where the list is over. A list that is cut short, or has a larger card, ends the program. */
static int next_card(void)
{
    uint8_t length[4];
    size_t got = fread(length, 1, 4, stdin);
    if (got == 0)
        return 0;
    bytes = length[0] | (size_t)length[1] << 8 | (size_t)length[2] << 16 | (size_t)length[3] << 24;
    if (got < 4 || bytes > sizeof card || fread(card, 1, bytes, stdin) != bytes) {
        fputs("no list of cards\n", stderr);
        exit(2);
    }
    return 1;
}
