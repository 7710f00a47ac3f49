/* bridges CONTOUR WIDTH CENTRE..: prints the bridges of a contour of the card on standard input, a line for each centre: the
 * points at which it starts, ends and has its middle, the edge that the middle is on, and the centre's place on that edge. */
#include "jambolive.h"

#include <inttypes.h>
#include <stdio.h>
#include <stdlib.h>
#include <string.h>

static double number(const uint8_t *at)
{
    uint64_t bits = 0;
    double x;
    for (int k = 7; k >= 0; k--)
        bits = bits << 8 | at[k];
    memcpy(&x, &bits, sizeof x);
    return x;
}

static int refused(uint64_t code)
{
    printf("REFUSED %" PRIu64 " AT %" PRIu64 "\n", code >> 32, code & 0xffffffff);
    return 0;
}

int main(int words, char **word)
{
    static uint8_t card[JL_CARD_BYTES + 1];
    size_t bytes = fread(card, 1, sizeof card, stdin);
    while (getchar() != EOF)
        continue;
    uint64_t code = jl_check(card, bytes);
    if (code != 0)
        return refused(code);
    unsigned long contours = card[JL_CONTOURS_AT] | card[JL_CONTOURS_AT + 1] << 8;
    unsigned long contour = words < 3 ? contours : strtoul(word[1], NULL, 10);
    if (contour >= contours) {
        fputs("bridges CONTOUR WIDTH CENTRE.., where the card has such a contour\n", stderr);
        return 2;
    }

    const uint8_t *block = card + JL_BLOCK * (1 + contour);
    size_t numbers = 2 * (size_t)block[JL_VERTEX_COUNT_AT];
    double vertices[2 * JL_VERTICES], centres[JL_BRIDGES + 1], room[JL_BRIDGE_NUMBERS];
    for (size_t k = 0; k < numbers; k++)
        vertices[k] = number(block + JL_VERTICES_AT + 8 * k);
    /* one centre more than there may be is enough to be refused */
    size_t count = 0;
    for (int k = 3; k < words && count <= JL_BRIDGES; k++)
        centres[count++] = strtod(word[k], NULL);

    code = jl_bridges(vertices, numbers, strtod(word[2], NULL), centres, count, room);
    if (code != 0)
        return refused(code);
    for (const double *b = room; b < room + 8 * count; b += 8)
        printf("%.6f %.6f %.6f %.6f %.6f %.6f %.0f %.6f\n", b[0], b[1], b[2], b[3], b[4], b[5], b[6], b[7]);
    return 0;
}
