/* Prints the list of the card on standard input, as the program cutlist does. */
#include "jambolive.h"
#include <inttypes.h>
#include <stdio.h>

/* One byte more than the longest card: whatever is longer is read to its end, kept as this much, and refused. */
enum { KEPT = JL_CARD_BYTES + 1 };

static uint32_t word(const uint8_t *at) {
    return at[0] | (uint32_t)at[1] << 8 | (uint32_t)at[2] << 16 | (uint32_t)at[3] << 24;
}

/* The way a contour of this type is cut: as the head says, or by the type where it leaves that open. */
static const char *way(const uint8_t *card, uint8_t type) {
    uint8_t asked = card[JL_DIRECTIONS_AT + type];
    return (asked == 2 ? type : asked) ? "cw" : "ccw";
}

static int refused(uint64_t code) {
    printf("REFUSED %" PRIu64 " AT %" PRIu64 "\n", code >> 32, code & 0xffffffff);
    return 0;
}

int main(void) {
    static uint8_t card[KEPT];
    size_t bytes = fread(card, 1, KEPT, stdin);
    while (getchar() != EOF) continue;
    uint8_t tour[JL_CONTOURS];
    uint64_t moves, length;
    uint64_t code = jl_tour(card, bytes, tour, sizeof tour, &moves, &length);
    if (code != 0) return refused(code);

    unsigned contours = card[JL_CONTOURS_AT] | card[JL_CONTOURS_AT + 1] << 8;
    printf("JOB %" PRIu32 " CONTOURS %u\n", word(card + JL_JOB_AT), contours);
    for (unsigned k = 0; k < contours; k++) {
        uint64_t contour, within;
        code = jl_place(card, bytes, tour[k], &contour, &within);
        if (code != 0) return refused(code);
        const uint8_t *block = card + JL_BLOCK * (1 + contour);
        uint32_t id = word(block + JL_ID_AT), tag = word(block + JL_TAG_AT);
        printf("%" PRIu32 " %" PRIu32 " %" PRIu64 " %s\n", id, tag, within, way(card, block[JL_TYPE_AT]));
    }
    printf("MOVES %" PRIu64 "\nRAPID %016" PRIx64 "\n", moves, length);
    return 0;
}
