/* How many square roots the distances between a card's candidates take: one for each two candidates of different contours,
 * though the table holds their distance there and back. No promise speaks of it, so it is counted, over the fixed list of
 * cards and an archive in which each root calls a function from here (hosts/native/archive.sh --counted). */
#include "cards.h"

#include <inttypes.h>

/* the distances of ten contours with eight candidates each, the speed figure that roots decide: the list has such a card */
#define FIGURE (10 * 9 * 8 * 8)

static uint64_t roots;

void __sanitizer_cov_trace_pc_guard_init(uint32_t *start, uint32_t *end)
{
    (void)start, (void)end;
}

void __sanitizer_cov_trace_pc_guard(uint32_t *function)
{
    (void)function;
    roots++;
}

/* the roots that a tour takes, into a room of so many entries */
static uint64_t roots_in(size_t room)
{
    uint8_t tour[JL_CONTOURS];
    uint64_t moves, length;
    roots = 0;
    jl_tour(card, bytes, tour, room, &moves, &length);
    return roots;
}

/* the distances between candidates of different contours, there and back */
static uint64_t distances_between(void)
{
    uint64_t of[JL_CONTOURS] = {0}, all = 0, contour, within;
    while (jl_place(card, bytes, all, &contour, &within) == 0) {
        of[contour]++;
        all++;
    }
    uint64_t distances = all * all;
    for (contour = 0; contour < JL_CONTOURS; contour++)
        distances -= of[contour] * of[contour];
    return distances;
}

int main(void)
{
    int cards = 0, good = 0, half = 1;
    uint64_t distances = 0, taken = 0, figure = 0;
    for (; next_card(); cards++) {
        if (jl_check(card, bytes) != 0)
            continue;
        good++;
        /* where the tour has no room the card is read as ever, but no table is filled, and nothing is searched */
        uint64_t between = distances_between(), more = roots_in(JL_CONTOURS) - roots_in(0);
        if (2 * more != between) {
            printf("C host: card %d takes %" PRIu64 " roots for %" PRIu64 " distances\n", cards, more, between);
            half = 0;
        }
        if (between == FIGURE)
            figure = more;
        distances += between;
        taken += more;
    }
    printf("C host: roots over %d good cards: %" PRIu64 " for %" PRIu64 " distances; %" PRIu64 " for %d on one card\n",
           good, taken, distances, figure, FIGURE);
    return half && 2 * figure == FIGURE ? 0 : 1;
}
