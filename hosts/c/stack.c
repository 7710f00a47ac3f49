/* What the header says of a call's surroundings: how much stack it takes, over the fixed list of cards, the largest that there is
 * among them, each asked about in a thread whose stack is small and was painted, with the most bridges beside it; and that no card
 * and no centres need no address. */
#include "cards.h"

#include <pthread.h>
#include <string.h>

#define CALLS 6
/* as little as a thread may have on AArch64 */
#define SPACE (1 << 17)
#define PAINT 0xa5

static int call;
static uintptr_t top;

/* a contour with the most vertices and the most bridges, for jl_bridges */
static double contour[2 * JL_VERTICES], centres[JL_BRIDGES], bridges[JL_BRIDGE_NUMBERS];

/* a card that was fed whole, for jl_ask */
static uint8_t held[JL_CARD_BYTES];
static uint64_t fed;

static uint64_t bridged = 1;

static void *ask(void *tour)
{
    uint64_t a = 0, b = 0;
    top = (uintptr_t)&a;
    if (call == 0)
        jl_check(card, bytes);
    else if (call == 1)
        jl_tour(card, bytes, tour, JL_CONTOURS, &a, &b);
    else if (call == 2)
        jl_place(card, bytes, 0, &a, &b);
    else if (call == 3)
        jl_feed(&fed, held, sizeof held, card, bytes);
    else if (call == 4)
        jl_ask(&fed, held, sizeof held, tour, JL_CONTOURS, &a, &b);
    else
        bridged = jl_bridges(contour, 2 * JL_VERTICES, 1, centres, JL_BRIDGES, bridges);
    return NULL;
}

/* what the call touches below its caller's numbers */
static size_t taken(uint8_t *space)
{
    static uint8_t tour[JL_CONTOURS];
    pthread_attr_t with;
    pthread_t thread;
    memset(space, PAINT, SPACE);
    if (pthread_attr_init(&with) || pthread_attr_setstack(&with, space, SPACE)
        || pthread_create(&thread, &with, ask, tour) || pthread_join(thread, NULL)) {
        fputs("no thread\n", stderr);
        exit(2);
    }
    pthread_attr_destroy(&with);
    size_t low = 0;
    while (low < SPACE && space[low] == PAINT)
        low++;
    return top - (uintptr_t)(space + low);
}

int main(void)
{
    static const char *const calls[CALLS] = {"jl_check", "jl_tour", "jl_place", "jl_feed", "jl_ask", "jl_bridges"};
    static const size_t due[CALLS] = {JL_CHECK_STACK_BYTES, JL_TOUR_STACK_BYTES, JL_PLACE_STACK_BYTES, JL_FEED_STACK_BYTES,
                                      JL_ASK_STACK_BYTES, JL_BRIDGES_STACK_BYTES};
    size_t most[CALLS] = {0}, largest = 0;
    uint8_t *space = aligned_alloc(1 << 16, SPACE);
    for (int k = 0; k < 2 * JL_VERTICES; k++)
        contour[k] = k % 2 ? k % 4 : k;
    for (int k = 0; k < JL_BRIDGES; k++)
        centres[k] = 3 * k;
    int cards = 0;
    for (; space && next_card(); cards++) {
        if (bytes > largest && jl_check(card, bytes) == 0)
            largest = bytes;
        fed = JL_NEW;
        for (call = 0; call < CALLS; call++) {
            size_t now = taken(space);
            most[call] = now > most[call] ? now : most[call];
        }
    }
    free(space);

    uint64_t a = 5, b = 7, empty = (uint64_t)1 << 32;
    fed = JL_NEW;
    int kept = jl_check(NULL, 0) == empty && jl_tour(NULL, 0, NULL, 0, &a, &b) == empty
        && jl_place(NULL, 0, 0, &a, &b) == empty && jl_feed(&fed, NULL, 0, NULL, 0) == 0
        && jl_ask(&fed, held, sizeof held, NULL, 0, &a, &b) == empty && a == 5 && b == 7
        && bridged == 0 && jl_bridges(NULL, 0, 1, NULL, 0, bridges) == (uint64_t)6 << 32
        && jl_bridges(contour, 2 * JL_VERTICES, 1, NULL, 0, bridges) == 0;

    printf("C host: stack over %d cards, of at most %zu bytes:", cards, largest);
    int fits = largest == JL_CARD_BYTES;
    for (call = 0; call < CALLS; call++) {
        printf(" %s %zu of %zu,", calls[call], most[call], due[call]);
        fits = fits && most[call] <= due[call] && due[call] <= JL_STACK_BYTES;
    }
    printf(" no card without an address: %s\n", kept ? "refused" : "NOT AS DUE");
    return fits && kept ? 0 : 1;
}
