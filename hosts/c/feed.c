/* A card by the dribble: another thread writes each card of the fixed list to a pipe in uneven pieces; what comes out of it is fed as
 * it comes, and the end must be that of the whole. The rooms are watched, and a call that must be refused changes none of them. */
#include "cards.h"

#include <pthread.h>
#include <signal.h>
#include <string.h>
#include <unistd.h>

#define PAINT 0xa5
#define BEHIND 64

/* what a call may write, and what it must be afterwards */
static uint8_t held[JL_CARD_BYTES + BEHIND], due[JL_CARD_BYTES + BEHIND];
static uint64_t state;

/* The next size of a piece: numbers from a seed, the same on every machine. */
static size_t uneven(uint32_t *seed)
{
    static const size_t sizes[] = {1, 2, 100, 511, 512, 513, 4000, 20000};
    *seed = *seed * 1664525 + 1013904223;
    return sizes[*seed >> 29];
}

static void *writes(void *to)
{
    uint32_t seed = bytes;
    for (size_t at = 0; at < bytes;) {
        size_t size = uneven(&seed);
        ssize_t put = write(*(int *)to, card + at, size < bytes - at ? size : bytes - at);
        if (put < 0)
            break;
        at += put;
    }
    close(*(int *)to);
    return NULL;
}

/* A refused call keeps the state and the byte room. */
static int refused(size_t room, size_t size, uint64_t number, uint64_t place)
{
    static const uint8_t piece[1] = {1};
    uint64_t before = state;
    return jl_feed(&state, held, room, piece, size) == (number << 32) + place && state == before
        && memcmp(held, due, sizeof held) == 0;
}

/* Feeds what comes out of the pipe, until nothing more does. */
static int feeds(int from)
{
    uint8_t piece[3000];
    uint32_t seed = ~bytes;
    size_t total = 0;
    for (;;) {
        size_t size = uneven(&seed);
        ssize_t got = read(from, piece, size < sizeof piece ? size : sizeof piece);
        if (got <= 0)
            return got == 0 && total == bytes;
        if (!refused(JL_CARD_BYTES - 1, 1, 13, JL_CARD_BYTES) || jl_feed(&state, NULL, 0, NULL, 0) != 0)
            return 0;
        size_t left = JL_CARD_BYTES - JL_HELD(state);
        memcpy(due + JL_HELD(state), piece, (size_t)got < left ? (size_t)got : left);
        if (jl_feed(&state, held, sizeof held, piece, got) != 0 || memcmp(held, due, sizeof held) != 0)
            return 0;
        total += got;
        if (JL_HELD(state) != (total < JL_CARD_BYTES ? total : JL_CARD_BYTES) || JL_ENDED(state))
            return 0;
    }
}

/* Asks, and holds the answer against the whole's; then the end is the end. */
static int ends(void)
{
    uint8_t tour[JL_CONTOURS], whole[JL_CONTOURS];
    uint64_t moves = 5, length = 7, moves_due = 5, length_due = 7, before = state;
    memset(tour, PAINT, sizeof tour);
    memset(whole, PAINT, sizeof whole);
    uint64_t code = jl_tour(card, bytes, whole, sizeof whole, &moves_due, &length_due);
    if (jl_ask(&state, held, JL_CARD_BYTES - 1, tour, sizeof tour, &moves, &length) != ((uint64_t)13 << 32) + JL_CARD_BYTES
        || state != before || moves != 5 || length != 7)
        return 0;
    for (int times = 0; times < 2; times++) {
        if (jl_ask(&state, held, sizeof held, tour, sizeof tour, &moves, &length) != code || state != before + 1
            || memcmp(tour, whole, sizeof tour) != 0 || moves != moves_due || length != length_due || !JL_ENDED(state))
            return 0;
    }
    return refused(sizeof held, 0, 17, 0) && refused(sizeof held, 1, 17, 0) && refused(0, 1, 17, 0);
}

int main(void)
{
    int cards = 0, good = 0;
    /* where a card is not read to its end, the writer goes on to be told so */
    signal(SIGPIPE, SIG_IGN);
    for (; next_card(); cards++) {
        int ends_of[2];
        pthread_t thread;
        if (pipe(ends_of) || pthread_create(&thread, NULL, writes, &ends_of[1])) {
            fputs("no pipe or no thread\n", stderr);
            return 2;
        }
        memset(held, PAINT, sizeof held);
        memset(due, PAINT, sizeof due);
        state = JL_NEW;
        int fed = feeds(ends_of[0]);
        close(ends_of[0]);
        pthread_join(thread, NULL);
        if (!fed || !ends()) {
            printf("C host: card %d of the fixed list is another when it is fed\n", cards);
            return 1;
        }
        good += jl_check(card, bytes) == 0;
    }
    printf("C host: %d cards through a pipe in pieces end as the whole does, %d of them good\n", cards, good);
    return good > 0 ? 0 : 1;
}
