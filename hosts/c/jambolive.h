/* In which order to cut a sheet, and where to leave bridges: the calls of the proved library, target/staticlib/libhost.a
 * (and -lm).
 *
 * A card is any `bytes` bytes at `card`. Every call answers one number: 0, or why it refuses, as the refusal's
 * number times 2^32 plus its place; docs/CARD.md says what each number and place means. Nothing that is lent is kept,
 * and what a comment does not name stays as it was; after a refusal that is everything, but the state that jl_ask ends.
 * The lent parts may not overlap.
 *
 * Calls may run side by side: the library has no memory of its own.
 * A call takes at most JL_STACK_BYTES of stack.
 * It asks for memcpy, memmove, memset and fmod of the C library (-lm), and is right if they are.
 * No bytes, numbers or centres, and no room for a tour or a card, need no address: NULL with 0 behind it will do. */
#ifndef JAMBOLIVE_H
#define JAMBOLIVE_H

#include <stddef.h>
#include <stdint.h>

#ifdef __cplusplus
extern "C" {
#endif

/* The most contours of a card, so the most entries of a tour; the most pairs that are written on it. */
#define JL_CONTOURS 80
#define JL_PAIRS 248

/* The most vertices of a contour, the most bridges of one, and the numbers of those, eight each. */
#define JL_VERTICES 30
#define JL_BRIDGES 16
#define JL_BRIDGE_NUMBERS (8 * JL_BRIDGES)

/* The stack that each call takes at most, in bytes, and so any of them (hosts/c/stack.c measures it, up to the largest card). */
#define JL_CHECK_STACK_BYTES 16384
#define JL_PLACE_STACK_BYTES 32768
#define JL_TOUR_STACK_BYTES 98304
#define JL_FEED_STACK_BYTES 8192
#define JL_ASK_STACK_BYTES 98304
#define JL_BRIDGES_STACK_BYTES 8192
#define JL_STACK_BYTES JL_TOUR_STACK_BYTES

/* The bytes of a block, and the pairs that one takes. */
#define JL_BLOCK 512
#define JL_PAIRS_A_BLOCK 31

/* The most bytes of a card: the head's block, its contours' and its pairs'. */
#define JL_CARD_BYTES (JL_BLOCK * (1 + JL_CONTOURS + (JL_PAIRS + JL_PAIRS_A_BLOCK - 1) / JL_PAIRS_A_BLOCK))

/* Where fields stand: in block 0 the job's number, how many contours there are, the direction of each type and, in version
 * 2, whether the grid is asked for; in block 1 + k contour k's id, tag, count of vertices and type, and its vertices, x and
 * y of each. */
#define JL_JOB_AT 8
#define JL_CONTOURS_AT 12
#define JL_DIRECTIONS_AT 40
#define JL_GRID_AT 42
#define JL_ID_AT 8
#define JL_TAG_AT 12
#define JL_VERTEX_COUNT_AT 16
#define JL_TYPE_AT 18
#define JL_VERTICES_AT 20

/* 0 exactly where the card is good; else refusal 1 to 12 (docs/CARD.md, "When a card goes back"). */
uint64_t jl_check(const uint8_t *card, size_t bytes);

/* Writes a good card's tour, a candidate of each contour in the order of cutting, to the first entries of `tour`, the
 * number of trials to `moves` and the length's f64 bits to `length`. A card that is not good gets its refusal 1 to 12
 * first, whatever the room; then refusal 13, with the entries needed as its place, where `room` entries are too few.
 * In the turn of a position the search keeps the last candidate that it accepted, where a library from before request
 * 2026-01 did not: with three candidates a contour or more the tour may be another than then, mostly shorter and now and
 * then longer; with fewer it is the same (docs/DIFFERENCES.md). On a card of version 2, which a library from before
 * request 2026-02 refuses, each hole of a part is cut before the first outline with its part and instance, besides what
 * the pairs say; pairs against that are refusal 12. A card with more contours or pairs than a library from before
 * request 2026-04 takes is refused by it with 1 or 4 (docs/CARD.md, "Larger cards"); that request changed no tour of a
 * card that it takes. Where byte JL_GRID_AT of a card of version 2 is 1, candidates found along a contour are moved to the
 * nearest point of a grid of 1/1024 mm before a distance is taken (docs/CARD.md, "The grid"); above 1 it is refusal 4 at 8.
 * A library from before request 2026-07 that knows version 2, and takes a card of that size, refuses a good card that asks
 * with 7 at 0. JL_CONTOURS entries are room enough for any tour. */
uint64_t jl_tour(const uint8_t *card, size_t bytes, uint8_t *tour, size_t room, uint64_t *moves, uint64_t *length);

/* Writes the position of the contour that a candidate belongs to, and its number within that contour. A card that is not
 * good gets its refusal 1 to 12 first, whatever the candidate; then refusal 15, with the candidate as its place
 * (2^32 - 1 for any above it), where the card has no such candidate. */
uint64_t jl_place(const uint8_t *card, size_t bytes, uint64_t candidate, uint64_t *contour, uint64_t *within);

/* A card that arrives in pieces: each goes to jl_feed as it comes, and jl_ask ends it. Between the calls the host keeps
 * the state, one number, and the byte room, whose front holds the bytes fed so far; it may write behind them, or lend
 * another room that begins with them. However the card is cut, jl_ask answers and writes what jl_tour does of the whole.
 * A new card has the state JL_NEW; JL_HELD says of a state how many bytes are held, and JL_ENDED whether jl_ask has
 * ended it. The rest of the number is the library's own: whether there were more bytes than are held. */
#define JL_NEW 0
#define JL_HELD(state) ((uint64_t)(state) / 4)
#define JL_ENDED(state) ((int)((state) % 2))

/* Takes a piece of `bytes` bytes: writes it behind those that are held in `held`, whose rest is kept. Bytes past the
 * JL_CARD_BYTES of the longest card are not held, and jl_ask then answers refusal 1 at JL_CARD_BYTES + 1. After the end
 * any piece, of no bytes too, is refusal 17, place 0. Then a piece with bytes is refusal 13, place JL_CARD_BYTES, where
 * `held_room` is under JL_CARD_BYTES, however few are held; no bytes need no room. A refusal changes nothing. */
uint64_t jl_feed(uint64_t *state, uint8_t *held, size_t held_room, const uint8_t *piece, size_t bytes);

/* The end: answers for the bytes that were fed as jl_tour does for a card, and writes `tour`, `moves` and `length` as it
 * does. A byte room under JL_CARD_BYTES is refusal 13, place JL_CARD_BYTES, which changes nothing and is not the end;
 * after every other answer, a refusal of the card or of the tour's room too, the state is ended. Asked again with the
 * same rooms it answers the same, and in other rooms what they get of the same card. */
uint64_t jl_ask(uint64_t *state, const uint8_t *held, size_t held_room, uint8_t *tour, size_t room, uint64_t *moves,
                uint64_t *length);

/* The bridges of a contour: stretches that stay uncut and hold its part (docs/CARD.md, "Bridges"). `contour` has the x and
 * y of each vertex, so `numbers` is twice their count; a bridge is `width` wide, and its centre is a distance along the way
 * around the contour, from the first vertex on. Writes eight numbers for each of the `count` centres to the front of `room`:
 * x and y where the bridge starts, where it ends and of its middle, the edge that the middle is on (by the vertex at which
 * it starts), and the centre's place on that edge, 0 at its start and 1 at its end. A point is taken at a share of its edge
 * that is held to 0 to 1. The place is told as it comes out: -0 for a centre of -0, and it can be above 1 where the centre is
 * at the edge's end, or past it by no more than the 1e-12 by which the end is taken further; on an edge not longer than
 * 1e-12 it is 0. The rest of the room is kept.
 * Refusals, the first that applies: 13 at JL_BRIDGES, more centres than that; 6, no vertex or more than JL_VERTICES, with
 * their count as its place (2^32 - 1 for any above it), a vertex without its y counted; 8, a coordinate of the vertex at its
 * place is not finite or too large, or is missing; 18 at 0, the way is shorter than 1e-12; 18 at 1, the width is not finite,
 * not above 0, or its half is not below the way's length; 18 at 2 + i, centre i is the first that is not from 0 up to the
 * way's length, which itself is too far. No centres are fine. */
uint64_t jl_bridges(const double *contour, size_t numbers, double width, const double *centres, size_t count,
                    double room[JL_BRIDGE_NUMBERS]);

#ifdef __cplusplus
}
#endif
#endif
