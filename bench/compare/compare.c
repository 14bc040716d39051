/* Times two archives of the library call by call in one process, in turns; bench/compare/run says how it is used. */

#include "cuzhaveli.h"

#include <stdio.h>
#include <stdlib.h>
#include <string.h>
#include <time.h>

enum { MOST_WIDTH = 31, MOST_SIZE = 4096, MOST_ROUNDS = 1000 };
static const double SAMPLE = 2e5; /* nanoseconds that a sample takes at least */

/* One archive's calls. Its symbols got a prefix, so that both can be linked. */
struct Calls {
    struct cuzhaveli_answer (*encode)(struct cuzhaveli_shape, uint8_t *, size_t);
    struct cuzhaveli_checked (*check)(struct cuzhaveli_shape, const uint8_t *, size_t);
    struct cuzhaveli_scrubbed (*scrub)(struct cuzhaveli_shape, const uint8_t *, size_t);
    struct cuzhaveli_answer (*one)(struct cuzhaveli_shape, size_t, const uint8_t *, size_t, uint8_t *, size_t);
    struct cuzhaveli_answer (*tested)(struct cuzhaveli_shape, size_t, const uint8_t *, size_t, uint8_t *, size_t);
    struct cuzhaveli_answer (*two)(struct cuzhaveli_shape, size_t, size_t, uint8_t *, size_t);
};

#define CALLS(which)                                                                                                   \
    struct cuzhaveli_answer which##_cuzhaveli_encode_stripe(struct cuzhaveli_shape, uint8_t *, size_t);                \
    struct cuzhaveli_checked which##_cuzhaveli_check_stripe(struct cuzhaveli_shape, const uint8_t *, size_t);          \
    struct cuzhaveli_scrubbed which##_cuzhaveli_scrub_stripe(struct cuzhaveli_shape, const uint8_t *, size_t);         \
    struct cuzhaveli_answer which##_cuzhaveli_rebuild_one(struct cuzhaveli_shape, size_t, const uint8_t *, size_t,     \
                                                          uint8_t *, size_t);                                          \
    struct cuzhaveli_answer which##_cuzhaveli_rebuild_tested(struct cuzhaveli_shape, size_t, const uint8_t *, size_t,  \
                                                             uint8_t *, size_t);                                       \
    struct cuzhaveli_answer which##_cuzhaveli_rebuild_two(struct cuzhaveli_shape, size_t, size_t, uint8_t *, size_t);  \
    static const struct Calls which = { which##_cuzhaveli_encode_stripe, which##_cuzhaveli_check_stripe,               \
                                        which##_cuzhaveli_scrub_stripe,  which##_cuzhaveli_rebuild_one,                \
                                        which##_cuzhaveli_rebuild_tested, which##_cuzhaveli_rebuild_two };

CALLS(old)
CALLS(new)

/* A clean stripe, and a column to rebuild into. */
struct Room {
    struct cuzhaveli_shape shape;
    uint8_t *stripe, *column;
    size_t long_stripe, long_column;
};

static void demand(int holds, const char *what)
{
    if (!holds) {
        fprintf(stderr, "bench/compare: %s\n", what);
        exit(1);
    }
}

/* Each operation for the disks in turn. */
typedef void operation(const struct Calls *, const struct Room *, size_t turn);

static void encode(const struct Calls *calls, const struct Room *room, size_t turn)
{
    (void)turn;
    demand(calls->encode(room->shape, room->stripe, room->long_stripe).refusal == 0, "encoding is refused");
}

static void check(const struct Calls *calls, const struct Room *room, size_t turn)
{
    (void)turn;
    demand(calls->check(room->shape, room->stripe, room->long_stripe).clean, "a clean stripe is not clean");
}

static void scrub(const struct Calls *calls, const struct Room *room, size_t turn)
{
    (void)turn;
    demand(calls->scrub(room->shape, room->stripe, room->long_stripe).verdict == 0, "a clean stripe is not clean");
}

static void one(const struct Calls *calls, const struct Room *room, size_t turn)
{
    size_t lost = turn % room->shape.disks;
    demand(calls->one(room->shape, lost, room->stripe, room->long_stripe, room->column, room->long_column).refusal == 0,
           "the rebuild of a disk is refused");
}

static void tested(const struct Calls *calls, const struct Room *room, size_t turn)
{
    size_t lost = turn % room->shape.disks;
    demand(calls->tested(room->shape, lost, room->stripe, room->long_stripe, room->column, room->long_column).refusal == 0,
           "the tested rebuild of a disk is refused");
}

static void two(const struct Calls *calls, const struct Room *room, size_t turn)
{
    size_t k = room->shape.disks, first = turn % k, second = (first + 1 + turn / k % (k - 1)) % k;
    demand(calls->two(room->shape, first, second, room->stripe, room->long_stripe).refusal == 0,
           "the rebuild of two disks is refused");
}

static const struct { const char *name; operation *run; } OPERATIONS[] = {
    { "encode", encode }, { "check", check }, { "scrub, clean", scrub },
    { "one disk", one },  { "tested", tested }, { "two disks", two },
};

static double now(void)
{
    struct timespec time;
    clock_gettime(CLOCK_MONOTONIC, &time);
    return (double)time.tv_sec * 1e9 + (double)time.tv_nsec;
}

/* Nanoseconds of one call, over `turns` calls. */
static double timed(operation *run, const struct Calls *calls, const struct Room *room, size_t turns)
{
    double start = now();
    for (size_t turn = 0; turn < turns; turn++) {
        run(calls, room, turn);
    }
    return (now() - start) / (double)turns;
}

static int by_size(const void *left, const void *right)
{
    double a = *(const double *)left, b = *(const double *)right;
    return (a > b) - (a < b);
}

/* Rounds in turns, each archive first in every other one. */
static void compare(const char *name, operation *run, const struct Room *room, size_t rounds)
{
    double before[MOST_ROUNDS], after[MOST_ROUNDS];
    size_t turns = 1;
    while (timed(run, &old, room, turns) * (double)turns < SAMPLE) {
        turns *= 2;
    }
    for (size_t round = 0; round < rounds; round++) {
        int first = round % 2 == 0;
        if (first) {
            before[round] = timed(run, &old, room, turns);
        }
        after[round] = timed(run, &new, room, turns);
        if (!first) {
            before[round] = timed(run, &old, room, turns);
        }
    }
    qsort(before, rounds, sizeof *before, by_size);
    qsort(after, rounds, sizeof *after, by_size);
    printf("%5zu %5zu  %-12s %10.0f %10.0f %6.2f   %10.0f %10.0f %6.2f\n", room->shape.width, room->shape.cell_size, name,
           before[0], after[0], after[0] / before[0], before[rounds / 2], after[rounds / 2],
           after[rounds / 2] / before[rounds / 2]);
    fflush(stdout);
}

int main(int count, char **words)
{
    static const size_t WIDTHS[] = { 3, 5, 7, 11, 13, 17, 23, 31 }, SIZES[] = { 64, 512, 4096 };
    int rounds = count == 2 ? atoi(words[1]) : 0;
    demand(1 <= rounds && rounds <= MOST_ROUNDS, "say the number of rounds, 1 to 1000");
    struct Room room = { .stripe = aligned_alloc(4096, (MOST_WIDTH + 2) * MOST_WIDTH * MOST_SIZE),
                         .column = aligned_alloc(4096, MOST_WIDTH * MOST_SIZE) };
    demand(room.stripe && room.column, "no memory");
    puts("width  cell  call           best old        new  ratio    median old        new  ratio");
    for (size_t s = 0; s < sizeof SIZES / sizeof *SIZES; s++) {
        for (size_t p = 0; p < sizeof WIDTHS / sizeof *WIDTHS; p++) {
            room.shape = (struct cuzhaveli_shape){ WIDTHS[p], WIDTHS[p], SIZES[s] };
            room.long_column = WIDTHS[p] * SIZES[s];
            room.long_stripe = (WIDTHS[p] + 2) * room.long_column;
            for (size_t i = 0; i < room.long_stripe; i++) {
                room.stripe[i] = (uint8_t)(i * 2654435761u >> 13);
            }
            encode(&old, &room, 0);
            for (size_t i = 0; i < sizeof OPERATIONS / sizeof *OPERATIONS; i++) {
                compare(OPERATIONS[i].name, OPERATIONS[i].run, &room, (size_t)rounds);
            }
        }
    }
    free(room.stripe);
    free(room.column);
    return 0;
}
