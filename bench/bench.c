/* Times encode, check, the rebuild of one and of two data disks, the update of
   a cell, the scrub, the tested rebuild, the rebuilds by other plans and of
   missing cells and the stripe of a parity server, and prints the results as
   Markdown.

   Time is processor time of the thread. In a round each contestant is timed
   once, in an order that turns from round to round. A run has rounds for every
   array, cell size and operation; runs follow each other. */

#include "clock.h"
#include "limit.h"
#include "mends.h"
#include "results.h"
#include "scrub.h"
#include "servers.h"
#include "update.h"

#include <stdio.h>
#include <stdlib.h>
#include <unistd.h>

static int runs = 4, rounds = 41;

/* A warm sample takes at least so long, and so long for each loss. */
static const double WARM_SECONDS = 300e-6, LOSS_SECONDS = 50e-6;

static const size_t STREAM_BYTES = (size_t)128 << 20;

/* Streaming, times differ less and take longer. */
static int runs_of(enum Mode mode)
{
    return mode == WARM ? runs : (runs + 1) / 2;
}

static int rounds_of(enum Mode mode)
{
    return mode == WARM ? rounds : (rounds + 4) / 5;
}

/* Seconds a call. Each loss comes once, for so many calls on end, as a rebuild
   has the same disks lost in all stripes. */
static double sample(const struct Shelf *shelf, Call *call, const struct Losses *losses,
                     enum Mode mode, size_t calls)
{
    size_t number = 0;
    if (mode == WARM) {
        call(shelf, 0, &losses->all[0]);
    }
    double start = now();
    for (int i = 0; i < losses->count; i++) {
        for (size_t j = 0; j < calls; j++) {
            call(shelf, number, &losses->all[i]);
            number = number + 1 == shelf->stripes ? 0 : number + 1;
        }
    }
    return (now() - start) / (double)(losses->count * calls);
}

/* How many calls each loss gets in a sample. */
static size_t calls_needed(const struct Shelf *shelf, Call *call, const struct Losses *losses,
                           enum Mode mode)
{
    if (mode == STREAMING) {
        return (shelf->stripes + losses->count - 1) / losses->count;
    }
    double needed = LOSS_SECONDS * losses->count;
    needed = needed < WARM_SECONDS ? WARM_SECONDS : needed;
    size_t calls = 1;
    while (sample(shelf, call, losses, mode, calls) * (double)(losses->count * calls) < needed) {
        calls *= 2;
    }
    return calls;
}

static double least(const double *values, int count)
{
    double found = values[0];
    for (int i = 1; i < count; i++) {
        found = values[i] < found ? values[i] : found;
    }
    return found;
}

/* Adds a run's times to the result. */
static void add_run(struct Result *result, double times[CONTESTANTS][MOST_ROUNDS], int who,
                    int count)
{
    double ratios[MOST_ROUNDS], best = least(times[who], count);
    for (int round = 0; round < count; round++) {
        ratios[round] = times[who][round] / times[OURS][round];
    }
    result->medians[who][result->runs] = median(ratios, count);
    if (result->runs == 0 || best < result->best[who]) {
        result->best[who] = best;
    }
}

static void measure(const struct Shelf *shelf, enum Operation operation, enum Mode mode,
                    struct Result *result)
{
    static double times[CONTESTANTS][MOST_ROUNDS];
    Call *const *calls = CALLS[operation];
    const struct Losses *losses = &shelf->array->losses[operation];
    size_t count = calls_needed(shelf, calls[OURS], losses, mode);
    for (int round = 0; round < rounds_of(mode); round++) {
        for (int turn = 0; turn < CONTESTANTS; turn++) {
            int who = (turn + round) % CONTESTANTS;
            if (calls[who] != NULL) {
                times[who][round] = sample(shelf, calls[who], losses, mode, count);
            }
        }
    }
    for (int who = 0; who < CONTESTANTS; who++) {
        if (calls[who] != NULL) {
            add_run(result, times, who, rounds_of(mode));
        }
    }
    result->read = shelf->array->cells[operation] * (double)shelf->s;
    result->runs++;
}

static void measure_shelf(const struct Array *arrays, enum Mode mode, int array, int size)
{
    struct Shelf shelf;
    size_t s = CELL_SIZES[size], stripe = stripe_bytes(&arrays[array], s);
    open_shelf(&shelf, &arrays[array], s,
               mode == WARM ? 1 : (STREAM_BYTES + stripe - 1) / stripe);
    compare(&shelf);
    for (int operation = 0; operation < OPERATIONS; operation++) {
        measure(&shelf, operation, mode, &results[mode][operation][array][size]);
    }
    close_shelf(&shelf);
}

static void run_once(const struct Array *arrays, int run)
{
    for (int mode = 0; mode < MODES; mode++) {
        for (int array = 0; array < ARRAYS && run < runs_of(mode); array++) {
            for (int size = 0; size < SIZES; size++) {
                fprintf(stderr, "bench: run %d, %s, p = %d, k = %d, s = %zu\n", run + 1,
                        MODE_NAMES[mode], arrays[array].p, arrays[array].k, CELL_SIZES[size]);
                measure_shelf(arrays, mode, array, size);
            }
        }
    }
}

static void usage(void)
{
    fprintf(stderr, "usage: bench [-n RUNS] [-r ROUNDS], up to %d runs and %d rounds\n",
            MOST_RUNS, MOST_ROUNDS);
    exit(2);
}

/* A whole number from 1 to the most. */
static int number_of(const char *text, int most)
{
    char *end;
    long number = strtol(text, &end, 10);
    if (end == text || *end != '\0' || number < 1 || number > most) {
        usage();
    }
    return (int)number;
}

static void read_options(int argc, char **argv)
{
    int option;
    while ((option = getopt(argc, argv, "n:r:")) != -1) {
        if (option == 'n') {
            runs = number_of(optarg, MOST_RUNS);
        } else if (option == 'r') {
            rounds = number_of(optarg, MOST_ROUNDS);
        } else {
            usage();
        }
    }
}

static double load(void)
{
    double loads[1] = { -1 };
    getloadavg(loads, 1);
    return loads[0];
}

int main(int argc, char **argv)
{
    static struct Array arrays[ARRAYS];
    read_options(argc, argv);
    for (int array = 0; array < ARRAYS; array++) {
        open_array(&arrays[array], SHAPES[array][0], SHAPES[array][1]);
    }
    double before = load();
    for (int run = 0; run < runs; run++) {
        run_once(arrays, run);
    }
    printf("Load average before and after: %.1f, %.1f. ", before, load());
    printf("Warm: %d runs of %d rounds; streaming: %d of %d.\n\n", runs_of(WARM),
           rounds_of(WARM), runs_of(STREAMING), rounds_of(STREAMING));
    print_results();
    print_limits(rounds);
    print_updates(rounds);
    print_scrubs(rounds);
    print_mends(rounds);
    print_servers(rounds);
    for (int array = 0; array < ARRAYS; array++) {
        close_array(&arrays[array]);
    }
    return 0;
}
