#include "results.h"

#include <stdio.h>
#include <stdlib.h>
#include <string.h>

/* Two arrays with fewer data disks than rows stand beside those with as many. */
const int SHAPES[ARRAYS][2] = { { 5, 5 }, { 7, 7 }, { 7, 5 }, { 17, 17 }, { 17, 12 }, { 31, 31 } };
const size_t CELL_SIZES[SIZES] = { 64, 512, 4096 };

const char *const MODE_NAMES[MODES] = { "warm", "streaming" };

static const char *const OPERATION_NAMES[OPERATIONS] = { "encode", "check", "one disk",
                                                         "two disks" };

struct Result results[MODES][OPERATIONS][ARRAYS][SIZES];

static int ascending(const void *a, const void *b)
{
    double x = *(const double *)a, y = *(const double *)b;
    return (x > y) - (x < y);
}

double median(double *values, int count)
{
    qsort(values, count, sizeof *values, ascending);
    return (values[(count - 1) / 2] + values[count / 2]) / 2;
}

static double best_ratio(const struct Result *result, enum Contestant who)
{
    return result->best[who] / result->best[OURS];
}

static double median_ratio(const struct Result *result, enum Contestant who)
{
    double medians[MOST_RUNS];
    memcpy(medians, result->medians[who], sizeof medians);
    return median(medians, result->runs);
}

/* Goes through all operations and arrays, and prints a row for each. */
static void print_rows(enum Mode mode, void row(const struct Result *of_sizes, int operation))
{
    for (int operation = 0; operation < OPERATIONS; operation++) {
        for (int array = 0; array < ARRAYS; array++) {
            printf("| %s | %d | %d |", OPERATION_NAMES[operation], SHAPES[array][0],
                   SHAPES[array][1]);
            row(results[mode][operation][array], operation);
            printf("\n");
        }
    }
    printf("\n");
}

/* Ratios. */

static void print_ratios(const struct Result *of_sizes, int operation)
{
    for (int who = JERASURE; who <= ISAL; who++) {
        for (int size = 0; size < SIZES; size++) {
            if (CALLS[operation][who] == NULL) {
                printf(" none |");
            } else {
                printf(" %.2f / %.2f |", best_ratio(&of_sizes[size], who),
                       median_ratio(&of_sizes[size], who));
            }
        }
    }
}

static void print_ratio_table(enum Mode mode)
{
    printf("### %s: Jerasure's and ISA-L's time over ours, best / median\n\n",
           MODE_NAMES[mode]);
    printf("| operation | p | k |");
    for (int size = 0; size < SIZES; size++) {
        printf(" Jerasure, s = %zu |", CELL_SIZES[size]);
    }
    for (int size = 0; size < SIZES; size++) {
        printf(" ISA-L, s = %zu |", CELL_SIZES[size]);
    }
    printf("\n|---|---|---|---|---|---|---|---|---|\n");
    print_rows(mode, print_ratios);
}

/* Times. */

static void print_times(const struct Result *of_sizes, int operation)
{
    for (int size = 0; size < SIZES; size++) {
        const struct Result *result = &of_sizes[size];
        for (int who = OURS; who < CONTESTANTS; who++) {
            if (CALLS[operation][who] == NULL) {
                printf(" none;");
            } else {
                printf(" %.2f%s", 1e6 * result->best[who], who == MEMCPY ? "" : ";");
            }
        }
        printf(" | %.1f |", 1e-9 * result->read / result->best[OURS]);
    }
}

static void print_time_table(enum Mode mode)
{
    printf("### %s: best times of a stripe in us (ours; Jerasure; ISA-L; memcpy), "
           "and GB/s that ours reads\n\n",
           MODE_NAMES[mode]);
    printf("| operation | p | k |");
    for (int size = 0; size < SIZES; size++) {
        printf(" s = %zu | GB/s |", CELL_SIZES[size]);
    }
    printf("\n|---|---|---|---|---|---|---|---|---|\n");
    print_rows(mode, print_times);
}

/* The aims: warm, k = p, medians, of the archive that takes the processor's instructions; for
   each p from the given one on. */

struct Aim {
    enum Operation operation;
    int who;
    int size;
    int from;
    double median;
};

static const struct Aim AIMS[] = {
    { ENCODE, JERASURE, 2, 5, 3.0 },      { CHECK, JERASURE, 2, 5, 3.0 },
    { REBUILD_ONE, JERASURE, 2, 5, 2.8 }, { REBUILD_TWO, JERASURE, 2, 5, 3.0 },
    { CHECK, ISAL, 1, 5, 1.0 },           { CHECK, ISAL, 2, 5, 1.0 },
    { ENCODE, ISAL, 1, 7, 1.0 },          { ENCODE, ISAL, 2, 17, 0.85 },
    { REBUILD_ONE, ISAL, 1, 5, 0.75 },    { REBUILD_ONE, ISAL, 2, 17, 1.0 },
};

static void print_aim(const struct Aim *aim, int array)
{
    const struct Result *result = &results[WARM][aim->operation][array][aim->size];
    double got = median_ratio(result, aim->who);
    printf("| %s | %s | %d | %zu | %.2f | %.2f, %s |\n", OPERATION_NAMES[aim->operation],
           aim->who == JERASURE ? "Jerasure" : "ISA-L", SHAPES[array][0], CELL_SIZES[aim->size],
           aim->median, got, got >= aim->median ? "met" : "SHORT");
}

static void print_aims(void)
{
    printf("### aims of libcuzhaveli_fast.a on a processor with AVX2: warm, k = p, medians\n\n");
    printf("| operation | against | p | s | aim | got |\n|---|---|---|---|---|---|\n");
    for (size_t i = 0; i < sizeof AIMS / sizeof *AIMS; i++) {
        for (int array = 0; array < ARRAYS; array++) {
            if (SHAPES[array][0] == SHAPES[array][1] && SHAPES[array][0] >= AIMS[i].from) {
                print_aim(&AIMS[i], array);
            }
        }
    }
    printf("\n");
}

void print_results(void)
{
    for (int mode = 0; mode < MODES; mode++) {
        print_ratio_table(mode);
    }
    print_aims();
    for (int mode = 0; mode < MODES; mode++) {
        print_time_table(mode);
    }
}
