/* What is measured, and how it is printed. */

#ifndef RESULTS_H
#define RESULTS_H

#include "calls.h"

enum { ARRAYS = 6, SIZES = 3, MOST_RUNS = 20, MOST_ROUNDS = 200 };

/* The arrays, rows and data disks, and the bytes of a cell. */
extern const int SHAPES[ARRAYS][2];
extern const size_t CELL_SIZES[SIZES];

/* Warm: one stripe again and again. Streaming: every stripe once, more of them
   than any cache holds. */
enum Mode { WARM, STREAMING, MODES };

extern const char *const MODE_NAMES[MODES];

/* What was measured of one operation, array, size and mode. A ratio is the
   contestant's time over ours: above 1 the library is faster. */
struct Result {
    int runs;
    double best[CONTESTANTS];                   /* seconds a stripe, of all runs */
    double medians[CONTESTANTS][MOST_RUNS];     /* of the rounds' ratios, for each run */
    double read;                                /* bytes that it has to read of a stripe */
};

extern struct Result results[MODES][OPERATIONS][ARRAYS][SIZES];

/* The middle value, of an even number the mean of the two; sorts them. */
double median(double *values, int count);

/* Prints all results as Markdown. */
void print_results(void);

#endif
