/* The limit of reading: the sums of an operation read every cell of a set but
   the one that is written, and cannot be faster than reading so many bytes. */

#include "limit.h"

#include "clock.h"
#include "cuzhaveli.h"
#include "results.h"

#include <emmintrin.h>
#include <stdio.h>

enum { LINE = 64 };

static __m128i load(const uint8_t *bytes)
{
    return _mm_loadu_si128((const __m128i *)bytes);
}

/* Reads the bytes in order with loads of 16 bytes, as the archive has them for
   plain x86-64; what it returns keeps the compiler from leaving them out. */
static int read_in_order(const uint8_t *bytes, size_t count)
{
    __m128i a = _mm_setzero_si128(), b = a, c = a, d = a;
    for (size_t at = 0; at + LINE <= count; at += LINE) {
        a = _mm_xor_si128(a, load(bytes + at));
        b = _mm_xor_si128(b, load(bytes + at + 16));
        c = _mm_xor_si128(c, load(bytes + at + 32));
        d = _mm_xor_si128(d, load(bytes + at + 48));
    }
    return _mm_cvtsi128_si32(_mm_xor_si128(_mm_xor_si128(a, b), _mm_xor_si128(c, d)));
}

/* Seconds for a line of a stripe that is read again and again, the best of all
   rounds. */
static double line_seconds(const struct Shelf *shelf, int rounds)
{
    static volatile int kept;
    (void)kept;
    size_t calls = 1 + ((size_t)4 << 20) / shelf->stripe;
    double best = 0;
    for (int round = 0; round < rounds; round++) {
        double start = now();
        for (size_t i = 0; i < calls; i++) {
            kept = read_in_order(shelf->bytes, shelf->stripe);
        }
        double took = (now() - start) / (double)(calls * (shelf->stripe / LINE));
        best = round == 0 || took < best ? took : best;
    }
    return best;
}

/* The cells that our plans sum, mean over the data disks: a row set has p others
   of a lost cell, a diagonal set too, and one more unless it is the first. */
static double cells_summed_by_plans(int p)
{
    double cells = 0;
    for (int disk = 0; disk < p; disk++) {
        struct cuzhaveli_plan plan = cuzhaveli_plan_disk(p, p, disk);
        for (int i = 0; i < p; i++) {
            cells += p + (plan.steps.kinds[i] == 1 && plan.steps.numbers[i] > 0);
        }
    }
    return cells / p;
}

/* The cells that an operation sums at least, k = p: p for each of 2p sets and
   p - 1 extra ones; the check has the parity cells too. */
static double cells_summed(int operation, int p)
{
    switch (operation) {
    case CHECK: return 2.0 * p * p + p - 1 + 2 * p;
    case REBUILD_ONE: return cells_summed_by_plans(p);
    default: return 2.0 * p * p + p - 1;
    }
}

static void print_row(double lines[ARRAYS][SIZES], int operation, int array)
{
    static const char *const NAMES[OPERATIONS] = { "encode", "check", "one disk", "two disks" };
    int p = SHAPES[array][0];
    printf("| %s | %d |", NAMES[operation], p);
    for (int size = 0; size < SIZES; size++) {
        double summed = cells_summed(operation, p) * (double)CELL_SIZES[size] / LINE;
        double ours = results[WARM][operation][array][size].best[OURS] / summed;
        printf(" %.2f / %.2f | %.2f |", 1e9 * ours, 1e9 * lines[array][size],
               ours / lines[array][size]);
    }
    printf("\n");
}

void print_limits(int rounds)
{
    static double lines[ARRAYS][SIZES];
    for (int array = 0; array < ARRAYS; array++) {
        struct Array shape;
        open_array(&shape, SHAPES[array][0], SHAPES[array][1]);
        for (int size = 0; size < SIZES; size++) {
            struct Shelf shelf;
            open_shelf(&shelf, &shape, CELL_SIZES[size], 1);
            lines[array][size] = line_seconds(&shelf, rounds);
            close_shelf(&shelf);
        }
        close_array(&shape);
    }
    printf("### warm: ns for a line of 64 bytes that the sums read / for a line only read, k = p, "
           "and the first over the second\n\n| operation | p |");
    for (int size = 0; size < SIZES; size++) {
        printf(" s = %zu | over |", CELL_SIZES[size]);
    }
    printf("\n|---|---|---|---|---|---|---|---|\n");
    for (int operation = 0; operation < OPERATIONS; operation++) {
        for (int array = 0; array < ARRAYS; array++) {
            if (SHAPES[array][0] == SHAPES[array][1]) {
                print_row(lines, operation, array);
            }
        }
    }
    printf("\n");
}
