/* Records stripes that Jerasure encoded and decoded, as conformance/vectors/FORMAT.md tells, on standard output.
 *
 * Build and run (Debian packages libjerasure-dev and libgf-complete-dev):
 *     cc -O2 -I/usr/include/jerasure tests/conformance/jerasure_vectors.c -lJerasure -o jerasure_vectors
 *     ./jerasure_vectors >conformance/vectors/jerasure.txt
 *
 * Jerasure's Liberation code with k data disks, words of p bits and a packet of s bytes is the code
 * of these arrays in their layout, for s a multiple of 8. The data are random, of a fixed seed. For
 * every pair of disks Jerasure decodes it from the other disks alone; that it gave the stripe back
 * is what a line `two A B` records. */

#include <jerasure.h>
#include <liberation.h>
#include <stdint.h>
#include <stdio.h>
#include <stdlib.h>
#include <string.h>

enum { MOST_DISKS = 33, S = 8, MOST_COLUMN = 31 * S };

static const int WIDTHS[] = { 3, 5, 7, 11, 13, 17, 19, 23, 29, 31 };

/* An array and the stripe that is recorded. */
struct Array {
    int p;
    int k;
    int *bitmatrix;
    char *disks[MOST_DISKS];
};

static uint8_t random_byte(void)
{
    static uint64_t state = 20000831;
    state ^= state >> 12;
    state ^= state << 25;
    state ^= state >> 27;
    return (uint8_t)(state * 0x2545F4914F6CDD1DULL >> 56);
}

static void stop(const char *what, const struct Array *array)
{
    fprintf(stderr, "make_vectors: %s for p = %d, k = %d\n", what, array->p, array->k);
    exit(1);
}

static void fill_disk(const struct Array *array, int disk)
{
    for (int i = 0; i < array->p * S; i++)
        array->disks[disk][i] = (char)random_byte();
}

static void encode(struct Array *array)
{
    int p = array->p, k = array->k;
    for (int disk = 0; disk < k + 2; disk++)
        fill_disk(array, disk);
    jerasure_bitmatrix_encode(k, 2, p, array->bitmatrix, array->disks, array->disks + k, p * S, S);
}

static void write_stripe(const struct Array *array)
{
    printf("array %d %d %d\nstripe ", array->p, array->k, S);
    for (int disk = 0; disk < array->k + 2; disk++)
        for (int i = 0; i < array->p * S; i++)
            printf("%02x", (uint8_t)array->disks[disk][i]);
    printf("\n");
}

/* Loses two disks, decodes them, and records that they came back. */
static void decode(struct Array *array, int a, int b)
{
    int p = array->p, k = array->k, erased[] = { a, b, -1 };
    char kept[2][MOST_COLUMN];
    memcpy(kept[0], array->disks[a], (size_t)(p * S));
    memcpy(kept[1], array->disks[b], (size_t)(p * S));
    fill_disk(array, a);
    fill_disk(array, b);
    if (jerasure_bitmatrix_decode(k, 2, p, array->bitmatrix, 1, erased, array->disks, array->disks + k, p * S, S))
        stop("no decoding", array);
    if (memcmp(kept[0], array->disks[a], (size_t)(p * S)) || memcmp(kept[1], array->disks[b], (size_t)(p * S)))
        stop("another stripe was decoded", array);
    printf("two %d %d\n", a, b);
}

static void record(struct Array *array)
{
    array->bitmatrix = liberation_coding_bitmatrix(array->k, array->p);
    if (array->bitmatrix == NULL)
        stop("no code", array);
    encode(array);
    write_stripe(array);
    for (int b = 1; b < array->k + 2; b++)
        for (int a = 0; a < b; a++)
            decode(array, a, b);
    free(array->bitmatrix);
}

int main(void)
{
    struct Array array;
    for (int disk = 0; disk < MOST_DISKS; disk++) {
        void *bytes = NULL;
        if (posix_memalign(&bytes, 64, MOST_COLUMN) != 0) {
            fprintf(stderr, "make_vectors: no memory\n");
            return 1;
        }
        array.disks[disk] = bytes;
    }
    printf("# Recorded from Jerasure 2.0 by tests/conformance/jerasure_vectors.c; FORMAT.md tells the form.\n");
    for (size_t w = 0; w < sizeof WIDTHS / sizeof *WIDTHS; w++)
        for (int k = 2; k <= WIDTHS[w]; k++) {
            array.p = WIDTHS[w];
            array.k = k;
            record(&array);
        }
    return 0;
}
