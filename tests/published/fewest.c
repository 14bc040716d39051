/* Prints the fewest cells that a plan reads, for each array of a width and each lost data disk: `p k lost fewest` a line.
 * Usage: fewest WIDTH
 *
 * A plan is the set T of the t rows that take a diagonal. It reads k p - S(lost) - S(k - 1 - lost) cells and its lone extra
 * cells, S(m) the sum over d = 1 to m of t less the rows that T and T turned by d share. S is the same for every turn of T
 * and for its complement; so all necklaces of up to (p - 1)/2 rows are gone through, and where S promises less than the
 * fewest so far, all turns and complements are. A cell rebuilt as an extra cell never saves one: that is argued, not tried. */

#include <stdint.h>
#include <stdio.h>
#include <stdlib.h>

static int p, half;
static uint32_t full;
static int fewest[32][32];           /* by data disks and lost disk */
static int16_t promise[32][32];      /* by data disks after the lost one and before, the fewer last: S + S above this promises less */
static int extra_on[32];             /* the diagonal whose extra cell is on a disk, 0 for none */
static uint32_t extra_rows[32][32];  /* the rows whose diagonal has a surviving extra cell, by data disks and lost disk */

static int mod(int number)
{
    return (number % p + p) % p;
}

static uint32_t turned(uint32_t rows, int by)
{
    return by == 0 ? rows : ((rows << by) | (rows >> (p - by))) & full;
}

/* The cells that a plan reads, counted disk by disk. */
static int reads(int k, int lost, uint32_t rows)
{
    int count = p; /* P gives a cell for each row set, Q one for each diagonal */
    for (int disk = 0; disk < k; disk++) {
        if (disk == lost)
            continue;
        uint32_t read = (full & ~rows) | turned(rows, mod(disk - lost));
        int diagonal = extra_on[disk];
        if (diagonal > 0 && (rows >> mod(diagonal + lost) & 1) != 0)
            read |= (uint32_t)1 << (p - 1 - diagonal);
        count += __builtin_popcount(read);
    }
    return count;
}

static int most(int a, int b)
{
    return a > b ? a : b;
}

static void record(int k, int lost, uint32_t rows)
{
    int count = reads(k, lost, rows), other = k - 1 - lost, few = lost < other ? lost : other;
    if (count < fewest[k][lost]) {
        fewest[k][lost] = count;
        promise[most(lost, other)][few] = (int16_t)(k * p - most(fewest[k][lost], fewest[k][other]));
    }
}

static uint32_t mirrored(uint32_t rows)
{
    uint32_t other = 0;
    for (int row = 0; row < p; row++)
        if (rows >> row & 1)
            other |= (uint32_t)1 << mod(-row);
    return other;
}

/* Of a set whose S promises fewer cells, the turns and the complements whose lone extra cells do not undo it. */
static void try_turns(int k, int lost, uint32_t rows, int promised)
{
    for (int side = 0; side < 2; side++, rows = full & ~rows) {
        uint32_t mirror = mirrored(rows);
        for (int by = 0; by < p; by++) {
            uint32_t set = turned(rows, by);
            uint32_t lone = set & extra_rows[k][lost] & turned(mirror, mod(lost - 1 - by)) & ~turned(set, 1);
            if (promised + __builtin_popcount(lone) < fewest[k][lost])
                record(k, lost, set);
        }
    }
}

/* Both disks with so many data disks on one side and so many on the other. */
static void try_both(uint32_t rows, int few, int many, int promised)
{
    int k = few + many + 1;
    if (promised < fewest[k][few])
        try_turns(k, few, rows, promised);
    if (promised < fewest[k][many])
        try_turns(k, many, rows, promised);
}

static void visit(uint32_t rows, int count)
{
    int shared[32] = {0};
    int16_t sum[32] = {0};
    for (int by = 1; by <= half; by++)
        shared[by] = shared[p - by] = __builtin_popcount(rows & turned(rows, by));
    for (int by = 1; by < p; by++)
        sum[by] = (int16_t)(sum[by - 1] + count - shared[by]);
    for (int many = 1; many < p; many++) {
        int end = most(0, (many < p - 1 - many ? many : p - 1 - many) + 1), any = 0;
        for (int few = 0; few < end; few++) /* without a branch, so that the compiler takes several at once */
            any |= (int16_t)(sum[few] + sum[many]) > promise[many][few];
        for (int few = 0; any && few < end; few++)
            try_both(rows, few, many, (few + many + 1) * p - sum[few] - sum[many]);
    }
}

/* All necklaces of p rows, by their prefixes: the words that no turn of them comes before. */
static void necklaces(int length, int period, uint32_t rows, int count)
{
    if (count > half)
        return;
    if (length == p) {
        if (p % period == 0 && count > 0)
            visit(rows, count);
        return;
    }
    uint32_t again = length == 0 ? 0 : rows >> (length - period) & 1;
    necklaces(length + 1, period, rows | again << length, count + (int)again);
    if (again == 0)
        necklaces(length + 1, length + 1, rows | (uint32_t)1 << length, count + 1);
}

/* What is known before: rows alone, and the progressions, which read the fewest or nearly so. */
static void begin(int k, int lost)
{
    for (int disk = 1; disk < k; disk++)
        if (disk != lost)
            extra_rows[k][lost] |= (uint32_t)1 << mod(extra_on[disk] + lost);
    record(k, lost, 0);
    for (int step = 1; step < p; step++) {
        uint32_t rows = 0;
        for (int n = 1; n <= half; n++)
            rows |= (uint32_t)1 << mod((lost - 1) * ((p + 1) / 2) + step * n);
        record(k, lost, rows);
    }
}

int main(int words, char **word)
{
    p = words == 2 ? atoi(word[1]) : 0;
    if (p < 3 || p > 31 || p % 2 == 0)
        return 2;
    half = (p - 1) / 2;
    full = ((uint32_t)1 << p) - 1;
    for (int disk = 1; disk < p; disk++)
        extra_on[disk] = mod(-disk * ((p + 1) / 2));
    for (int k = 2; k <= p; k++)
        for (int lost = 0; lost < k; lost++)
            fewest[k][lost] = k * p + 1;
    for (int k = 2; k <= p; k++)
        for (int lost = 0; lost < k; lost++)
            begin(k, lost);
    necklaces(0, 1, 0, 0);
    for (int k = 2; k <= p; k++)
        for (int lost = 0; lost < k; lost++)
            printf("%d %d %d %d\n", p, k, lost, fewest[k][lost]);
    return 0;
}
