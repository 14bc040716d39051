/* Prints what docs/SCOPE.md claims of missing cells and no theorem says: p = k = 5, one disk lost and a bad cell on each of
 * two others, all cases; how many come back, and how many would by a code that decodes each row of cells on its own. */

#include <cuzhaveli.h>
#include <stdio.h>
#include <string.h>

enum { P = 5, DISKS = P + 2, CELLS = P * DISKS };

/* Does the library bring these cells back? */
static int comes_back(size_t lost, size_t first, size_t second)
{
    struct cuzhaveli_shape shape = {P, P, 1};
    uint8_t stripe[CELLS] = {0}, missing[CELLS] = {0};
    memset(missing + CUZHAVELI_CELL(P, 0, lost), 1, P);
    missing[first] = missing[second] = 1;
    return cuzhaveli_rebuild_cells(shape, missing, sizeof missing, stripe, sizeof stripe).refusal == CUZHAVELI_OK;
}

int main(void)
{
    unsigned all = 0, only_rows = 0, only_ours = 0;
    for (size_t lost = 0; lost < DISKS; lost++)
        for (size_t first = 0; first < CELLS; first++)
            for (size_t second = first + 1; second < CELLS; second++) {
                if (first / P == lost || second / P == lost || first / P == second / P)
                    continue;
                int by_rows = first % P != second % P, ours = comes_back(lost, first, second);
                all++;
                only_rows += by_rows && !ours;
                only_ours += ours && !by_rows;
            }
    printf("%.1f %% of the cases are mended only by a code that decodes each row of cells on its own, %.1f %% only by ours\n",
           100.0 * only_rows / all, 100.0 * only_ours / all);
    return 0;
}
