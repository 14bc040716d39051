/* Prints the library's plans in the lines that tests/published/page.py has from the script of docs/generated/index.html: own, balanced,
 * relief of each other data disk, fewest and rows alone, for every array up to a width and every lost disk, with steps and
 * cells. */

#include <cuzhaveli.h>
#include <stdio.h>
#include <stdlib.h>

static const size_t WIDTHS[] = {3, 5, 7, 11, 13, 17, 19, 23, 29, 31};

/* A plan's steps and the cells that it reads, if the judge accepts it. */
static void print_bytes(const char *kind, size_t relieved, size_t p, size_t k, size_t lost, const uint8_t *plan)
{
    uint8_t list[CUZHAVELI_LIST_BYTES(31, 31)];
    struct cuzhaveli_judged judged = cuzhaveli_judge_plan(p, k, lost, plan, CUZHAVELI_PLAN_BYTES(p));
    struct cuzhaveli_answer listed =
        cuzhaveli_plan_list(p, k, lost, plan, CUZHAVELI_PLAN_BYTES(p), list, CUZHAVELI_LIST_BYTES(p, k));
    if (judged.answer.refusal != CUZHAVELI_OK || listed.refusal != CUZHAVELI_OK)
        printf("refused %u %u ", judged.answer.refusal, listed.refusal);
    printf("%zu %zu %zu %s %zu reads %u:", p, k, lost, kind, relieved, judged.reads);
    for (size_t step = 0; step < p; step++)
        printf(" %u,%u,%u", plan[3 * step], plan[3 * step + 1], plan[3 * step + 2]);
    putchar(' ');
    for (size_t cell = 0; cell < CUZHAVELI_LIST_BYTES(p, k); cell++)
        putchar(list[cell] ? '1' : '0');
    putchar('\n');
}

static void print_plan(const char *kind, size_t relieved, size_t p, size_t k, size_t lost, struct cuzhaveli_plan plan)
{
    uint8_t bytes[CUZHAVELI_PLAN_BYTES(31)] = {0};
    cuzhaveli_plan_bytes(&plan, p, bytes);
    print_bytes(kind, relieved, p, k, lost, bytes);
}

static void print_rows(size_t p, size_t k, size_t lost)
{
    uint8_t bytes[CUZHAVELI_PLAN_BYTES(31)] = {0};
    for (size_t row = 0; row < p; row++) {
        bytes[3 * row] = bytes[3 * row + 2] = (uint8_t)row;
        bytes[3 * row + 1] = lost == k + 1; /* no row set holds a cell of Q */
    }
    print_bytes("rows", 0, p, k, lost, bytes);
}

int main(int count, char **words)
{
    size_t most = count == 2 ? (size_t)atoi(words[1]) : 31;
    for (size_t w = 0; w < sizeof WIDTHS / sizeof *WIDTHS && WIDTHS[w] <= most; w++)
        for (size_t p = WIDTHS[w], k = 2; k <= p; k++)
            for (size_t lost = 0; lost <= k + 1; lost++) {
                print_plan("own", 0, p, k, lost, cuzhaveli_plan_disk(p, k, lost));
                print_plan("balanced", 0, p, k, lost, cuzhaveli_balanced_plan(p, k, lost));
                for (size_t relieved = 0; relieved < k; relieved++)
                    if (relieved != lost)
                        print_plan("relief", relieved, p, k, lost, cuzhaveli_relief_plan(p, k, lost, relieved));
                print_plan("fewest", 0, p, k, lost, cuzhaveli_fewest_plan(p, k, lost));
                print_rows(p, k, lost);
            }
    return ferror(stdout) != 0;
}
