/* Prints our plan, its read list, the judge's word on it and its text, and the balanced plan and some that relieve a
 * disk with their lists, for every array and lost disk. */

#include <cuzhaveli.h>
#include <stdio.h>
#include <string.h>

/* The plan as text, if it is accepted, what the judge says of that, and whether it is its own plain form. */
static void print_text(size_t width, size_t disks, size_t lost, const uint8_t *plan)
{
    uint8_t text[CUZHAVELI_TEXT_BYTES] = {0}, again[CUZHAVELI_TEXT_BYTES] = {0};
    struct cuzhaveli_written written =
        cuzhaveli_write_plan(width, disks, lost, plan, CUZHAVELI_PLAN_BYTES(width), text, sizeof text);
    struct cuzhaveli_judged judged = cuzhaveli_judge_text(width, disks, lost, text, written.length);
    struct cuzhaveli_written plain =
        cuzhaveli_plain_text(width, disks, lost, text, written.length, again, sizeof again);
    printf("%u %u %u reads %u: %zu bytes, %d\n%.*s", written.answer.refusal, judged.answer.refusal,
           plain.answer.refusal, judged.reads, written.length,
           plain.length == written.length && memcmp(text, again, plain.length) == 0, (int)written.length,
           (const char *)text);
}

static void print_plan(size_t width, size_t disks, size_t lost)
{
    uint8_t list[CUZHAVELI_LIST_BYTES(31, 31)], plan[CUZHAVELI_PLAN_BYTES(31)];
    struct cuzhaveli_plan ours = cuzhaveli_plan_disk(width, disks, lost);
    struct cuzhaveli_answer listed = cuzhaveli_read_list(width, disks, lost, list, CUZHAVELI_LIST_BYTES(width, disks));
    cuzhaveli_plan_bytes(&ours, width, plan);
    struct cuzhaveli_judged judged = cuzhaveli_judge_plan(width, disks, lost, plan, CUZHAVELI_PLAN_BYTES(width));
    printf("%zu %zu %zu: %u %u %u reads %u %u routes %u list ", width, disks, lost, ours.answer.refusal, listed.refusal,
           judged.answer.refusal, ours.reads, judged.reads, ours.routes);
    for (size_t cell = 0; listed.refusal == CUZHAVELI_OK && cell < CUZHAVELI_LIST_BYTES(width, disks); cell++)
        putchar(list[cell] ? '1' : '0');
    for (size_t n = 0; n < width; n++)
        printf(" %u,%u,%u", plan[3 * n], plan[3 * n + 1], plan[3 * n + 2]);
    putchar('\n');
    print_text(width, disks, lost, plan);
}

/* A further plan, and the list of what it reads. */
static void print_further(const char *name, struct cuzhaveli_plan further, size_t width, size_t disks, size_t lost)
{
    uint8_t list[CUZHAVELI_LIST_BYTES(31, 31)] = {0}, plan[CUZHAVELI_PLAN_BYTES(31)] = {0};
    cuzhaveli_plan_bytes(&further, width, plan);
    struct cuzhaveli_answer listed = cuzhaveli_plan_list(width, disks, lost, plan, CUZHAVELI_PLAN_BYTES(width), list,
                                                         CUZHAVELI_LIST_BYTES(width, disks));
    printf("%s %u: %u at %u reads %u routes %u cells ", name, further.answer.refusal, listed.refusal, listed.place,
           further.reads, further.routes);
    for (size_t cell = 0; cell < sizeof list; cell++)
        if (list[cell])
            printf("%zu ", cell);
    putchar('\n');
}

static void print_all(size_t width, size_t disks, size_t lost)
{
    print_plan(width, disks, lost);
    print_further("balanced", cuzhaveli_balanced_plan(width, disks, lost), width, disks, lost);
    for (size_t relieved = 0; relieved <= disks; relieved += 1 + width / 4)
        print_further("relief", cuzhaveli_relief_plan(width, disks, lost, relieved), width, disks, lost);
    print_further("fewest", cuzhaveli_fewest_plan(width, disks, lost), width, disks, lost);
}

int main(void)
{
    for (size_t width = 2; width <= 31; width++)
        for (size_t disks = 1; disks <= width; disks++)
            for (size_t lost = 0; lost <= disks + 2; lost++)
                print_all(width, disks, lost);
    return ferror(stdout) != 0;
}
