/* The functions of the header that are compiled into the caller, against the library's calls.
 *
 * Prints what cuzhaveli_refusal_text says, a line a number, which inlines.py compares with the table of the Rust crate.
 * cuzhaveli_update_cells must give, for every data cell of every array, the cells that the proved update changes: those
 * of a stripe of zeros that are not 0 after it, once each. */

#include <cuzhaveli.h>

#include <stdio.h>
#include <string.h>

enum { NUMBERS = 256, MOST_CELLS = 4, UNTOUCHED = 7777 };

static int differs(size_t width, size_t disks, size_t row, size_t disk)
{
    uint8_t stripe[CUZHAVELI_LIST_BYTES(31, 31)] = {0}, cell = 1;
    size_t cells[MOST_CELLS] = {UNTOUCHED, UNTOUCHED, UNTOUCHED, UNTOUCHED};
    struct cuzhaveli_shape shape = {width, disks, 1};
    size_t count = cuzhaveli_update_cells(width, disks, row, disk, cells), changed = 0;
    struct cuzhaveli_answer answer =
        cuzhaveli_update_cell(shape, row, disk, stripe, CUZHAVELI_STRIPE_BYTES(shape), &cell, 1);
    if (answer.refusal != CUZHAVELI_OK)
        return count != 0 || cells[0] != UNTOUCHED;
    for (size_t at = 0; at < sizeof stripe; at++)
        changed += stripe[at];
    for (size_t n = 0; n < MOST_CELLS; n++)
        if (n >= count ? cells[n] != UNTOUCHED : cells[n] >= sizeof stripe || stripe[cells[n]]-- != 1)
            return 1;
    return changed != count || cells[0] != CUZHAVELI_CELL(width, row, disk);
}

int main(void)
{
    static const size_t widths[] = {3, 5, 7, 11, 13, 17, 19, 23, 29, 31};
    size_t tried = 0;
    for (unsigned number = 0; number < NUMBERS; number++)
        printf("%u %s\n", number, cuzhaveli_refusal_text(number));
    for (size_t w = 0; w < sizeof widths / sizeof *widths; w++)
        for (size_t disks = 2; disks <= widths[w]; disks++)
            for (size_t row = 0; row <= widths[w]; row++)
                for (size_t disk = 0; disk <= disks + 2; disk++, tried++)
                    if (differs(widths[w], disks, row, disk)) {
                        printf("cells of width %zu, disks %zu, row %zu, disk %zu\n", widths[w], disks, row, disk);
                        return 1;
                    }
    printf("tried %zu\n", tried);
    return 0;
}
