/* SPDX-License-Identifier: Apache-2.0 */
/* yours.h: what your code offers to be compared with the proved library. docs/TEST-YOURS.md
 * describes how.
 *
 * Write some of these functions over your code, leave out the rest, and run `make conformance
 * IMPL=mine.c` (or mine.a, mine.so), or `conformance/run mine.c`.
 *
 * An array has p rows, k data disks (disks 0 to k - 1), row parity P (disk k) and diagonal
 * parity Q (disk k + 1); a cell has s bytes. A function that takes a stripe comes in two forms;
 * offer one of them or both:
 *     yours_NAME           the stripe is one stretch of (k + 2) * p * s bytes; row i of disk c
 *                          starts at byte (c * p + i) * s
 *     yours_NAME_columns   the stripe is k + 2 pointers, one a disk; row i of disk c starts at
 *                          columns[c] + i * s
 *
 * Every function returns 0 if it did what was asked, YOURS_LEFT_OUT if your code does not do
 * this case (it is counted as left out), and a positive number if it refuses; after a refusal all
 * memory is unchanged. Lost disks and missing cells are filled with noise before a call and are
 * rebuilt in place; nothing else may change.
 *
 * The memory lies between protected pages, at any alignment unless yours_unit says otherwise. */

#ifndef YOURS_H
#define YOURS_H

#include <stddef.h>
#include <stdint.h>

#ifdef __cplusplus
extern "C" {
#endif

#define YOURS_LEFT_OUT (-1)

#ifndef YOURS_LINK /* the runner makes the functions weak, so that any of them may be missing */
#define YOURS_LINK
#endif

/* Stripes. */

/* Writes P and Q. */
YOURS_LINK int yours_encode(size_t p, size_t k, size_t s, uint8_t *stripe);
YOURS_LINK int yours_encode_columns(size_t p, size_t k, size_t s, uint8_t *const *columns);

/* *clean becomes 1 if every set XORs to zero, else 0. */
YOURS_LINK int yours_check(size_t p, size_t k, size_t s, const uint8_t *stripe, int *clean);
YOURS_LINK int yours_check_columns(size_t p, size_t k, size_t s, const uint8_t *const *columns, int *clean);

/* *verdict becomes 0 if the stripe is clean; 1 if it is not, and replacing the cells of one disk
 * alone can make it so: *disk; 2 if neither. */
YOURS_LINK int yours_scrub(size_t p, size_t k, size_t s, const uint8_t *stripe, int *verdict, size_t *disk);
YOURS_LINK int yours_scrub_columns(size_t p, size_t k, size_t s, const uint8_t *const *columns, int *verdict,
                                   size_t *disk);

/* Rebuilds disk `lost`. If you offer yours_plan, a stripe that is not clean must give what the
 * steps of that plan give; if you offer yours_plan or yours_read_list, cells that it does not
 * read hold noise. */
YOURS_LINK int yours_rebuild_one(size_t p, size_t k, size_t s, size_t lost, uint8_t *stripe);
YOURS_LINK int yours_rebuild_one_columns(size_t p, size_t k, size_t s, size_t lost, uint8_t *const *columns);

/* The same if the surviving disks are those of a clean stripe; refuses (19) if they are not. */
YOURS_LINK int yours_rebuild_tested(size_t p, size_t k, size_t s, size_t lost, uint8_t *stripe);
YOURS_LINK int yours_rebuild_tested_columns(size_t p, size_t k, size_t s, size_t lost, uint8_t *const *columns);

/* Rebuilds disks `first` and `second`, which come in either order. Any contents of the other
 * disks belong to exactly one clean stripe. */
YOURS_LINK int yours_rebuild_two(size_t p, size_t k, size_t s, size_t first, size_t second, uint8_t *stripe);
YOURS_LINK int yours_rebuild_two_columns(size_t p, size_t k, size_t s, size_t first, size_t second,
                                         uint8_t *const *columns);

/* Rebuilds the cells whose marks are not 0: byte c * p + i of `missing`, p * (k + 2) bytes, is
 * the mark of row i of disk c. Refuses (23) exactly if the other cells do not determine them. */
YOURS_LINK int yours_rebuild_cells(size_t p, size_t k, size_t s, const uint8_t *missing, uint8_t *stripe);
YOURS_LINK int yours_rebuild_cells_columns(size_t p, size_t k, size_t s, const uint8_t *missing,
                                           uint8_t *const *columns);

/* Puts `cell`, s bytes, into row `row` of data disk `disk` and changes P and Q so that the XOR
 * of every set is what it was, of stripes that are not clean too. */
YOURS_LINK int yours_update(size_t p, size_t k, size_t s, size_t row, size_t disk, const uint8_t *cell,
                            uint8_t *stripe);
YOURS_LINK int yours_update_columns(size_t p, size_t k, size_t s, size_t row, size_t disk, const uint8_t *cell,
                                    uint8_t *const *columns);

/* Units: n stripes that are verified together, in memory as one stripe with cells of n * s bytes
 * (docs/UNITS.md). A checksum block has 8 * p * (k + 2) + 8 bytes; `name` has 16. */

/* Writes the checksum block of unit `unit` of the set `name`. */
YOURS_LINK int yours_seal(size_t p, size_t k, size_t s, size_t n, const uint8_t *name, uint64_t unit,
                          const uint8_t *cells, uint8_t *block);

/* Rebuilds the pieces that do not fit the block, or whose mark is not 0: byte c * p + i of
 * `marks`, p * (k + 2) bytes, for row i of disk c. Then each mark is 0 if its piece fits, else 1.
 * Refuses (24) a block that does not fit its guard, and (23) exactly if the pieces that fit do not
 * determine the others. */
YOURS_LINK int yours_open(size_t p, size_t k, size_t s, size_t n, const uint8_t *name, uint64_t unit,
                          const uint8_t *block, uint8_t *marks, uint8_t *cells);

/* Plans: how a lost disk is rebuilt. */

/* Writes the p steps of your plan, three bytes each: row, kind (0 for a row set, 1 for a
 * diagonal set), set number. */
YOURS_LINK int yours_plan(size_t p, size_t k, size_t lost, uint8_t *plan);

/* Marks the cells that your rebuild of `lost` reads: writes p * (k + 2) bytes, 1 or 0, at c * p
 * + i for row i of disk c. */
YOURS_LINK int yours_read_list(size_t p, size_t k, size_t lost, uint8_t *list);

/* Judges a plan of 3 * p bytes: *reads becomes the number of different surviving cells that it
 * reads. Refuses (6, 7, 8 or 9) a plan that does not rebuild the disk; *step becomes the step,
 * counted from 0. */
YOURS_LINK int yours_judge(size_t p, size_t k, size_t lost, const uint8_t *plan, size_t *reads, size_t *step);

/* The same for a plan that is a text: the line `row,set,number`, then p lines such as `3,D,2`
 * (include/cuzhaveli.h). Refuses (22) another text. */
YOURS_LINK int yours_judge_text(size_t p, size_t k, size_t lost, const uint8_t *text, size_t length, size_t *reads,
                                size_t *step);

/* What your code needs and says. */

/* Cells have a multiple of so many bytes, and memory is aligned to the power of two in it. 1 if
 * missing. */
YOURS_LINK size_t yours_unit(void);

/* How your code refuses by the number of enum cuzhaveli_refusal. With YOURS_NEVER, and where
 * this is missing, arguments that it would have to refuse by 1, 2, 3, 4, 13 or 15 are not tried;
 * the rest must be refused anyhow. */
#define YOURS_NEVER 0
#define YOURS_ANYHOW 1    /* by a positive answer */
#define YOURS_BY_NUMBER 2 /* by that number; 6 to 9 with the step */
YOURS_LINK int yours_refuses(int number);

#ifdef __cplusplus
}
#endif

#endif
