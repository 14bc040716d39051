/* SPDX-License-Identifier: Apache-2.0 */
/* cuzhaveli.h: a proved Liberation RAID-6 code. C99 and C++; x86-64 Linux; link with -lcuzhaveli.
 *
 * An array has a width p (3, 5, 7, 11, 13, 17, 19, 23, 29 or 31), k data disks (2 to p; disks 0 to k - 1), row
 * parity P (disk k) and diagonal parity Q (disk k + 1). In a stripe each disk holds p cells of s bytes, s = 1 to
 * 4096. The cell of row i on disk c starts at byte (c * p + i) * s, so the first k * p * s bytes are the film in
 * order, and each disk is contiguous.
 *
 * Row set R i holds the cells of row i on the data disks and on P. Diagonal set D i holds the cell of row
 * (i + c) mod p on each data disk c, the cell of row i on Q and, for i from 1, one cell more: row p - 1 - i of
 * disk p - (2 * i mod p), if that is a data disk. A stripe is clean if the cells of every set XOR to zero.
 *
 * Every call: tests its arguments first, in the order in which its comment lists the refusals, so a caller need
 * check none of them; answers a refusal number (CUZHAVELI_OK = 0) and a `place` (the step for refusals 6 to 9, else
 * 0); on a refusal writes nothing through its pointers, and gives every other field as 0 or false. It keeps no
 * state, allocates nothing, makes no system call, sets no errno, takes under 12 KiB of stack (cuzhaveli_open_unit
 * under 16), and may run on several threads at once on memory apart.
 *
 * What is proved, for every argument, is in docs/TRUST.md. What a C caller owes, since no proof sees it:
 *  - a pointer with a length n points to n bytes that may be read (and written, if not const), at any
 *    alignment; it may be NULL if n is not the length required (the call is then refused, at the latest by 5), and,
 *    for `input`, `text` and `out`, if n is 0;
 *  - `lengths` points to `lengths_len` numbers that may be read, aligned as uint64_t; it may be NULL if that is 0 or
 *    more than CUZHAVELI_MAX_FILES;
 *  - `run` is not NULL and is aligned as struct cuzhaveli_run;
 *  - `list` of cuzhaveli_report_disk points to `list_len` records, not bytes, is aligned as struct
 *    cuzhaveli_array_state (8 bytes), and may be NULL if `list_len` is 0 or over CUZHAVELI_MAX_ARRAYS;
 *  - `back` is a bool of C99 or C++: any number becomes one in a call through this header. From a language without
 *    one pass a byte 0 or 1, and no other;
 *  - memory that a call writes overlaps no other argument, and nobody else uses it meanwhile.
 * Padding between fields is unspecified: compare fields, not bytes. */

#ifndef CUZHAVELI_H
#define CUZHAVELI_H

#include <stddef.h>
#include <stdint.h>
#ifndef __cplusplus
#include <stdbool.h>
#endif

#ifdef __cplusplus
extern "C" {
#endif

#define CUZHAVELI_VERSION 10000 /* 1.0.0, as cuzhaveli_version() says it */
#define CUZHAVELI_MAX_WIDTH 31
#define CUZHAVELI_MAX_CELL_SIZE 4096
#define CUZHAVELI_MAX_SERVERS 16          /* without the parity server */
#define CUZHAVELI_MAX_STRIPES 4294967295u /* of one run; cuzhaveli_package_space can give more */
#define CUZHAVELI_MAX_FILES 4096          /* of a package */
#define CUZHAVELI_TEXT_BYTES 263          /* room for a plan that is written as text */
#define CUZHAVELI_MAX_ARRAYS 64           /* of one list */
#define CUZHAVELI_NO_LOSS 255             /* a byte of a server's losses that names no disk */
#define CUZHAVELI_MAX_PIECE 32768         /* bytes of a piece of more than one cell */
#define CUZHAVELI_MAX_GROUP 65536         /* stripes of a group */
#define CUZHAVELI_LABEL_BYTES 4096        /* at either end of an image */
#define CUZHAVELI_NAME_BYTES 16           /* the name of a set */

/* Sizes in bytes, of type size_t, for numbers within the limits. Each takes what the calls take to which it belongs:
 * on plans width and disks, on stripes a shape. */
#define CUZHAVELI_PLAN_BYTES(width) ((size_t)3 * (size_t)(width))                    /* a plan as bytes */
#define CUZHAVELI_LIST_BYTES(width, disks) (((size_t)(disks) + 2) * (size_t)(width)) /* a read list, or marks */
#define CUZHAVELI_COLUMN_BYTES(shape) ((shape).width * (shape).cell_size)            /* a disk's part of a stripe */
#define CUZHAVELI_DATA_BYTES(shape) ((shape).disks * CUZHAVELI_COLUMN_BYTES(shape))  /* a stripe's film */
#define CUZHAVELI_STRIPE_BYTES(shape) (((shape).disks + 2) * CUZHAVELI_COLUMN_BYTES(shape))
#define CUZHAVELI_SERVERS_BYTES(shape, servers) (((size_t)(servers) + 1) * CUZHAVELI_STRIPE_BYTES(shape))
#define CUZHAVELI_LOSSES_BYTES(servers) ((size_t)2 * ((size_t)(servers) + 1))
#define CUZHAVELI_UNIT_BYTES(shape, stripes) ((size_t)(stripes) * CUZHAVELI_STRIPE_BYTES(shape))
#define CUZHAVELI_UNIT_FILM(shape, stripes) ((size_t)(stripes) * CUZHAVELI_DATA_BYTES(shape)) /* a unit's film */
#define CUZHAVELI_BLOCK_BYTES(width, disks) (8 * CUZHAVELI_LIST_BYTES(width, disks) + 8) /* a checksum block */

/* The place of a cell in a read list or among marks; times the cell size, its first byte in a stripe. */
#define CUZHAVELI_CELL(width, row, disk) ((size_t)(disk) * (size_t)(width) + (size_t)(row))

enum cuzhaveli_refusal {
    CUZHAVELI_OK = 0,
    CUZHAVELI_BAD_WIDTH = 1,          /* p is not one of the ten */
    CUZHAVELI_BAD_CELL_SIZE = 2,      /* s is 0 or over 4096 */
    CUZHAVELI_NO_SUCH_DISK = 3,       /* a disk number over k + 1; of an updated cell or a relieved disk, k or more */
    CUZHAVELI_SAME_DISK = 4,          /* two disks that must differ are the same */
    CUZHAVELI_BAD_LENGTH = 5,         /* a length is another than the one required */
    CUZHAVELI_STEP_RANGE = 6,         /* a step's row or set number is p or more, or its kind over 1 */
    CUZHAVELI_STEP_SET = 7,           /* the step's set lacks that row's lost cell */
    CUZHAVELI_STEP_REPEATED = 8,      /* the row was rebuilt by an earlier step */
    CUZHAVELI_STEP_EARLY = 9,         /* another lost cell of the set is still missing */
    CUZHAVELI_NOT_NEXT = 10,          /* next is N or more, the stripe is not next, or skipped is above next */
    CUZHAVELI_PACKAGE_TOO_LONG = 11,  /* a package of more than 2^48 bytes, all files together */
    CUZHAVELI_BAD_TEXT = 12,          /* input of the plan program; in its text only, no call answers it */
    CUZHAVELI_BAD_DISKS = 13,         /* k is under 2 or over p; tested right after 1 */
    CUZHAVELI_TOO_MANY_FILES = 14,    /* a package of more than 4096 files; tested just before 11 */
    CUZHAVELI_NO_SUCH_ROW = 15,       /* a row number of p or more */
    CUZHAVELI_BAD_RATE = 16,          /* a rate of more than 1000 cents a GiB */
    CUZHAVELI_TOO_MANY_BYTES = 17,    /* a bill of more than 2^54 bytes */
    CUZHAVELI_NO_SUCH_SERVER = 18,    /* m servers under 2 or over 16, or a server number over m */
    CUZHAVELI_SURVIVORS_DISAGREE = 19, /* the surviving disks are those of no clean stripe; tested last */
    CUZHAVELI_NO_SUCH_ARRAY = 20,     /* an array number beyond the list, or a list of more than 64; tested first */
    CUZHAVELI_DISK_UNCHANGED = 21,    /* a loss of a lost disk, or a return of a present one; tested last */
    CUZHAVELI_BAD_PLAN_TEXT = 22,     /* a text that is not of a plan's form, or not of p lines; tested after 5 */
    CUZHAVELI_UNDETERMINED = 23,      /* the other cells do not determine the missing ones; tested last */
    CUZHAVELI_DOES_NOT_FIT = 24,      /* a checksum block or a piece has another checksum; tested last */
    CUZHAVELI_BAD_UNIT = 25,          /* the stripes of a unit or of a group are out of limits */
    CUZHAVELI_NO_SUCH_PLACE = 26      /* the images have no such row, stripe, unit or byte of film; tested last */
};

/* What a refusal says, for people to read: a text that is kept as long as the program runs, without a line's end. It is
 * never NULL, also for a number that this header does not know; for 6 to 9 tell the step, `place`, too. */
static inline const char *cuzhaveli_refusal_text(unsigned refusal)
{
    static const char *const texts[] = {
        "not refused",
        "the width is not one of 3, 5, 7, 11, 13, 17, 19, 23, 29, 31",
        "the cell size is 0 or over 4096",
        "the array has no disk of that number, or no data disk",
        "two disks that must differ are the same",
        "a length is another than the one required",
        "the row or set number of a step is the width or more, or its kind over 1",
        "the set of a step lacks that row's lost cell",
        "the row of a step was rebuilt by an earlier one",
        "another lost cell of a step's set is still missing",
        "next is not below the stripes of the run, the stripe is not next, or more are skipped than passed",
        "the package has more than 2^48 bytes",
        "the input is not of the plan program's form",
        "the data disks are fewer than 2 or more than the width",
        "the package has more than 4096 files",
        "the array has no row of that number",
        "a rate is over 1000 cents a GiB",
        "the bill has more than 2^54 bytes",
        "the servers are fewer than 2 or more than 16, or there is none of that number",
        "the surviving disks are those of no clean stripe",
        "the list has no array of that number, or more than 64 arrays",
        "the disk reported lost is lost, or the one reported back is not",
        "the text is not of a plan's form, or has another number of lines than the width",
        "the other cells do not determine the missing ones",
        "a checksum block or a piece has another checksum than the one required",
        "the stripes of a unit or of a group are out of limits",
        "the images have no such row, stripe, unit or byte of film"};
    return refusal < sizeof texts / sizeof *texts ? texts[refusal] : "a refusal that this header does not know";
}

/* p, k and s. */
struct cuzhaveli_shape {
    size_t width;
    size_t disks;
    size_t cell_size;
};

/* An enum cuzhaveli_refusal and, for 6 to 9, the step, counted from 0. The first field of every other answer. */
struct cuzhaveli_answer {
    uint8_t refusal;
    uint32_t place;
};

/* Step n rebuilds the lost cell of rows[n] as the XOR of the other cells of set numbers[n], a row set (kinds[n] = 0)
 * or a diagonal set (1); n from 0 to p - 1, zeros after. */
struct cuzhaveli_steps {
    uint8_t rows[31];
    uint8_t kinds[31];
    uint8_t numbers[31];
};

/* A plan. Bit i of `routes` is set if row i takes a diagonal; `reads` counts the different surviving cells read. */
struct cuzhaveli_plan {
    struct cuzhaveli_answer answer;
    struct cuzhaveli_steps steps;
    uint32_t routes;
    uint32_t reads;
};

/* The judge's answer: how many different surviving cells the plan reads. */
struct cuzhaveli_judged {
    struct cuzhaveli_answer answer;
    uint32_t reads;
};

/* How many bytes of text were written. */
struct cuzhaveli_written {
    struct cuzhaveli_answer answer;
    size_t length;
};

struct cuzhaveli_checked {
    struct cuzhaveli_answer answer;
    bool clean;
};

/* What a scrub can say of a stripe. */
enum cuzhaveli_verdict {
    CUZHAVELI_CLEAN = 0,
    CUZHAVELI_ONE_DISK = 1,     /* not clean, and the cells of one disk alone can make it so: `disk` */
    CUZHAVELI_MORE_THAN_ONE = 2 /* not clean, and no disk's cells alone can make it so */
};

/* An enum cuzhaveli_verdict, and that one disk's number, 0 with the other verdicts. */
struct cuzhaveli_scrubbed {
    struct cuzhaveli_answer answer;
    uint8_t verdict;
    size_t disk;
};

/* A text: its first `length` bytes, zeros after them. */
struct cuzhaveli_text {
    uint8_t bytes[458];
    size_t length;
};

/* The stripes that a package takes, the bytes of one disk for them, and whether these are free. */
struct cuzhaveli_space {
    struct cuzhaveli_answer answer;
    uint64_t stripes;
    uint64_t bytes;
    bool fits;
};

/* The numbers of a set of images, which keeps a film of `length` bytes on k + 2 disks, one image a disk. */
struct cuzhaveli_layout {
    size_t width;
    size_t disks;
    size_t cell_size;
    uint64_t unit;   /* stripes of a unit; of more than one, unit * cell_size is at most CUZHAVELI_MAX_PIECE */
    uint64_t group;  /* stripes of a group, a multiple of `unit` and at most CUZHAVELI_MAX_GROUP */
    uint64_t length; /* at most 2^48 */
};

/* The stripes and the units of the film, the first byte of the second label, and the bytes of an image. */
struct cuzhaveli_image {
    struct cuzhaveli_answer answer;
    uint64_t stripes;
    uint64_t units;
    uint64_t end;
    uint64_t bytes; /* end + CUZHAVELI_LABEL_BYTES */
};

/* `bytes` bytes of an image, from byte `at` on. */
struct cuzhaveli_place {
    struct cuzhaveli_answer answer;
    uint64_t at;
    uint64_t bytes;
};

/* The first stripe of a unit and how many it has; its piece of one row has `bytes` bytes, from byte `at` on. */
struct cuzhaveli_unit_place {
    struct cuzhaveli_answer answer;
    uint64_t first;
    uint64_t stripes;
    uint64_t at;
    uint64_t bytes;
};

/* The stripe, data disk, row and byte of the cell of a byte of film, and its place in the image of that disk. */
struct cuzhaveli_film_place {
    struct cuzhaveli_answer answer;
    uint64_t stripe;
    size_t disk;
    size_t row;
    size_t byte;
    uint64_t at;
};

/* A run's record: plain numbers. Keep them in a file field by field, not as this struct's bytes. */
struct cuzhaveli_run {
    struct cuzhaveli_shape shape;
    size_t lost;
    uint32_t stripes; /* of the run */
    uint32_t next;    /* stripe, counted from 0; so many have been passed */
    uint32_t skipped; /* of those passed */
};

struct cuzhaveli_run_answer {
    struct cuzhaveli_answer answer;
    struct cuzhaveli_run run;
};

/* Whether a run is over (next = stripes), and the cells read so far: rebuilt stripes times the plan's reads. */
struct cuzhaveli_progress {
    struct cuzhaveli_answer answer;
    bool over;
    uint64_t cells;
};

/* The bytes in each band, which add up to the whole, and the price in cents. */
struct cuzhaveli_bill {
    struct cuzhaveli_answer answer;
    uint64_t first;
    uint64_t second;
    uint64_t third;
    uint64_t cents;
};

/* An array of a list: its p and k, and bit d of `lost` set if disk d is lost. */
struct cuzhaveli_array_state {
    size_t width;
    size_t disks;
    uint64_t lost;
};

/* How many arrays of a list can bear so many more losses. They add up to the arrays of the list. */
struct cuzhaveli_totals {
    uint32_t optimal;  /* two more: no disk is lost */
    uint32_t degraded; /* one more: one is */
    uint32_t critical; /* none: two are */
    uint32_t failed;   /* past saving, until disks come back: three or more are */
};

struct cuzhaveli_board {
    struct cuzhaveli_answer answer;
    struct cuzhaveli_totals totals;
};

/* Records of runs opened by earlier versions: of arrays with k = p, and of those with k before stripes could be
 * skipped. */
struct cuzhaveli_full_run {
    size_t width;
    size_t size;
    size_t disk;
    uint32_t stripes;
    uint32_t next;
};

struct cuzhaveli_disks_run {
    struct cuzhaveli_shape shape;
    size_t lost;
    uint32_t stripes;
    uint32_t next;
};

/* Plans. They move no bytes of a stripe and need no cell size. */

/* Our plan for a lost disk. It reads k * p cells for P or Q and, where k = p, (3 * p * p + 1) / 4 for a data disk, and
 * no plan that the judge accepts reads less; where k < p it reads the cells on the disks present that the plan for
 * k = p reads. Refuses 1, 13, 3. */
struct cuzhaveli_plan cuzhaveli_plan_disk(size_t width, size_t disks, size_t lost);

/* The balanced plan for a lost data disk: no survivor gives more than (3 * p + 2) / 4 of its cells, 23 of 31, where our
 * plan asks up to p - 1 of one. Every plan that the judge accepts has a survivor that gives as many where k = p, and
 * where k < p if lost >= (p - 1) / 2 or lost + (p - 1) / 2 < k. Where k = p it reads (3 * p * p + 1) / 4 cells in all,
 * as few as ours. For P and Q it is our plan. Refuses 1, 13, 3. */
struct cuzhaveli_plan cuzhaveli_balanced_plan(size_t width, size_t disks, size_t lost);

/* The plan that asks least of one surviving data disk, `relieved`, such as one that is slow or failing: (p + 1) / 2 of
 * its cells, and no plan that the judge accepts asks less of any surviving data disk. Other disks give up to p - 1.
 * Where k = p it reads (3 * p * p + 1) / 4 cells in all, as few as ours. For a lost P or Q it is our plan, which reads
 * every data disk whole. Refuses 1, 13, 3 (lost), 3 (relieved, for P and Q too), 4. */
struct cuzhaveli_plan cuzhaveli_relief_plan(size_t width, size_t disks, size_t lost, size_t relieved);

/* The plan for a lost data disk that reads no more cells than the other three, for arrays with empty bays: at most
 * k * p - (k - 1) * (p + 1) / 4 cells. No plan that the judge accepts reads less where k = p, with (3 * p * p + 1) / 4
 * cells, where k = p - 1, with (3 * p * p - 4 * p + 5) / 4, and where k = 2, with (3 * p + 1) / 2. A survivor may give up
 * to p - 1 of its cells. For P and Q it is our plan. Refuses 1, 13, 3. */
struct cuzhaveli_plan cuzhaveli_fewest_plan(size_t width, size_t disks, size_t lost);

/* Writes a plan's steps as bytes, three a step: row, kind, set number, as the calls below take a plan. `width` is that
 * of the call that gave the plan; `bytes` has room for CUZHAVELI_PLAN_BYTES(width). */
static inline void cuzhaveli_plan_bytes(const struct cuzhaveli_plan *plan, size_t width, uint8_t *bytes)
{
    size_t n;
    for (n = 0; n < width && n < CUZHAVELI_MAX_WIDTH; n++) {
        bytes[3 * n] = plan->steps.rows[n];
        bytes[3 * n + 1] = plan->steps.kinds[n];
        bytes[3 * n + 2] = plan->steps.numbers[n];
    }
}

/* Marks the cells that our plan reads: writes list[0 .. CUZHAVELI_LIST_BYTES(width, disks)), 1 at
 * CUZHAVELI_CELL(width, row, disk) for a cell that is read, else 0. Only these have to be read from disk before a
 * rebuild of that lost disk. Refuses 1, 13, 3, 5. */
struct cuzhaveli_answer cuzhaveli_read_list(size_t width, size_t disks, size_t lost, uint8_t *list, size_t list_len);

/* Judges another planner's plan of CUZHAVELI_PLAN_BYTES(width) bytes, three a step: row, kind, set number. It is
 * accepted exactly if none of the refusals applies; steps are tested in order, 6 to 9 upward within a step, and
 * `place` is the step. Refuses 1, 13, 3, 5, 6, 7, 8, 9. */
struct cuzhaveli_judged cuzhaveli_judge_plan(size_t width, size_t disks, size_t lost, const uint8_t *plan,
                                             size_t plan_len);

/* Marks the cells that a plan of CUZHAVELI_PLAN_BYTES(width) bytes reads, if the judge accepts it, as
 * cuzhaveli_read_list does for ours. Refuses 1, 13, 3, 5, 6, 7, 8, 9. */
struct cuzhaveli_answer cuzhaveli_plan_list(size_t width, size_t disks, size_t lost, const uint8_t *plan,
                                            size_t plan_len, uint8_t *list, size_t list_len);

/* What the plan program prints for an input of input_len bytes, with k = p. The input has the lines `p,lost` and two
 * numbers such as `5,1`, each of one or two digits without leading zeros, ended by LF; the text has the line
 * `step,row,set,number,new` and one for each step (set R or D, cells no earlier step read). Refuses nothing. Another
 * input gives the text `refused,12`, a width or a disk that is not there `refused,1` or `refused,3`. `input` may be
 * NULL if input_len is 0. */
struct cuzhaveli_text cuzhaveli_plan_text(const uint8_t *input, size_t input_len);

/* A plan as text, as hosts keep it in files: the line `row,set,number`, then `width` lines, one for each step in order,
 * such as `3,D,2`: the row; R for a row set or D for a diagonal set, or r, d; the set's number. Numbers have one to
 * three digits, leading zeros allowed, and are at most 255. Each line ends in LF or CR LF, the last one too, and
 * nothing else is in the text, neither spaces nor empty lines. A text has `text_len` bytes and need not end in a 0;
 * `text` may be NULL if it has none. The plain form of a plan is the text with LF, capitals, and no leading zero. */

/* Judges a plan that is a text: the answer is that of cuzhaveli_judge_plan for its steps. Refuses 1, 13, 3, 22, 6, 7,
 * 8, 9. */
struct cuzhaveli_judged cuzhaveli_judge_text(size_t width, size_t disks, size_t lost, const uint8_t *text,
                                             size_t text_len);

/* Writes a plan of CUZHAVELI_PLAN_BYTES(width) bytes, if the judge accepts it, in its plain form: out[0 .. length),
 * with no 0 after it; the bytes after it are unchanged. `out_len` is CUZHAVELI_TEXT_BYTES, which is enough for every
 * accepted plan. Refuses 1, 13, 3, 5, 6, 7, 8, 9. */
struct cuzhaveli_written cuzhaveli_write_plan(size_t width, size_t disks, size_t lost, const uint8_t *plan,
                                              size_t plan_len, uint8_t *out, size_t out_len);

/* The same for a plan that is a text. Two texts of accepted plans give the same bytes exactly if they name the same
 * steps in the same order, and a plain text gives itself. Refuses 1, 13, 3, 5, 22, 6, 7, 8, 9. */
struct cuzhaveli_written cuzhaveli_plain_text(size_t width, size_t disks, size_t lost, const uint8_t *text,
                                              size_t text_len, uint8_t *out, size_t out_len);

/* The space that a package of files takes, each on stripes of its own. File i has lengths[i] bytes, and its stripes
 * are lengths[i] / CUZHAVELI_DATA_BYTES(shape), rounded up, none for an empty file. The package takes the sum of
 * these, and CUZHAVELI_COLUMN_BYTES(shape) bytes of each disk for a stripe; it fits if that need is at most `free`,
 * the free bytes of one disk. No files take nothing. Refuses 1, 13, 2, 14, 11. */
struct cuzhaveli_space cuzhaveli_package_space(struct cuzhaveli_shape shape, const uint64_t *lengths,
                                               size_t lengths_len, uint64_t free);

/* Stripes. `stripe_len` is CUZHAVELI_STRIPE_BYTES(shape), `column_len` CUZHAVELI_COLUMN_BYTES(shape). */

/* Writes P and Q, the last two disks of the stripe, so that it is clean; the film before them is unchanged.
 * Refuses 1, 13, 2, 5. */
struct cuzhaveli_answer cuzhaveli_encode_stripe(struct cuzhaveli_shape shape, uint8_t *stripe, size_t stripe_len);

/* Says whether a stripe is clean. Refuses 1, 13, 2, 5. */
struct cuzhaveli_checked cuzhaveli_check_stripe(struct cuzhaveli_shape shape, const uint8_t *stripe,
                                                size_t stripe_len);

/* Says whether a stripe is clean and, if it is not, which disk it is whose cells alone can be replaced to make it so:
 * at most one disk is such. If bytes of one disk of a clean stripe have changed, data, P or Q, that disk is named. If
 * bytes of several disks have, the answer is CUZHAVELI_MORE_THAN_ONE, unless what is there happens to agree with
 * a clean stripe, or with one but for a single disk. The stripe is only read; cuzhaveli_rebuild_one gives what the
 * named disk should hold. A refused call has the verdict 0 too, so test `answer.refusal` first. Refuses 1, 13, 2, 5. */
struct cuzhaveli_scrubbed cuzhaveli_scrub_stripe(struct cuzhaveli_shape shape, const uint8_t *stripe,
                                                 size_t stripe_len);

/* Writes the lost disk to `column` by our plan. Only the cells marked in the read list matter: the rest of the stripe
 * may hold anything, the lost disk's part too. If the marked cells are those of a clean stripe, the column is that
 * stripe's. The stripe is only read. Refuses 1, 13, 2, 3, 5. */
struct cuzhaveli_answer cuzhaveli_rebuild_one(struct cuzhaveli_shape shape, size_t lost, const uint8_t *stripe,
                                              size_t stripe_len, uint8_t *column, size_t column_len);

/* Does the same by the balanced plan: only the cells that cuzhaveli_plan_list marks for it matter. Refuses 1, 13, 2, 3,
 * 5. */
struct cuzhaveli_answer cuzhaveli_rebuild_balanced(struct cuzhaveli_shape shape, size_t lost, const uint8_t *stripe,
                                                   size_t stripe_len, uint8_t *column, size_t column_len);

/* Does the same by any plan that the judge accepts, CUZHAVELI_PLAN_BYTES(shape.width) bytes: only the cells that
 * cuzhaveli_plan_list marks for it matter, and the cell that a step rebuilds goes to that row of the column, so that
 * accepted orders of the same steps give the same. On a refusal the column is unchanged. Refuses 1, 13, 2, 3, 5, 6,
 * 7, 8, 9. */
struct cuzhaveli_answer cuzhaveli_rebuild_by_plan(struct cuzhaveli_shape shape, size_t lost, const uint8_t *plan,
                                                  size_t plan_len, const uint8_t *stripe, size_t stripe_len,
                                                  uint8_t *column, size_t column_len);

/* Does what cuzhaveli_rebuild_one does where the surviving disks are those of a clean stripe, and refuses by 19 exactly
 * where no clean stripe has all surviving cells: the column is then the lost disk of that stripe. Every surviving cell
 * is read, on the read list or not; what the stripe holds for the lost disk plays no part. A changed byte of one
 * surviving disk is always noticed; exchanged disks are, unless what is there is a clean stripe's after all, as it
 * is if Q is lost. On a refusal the column is unchanged. Refuses 1, 13, 2, 3, 5, 19. */
struct cuzhaveli_answer cuzhaveli_rebuild_tested(struct cuzhaveli_shape shape, size_t lost, const uint8_t *stripe,
                                                 size_t stripe_len, uint8_t *column, size_t column_len);

/* Writes the two lost disks, in either order, in their places in the stripe: any contents of the other disks belong to
 * exactly one clean stripe, and that is what is there after. What the stripe held for the two is never used.
 * Refuses 1, 13, 2, 3, 4, 5. */
struct cuzhaveli_answer cuzhaveli_rebuild_two(struct cuzhaveli_shape shape, size_t first, size_t second,
                                              uint8_t *stripe, size_t stripe_len);

/* Writes the missing cells of a stripe in their places: those whose byte in `missing`, at CUZHAVELI_CELL(shape.width,
 * row, disk) of CUZHAVELI_LIST_BYTES(shape.width, shape.disks), is not 0. What the stripe holds for them is never used,
 * and no other byte changes. It refuses by 23 exactly if the other cells do not determine the missing ones: if two
 * different clean stripes agree on all of the others. Cells on up to two disks are always determined, more than 2 * p
 * cells never. If the other cells are those of a clean stripe, that one is there after; else each missing cell is
 * what some of the sets give. Refuses 1, 13, 2, 5, 23. */
struct cuzhaveli_answer cuzhaveli_rebuild_cells(struct cuzhaveli_shape shape, const uint8_t *missing,
                                                size_t missing_len, uint8_t *stripe, size_t stripe_len);

/* Puts `cell`, shape.cell_size bytes, into row `row` of data disk `disk`. Beside that cell only the P cell of its row
 * and the Q cells of the diagonals that hold it change (one, or two for an extra cell), so that the XOR of every set is
 * what it was, and a clean stripe is left as encoding it anew would leave it. No other byte of the stripe matters: a
 * caller may read just these cells and write just these back. Updates of different cells may come in any order; of the
 * same cell, the last one counts. Refuses 1, 13, 2, 3 (P and Q too), 5, 15. */
struct cuzhaveli_answer cuzhaveli_update_cell(struct cuzhaveli_shape shape, size_t row, size_t disk, uint8_t *stripe,
                                              size_t stripe_len, const uint8_t *cell, size_t cell_len);

/* The cells that an update of row `row` of data disk `disk` reads and changes, as CUZHAVELI_CELL numbers them: that
 * cell, the P cell of its row, the Q cell of its diagonal and, if it is an extra cell, the Q cell of the diagonal that
 * has it as such. Gives their number, 3 or 4; 0, and writes nothing, if there is no such row or data disk. */
static inline size_t cuzhaveli_update_cells(size_t width, size_t disks, size_t row, size_t disk, size_t cells[4])
{
    if (row >= width || disk >= disks || disks > width)
        return 0;
    cells[0] = CUZHAVELI_CELL(width, row, disk);
    cells[1] = CUZHAVELI_CELL(width, row, disks);
    cells[2] = CUZHAVELI_CELL(width, (row + width - disk) % width, disks + 1);
    if (disk == 0 || disk != (2 * row + 2) % width) /* the extra cell of diagonal p - 1 - row is on that disk */
        return 3;
    cells[3] = CUZHAVELI_CELL(width, width - 1 - row, disks + 1);
    return 4;
}

/* Servers: `servers` of them, m = 2 to 16, with arrays of one shape, and a parity server, number m. Their m + 1 stripes
 * lie one after another in `stripes`, CUZHAVELI_SERVERS_BYTES(shape, servers) bytes; that of server i starts at byte
 * i * CUZHAVELI_STRIPE_BYTES(shape). */

/* Writes the parity server's stripe, the last: the XOR of the others, byte by byte. If they are clean, so is it; they
 * are only read. Refuses 1, 13, 2, 18, 5. */
struct cuzhaveli_answer cuzhaveli_write_server(struct cuzhaveli_shape shape, size_t servers, uint8_t *stripes,
                                               size_t stripes_len);

/* Rebuilds the stripe of server `lost`, 0 to m, from the others. These may have lost up to two disks each:
 * losses[2 * i] and losses[2 * i + 1] are those of server i, CUZHAVELI_NO_LOSS in either for none, in
 * CUZHAVELI_LOSSES_BYTES(servers) bytes; the lost server's own two bytes are not read. The lost disks are mended first,
 * in their places: one as cuzhaveli_rebuild_one does, two as cuzhaveli_rebuild_two does. Then the lost server becomes
 * the XOR of the others. What it and the lost disks held is never used, and no other byte changes. If all m + 1 stripes
 * were clean and the last the XOR of the rest before the losses, all come back as they were. The stripes are tested for
 * 5 before the losses; 3 and 4 come server by server. Refuses 1, 13, 2, 18, 5, 3, 4. */
struct cuzhaveli_answer cuzhaveli_rebuild_server(struct cuzhaveli_shape shape, size_t servers, size_t lost,
                                                 uint8_t *stripes, size_t stripes_len, const uint8_t *losses,
                                                 size_t losses_len);

/* Runs: the rebuild of one disk over N = `stripes` stripes, in their order, each rebuilt or skipped. */

/* Opens a run over `stripes` stripes (0: over at once), with next = 0 and skipped = 0. A number over
 * CUZHAVELI_MAX_STRIPES is cut to 32 bits by C before the call can see it: compare first, and use a second run.
 * Refuses 1, 13, 2, 3, with a record of zeros, which every call refuses. */
struct cuzhaveli_run_answer cuzhaveli_open_run(struct cuzhaveli_shape shape, size_t lost, uint32_t stripes);

/* Rebuilds stripe `which`, which must be the run's next, as cuzhaveli_rebuild_one does, and moves the record on by
 * one. On a refusal the record is unchanged, too. Refuses 1, 13, 2, 3, 5, 10. */
struct cuzhaveli_answer cuzhaveli_step_run(struct cuzhaveli_run *run, uint64_t which, const uint8_t *stripe,
                                           size_t stripe_len, uint8_t *column, size_t column_len);

/* Skips stripe `which`, which must be the run's next, and which holds no film: moves next and skipped on by one. On a
 * refusal the record is unchanged. Refuses 1, 13, 2, 3, 10. */
struct cuzhaveli_answer cuzhaveli_skip_stripe(struct cuzhaveli_run *run, uint64_t which);

/* How far a run is; the record is only read. Refuses 1, 13, 2, 3, and 10 if skipped is above next. */
struct cuzhaveli_progress cuzhaveli_run_progress(const struct cuzhaveli_run *run);

/* The record of a run that an earlier version opened, as this version keeps it: k = p for the first, nothing skipped
 * for both. Refuses nothing; calls on the record do, as on any other. */
struct cuzhaveli_run cuzhaveli_resume_full_run(struct cuzhaveli_full_run old);
struct cuzhaveli_run cuzhaveli_resume_disks_run(struct cuzhaveli_disks_run old);

/* Images: where the bytes of a film are on its disks. An image has a label of CUZHAVELI_LABEL_BYTES at either end, and
 * between them groups of `group` stripes, the last one of those that are left. In a group of G stripes from byte b on,
 * the cell of row i of its n-th stripe starts at byte b + (i * G + n) * cell_size; after its cells come the checksum
 * blocks of its units, CUZHAVELI_BLOCK_BYTES(width, disks) each, then zeros up to a multiple of CUZHAVELI_LABEL_BYTES. A
 * unit is `unit` stripes of a group, the last one of those that are left; a piece is the cells of one row of a unit on
 * one disk, side by side. What two accepted calls on one layout place does not overlap, unless one is of the other, and
 * lies between the labels; every byte of film has one place. The calls take no pointer, and so read no image. */

/* The stripes, the units and the bytes of an image. No film has none, and images of two labels. Refuses 1, 13, 2, 11,
 * 25. */
struct cuzhaveli_image cuzhaveli_image_bytes(struct cuzhaveli_layout layout);

/* The cell of row `row` of stripe `stripe`, counted from 0 over the film, in the image of every disk. Refuses 1, 13, 2,
 * 11, 25, 26. */
struct cuzhaveli_place cuzhaveli_cell_place(struct cuzhaveli_layout layout, size_t row, uint64_t stripe);

/* The checksum block of unit `unit`, counted from 0 over the film. Refuses 1, 13, 2, 11, 25, 26. */
struct cuzhaveli_place cuzhaveli_block_place(struct cuzhaveli_layout layout, uint64_t unit);

/* The stripes of unit `unit`, and its piece of row `row`: stripes * cell_size bytes, the cells of that row in the order
 * of the stripes. Refuses 1, 13, 2, 11, 25, 26. */
struct cuzhaveli_unit_place cuzhaveli_unit_place(struct cuzhaveli_layout layout, size_t row, uint64_t unit);

/* Byte `byte` of the film. Refuses 1, 13, 2, 11, 25, 26. */
struct cuzhaveli_film_place cuzhaveli_film_place(struct cuzhaveli_layout layout, uint64_t byte);

/* Units: stripes that are verified together, under checksums. A unit of n = `stripes` stripes lies in memory as its
 * pieces, n * cell_size bytes each, by their CUZHAVELI_CELL(width, row, disk): CUZHAVELI_UNIT_BYTES(shape, stripes) in
 * all. n is at least 1 and n * cell_size at most CUZHAVELI_MAX_PIECE. So a unit is like one stripe with cells of
 * n * cell_size bytes, and as long as that is at most CUZHAVELI_MAX_CELL_SIZE, cuzhaveli_encode_stripe encodes it so.
 *
 * Its checksum block has CUZHAVELI_BLOCK_BYTES(width, disks): the checksum of the piece at each place, 8 bytes each, the
 * lowest byte first, then its guard, the checksum of these. A checksum is XXH64 with a seed. The seed is the XXH64 (seed
 * 0) of 32 bytes: `name`, CUZHAVELI_NAME_BYTES that name the set, the disk (4 bytes), the row (4), `unit`, the number of
 * the unit in the set (8), the lowest byte first; for a guard disk and row are 2^32 - 1. Give every set a name of its own,
 * at random: then no block and no piece of another set, unit or place fits. XXH64 notices accidents. It is no signature:
 * who can compute checksums can make a block that fits.
 *
 * Let `block` be the one that was sealed of a unit u. What cuzhaveli_film_bytes hands out is u's film, or two different
 * pieces of one place have the same XXH64; so it is with a piece that fits, and with a unit that was opened. */

/* Writes the checksum block of a unit. Refuses 1, 13, 2, 25, 5 (name, block, cells). */
struct cuzhaveli_answer cuzhaveli_seal_unit(struct cuzhaveli_shape shape, size_t stripes, const uint8_t *name,
                                            size_t name_len, uint64_t unit, const uint8_t *cells, size_t cells_len,
                                            uint8_t *block, size_t block_len);

/* Rebuilds in place the pieces of a unit that do not fit the block, or whose byte in `marks`, at CUZHAVELI_CELL(
 * shape.width, row, disk) of CUZHAVELI_LIST_BYTES(shape.width, shape.disks), is not 0 (a piece that could not be read),
 * as cuzhaveli_rebuild_cells does; what was there for them is never used. Then every mark is 0 if its piece fits, else 1.
 * If the sealed unit was encoded and the pieces that fit are its own, the unit is as it was sealed, and no mark is left.
 * It refuses by 24 if the block does not fit its guard, by 23 exactly if the pieces that fit do not determine the
 * others; then marks and cells are unchanged. Refuses 1, 13, 2, 25, 5 (name, block, cells, marks), 24, 23. */
struct cuzhaveli_answer cuzhaveli_open_unit(struct cuzhaveli_shape shape, size_t stripes, const uint8_t *name,
                                            size_t name_len, uint64_t unit, const uint8_t *block, size_t block_len,
                                            uint8_t *marks, size_t marks_len, uint8_t *cells, size_t cells_len);

/* Writes to `out` the film of a unit from its byte `from` on: stripe by stripe, in a stripe disk by disk, on a disk row
 * by row, CUZHAVELI_UNIT_FILM(shape, stripes) bytes in all. Every piece that these bytes are in is compared with its
 * checksum first, and no other (for no bytes within a cell that cell's piece is); it refuses by 24, and `out` is
 * unchanged, if one does not fit, or the block does not fit its guard. Refuses 1, 13, 2, 25, 5 (name, block, cells, and film past the end), 24. */
struct cuzhaveli_answer cuzhaveli_film_bytes(struct cuzhaveli_shape shape, size_t stripes, const uint8_t *name,
                                             size_t name_len, uint64_t unit, const uint8_t *block, size_t block_len,
                                             const uint8_t *cells, size_t cells_len, size_t from, uint8_t *out,
                                             size_t out_len);

/* Compares a checksum block with its guard; it refuses by 24 if it is another, as for a block of another unit or set.
 * Refuses 1, 13, 5 (name, block), 24. */
struct cuzhaveli_answer cuzhaveli_block_fits(size_t width, size_t disks, const uint8_t *name, size_t name_len,
                                             uint64_t unit, const uint8_t *block, size_t block_len);

/* Compares one piece, stripes * cell_size bytes, with the checksum that the block has for row `row` of disk `disk`; it
 * refuses by 24 if it is another, or the block does not fit its guard. Refuses 1, 13, 2, 25, 3, 5 (name, block, piece),
 * 15, 24. */
struct cuzhaveli_answer cuzhaveli_piece_fits(struct cuzhaveli_shape shape, size_t stripes, const uint8_t *name,
                                             size_t name_len, uint64_t unit, const uint8_t *block, size_t block_len,
                                             size_t disk, size_t row, const uint8_t *piece, size_t piece_len);

/* States of arrays: which disks of each are lost, and how many arrays can bear more losses. */

/* Reports that disk `disk` of array `which` (counted from 0) of a list of `list_len` arrays, 1 to CUZHAVELI_MAX_ARRAYS,
 * was lost (`back` false) or is back (`back` true): sets or clears its bit, leaves the rest of the list, and counts the
 * list as it then is. Every record is tested first, in order, by 1, 13 and 3 (a lost disk over its k + 1), so that the
 * earliest bad one decides; then the reported disk by 3. From one report to the next a disk is lost exactly if the last
 * accepted report of it was its loss, or there was none and it was lost at the start. On a refusal the list is
 * unchanged, and the totals are zeros. Refuses 20, 1, 13, 3, 21. */
struct cuzhaveli_board cuzhaveli_report_disk(struct cuzhaveli_array_state *list, size_t list_len, size_t which,
                                             size_t disk, bool back);

/* Bills. A rate is in cents a GiB (2^30 bytes), 0 to 1000: `first` for the first 64 GiB, `second` for the part above
 * up to 1024 GiB, `third` for the rest. The three products are added, then rounded to the nearest cent, an exact half
 * to the even one: 0.5 cents cost 0, 1.5 cents 2, 2.5 cents 2. */

/* The bill of so many bytes. Refuses 16, 17. */
struct cuzhaveli_bill cuzhaveli_bill_bytes(uint64_t bytes, uint64_t first, uint64_t second, uint64_t third);

/* The bill of a run: of the cells it has read so far, times the cell size. Refuses 1, 13, 2, 3, 10 (if skipped is
 * above next), 16. */
struct cuzhaveli_bill cuzhaveli_bill_run(struct cuzhaveli_run run, uint64_t first, uint64_t second, uint64_t third);

/* The version of the archive: 10000 times its first number, 100 times its second, and its third; CUZHAVELI_VERSION is
 * that of this header. Refuses nothing. */
uint32_t cuzhaveli_version(void);

#ifdef __cplusplus
}
#endif

#endif
