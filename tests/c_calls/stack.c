/* The stack that calls take: each runs on painted memory, and what is no longer painted was used. */

#include "boundary.h"

#include <stdio.h>
#include <stdlib.h>
#include <string.h>
#include <ucontext.h>

#define STACK (256 * 1024)
#define PAINT 0xC7
#define LONGEST (33 * 31 * 4096)
#define SERVERS 3

static uint8_t *painted, *stripe, *column;
static struct cuzhaveli_shape shape;
static size_t lost, other;
static uint8_t plan[CUZHAVELI_PLAN_BYTES(CUZHAVELI_MAX_WIDTH)], text[CUZHAVELI_TEXT_BYTES];
static size_t text_len;
static ucontext_t here, there;
static volatile uint8_t sink;

static void nothing(void) { }
static void plan_disk(void) { sink = cuzhaveli_plan_disk(shape.width, shape.disks, lost).answer.refusal; }
static void read_list(void) { sink = cuzhaveli_read_list(shape.width, shape.disks, lost, column, CUZHAVELI_LIST_BYTES(shape.width, shape.disks)).refusal; }
static void further_plans(void)
{
    sink = cuzhaveli_balanced_plan(shape.width, shape.disks, lost).answer.refusal;
    sink = cuzhaveli_relief_plan(shape.width, shape.disks, lost, other).answer.refusal;
    sink = cuzhaveli_fewest_plan(shape.width, shape.disks, lost).answer.refusal;
}

static void plan_list(void) { sink = cuzhaveli_plan_list(shape.width, shape.disks, lost, plan, CUZHAVELI_PLAN_BYTES(shape.width), column, CUZHAVELI_LIST_BYTES(shape.width, shape.disks)).refusal; }
static void judge_plan(void) { sink = cuzhaveli_judge_plan(shape.width, shape.disks, lost, stripe, CUZHAVELI_PLAN_BYTES(shape.width)).answer.refusal; }
static void plan_text(void) { sink = cuzhaveli_plan_text((const uint8_t *)"p,lost\n31,30\n", 13).bytes[0]; }
static void judge_text(void) { sink = cuzhaveli_judge_text(shape.width, shape.disks, lost, text, text_len).answer.refusal; }
static void write_plan(void) { sink = cuzhaveli_write_plan(shape.width, shape.disks, lost, plan, CUZHAVELI_PLAN_BYTES(shape.width), column, CUZHAVELI_TEXT_BYTES).answer.refusal; }
static void plain_text(void) { sink = cuzhaveli_plain_text(shape.width, shape.disks, lost, text, text_len, column, CUZHAVELI_TEXT_BYTES).answer.refusal; }
static void package_space(void) { sink = cuzhaveli_package_space(shape, (const uint64_t *)(const void *)stripe, CUZHAVELI_MAX_FILES, 1 << 30).answer.refusal; }
static void encode_stripe(void) { sink = cuzhaveli_encode_stripe(shape, stripe, CUZHAVELI_STRIPE_BYTES(shape)).refusal; }
static void check_stripe(void) { sink = cuzhaveli_check_stripe(shape, stripe, CUZHAVELI_STRIPE_BYTES(shape)).answer.refusal; }

/* A byte of Q is changed meanwhile, so that every disk is tried. */
static void scrub_stripe(void)
{
    stripe[CUZHAVELI_STRIPE_BYTES(shape) - 1] ^= 1;
    sink = cuzhaveli_scrub_stripe(shape, stripe, CUZHAVELI_STRIPE_BYTES(shape)).verdict;
    stripe[CUZHAVELI_STRIPE_BYTES(shape) - 1] ^= 1;
}

static void rebuild_one(void) { sink = cuzhaveli_rebuild_one(shape, lost, stripe, CUZHAVELI_STRIPE_BYTES(shape), column, CUZHAVELI_COLUMN_BYTES(shape)).refusal; }
static void rebuild_balanced(void) { sink = cuzhaveli_rebuild_balanced(shape, lost, stripe, CUZHAVELI_STRIPE_BYTES(shape), column, CUZHAVELI_COLUMN_BYTES(shape)).refusal; }
static void rebuild_by_plan(void) { sink = cuzhaveli_rebuild_by_plan(shape, lost, plan, CUZHAVELI_PLAN_BYTES(shape.width), stripe, CUZHAVELI_STRIPE_BYTES(shape), column, CUZHAVELI_COLUMN_BYTES(shape)).refusal; }

/* The cells of two disks are missing. */
static void rebuild_cells(void)
{
    memset(column, 0, CUZHAVELI_LIST_BYTES(shape.width, shape.disks));
    memset(column + lost * shape.width, 1, shape.width);
    memset(column + other * shape.width, 1, shape.width);
    sink = cuzhaveli_rebuild_cells(shape, column, CUZHAVELI_LIST_BYTES(shape.width, shape.disks), stripe, CUZHAVELI_STRIPE_BYTES(shape)).refusal;
}

static void rebuild_tested(void) { sink = cuzhaveli_rebuild_tested(shape, lost, stripe, CUZHAVELI_STRIPE_BYTES(shape), column, CUZHAVELI_COLUMN_BYTES(shape)).refusal; }
static void rebuild_two(void) { sink = cuzhaveli_rebuild_two(shape, lost, other, stripe, CUZHAVELI_STRIPE_BYTES(shape)).refusal; }
static void update_cell(void) { sink = cuzhaveli_update_cell(shape, shape.width - 1 - other % 2, lost % shape.disks, stripe, CUZHAVELI_STRIPE_BYTES(shape), column, shape.cell_size).refusal; }

/* One server has lost these two disks, one a single disk, and the extra one none. */
static void server_calls(void)
{
    uint8_t losses[CUZHAVELI_LOSSES_BYTES(SERVERS)] = {(uint8_t)lost, (uint8_t)other, 0, 0, (uint8_t)lost, CUZHAVELI_NO_LOSS, CUZHAVELI_NO_LOSS, CUZHAVELI_NO_LOSS};
    sink = cuzhaveli_write_server(shape, SERVERS, stripe, CUZHAVELI_SERVERS_BYTES(shape, SERVERS)).refusal;
    sink = cuzhaveli_rebuild_server(shape, SERVERS, 1, stripe, CUZHAVELI_SERVERS_BYTES(shape, SERVERS), losses, sizeof losses).refusal;
}

static void run_calls(void)
{
    struct cuzhaveli_run run = cuzhaveli_open_run(shape, lost, 2).run;
    cuzhaveli_step_run(&run, 0, stripe, CUZHAVELI_STRIPE_BYTES(shape), column, CUZHAVELI_COLUMN_BYTES(shape));
    cuzhaveli_skip_stripe(&run, 1);
    cuzhaveli_run_progress(&run);
    sink = cuzhaveli_bill_run(run, 1, 2, 3).answer.refusal;
}

static void records(void)
{
    struct cuzhaveli_full_run full = {5, 1, 1, 4, 2};
    struct cuzhaveli_disks_run disks = {shape, 1, 4, 2};
    sink = (uint8_t)(cuzhaveli_resume_full_run(full).next + cuzhaveli_resume_disks_run(disks).next);
    sink = cuzhaveli_bill_bytes((uint64_t)1 << 50, 1, 2, 3).answer.refusal;
    sink = (uint8_t)cuzhaveli_version();
}

static void report_disk(void)
{
    struct cuzhaveli_array_state list[CUZHAVELI_MAX_ARRAYS];
    for (size_t i = 0; i < CUZHAVELI_MAX_ARRAYS; i++)
        list[i] = (struct cuzhaveli_array_state){shape.width, shape.disks, i % 4};
    sink = cuzhaveli_report_disk(list, CUZHAVELI_MAX_ARRAYS, 4 * other, lost, false).answer.refusal;
}

static void image_calls(void)
{
    struct cuzhaveli_layout layout = {shape.width, shape.disks, shape.cell_size, 8, 64, (uint64_t)1 << 48};
    sink = cuzhaveli_image_bytes(layout).answer.refusal;
    sink = cuzhaveli_cell_place(layout, lost % shape.width, 1000).answer.refusal;
    sink = cuzhaveli_block_place(layout, 1000).answer.refusal;
    sink = cuzhaveli_unit_place(layout, lost % shape.width, 1000).answer.refusal;
    sink = cuzhaveli_film_place(layout, (uint64_t)1 << 40).answer.refusal;
}

/* A unit of one stripe: its block, its film, a piece; then opened, with two disks missing. */
static const uint8_t name[CUZHAVELI_NAME_BYTES] = {1, 2, 3};

static void unit_calls(void)
{
    size_t block = CUZHAVELI_BLOCK_BYTES(shape.width, shape.disks), cells = CUZHAVELI_STRIPE_BYTES(shape);
    sink = cuzhaveli_seal_unit(shape, 1, name, sizeof name, 7, stripe, cells, column, block).refusal;
    sink = cuzhaveli_film_bytes(shape, 1, name, sizeof name, 7, column, block, stripe, cells, 1, column + block, 2).refusal;
    sink = cuzhaveli_block_fits(shape.width, shape.disks, name, sizeof name, 7, column, block).refusal;
    sink = cuzhaveli_piece_fits(shape, 1, name, sizeof name, 7, column, block, 0, 0, stripe, shape.cell_size).refusal;
}

static void open_unit(void)
{
    size_t list = CUZHAVELI_LIST_BYTES(shape.width, shape.disks), block = CUZHAVELI_BLOCK_BYTES(shape.width, shape.disks);
    uint8_t *marks = column + block;
    memset(marks, 0, list);
    memset(marks + lost * shape.width, 1, shape.width);
    memset(marks + other * shape.width, 1, shape.width);
    sink = cuzhaveli_open_unit(shape, 1, name, sizeof name, 7, column, block, marks, list, stripe, CUZHAVELI_STRIPE_BYTES(shape)).refusal;
}

/* What the header promises of each call, in bytes. */
#define PROMISED 12288
#define PROMISED_OPEN 16384

/* The calls, and the most that was measured of each. */
static struct { const char *name; void (*make)(void); size_t most; } MADE[] = {
    {"cuzhaveli_plan_disk", plan_disk, 0},
    {"cuzhaveli_read_list", read_list, 0},
    {"balanced, relief and fewest plans", further_plans, 0},
    {"cuzhaveli_judge_plan", judge_plan, 0},
    {"cuzhaveli_plan_list", plan_list, 0},
    {"cuzhaveli_plan_text", plan_text, 0},
    {"cuzhaveli_judge_text", judge_text, 0},
    {"cuzhaveli_write_plan", write_plan, 0},
    {"cuzhaveli_plain_text", plain_text, 0},
    {"cuzhaveli_package_space", package_space, 0},
    {"cuzhaveli_encode_stripe", encode_stripe, 0},
    {"cuzhaveli_check_stripe", check_stripe, 0},
    {"cuzhaveli_scrub_stripe", scrub_stripe, 0},
    {"cuzhaveli_rebuild_one", rebuild_one, 0},
    {"cuzhaveli_rebuild_balanced", rebuild_balanced, 0},
    {"cuzhaveli_rebuild_by_plan", rebuild_by_plan, 0},
    {"cuzhaveli_rebuild_tested", rebuild_tested, 0},
    {"cuzhaveli_rebuild_two", rebuild_two, 0},
    {"cuzhaveli_rebuild_cells", rebuild_cells, 0},
    {"cuzhaveli_update_cell", update_cell, 0},
    {"calls on servers", server_calls, 0},
    {"calls on runs", run_calls, 0},
    {"records and bills", records, 0},
    {"calls on images", image_calls, 0},
    {"calls on units", unit_calls, 0},
    {"cuzhaveli_open_unit", open_unit, 0}, /* of the unit that was sealed last */
    {"cuzhaveli_report_disk", report_disk, 0}, /* the list of 1536 bytes among them */
};
#define KINDS (sizeof MADE / sizeof *MADE)

/* The painted bytes that a function no longer leaves painted, counted from the top of its stack. */
static size_t taken(void (*make)(void))
{
    memset(painted, PAINT, STACK);
    getcontext(&there);
    there.uc_stack.ss_sp = painted;
    there.uc_stack.ss_size = STACK;
    there.uc_link = &here;
    makecontext(&there, make, 0);
    swapcontext(&here, &there);
    size_t left = 0;
    while (left < STACK && painted[left] == PAINT)
        left++;
    return STACK - left;
}

/* Every call on one shape and loss. */
static void measure(size_t before)
{
    for (size_t call = 0; call < KINDS; call++) {
        size_t stack = taken(MADE[call].make) - before;
        MADE[call].most = stack > MADE[call].most ? stack : MADE[call].most;
    }
}

/* Our plan, as bytes and as text. */
static void set_plan(void)
{
    struct cuzhaveli_plan ours = cuzhaveli_plan_disk(shape.width, shape.disks, lost);
    cuzhaveli_plan_bytes(&ours, shape.width, plan);
    text_len = cuzhaveli_write_plan(shape.width, shape.disks, lost, plan, CUZHAVELI_PLAN_BYTES(shape.width), text, sizeof text).length;
}

bool stack_is_small(void)
{
    static const size_t WIDTHS[] = {3, 7, 17, 31}, SIZES[] = {1, 64, 700, 4096};
    bool small = true;
    painted = malloc(STACK);
    stripe = calloc(SERVERS + 1, LONGEST);
    column = calloc(LONGEST, 1);
    if (!painted || !stripe || !column) {
        fprintf(stderr, "boundary: no memory for the measurement of the stack; free some\n");
        exit(2);
    }
    size_t before = taken(nothing);
    for (size_t i = 0; i < 16 * 5; i++) {
        size_t width = WIDTHS[i % 4];
        shape = (struct cuzhaveli_shape){width, i % 5 ? width : 2, SIZES[i / 4 % 4]};
        /* two data disks, one of them disk 0 or neither, both parity disks, a data disk and P */
        const size_t k = shape.disks, PAIRS[][2] = {{0, 1}, {k - 1, 0}, {k - 1, 1}, {k, k + 1}, {k, 1}};
        lost = PAIRS[i / 16][0];
        other = PAIRS[i / 16][1];
        set_plan();
        measure(before);
    }
    for (size_t call = 0; call < KINDS; call++) {
        printf("stack %s: %zu bytes\n", MADE[call].name, MADE[call].most);
        size_t promised = MADE[call].make == open_unit ? PROMISED_OPEN : PROMISED;
        if (MADE[call].most >= promised) {
            printf("boundary: FAILED: %s takes %zu bytes of stack; the header promises under %zu\n", MADE[call].name, MADE[call].most, promised);
            small = false;
        }
    }
    return small;
}
