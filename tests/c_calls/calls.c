/* Each call with random arguments, by the library and by the second implementation; those on plans are in plans.c,
 * on images in images.c, on units in units.c, the rebuilds in rebuilds.c. */

#include "calls.h"

/* Counts the answer and compares it. */
bool same(struct caller *c, int call, struct cuzhaveli_answer got, struct cuzhaveli_answer wanted)
{
    c->refused[call][got.refusal]++;
    size_t used = strlen(c->what);
    snprintf(c->what + used, sizeof c->what - used, ": answer %u, %u, second implementation %u, %u", got.refusal,
             got.place, wanted.refusal, wanted.place);
    return got.refusal == wanted.refusal && got.place == wanted.place;
}

static bool same_shape(struct cuzhaveli_shape a, struct cuzhaveli_shape b)
{
    return a.width == b.width && a.disks == b.disks && a.cell_size == b.cell_size;
}

static bool same_run(struct cuzhaveli_run a, struct cuzhaveli_run b)
{
    return same_shape(a.shape, b.shape) && a.lost == b.lost && a.stripes == b.stripes && a.next == b.next &&
           a.skipped == b.skipped;
}

/* A length that the shape requires; if it is none, some length. */
size_t required(struct caller *c, struct cuzhaveli_shape shape, size_t columns)
{
    return is_shape(shape) ? columns * CUZHAVELI_COLUMN_BYTES(shape) : below(&c->random, 400);
}

/* Lends a stripe: noise, or a clean one, or that with one byte changed. */
void lend_stripe(struct caller *c, struct cuzhaveli_shape shape)
{
    struct lent *stripe = &c->first;
    lend(stripe, &c->random, required(c, shape, shape.disks + 2), c->at_end);
    if (stripe->bytes && once_in(&c->random, 2)) {
        second_encode_stripe(shape, stripe->same, stripe->same_length);
        if (stripe->length > 0 && once_in(&c->random, 2))
            stripe->same[below(&c->random, stripe->length)] ^= (uint8_t)next_number(&c->random);
        set_content(stripe);
    }
}

void lend_column(struct caller *c, struct cuzhaveli_shape shape)
{
    lend(&c->second, &c->random, required(c, shape, 1), c->at_end);
}

struct array any_array(struct random *r)
{
    struct array a;
    a.width = any_width(r);
    a.disks = any_disks(r, a.width);
    a.lost = any_disk(r, a.disks);
    return a;
}

bool is_array(struct array a)
{
    struct cuzhaveli_shape shape = {a.width, a.disks, 1};
    return is_shape(shape);
}

/* How many files: few, now and then about as many as there may be, or any number. */
static size_t any_files(struct random *r)
{
    switch (below(r, 64)) {
    case 0: return CUZHAVELI_MAX_FILES - 2 + below(r, 5);
    case 1: return CUZHAVELI_MAX_FILES + 1 + below(r, 3000);
    case 2: return any_number(r);
    case 3: return below(r, 400);
    default: return below(r, 8);
    }
}

/* Lends lengths of files, most of them accepted together; NULL where there are none or too many, now and then, and
 * always where there is no room for them. The number of files. */
static size_t lend_lengths(struct caller *c)
{
    struct random *r = &c->random;
    size_t files = any_files(r);
    if (files > 8000 || ((files == 0 || files > CUZHAVELI_MAX_FILES) && once_in(r, 2))) {
        lend_null(&c->first, files);
        return files;
    }
    lend_random(&c->first, r, files * sizeof(uint64_t), c->at_end);
    uint64_t *lengths = (uint64_t *)(void *)c->first.same;
    unsigned most = (unsigned)(16 + below(r, 40));
    for (size_t i = 0; i < files; i++)
        lengths[i] = once_in(r, 400) ? any_number(r) : once_in(r, 6) ? 0 : lengths[i] >> (most + below(r, 64 - most));
    set_content(&c->first);
    return files;
}

static bool package_space(struct caller *c)
{
    struct random *r = &c->random;
    struct cuzhaveli_shape shape = any_shape(r);
    size_t files = lend_lengths(c);
    const uint64_t *lengths = (const uint64_t *)(const void *)c->first.bytes;
    const uint64_t *same_lengths = (const uint64_t *)(const void *)c->first.same;
    size_t same_files = files > 8000 ? 8000 : files; /* refused as well */
    uint64_t free = any_number(r);
    if (once_in(r, 2)) /* about as many as it takes */
        free = second_package_space(shape, same_lengths, same_files, 0).bytes + below(r, 3) - 1;
    SAY(c, "cuzhaveli_package_space(" SHAPE ", %p, %zu, %ju)", OF(shape), (const void *)lengths, files, (uintmax_t)free);
    struct cuzhaveli_space got = cuzhaveli_package_space(shape, lengths, files, free);
    struct cuzhaveli_space wanted = second_package_space(shape, same_lengths, same_files, free);
    return same(c, SPACE, got.answer, wanted.answer) && got.stripes == wanted.stripes && got.bytes == wanted.bytes &&
           got.fits == wanted.fits && lent_agrees(&c->first);
}

static bool encode_stripe(struct caller *c)
{
    struct cuzhaveli_shape shape = any_shape(&c->random);
    struct lent *stripe = &c->first;
    lend_stripe(c, shape);
    SAY(c, "cuzhaveli_encode_stripe(" SHAPE ", %p, %zu)", OF(shape), (void *)stripe->bytes, stripe->length);
    struct cuzhaveli_answer got = cuzhaveli_encode_stripe(shape, stripe->bytes, stripe->length);
    struct cuzhaveli_answer wanted = second_encode_stripe(shape, stripe->same, stripe->same_length);
    return same(c, ENCODE, got, wanted) && lent_agrees(stripe);
}

static bool check_stripe(struct caller *c)
{
    struct cuzhaveli_shape shape = any_shape(&c->random);
    struct lent *stripe = &c->first;
    lend_stripe(c, shape);
    SAY(c, "cuzhaveli_check_stripe(" SHAPE ", %p, %zu)", OF(shape), (void *)stripe->bytes, stripe->length);
    struct cuzhaveli_checked got = cuzhaveli_check_stripe(shape, stripe->bytes, stripe->length);
    struct cuzhaveli_checked wanted = second_check_stripe(shape, stripe->same, stripe->same_length);
    return same(c, CHECK, got.answer, wanted.answer) && got.clean == wanted.clean && lent_agrees(stripe);
}

/* A clean stripe, or one with a cell or all cells of one disk changed, mostly, and now and then a byte of another. */
static bool scrub_stripe(struct caller *c)
{
    struct random *r = &c->random;
    struct cuzhaveli_shape shape = any_shape(r);
    struct lent *stripe = &c->first;
    lend_stripe(c, shape);
    if (stripe->bytes && is_shape(shape) && stripe->length == CUZHAVELI_STRIPE_BYTES(shape) && once_in(r, 2)) {
        size_t column = CUZHAVELI_COLUMN_BYTES(shape), first = any_disk(r, shape.disks) % (shape.disks + 2) * column;
        second_encode_stripe(shape, stripe->same, stripe->same_length);
        for (size_t i = 0; i < column; i++)
            stripe->same[first + i] ^= (uint8_t)next_number(r);
        if (once_in(r, 3))
            stripe->same[below(r, stripe->length)] ^= (uint8_t)next_number(r);
        set_content(stripe);
    }
    SAY(c, "cuzhaveli_scrub_stripe(" SHAPE ", %p, %zu)", OF(shape), (void *)stripe->bytes, stripe->length);
    struct cuzhaveli_scrubbed got = cuzhaveli_scrub_stripe(shape, stripe->bytes, stripe->length);
    struct cuzhaveli_scrubbed wanted = second_scrub_stripe(shape, stripe->same, stripe->same_length);
    return same(c, SCRUB, got.answer, wanted.answer) && got.verdict == wanted.verdict && got.disk == wanted.disk &&
           lent_agrees(stripe);
}

static bool update_cell(struct caller *c)
{
    struct cuzhaveli_shape shape = any_shape(&c->random);
    size_t row = any_row(&c->random, shape.width), disk = any_disk(&c->random, shape.disks);
    struct lent *stripe = &c->first, *cell = &c->second;
    lend_stripe(c, shape);
    lend(cell, &c->random, is_shape(shape) ? shape.cell_size : below(&c->random, 400), c->at_end);
    SAY(c, "cuzhaveli_update_cell(" SHAPE ", %zu, %zu, %p, %zu, %p, %zu)", OF(shape), row, disk, (void *)stripe->bytes,
        stripe->length, (void *)cell->bytes, cell->length);
    struct cuzhaveli_answer got =
        cuzhaveli_update_cell(shape, row, disk, stripe->bytes, stripe->length, cell->bytes, cell->length);
    struct cuzhaveli_answer wanted =
        second_update_cell(shape, row, disk, stripe->same, stripe->same_length, cell->same, cell->same_length);
    return same(c, UPDATE, got, wanted) && lent_agrees(stripe) && lent_agrees(cell);
}

/* A shape whose stripes of many servers have room in the lent memory. */
static struct cuzhaveli_shape any_server_shape(struct random *r)
{
    struct cuzhaveli_shape shape = any_shape(r);
    if (is_shape(shape) && shape.cell_size > 130)
        shape.cell_size = 1 + below(r, 130);
    return shape;
}

/* Lends the stripes of all servers, clean ones mostly, with the parity server's written. */
static void lend_servers(struct caller *c, struct cuzhaveli_shape shape, size_t servers)
{
    struct lent *stripes = &c->first;
    bool good = is_shape(shape) && servers >= 2 && servers <= CUZHAVELI_MAX_SERVERS;
    lend(stripes, &c->random, good ? CUZHAVELI_SERVERS_BYTES(shape, servers) : below(&c->random, 400), c->at_end);
    if (!good || !stripes->bytes || stripes->length != CUZHAVELI_SERVERS_BYTES(shape, servers) || once_in(&c->random, 3))
        return;
    for (size_t i = 0; i < servers; i++)
        second_encode_stripe(shape, stripes->same + i * CUZHAVELI_STRIPE_BYTES(shape), CUZHAVELI_STRIPE_BYTES(shape));
    second_write_server(shape, servers, stripes->same, stripes->same_length);
    set_content(stripes);
}

static bool write_server(struct caller *c)
{
    struct cuzhaveli_shape shape = any_server_shape(&c->random);
    size_t servers = any_servers(&c->random);
    struct lent *stripes = &c->first;
    lend_servers(c, shape, servers);
    SAY(c, "cuzhaveli_write_server(" SHAPE ", %zu, %p, %zu)", OF(shape), servers, (void *)stripes->bytes, stripes->length);
    struct cuzhaveli_answer got = cuzhaveli_write_server(shape, servers, stripes->bytes, stripes->length);
    struct cuzhaveli_answer wanted = second_write_server(shape, servers, stripes->same, stripes->same_length);
    return same(c, EXTRA, got, wanted) && lent_agrees(stripes);
}

/* Losses of the servers: none, a disk, or two; a number over the last disk, or one disk twice, now and then. */
static void lend_losses(struct caller *c, struct cuzhaveli_shape shape, size_t servers)
{
    struct random *r = &c->random;
    struct lent *losses = &c->second;
    lend(losses, r, servers <= CUZHAVELI_MAX_SERVERS ? CUZHAVELI_LOSSES_BYTES(servers) : below(r, 40), c->at_end);
    if (!losses->bytes)
        return;
    for (size_t i = 0; i < losses->length; i++)
        losses->same[i] = once_in(r, 2) ? CUZHAVELI_NO_LOSS : (uint8_t)below(r, shape.disks % 64 + 2);
    if (losses->length > 0 && once_in(r, 8))
        losses->same[below(r, losses->length)] = (uint8_t)next_number(r);
    set_content(losses);
}

static bool rebuild_server(struct caller *c)
{
    struct random *r = &c->random;
    struct cuzhaveli_shape shape = any_server_shape(r);
    size_t servers = any_servers(r), lost = once_in(r, 16) ? servers + 1 : below(r, servers % 32 + 1);
    struct lent *stripes = &c->first, *losses = &c->second;
    lend_servers(c, shape, servers);
    lend_losses(c, shape, servers);
    SAY(c, "cuzhaveli_rebuild_server(" SHAPE ", %zu, %zu, %p, %zu, %p, %zu)", OF(shape), servers, lost,
        (void *)stripes->bytes, stripes->length, (void *)losses->bytes, losses->length);
    struct cuzhaveli_answer got = cuzhaveli_rebuild_server(shape, servers, lost, stripes->bytes, stripes->length,
                                                           losses->bytes, losses->length);
    struct cuzhaveli_answer wanted = second_rebuild_server(shape, servers, lost, stripes->same, stripes->same_length,
                                                           losses->same, losses->same_length);
    return same(c, SERVER, got, wanted) && lent_agrees(stripes) && lent_agrees(losses);
}

static bool open_run(struct caller *c)
{
    struct cuzhaveli_shape shape = any_shape(&c->random);
    size_t lost = any_disk(&c->random, shape.disks);
    uint32_t stripes = (uint32_t)any_number(&c->random);
    SAY(c, "cuzhaveli_open_run(" SHAPE ", %zu, %u)", OF(shape), lost, stripes);
    struct cuzhaveli_run_answer got = cuzhaveli_open_run(shape, lost, stripes);
    struct cuzhaveli_run_answer wanted = second_open_run(shape, lost, stripes);
    return same(c, OPEN, got.answer, wanted.answer) && same_run(got.run, wanted.run);
}

/* A record that steps and skips can lead to, mostly. */
static struct cuzhaveli_run any_run(struct random *r)
{
    struct cuzhaveli_run run;
    run.shape = any_shape(r);
    run.lost = any_disk(r, run.shape.disks);
    run.stripes = once_in(r, 4) ? (uint32_t)any_number(r) : (uint32_t)below(r, 6);
    run.next = once_in(r, 8) ? (uint32_t)any_number(r) : run.stripes - (uint32_t)below(r, 3);
    run.skipped = once_in(r, 8) ? (uint32_t)any_number(r) : (uint32_t)below(r, (size_t)run.next + 1 + once_in(r, 8));
    return run;
}

/* The run's next stripe, mostly. */
static uint64_t any_stripe(struct random *r, struct cuzhaveli_run run)
{
    if (!once_in(r, 6))
        return run.next;
    return once_in(r, 2) ? run.next + ((uint64_t)1 << 32) : any_number(r);
}

static bool step_run(struct caller *c)
{
    struct cuzhaveli_run run = any_run(&c->random), same_as = run;
    uint64_t which = any_stripe(&c->random, run);
    struct lent *stripe = &c->first, *column = &c->second;
    lend_stripe(c, run.shape);
    lend_column(c, run.shape);
    SAY(c, "cuzhaveli_step_run(" RUN ", %ju, %p, %zu, %p, %zu)", OF_RUN(run), (uintmax_t)which, (void *)stripe->bytes,
        stripe->length, (void *)column->bytes, column->length);
    struct cuzhaveli_answer got =
        cuzhaveli_step_run(&run, which, stripe->bytes, stripe->length, column->bytes, column->length);
    struct cuzhaveli_answer wanted =
        second_step_run(&same_as, which, stripe->same, stripe->same_length, column->same, column->same_length);
    return same(c, STEP, got, wanted) && same_run(run, same_as) && lent_agrees(stripe) && lent_agrees(column);
}

static bool skip_stripe(struct caller *c)
{
    struct cuzhaveli_run run = any_run(&c->random), same_as = run;
    uint64_t which = any_stripe(&c->random, run);
    SAY(c, "cuzhaveli_skip_stripe(" RUN ", %ju)", OF_RUN(run), (uintmax_t)which);
    struct cuzhaveli_answer got = cuzhaveli_skip_stripe(&run, which);
    struct cuzhaveli_answer wanted = second_skip_stripe(&same_as, which);
    return same(c, SKIP, got, wanted) && same_run(run, same_as);
}

static bool run_progress(struct caller *c)
{
    struct cuzhaveli_run run = any_run(&c->random), before = run;
    SAY(c, "cuzhaveli_run_progress(" RUN ")", OF_RUN(run));
    struct cuzhaveli_progress got = cuzhaveli_run_progress(&run);
    struct cuzhaveli_progress wanted = second_run_progress(&before);
    return same(c, PROGRESS, got.answer, wanted.answer) && got.over == wanted.over && got.cells == wanted.cells &&
           same_run(run, before);
}

static bool resume_full_run(struct caller *c)
{
    struct cuzhaveli_run run = any_run(&c->random);
    struct cuzhaveli_full_run old = {run.shape.width, run.shape.cell_size, run.lost, run.stripes, run.next};
    struct cuzhaveli_answer none = {0, 0};
    SAY(c, "cuzhaveli_resume_full_run of " RUN, OF_RUN(run));
    return same(c, FULL, none, none) && same_run(cuzhaveli_resume_full_run(old), second_resume_full_run(old));
}

static bool resume_disks_run(struct caller *c)
{
    struct cuzhaveli_run run = any_run(&c->random);
    struct cuzhaveli_disks_run old = {run.shape, run.lost, run.stripes, run.next};
    struct cuzhaveli_answer none = {0, 0};
    SAY(c, "cuzhaveli_resume_disks_run of " RUN, OF_RUN(run));
    return same(c, DISKS, none, none) && same_run(cuzhaveli_resume_disks_run(old), second_resume_disks_run(old));
}

static bool same_bill(struct cuzhaveli_bill a, struct cuzhaveli_bill b)
{
    return a.first == b.first && a.second == b.second && a.third == b.third && a.cents == b.cents;
}

static uint64_t any_rate(struct random *r)
{
    return once_in(r, 16) ? any_number(r) : below(r, 1002);
}

static bool bill_bytes(struct caller *c)
{
    struct random *r = &c->random;
    uint64_t bytes = once_in(r, 2) ? next_number(r) >> (9 + below(r, 55)) : any_number(r);
    uint64_t first = any_rate(r), second = any_rate(r), third = any_rate(r);
    SAY(c, "cuzhaveli_bill_bytes(%ju, %ju, %ju, %ju)", (uintmax_t)bytes, (uintmax_t)first, (uintmax_t)second,
        (uintmax_t)third);
    struct cuzhaveli_bill got = cuzhaveli_bill_bytes(bytes, first, second, third);
    struct cuzhaveli_bill wanted = second_bill_bytes(bytes, first, second, third);
    return same(c, BYTES, got.answer, wanted.answer) && same_bill(got, wanted);
}

static bool bill_run(struct caller *c)
{
    struct random *r = &c->random;
    struct cuzhaveli_run run = any_run(r);
    uint64_t first = any_rate(r), second = any_rate(r), third = any_rate(r);
    SAY(c, "cuzhaveli_bill_run(" RUN ", %ju, %ju, %ju)", OF_RUN(run), (uintmax_t)first, (uintmax_t)second,
        (uintmax_t)third);
    struct cuzhaveli_bill got = cuzhaveli_bill_run(run, first, second, third);
    struct cuzhaveli_bill wanted = second_bill_run(run, first, second, third);
    return same(c, BILL, got.answer, wanted.answer) && same_bill(got, wanted);
}

static bool version(struct caller *c)
{
    struct cuzhaveli_answer none = {0, 0};
    SAY(c, "cuzhaveli_version()");
    return same(c, VERSION, none, none) && cuzhaveli_version() == CUZHAVELI_VERSION;
}

/* An array with few of its disks lost, mostly; now and then with any numbers, or a disk over k + 1. */
static struct cuzhaveli_array_state any_state(struct random *r, bool good)
{
    struct cuzhaveli_array_state state;
    do {
        state.width = any_width(r);
        state.disks = any_disks(r, state.width);
    } while (good && !is_array((struct array){state.width, state.disks, 0}));
    state.lost = 0;
    for (size_t losses = below(r, 5); losses > 0; losses--)
        state.lost |= (uint64_t)1 << below(r, (state.disks < 31 ? state.disks : 31) + 2);
    if (!good && once_in(r, 4))
        state.lost = once_in(r, 2) ? next_number(r) : state.lost | (uint64_t)1 << below(r, 64);
    return state;
}

/* Lends a list of arrays: few of them, mostly, now and then none, 64 or more, and then NULL, too. One or two are bad at
 * times. */
static void lend_states(struct caller *c, size_t *arrays)
{
    struct random *r = &c->random;
    struct lent *list = &c->first;
    size_t bytes = sizeof(struct cuzhaveli_array_state);
    *arrays = once_in(r, 8) ? below(r, 2) * (63 + below(r, 4)) : 1 + below(r, 6);
    if (once_in(r, 40))
        *arrays = any_number(r);
    if (*arrays > 200 || ((*arrays == 0 || *arrays > CUZHAVELI_MAX_ARRAYS) && once_in(r, 2))) {
        lend_null(list, *arrays * bytes);
        return;
    }
    lend_random(list, r, *arrays * bytes, c->at_end);
    struct cuzhaveli_array_state *states = (struct cuzhaveli_array_state *)list->same;
    for (size_t i = 0; i < *arrays; i++)
        states[i] = any_state(r, true);
    if (*arrays > 0 && once_in(r, 3))
        for (size_t bad = 1 + below(r, 2); bad > 0; bad--)
            states[below(r, *arrays)] = any_state(r, false);
    set_content(list);
}

/* A disk that can be reported, mostly. */
static bool report_disk(struct caller *c)
{
    struct random *r = &c->random;
    struct lent *list = &c->first;
    size_t arrays;
    lend_states(c, &arrays);
    struct cuzhaveli_array_state *states = (struct cuzhaveli_array_state *)list->same;
    bool some = list->bytes && arrays > 0;
    size_t which = some && !once_in(r, 12) ? below(r, arrays) : once_in(r, 2) ? arrays : any_number(r);
    struct cuzhaveli_array_state state = {5, 5, 0};
    if (some && which < arrays)
        state = states[which];
    size_t disk = any_disk(r, state.disks);
    bool back = disk < 64 && (state.lost >> disk & 1) != once_in(r, 8);
    SAY(c, "cuzhaveli_report_disk(%p, %zu, %zu, %zu, %d) of {%zu, %zu, %jx}", (void *)list->bytes, arrays, which, disk,
        back, state.width, state.disks, (uintmax_t)state.lost);
    struct cuzhaveli_board got =
        cuzhaveli_report_disk((struct cuzhaveli_array_state *)list->bytes, arrays, which, disk, back);
    struct cuzhaveli_board wanted = second_report_disk(states, list->bytes ? arrays : 0, which, disk, back);
    return same(c, REPORT, got.answer, wanted.answer) && got.totals.optimal == wanted.totals.optimal &&
           got.totals.degraded == wanted.totals.degraded && got.totals.critical == wanted.totals.critical &&
           got.totals.failed == wanted.totals.failed && lent_agrees(list);
}

const struct call CALL[CALLS] = {
    [PLAN] = {"cuzhaveli_plan_disk", plan_disk},
    [BALANCED_PLAN] = {"cuzhaveli_balanced_plan", balanced_plan},
    [RELIEF_PLAN] = {"cuzhaveli_relief_plan", relief_plan},
    [FEWEST_PLAN] = {"cuzhaveli_fewest_plan", fewest_plan},
    [LIST] = {"cuzhaveli_read_list", read_list},
    [JUDGE] = {"cuzhaveli_judge_plan", judge_plan},
    [PLAN_LIST] = {"cuzhaveli_plan_list", plan_list},
    [PRINTED] = {"cuzhaveli_plan_text", plan_text},
    [TEXT] = {"cuzhaveli_judge_text", judge_text},
    [WRITE] = {"cuzhaveli_write_plan", write_plan},
    [PLAIN] = {"cuzhaveli_plain_text", plain_text},
    [SPACE] = {"cuzhaveli_package_space", package_space},
    [ENCODE] = {"cuzhaveli_encode_stripe", encode_stripe},
    [CHECK] = {"cuzhaveli_check_stripe", check_stripe},
    [SCRUB] = {"cuzhaveli_scrub_stripe", scrub_stripe},
    [ONE] = {"cuzhaveli_rebuild_one", rebuild_one},
    [BALANCED] = {"cuzhaveli_rebuild_balanced", rebuild_balanced},
    [BY_PLAN] = {"cuzhaveli_rebuild_by_plan", rebuild_by_plan},
    [TESTED] = {"cuzhaveli_rebuild_tested", rebuild_tested},
    [TWO] = {"cuzhaveli_rebuild_two", rebuild_two},
    [CELLS] = {"cuzhaveli_rebuild_cells", rebuild_cells},
    [UPDATE] = {"cuzhaveli_update_cell", update_cell},
    [EXTRA] = {"cuzhaveli_write_server", write_server},
    [SERVER] = {"cuzhaveli_rebuild_server", rebuild_server},
    [OPEN] = {"cuzhaveli_open_run", open_run},
    [STEP] = {"cuzhaveli_step_run", step_run},
    [SKIP] = {"cuzhaveli_skip_stripe", skip_stripe},
    [PROGRESS] = {"cuzhaveli_run_progress", run_progress},
    [FULL] = {"cuzhaveli_resume_full_run", resume_full_run},
    [DISKS] = {"cuzhaveli_resume_disks_run", resume_disks_run},
    [BYTES] = {"cuzhaveli_bill_bytes", bill_bytes},
    [BILL] = {"cuzhaveli_bill_run", bill_run},
    [REPORT] = {"cuzhaveli_report_disk", report_disk},
    [IMAGE] = {"cuzhaveli_image_bytes", image_bytes},
    [CELL_PLACE] = {"cuzhaveli_cell_place", cell_place},
    [BLOCK_PLACE] = {"cuzhaveli_block_place", block_place},
    [UNIT_PLACE] = {"cuzhaveli_unit_place", unit_place},
    [FILM_PLACE] = {"cuzhaveli_film_place", film_place},
    [SEAL] = {"cuzhaveli_seal_unit", seal_unit},
    [OPEN_UNIT] = {"cuzhaveli_open_unit", open_unit},
    [FILM] = {"cuzhaveli_film_bytes", film_bytes},
    [BLOCK] = {"cuzhaveli_block_fits", block_fits},
    [FITS] = {"cuzhaveli_piece_fits", piece_fits},
    [VERSION] = {"cuzhaveli_version", version},
};
