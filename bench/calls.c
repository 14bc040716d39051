#include "calls.h"

#include "cuzhaveli.h"

#include <isa-l.h>
#include <jerasure.h>
#include <string.h>

/* The library's calls. */

static struct cuzhaveli_shape shape_of(const struct Shelf *shelf)
{
    return (struct cuzhaveli_shape){ shelf->array->p, shelf->array->k, shelf->s };
}

static void our_encode(const struct Shelf *shelf, size_t number, const struct Loss *loss)
{
    (void)loss;
    struct cuzhaveli_answer answer =
        cuzhaveli_encode_stripe(shape_of(shelf), stripe_at(shelf, number), shelf->stripe);
    demand(answer.refusal == 0, "the library refuses to encode");
}

static void our_check(const struct Shelf *shelf, size_t number, const struct Loss *loss)
{
    (void)loss;
    struct cuzhaveli_checked checked =
        cuzhaveli_check_stripe(shape_of(shelf), stripe_at(shelf, number), shelf->stripe);
    demand(checked.answer.refusal == 0, "the library refuses to check");
    demand(checked.clean == 1, "the library doesn't say that a clean stripe is clean");
}

static void our_rebuild_one(const struct Shelf *shelf, size_t number, const struct Loss *loss)
{
    struct cuzhaveli_answer answer =
        cuzhaveli_rebuild_one(shape_of(shelf), loss->disks[0], stripe_at(shelf, number),
                              shelf->stripe, column_at(shelf, number), shelf->column);
    demand(answer.refusal == 0, "the library refuses to rebuild");
}

static void our_rebuild_two(const struct Shelf *shelf, size_t number, const struct Loss *loss)
{
    struct cuzhaveli_answer answer =
        cuzhaveli_rebuild_two(shape_of(shelf), loss->disks[0], loss->disks[1],
                              stripe_at(shelf, number), shelf->stripe);
    demand(answer.refusal == 0, "the library refuses to rebuild two disks");
}

/* Jerasure: the same code in the same layout, schedules built beforehand. */

static void jerasure_to(const struct Shelf *shelf, size_t number, uint8_t *parity)
{
    int p = shelf->array->p, k = shelf->array->k;
    char *data[MOST_DISKS];
    for (int disk = 0; disk < k; disk++) {
        data[disk] = (char *)disk_at(shelf, number, disk);
    }
    char *coding[2] = { (char *)parity, (char *)parity + shelf->column };
    jerasure_schedule_encode(k, 2, p, shelf->array->encoding, data, coding,
                             (int)shelf->column, (int)shelf->s);
}

static void jerasure_encode(const struct Shelf *shelf, size_t number, const struct Loss *loss)
{
    (void)loss;
    jerasure_to(shelf, number, disk_at(shelf, number, shelf->array->k));
}

static void jerasure_check(const struct Shelf *shelf, size_t number, const struct Loss *loss)
{
    (void)loss;
    jerasure_to(shelf, number, shelf->spare);
    uint8_t *parity = disk_at(shelf, number, shelf->array->k);
    demand(memcmp(shelf->spare, parity, 2 * shelf->column) == 0,
           "Jerasure finds a clean stripe dirty");
}

/* The disks that the loss's schedule reads. */
static void jerasure_sources(const struct Shelf *shelf, size_t number,
                             const struct Loss *loss, char **places)
{
    for (int i = 0; i < shelf->array->k; i++) {
        places[i] = (char *)disk_at(shelf, number, loss->sources[i]);
    }
}

static void jerasure_rebuild_one(const struct Shelf *shelf, size_t number,
                                 const struct Loss *loss)
{
    char *places[MOST_DISKS + 1];
    jerasure_sources(shelf, number, loss, places);
    places[shelf->array->k] = (char *)column_at(shelf, number);
    jerasure_do_scheduled_operations(places, loss->schedule, (int)shelf->s);
}

static void jerasure_rebuild_two(const struct Shelf *shelf, size_t number,
                                 const struct Loss *loss)
{
    char *places[MOST_DISKS + 2];
    jerasure_sources(shelf, number, loss, places);
    for (int i = 0; i < 2; i++) {
        places[shelf->array->k + i] = (char *)disk_at(shelf, number, loss->disks[i]);
    }
    jerasure_do_scheduled_operations(places, loss->schedule, (int)shelf->s);
}

/* ISA-L: another code on disks of the same size. Its AVX routines leave the
   upper register halves dirty, which would slow down SSE code after them. */

static void clean_registers(void)
{
    if (__builtin_cpu_supports("avx")) {
        __asm__ volatile("vzeroupper" ::: "memory");
    }
}

/* The data disks of a stripe, and ISA-L's P and Q after them. */
static void isal_places(const struct Shelf *shelf, size_t number, void **places)
{
    int k = shelf->array->k;
    for (int disk = 0; disk < k; disk++) {
        places[disk] = disk_at(shelf, number, disk);
    }
    places[k] = isal_at(shelf, number);
    places[k + 1] = isal_at(shelf, number) + shelf->column;
}

static void isal_encode(const struct Shelf *shelf, size_t number, const struct Loss *loss)
{
    (void)loss;
    void *places[MOST_DISKS + 2];
    isal_places(shelf, number, places);
    int failed = pq_gen(shelf->array->k + 2, (int)shelf->column, places);
    clean_registers();
    demand(!failed, "pq_gen fails");
}

static void isal_check(const struct Shelf *shelf, size_t number, const struct Loss *loss)
{
    (void)loss;
    void *places[MOST_DISKS + 2];
    isal_places(shelf, number, places);
    int failed = pq_check(shelf->array->k + 2, (int)shelf->column, places);
    clean_registers();
    demand(!failed, "pq_check fails");
}

/* All rows: the lost disk is the XOR of the other data disks and P. */
static void isal_rebuild_one(const struct Shelf *shelf, size_t number, const struct Loss *loss)
{
    int k = shelf->array->k;
    void *places[MOST_DISKS + 2];
    isal_places(shelf, number, places);
    places[loss->disks[0]] = places[k];
    places[k] = column_at(shelf, number);
    int failed = xor_gen(k + 1, (int)shelf->column, places);
    clean_registers();
    demand(!failed, "xor_gen fails");
}

/* memcpy of as many bytes as the operation has to read. */

static void copy(const struct Shelf *shelf, size_t number, enum Operation operation)
{
    memcpy(shelf->copies + number * shelf->stripe, stripe_at(shelf, number),
           (size_t)(shelf->array->cells[operation] * (double)shelf->s));
}

static void copy_encode(const struct Shelf *shelf, size_t number, const struct Loss *loss)
{
    (void)loss;
    copy(shelf, number, ENCODE);
}

static void copy_check(const struct Shelf *shelf, size_t number, const struct Loss *loss)
{
    (void)loss;
    copy(shelf, number, CHECK);
}

static void copy_rebuild_one(const struct Shelf *shelf, size_t number, const struct Loss *loss)
{
    (void)loss;
    copy(shelf, number, REBUILD_ONE);
}

static void copy_rebuild_two(const struct Shelf *shelf, size_t number, const struct Loss *loss)
{
    (void)loss;
    copy(shelf, number, REBUILD_TWO);
}

Call *const CALLS[OPERATIONS][CONTESTANTS] = {
    [ENCODE] = { our_encode, jerasure_encode, isal_encode, copy_encode },
    [CHECK] = { our_check, jerasure_check, isal_check, copy_check },
    [REBUILD_ONE] = { our_rebuild_one, jerasure_rebuild_one, isal_rebuild_one,
                      copy_rebuild_one },
    [REBUILD_TWO] = { our_rebuild_two, jerasure_rebuild_two, NULL, copy_rebuild_two },
};

/* Comparing. */

static void compare_encoding(const struct Shelf *shelf, size_t number)
{
    uint8_t *parity = disk_at(shelf, number, shelf->array->k);
    our_encode(shelf, number, NULL);
    jerasure_to(shelf, number, shelf->spare);
    demand(memcmp(parity, shelf->spare, 2 * shelf->column) == 0,
           "the library and Jerasure encode differently");
    our_check(shelf, number, NULL);
    isal_encode(shelf, number, NULL);
    isal_check(shelf, number, NULL);
}

static void compare_dirty(const struct Shelf *shelf, size_t number)
{
    uint8_t *stripe = stripe_at(shelf, number);
    size_t last = shelf->stripe - 1;
    stripe[last] ^= 1;
    struct cuzhaveli_checked checked =
        cuzhaveli_check_stripe(shape_of(shelf), stripe, shelf->stripe);
    demand(checked.answer.refusal == 0 && checked.clean == 0,
           "the library doesn't say that a dirty stripe is dirty");
    stripe[last] ^= 1;
}

static void compare_one(const struct Shelf *shelf, size_t number, const struct Loss *loss)
{
    Call *const calls[] = { our_rebuild_one, jerasure_rebuild_one };
    uint8_t *column = column_at(shelf, number);
    for (size_t i = 0; i < sizeof calls / sizeof *calls; i++) {
        memset(column, 0x55, shelf->column);
        calls[i](shelf, number, loss);
        demand(memcmp(column, disk_at(shelf, number, loss->disks[0]), shelf->column) == 0,
               i == 0 ? "the library rebuilds wrongly" : "Jerasure rebuilds wrongly");
    }
}

static void compare_two(const struct Shelf *shelf, size_t number, const struct Loss *loss)
{
    Call *const calls[] = { our_rebuild_two, jerasure_rebuild_two };
    uint8_t *stripe = stripe_at(shelf, number), *before = shelf->copies;
    memcpy(before, stripe, shelf->stripe);
    for (size_t i = 0; i < sizeof calls / sizeof *calls; i++) {
        memset(disk_at(shelf, number, loss->disks[0]), 0x55, shelf->column);
        memset(disk_at(shelf, number, loss->disks[1]), 0xAA, shelf->column);
        calls[i](shelf, number, loss);
        demand(memcmp(stripe, before, shelf->stripe) == 0,
               i == 0 ? "the library rebuilds two wrongly" : "Jerasure rebuilds two wrongly");
    }
}

void compare(const struct Shelf *shelf)
{
    const struct Losses *one = &shelf->array->losses[REBUILD_ONE];
    const struct Losses *two = &shelf->array->losses[REBUILD_TWO];
    for (size_t number = 0; number < shelf->stripes; number++) {
        compare_encoding(shelf, number);
    }
    compare_dirty(shelf, 0);
    for (int i = 0; i < one->count; i++) {
        compare_one(shelf, 0, &one->all[i]);
    }
    for (int i = 0; i < two->count; i++) {
        compare_two(shelf, 0, &two->all[i]);
    }
}
