/* What the files of calls share: their numbers in the table CALL, and what they are lent. */

#ifndef CALLS_H
#define CALLS_H

#include "boundary.h"

#include <stdio.h>
#include <string.h>

enum {
    PLAN, BALANCED_PLAN, RELIEF_PLAN, FEWEST_PLAN, LIST, JUDGE, PLAN_LIST, TEXT, WRITE, PLAIN, PRINTED, SPACE, ENCODE, CHECK,
    SCRUB, ONE, BALANCED, BY_PLAN, TESTED, TWO, CELLS, UPDATE, EXTRA, SERVER, OPEN, STEP, SKIP, PROGRESS, FULL, DISKS, BYTES,
    BILL, REPORT, IMAGE, CELL_PLACE, BLOCK_PLACE, UNIT_PLACE, FILM_PLACE, SEAL, OPEN_UNIT, FILM,
    BLOCK, FITS, VERSION
};

#define SAY(caller, ...) snprintf((caller)->what, sizeof (caller)->what, __VA_ARGS__)
#define SHAPE "{%zu, %zu, %zu}"
#define OF(shape) (shape).width, (shape).disks, (shape).cell_size
#define RUN "{" SHAPE ", %zu, %u, %u, %u}"
#define OF_RUN(run) OF((run).shape), (run).lost, (run).stripes, (run).next, (run).skipped

struct array { size_t width, disks, lost; };

/* calls.c */
bool same(struct caller *c, int call, struct cuzhaveli_answer got, struct cuzhaveli_answer wanted);
size_t required(struct caller *c, struct cuzhaveli_shape shape, size_t columns);
void lend_stripe(struct caller *c, struct cuzhaveli_shape shape);
void lend_column(struct caller *c, struct cuzhaveli_shape shape);
struct array any_array(struct random *r);
bool is_array(struct array a);

/* plans.c */
void lend_plan(struct caller *c, struct array a, struct lent *plan);
bool plan_disk(struct caller *c);
bool balanced_plan(struct caller *c);
bool relief_plan(struct caller *c);
bool fewest_plan(struct caller *c);
bool read_list(struct caller *c);
bool judge_plan(struct caller *c);
bool plan_list(struct caller *c);
bool plan_text(struct caller *c);
bool judge_text(struct caller *c);
bool write_plan(struct caller *c);
bool plain_text(struct caller *c);

/* images.c */
bool image_bytes(struct caller *c);
bool cell_place(struct caller *c);
bool block_place(struct caller *c);
bool unit_place(struct caller *c);
bool film_place(struct caller *c);

/* units.c */
bool seal_unit(struct caller *c);
bool open_unit(struct caller *c);
bool film_bytes(struct caller *c);
bool block_fits(struct caller *c);
bool piece_fits(struct caller *c);

/* rebuilds.c */
bool rebuild_one(struct caller *c);
bool rebuild_balanced(struct caller *c);
bool rebuild_by_plan(struct caller *c);
bool rebuild_tested(struct caller *c);
bool rebuild_two(struct caller *c);
bool rebuild_cells(struct caller *c);

#endif
