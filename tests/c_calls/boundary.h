/* Random calls of the library through its header, compared with the second implementation. */

#ifndef BOUNDARY_H
#define BOUNDARY_H

#include "cuzhaveli.h"

/* The second implementation, tests/reference, under names of its own; of the rebuild of two disks it has the refusals:
 * any contents of the other disks belong to exactly one clean stripe, so a clean result is the right one. */
extern __typeof__(cuzhaveli_plan_disk) second_plan_disk;
extern __typeof__(cuzhaveli_balanced_plan) second_balanced_plan;
extern __typeof__(cuzhaveli_relief_plan) second_relief_plan;
extern __typeof__(cuzhaveli_fewest_plan) second_fewest_plan;
extern __typeof__(cuzhaveli_read_list) second_read_list;
extern __typeof__(cuzhaveli_judge_plan) second_judge_plan;
extern __typeof__(cuzhaveli_plan_list) second_plan_list;
extern __typeof__(cuzhaveli_plan_text) second_plan_text;
extern __typeof__(cuzhaveli_judge_text) second_judge_text;
extern __typeof__(cuzhaveli_write_plan) second_write_plan;
extern __typeof__(cuzhaveli_plain_text) second_plain_text;
extern __typeof__(cuzhaveli_package_space) second_package_space;
extern __typeof__(cuzhaveli_encode_stripe) second_encode_stripe;
extern __typeof__(cuzhaveli_check_stripe) second_check_stripe;
extern __typeof__(cuzhaveli_scrub_stripe) second_scrub_stripe;
extern __typeof__(cuzhaveli_rebuild_one) second_rebuild_one;
extern __typeof__(cuzhaveli_rebuild_balanced) second_rebuild_balanced;
extern __typeof__(cuzhaveli_rebuild_by_plan) second_rebuild_by_plan;
extern __typeof__(cuzhaveli_rebuild_tested) second_rebuild_tested;
extern __typeof__(cuzhaveli_rebuild_cells) second_rebuild_cells;
extern __typeof__(cuzhaveli_update_cell) second_update_cell;
extern __typeof__(cuzhaveli_write_server) second_write_server;
extern __typeof__(cuzhaveli_rebuild_server) second_rebuild_server;
extern __typeof__(cuzhaveli_open_run) second_open_run;
extern __typeof__(cuzhaveli_step_run) second_step_run;
extern __typeof__(cuzhaveli_skip_stripe) second_skip_stripe;
extern __typeof__(cuzhaveli_run_progress) second_run_progress;
extern __typeof__(cuzhaveli_resume_full_run) second_resume_full_run;
extern __typeof__(cuzhaveli_resume_disks_run) second_resume_disks_run;
extern __typeof__(cuzhaveli_bill_bytes) second_bill_bytes;
extern __typeof__(cuzhaveli_bill_run) second_bill_run;
extern __typeof__(cuzhaveli_report_disk) second_report_disk;
extern __typeof__(cuzhaveli_image_bytes) second_image_bytes;
extern __typeof__(cuzhaveli_cell_place) second_cell_place;
extern __typeof__(cuzhaveli_block_place) second_block_place;
extern __typeof__(cuzhaveli_unit_place) second_unit_place;
extern __typeof__(cuzhaveli_film_place) second_film_place;
extern __typeof__(cuzhaveli_seal_unit) second_seal_unit;
extern __typeof__(cuzhaveli_open_unit) second_open_unit;
extern __typeof__(cuzhaveli_film_bytes) second_film_bytes;
extern __typeof__(cuzhaveli_block_fits) second_block_fits;
extern __typeof__(cuzhaveli_piece_fits) second_piece_fits;
struct cuzhaveli_answer second_refuse_two(struct cuzhaveli_shape shape, size_t first, size_t second, size_t stripe_len);

/* numbers.c: random numbers, most of them accepted. */
struct random { uint64_t state; };
uint64_t next_number(struct random *r);
size_t below(struct random *r, size_t limit);
bool once_in(struct random *r, size_t times);
void fill(struct random *r, uint8_t *bytes, size_t length);
size_t any_number(struct random *r);
size_t any_width(struct random *r);
size_t any_disks(struct random *r, size_t width);
size_t any_disk(struct random *r, size_t disks);
size_t any_row(struct random *r, size_t width);
size_t any_servers(struct random *r);
size_t any_length(struct random *r, size_t right);
struct cuzhaveli_shape any_shape(struct random *r);
bool is_shape(struct cuzhaveli_shape shape);

/* lent.c: memory between protected pages. */
#define GUARD 64
struct lent {
    uint8_t *low, *high; /* the first byte between the protected pages, and the one after the last */
    uint8_t *bytes;      /* what is lent, at one of the two ends; NULL if the call gets NULL */
    size_t length;       /* as the call gets it */
    uint8_t *same;       /* the same content for the second implementation */
    size_t same_length;  /* as the second implementation gets it: 0, which no call accepts, for NULL */
};
struct lent new_lent(void);
void lend(struct lent *lent, struct random *r, size_t right, bool at_end);
void lend_random(struct lent *lent, struct random *r, size_t length, bool at_end);
void lend_null(struct lent *lent, size_t length);
void lend_bytes(struct lent *lent, const uint8_t *bytes, size_t length, bool at_end);
void set_content(struct lent *lent);
bool lent_agrees(const struct lent *lent);

/* calls.c, images.c, plans.c, rebuilds.c, units.c: one random call each; false if the library and the second implementation differ. */
#define CALLS 44
struct caller {
    struct random random;
    struct lent first, second, third;
    bool at_end;
    uint64_t refused[CALLS][256]; /* how often each call gave each refusal, 0 for none */
    char what[400];               /* the call under way, for a report */
};
struct call { const char *name; bool (*make)(struct caller *); };
extern const struct call CALL[CALLS];

/* stack.c: measures and prints the stack of each call; false if one takes more than the header promises. */
bool stack_is_small(void);

#endif
