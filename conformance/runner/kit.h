/* What the files of the conformance runner share. */

#ifndef KIT_H
#define KIT_H

#define YOURS_LINK __attribute__((weak))
#include "cuzhaveli.h"
#include "yours.h"

#include <stdbool.h>
#include <stdio.h>

#define WIDTHS 10
#define SLOTS (WIDTHS + 1) /* of the results: each width, and those that are none of the ten */
#define ARRAYS 148
#define MOST_DISKS 33
#define MOST_CELLS (MOST_DISKS * CUZHAVELI_MAX_WIDTH)
#define NO_DISK ((size_t)-1)

/* functions.c: what can be offered. Plans and units have no second form. */
enum function {
    PLAN,
    READ_LIST,
    JUDGE,
    JUDGE_TEXT,
    ENCODE,
    CHECK,
    SCRUB,
    REBUILD_ONE,
    REBUILD_TESTED,
    REBUILD_TWO,
    REBUILD_CELLS,
    UPDATE,
    SEAL,
    OPEN,
    FUNCTIONS
};
enum form { STRIPE, COLUMNS, FORMS };
const char *function_name(enum function function, enum form form);
bool has_form(enum function function, enum form form);
bool takes_stripe(enum function function);
bool is_offered(enum function function, enum form form);
int refuses_by(int number);
typedef int writes(size_t p, size_t k, size_t lost, uint8_t *out);
bool ask_yours(writes *function, struct cuzhaveli_shape shape, size_t lost, uint8_t *out);

/* options.c */
struct options {
    const char *program;
    uint64_t seed;
    const char *only;  /* one function, or NULL */
    const char *named; /* one trial, or NULL */
    size_t width;      /* one width, or 0 */
    unsigned seconds;  /* that a call may take */
    bool tap, fewest;
    const char *junit; /* the file, or NULL */
};
extern struct options options;
bool read_options(int argc, char **argv);

/* random.c */
struct random {
    uint64_t state;
};
struct random random_of(uint64_t seed, const char *name);
uint64_t next_number(struct random *random);
size_t below(struct random *random, size_t limit);
bool once_in(struct random *random, size_t times);
void fill(struct random *random, uint8_t *bytes, size_t length);

/* shapes.c: the arrays, and the cell sizes that each is tried with. */
extern const size_t WIDTH[WIDTHS];
struct array {
    size_t p, k;
};
struct array array_at(size_t n);
size_t slot_of(size_t p);
void name_slot(FILE *out, size_t slot);
size_t unit(void);
size_t in_units(size_t size);
struct cuzhaveli_shape small_shape(size_t n);
bool is_small(struct cuzhaveli_shape shape);
void each_shape(enum form form, void (*attempt)(enum form form, struct cuzhaveli_shape shape));
void each_loss(void (*attempt)(size_t n, size_t lost));

/* regions.c: memory between protected pages. */
enum { THE_STRIPE, THE_POINTERS, BESIDE, THE_BLOCK, THE_COLUMNS, REGIONS = THE_COLUMNS + MOST_DISKS };
bool make_regions(void);
void *lend(int region, const void *content, size_t length, bool at_end);
void forget_lent(void);
bool describe_address(FILE *out, const void *address);
bool describe_written(FILE *out);

/* guard.c: a call that may end badly. */
enum ending { RETURNED, RAISED, STUCK };
struct outcome {
    enum ending ending;
    int answer;          /* if it returned */
    int signal;          /* if it raised one */
    const void *address; /* that it touched */
};
bool begin_guard(void (*ended)(void));
struct outcome guarded(int (*call)(void *), void *with);

/* trial.c: one call of a function of yours, compared with the library. */
struct trial {
    enum function function;
    enum form form;
    struct cuzhaveli_shape shape;
    char name[160];
    struct random random;
    bool failed;
    uint8_t *before, *wanted, *got; /* the stripe: before the call, as it should be after, as it is */
    bool noise[MOST_CELLS];         /* the cells that hold noise before the call */
    size_t first, second;           /* lost disks; for an update, row and disk */
    size_t disks, column;           /* lent: so many columns of so many bytes */
    const uint8_t *beside;          /* lent beside the stripe, and its length */
    size_t beside_length;
    void (*explain)(FILE *out, const struct trial *trial, size_t cell);
    /* what a call gets and says */
    uint8_t *stripe;
    uint8_t **columns;
    uint8_t *lent_beside;
    int answer, clean, verdict;
    size_t disk, reads, step;
};
#define P_K_S(trial) (trial)->shape.width, (trial)->shape.disks, (trial)->shape.cell_size
bool make_trials(void);
struct trial *begin_trial(enum function function, enum form form, struct cuzhaveli_shape shape, const char *format, ...)
    __attribute__((format(printf, 4, 5)));
bool call_yours(struct trial *trial, int (*call)(struct trial *trial));
bool same_answer(struct trial *trial, int refusal);
bool same_stripe(struct trial *trial);
bool same_beside(struct trial *trial);
struct trial *trial_under_way(void);

/* stripes.c: what a trial's stripe holds. */
size_t stripe_bytes(const struct trial *trial);
void put_stripe(struct trial *trial, bool clean);
struct trial *begin_whole(enum function function, enum form form, struct cuzhaveli_shape shape, bool clean);
void lose_disk(struct trial *trial, size_t disk);
void lose_cell(struct trial *trial, size_t cell);
const char *content_name(bool clean);

/* draw.c */
void name_disk(FILE *out, const struct trial *trial, size_t disk);
void draw_difference(FILE *out, const struct trial *trial, size_t byte);

/* report.c */
struct tally {
    unsigned long tried, left_out, failed;
    char *text; /* of the first failure */
};
struct tally *tally_of(enum function function, enum form form, size_t slot);
struct tally function_tally(enum function function, enum form form);
FILE *begin_failure(struct trial *trial);
void end_failure(struct trial *trial);
void say(const char *format, ...) __attribute__((format(printf, 1, 2)));
int finish_report(void);

/* tap.c, junit.c */
void write_tap(void);
bool write_junit(const char *file);

/* Subjects, each a file. */
void try_plans(enum form form);
void try_read_lists(enum form form);
void try_judge(enum form form);
void try_judge_text(enum form form);
void try_encode(enum form form);
void try_check(enum form form);
void try_scrub(enum form form);
void try_rebuild_one(enum form form);
void try_rebuild_tested(enum form form);
void try_rebuild_two(enum form form);
void try_rebuild_cells(enum form form);
void try_update(enum form form);
void try_seal(enum form form);
void try_open(enum form form);
void try_refusals(enum function function, enum form form, int (*call)(struct trial *trial));

/* plan.c */
const char *refusal_text(int refusal);
bool plan_of_yours(struct cuzhaveli_shape shape, size_t lost, uint8_t *plan);
void say_reads(void);

/* read_list.c */
bool list_of_yours(struct cuzhaveli_shape shape, size_t lost, uint8_t *list);

/* plans.c */
#define MOST_PLAN_BYTES CUZHAVELI_PLAN_BYTES(CUZHAVELI_MAX_WIDTH)
void any_plan(struct random *random, size_t p, size_t k, size_t lost, uint8_t *plan);

/* judge.c */
struct trial *begin_judged(enum function function, size_t n, size_t lost, size_t which, uint8_t *plan);
void compare_judged(struct trial *trial, struct cuzhaveli_judged wanted);

#endif
