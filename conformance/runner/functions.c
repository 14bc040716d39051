/* The functions that can be offered, and which of them are. */

#include "kit.h"

static const char *const NAME[FUNCTIONS][FORMS] = {
    [PLAN] = {"plan", NULL},
    [READ_LIST] = {"read_list", NULL},
    [JUDGE] = {"judge", NULL},
    [JUDGE_TEXT] = {"judge_text", NULL},
    [ENCODE] = {"encode", "encode_columns"},
    [CHECK] = {"check", "check_columns"},
    [SCRUB] = {"scrub", "scrub_columns"},
    [REBUILD_ONE] = {"rebuild_one", "rebuild_one_columns"},
    [REBUILD_TESTED] = {"rebuild_tested", "rebuild_tested_columns"},
    [REBUILD_TWO] = {"rebuild_two", "rebuild_two_columns"},
    [REBUILD_CELLS] = {"rebuild_cells", "rebuild_cells_columns"},
    [UPDATE] = {"update", "update_columns"},
    [SEAL] = {"seal", NULL},
    [OPEN] = {"open", NULL},
};

/* The name after `yours_`. */
const char *function_name(enum function function, enum form form)
{
    return NAME[function][form];
}

bool has_form(enum function function, enum form form)
{
    return NAME[function][form] != NULL;
}

/* Has it a stripe, or a unit, which lies in memory as one? */
bool takes_stripe(enum function function)
{
    return has_form(function, COLUMNS) || function == SEAL || function == OPEN;
}

static bool is_offered_whole(enum function function)
{
    switch (function) {
    case PLAN: return yours_plan;
    case READ_LIST: return yours_read_list;
    case JUDGE: return yours_judge;
    case JUDGE_TEXT: return yours_judge_text;
    case ENCODE: return yours_encode;
    case CHECK: return yours_check;
    case SCRUB: return yours_scrub;
    case REBUILD_ONE: return yours_rebuild_one;
    case REBUILD_TESTED: return yours_rebuild_tested;
    case REBUILD_TWO: return yours_rebuild_two;
    case REBUILD_CELLS: return yours_rebuild_cells;
    case UPDATE: return yours_update;
    case SEAL: return yours_seal;
    case OPEN: return yours_open;
    default: return false;
    }
}

static bool is_offered_columns(enum function function)
{
    switch (function) {
    case ENCODE: return yours_encode_columns;
    case CHECK: return yours_check_columns;
    case SCRUB: return yours_scrub_columns;
    case REBUILD_ONE: return yours_rebuild_one_columns;
    case REBUILD_TESTED: return yours_rebuild_tested_columns;
    case REBUILD_TWO: return yours_rebuild_two_columns;
    case REBUILD_CELLS: return yours_rebuild_cells_columns;
    case UPDATE: return yours_update_columns;
    default: return false;
    }
}

bool is_offered(enum function function, enum form form)
{
    return form == STRIPE ? is_offered_whole(function) : is_offered_columns(function);
}

/* How yours refuses by that number. */
int refuses_by(int number)
{
    return yours_refuses ? yours_refuses(number) : YOURS_NEVER;
}

struct question {
    writes *function;
    struct cuzhaveli_shape shape;
    size_t lost;
    uint8_t *out;
};

static int ask(void *with)
{
    struct question *question = with;
    return question->function(question->shape.width, question->shape.disks, question->lost, question->out);
}

/* What yours_plan or yours_read_list writes; false if it is not offered, or does not do it. */
bool ask_yours(writes *function, struct cuzhaveli_shape shape, size_t lost, uint8_t *out)
{
    struct question question = {function, shape, lost, out};
    if (!function)
        return false;
    struct outcome outcome = guarded(ask, &question);
    return outcome.ending == RETURNED && outcome.answer == 0;
}
