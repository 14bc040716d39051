/* Compares your code with the proved library: see docs/TEST-YOURS.md, and yours.h for what it
 * can offer. */

#include "kit.h"

#include <string.h>
#include <unistd.h>

static void (*const SUBJECT[FUNCTIONS])(enum form form) = {
    [PLAN] = try_plans,
    [READ_LIST] = try_read_lists,
    [JUDGE] = try_judge,
    [JUDGE_TEXT] = try_judge_text,
    [ENCODE] = try_encode,
    [CHECK] = try_check,
    [SCRUB] = try_scrub,
    [REBUILD_ONE] = try_rebuild_one,
    [REBUILD_TESTED] = try_rebuild_tested,
    [REBUILD_TWO] = try_rebuild_two,
    [REBUILD_CELLS] = try_rebuild_cells,
    [UPDATE] = try_update,
    [SEAL] = try_seal,
    [OPEN] = try_open,
};

/* Is this function wanted? --case asks for the one that begins its name. */
static bool is_wanted(enum function function, enum form form)
{
    const char *name = function_name(function, form);
    size_t length = strlen(name);
    if (options.named && (strncmp(options.named, name, length) != 0 || options.named[length] != '/'))
        return false;
    return !options.only || strcmp(options.only, name) == 0;
}

/* Your code ended the program in a call. */
static void ended_within_call(void)
{
    struct trial *trial = trial_under_way();
    fputs("ended the program", begin_failure(trial));
    end_failure(trial);
    _exit(finish_report());
}

/* What is being tried, on a terminal. */
static void say_progress(const char *name)
{
    if (isatty(STDERR_FILENO))
        fprintf(stderr, "\r%-48.48s\r", name ? name : "");
}

int main(int argc, char **argv)
{
    if (!read_options(argc, argv))
        return 2;
    if (!make_regions() || !make_trials() || !begin_guard(ended_within_call)) {
        fputs("conformance: no memory between protected pages, or no signals; free some memory\n", stderr);
        return 2;
    }
    if (unit() == 0 || unit() > CUZHAVELI_MAX_CELL_SIZE) {
        fprintf(stderr, "conformance: yours_unit says %zu; cells have 1 to %d bytes\n", unit(),
                CUZHAVELI_MAX_CELL_SIZE);
        return 2;
    }
    for (enum function function = 0; function < FUNCTIONS; function++)
        for (enum form form = 0; form < FORMS; form++)
            if (is_offered(function, form) && is_wanted(function, form)) {
                say_progress(function_name(function, form));
                SUBJECT[function](form);
            }
    say_progress(NULL);
    return finish_report();
}
