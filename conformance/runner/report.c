/* What was tried, what failed, and the table at the end. */

#include "kit.h"

#include <stdarg.h>
#include <stdlib.h>
#include <string.h>
#include <time.h>

/* Failures shown of one function; further ones are counted. */
#define SHOWN 3

static struct tally tallies[FUNCTIONS][FORMS][SLOTS];
static char *text;
static size_t text_length;
static FILE *telling;

struct tally *tally_of(enum function function, enum form form, size_t slot)
{
    return &tallies[function][form][slot];
}

/* The numbers of all widths together. */
struct tally function_tally(enum function function, enum form form)
{
    struct tally sum = {0};
    for (size_t w = 0; w < SLOTS; w++) {
        const struct tally *one = &tallies[function][form][w];
        sum.tried += one->tried;
        sum.left_out += one->left_out;
        sum.failed += one->failed;
    }
    return sum;
}

/* Where to tell what differs. */
FILE *begin_failure(struct trial *t)
{
    telling = open_memstream(&text, &text_length);
    if (!telling) {
        fputs("conformance: no memory for the report\n", stderr);
        exit(2);
    }
    fprintf(telling, "FAILED: yours_%s, p = %zu, k = %zu", function_name(t->function, t->form),
            t->shape.width, t->shape.disks);
    if (takes_stripe(t->function))
        fprintf(telling, ", s = %zu", t->shape.cell_size);
    fputs(": ", telling);
    return telling;
}

/* Counts a failure, once for a trial, and keeps or prints its text. */
void end_failure(struct trial *t)
{
    fprintf(telling, "\n    again: %s --seed %ju --case %s%s\n", options.program, (uintmax_t)options.seed, t->name,
            options.fewest ? " --fewest" : "");
    fclose(telling);
    struct tally *tally = tally_of(t->function, t->form, slot_of(t->shape.width));
    if (!t->failed)
        tally->failed++;
    t->failed = true;
    if (!options.tap && function_tally(t->function, t->form).failed <= SHOWN) {
        fputs(text, stdout);
        fflush(stdout);
    }
    if (tally->text)
        free(text);
    else
        tally->text = text;
    text = NULL;
}

/* A line of the report that is no result. */
void say(const char *format, ...)
{
    va_list parts;
    va_start(parts, format);
    if (options.tap)
        fputs("# ", stdout);
    vprintf(format, parts);
    fputc('\n', stdout);
    va_end(parts);
}

static void print_line(enum function function, enum form form)
{
    struct tally sum = function_tally(function, form);
    const char *name = function_name(function, form);
    if (sum.tried + sum.left_out == 0)
        say("yours_%-24s skipped: not %s", name, is_offered(function, form) ? "asked for" : "offered");
    else
        say("yours_%-24s %10lu %10lu %10lu", name, sum.tried, sum.left_out, sum.failed);
}

static void print_table(void)
{
    say("%-30s %10s %10s %10s", "function", "tried", "left out", "failed");
    for (enum function function = 0; function < FUNCTIONS; function++)
        for (enum form form = 0; form < FORMS; form++)
            if (has_form(function, form))
                print_line(function, form);
    if (!yours_refuses)
        say("skipped: arguments to refuse (yours_refuses is not offered)");
    bool rebuilds = yours_rebuild_one || yours_rebuild_one_columns;
    if (rebuilds && !yours_plan && !yours_read_list)
        say("skipped: noise off the read list (neither yours_plan nor yours_read_list is offered)");
    say_reads();
}

/* The sum of all functions, and how many of them were tried. */
static struct tally sum_of_all(int *functions)
{
    struct tally all = {0};
    *functions = 0;
    for (enum function function = 0; function < FUNCTIONS; function++)
        for (enum form form = 0; form < FORMS; form++) {
            struct tally sum = function_tally(function, form);
            all.tried += sum.tried;
            all.left_out += sum.left_out;
            all.failed += sum.failed;
            *functions += sum.tried > 0;
        }
    return all;
}

static int verdict(void)
{
    int functions;
    struct tally all = sum_of_all(&functions);
    if (all.tried == 0 && (options.named || options.only || options.width))
        say("conformance: nothing was tried: no function that is offered has trials of that name or width");
    else if (all.tried == 0 && all.left_out > 0)
        say("conformance: nothing was tried: every trial was left out");
    else if (all.tried == 0)
        say("conformance: nothing was tried: none of the functions of yours.h is offered");
    else
        say("conformance: %s: %lu of %lu trials of %d functions failed (seed %ju, %.1f s of processor time)",
            all.failed ? "FAILED" : "passed", all.failed, all.tried, functions, (uintmax_t)options.seed,
            (double)clock() / CLOCKS_PER_SEC);
    return all.tried == 0 ? 2 : all.failed ? 1 : 0;
}

/* Prints and writes all that was found; the program's status. */
int finish_report(void)
{
    if (options.tap)
        write_tap();
    print_table();
    int status = verdict();
    fflush(stdout);
    return options.junit && !write_junit(options.junit) ? 2 : status;
}
