/* One call of a function of yours: named, made, and compared with what the library gives. */

#include "kit.h"

#include <stdarg.h>
#include <stdlib.h>
#include <string.h>

static struct trial trial;

bool make_trials(void)
{
    size_t most = MOST_CELLS * (size_t)CUZHAVELI_MAX_CELL_SIZE;
    trial.before = malloc(most);
    trial.wanted = malloc(most);
    trial.got = malloc(most);
    return trial.before && trial.wanted && trial.got;
}

/* The trial that was begun last. */
struct trial *trial_under_way(void)
{
    return &trial;
}

static void name_trial(const char *format, va_list parts)
{
    char *end = trial.name + sizeof trial.name, *at = trial.name;
    at += snprintf(at, (size_t)(end - at), "%s/p=%zu/k=%zu", function_name(trial.function, trial.form),
                   trial.shape.width, trial.shape.disks);
    if (takes_stripe(trial.function))
        at += snprintf(at, (size_t)(end - at), "/s=%zu", trial.shape.cell_size);
    *at++ = '/';
    vsnprintf(at, (size_t)(end - at), format, parts);
}

/* Begins a trial, whose name says all that it depends on beside the seed; NULL if it is not
 * wanted. */
struct trial *begin_trial(enum function function, enum form form, struct cuzhaveli_shape shape, const char *format, ...)
{
    if (options.width != 0 && options.width != shape.width)
        return NULL;
    trial.function = function;
    trial.form = form;
    trial.shape = shape;
    va_list parts;
    va_start(parts, format);
    name_trial(format, parts);
    va_end(parts);
    if (options.named && strcmp(options.named, trial.name) != 0)
        return NULL;
    trial.random = random_of(options.seed, trial.name);
    trial.failed = false;
    memset(trial.noise, 0, sizeof trial.noise);
    trial.disks = shape.disks + 2;
    trial.column = shape.width * shape.cell_size;
    trial.beside = NULL;
    trial.beside_length = 0;
    trial.explain = NULL;
    tally_of(function, form, slot_of(shape.width))->tried++;
    return &trial;
}

/* Lends what the trial needs: at the end of protected memory, or at its beginning. */
static void lend_all(struct trial *t)
{
    bool at_end = once_in(&t->random, 2);
    uint8_t *columns[MOST_DISKS];
    forget_lent();
    t->stripe = NULL;
    t->columns = NULL;
    if (t->beside)
        t->lent_beside = lend(BESIDE, t->beside, t->beside_length, at_end);
    if (!takes_stripe(t->function))
        return;
    if (t->form == STRIPE) {
        t->stripe = lend(THE_STRIPE, t->before, stripe_bytes(t), at_end);
        return;
    }
    for (size_t c = 0; c < t->disks; c++)
        columns[c] = lend(THE_COLUMNS + (int)c, t->before + c * t->column, t->column, at_end);
    t->columns = lend(THE_POINTERS, columns, t->disks * sizeof *columns, true);
}

/* What the lent stripe holds now. */
static void take_back(struct trial *t)
{
    if (t->stripe)
        memcpy(t->got, t->stripe, stripe_bytes(t));
    for (size_t c = 0; t->columns && c < t->disks; c++)
        memcpy(t->got + c * t->column, t->columns[c], t->column);
}

static void tell_ending(struct trial *t, struct outcome outcome)
{
    FILE *out = begin_failure(t);
    if (outcome.ending == STUCK)
        fprintf(out, "did not return within %u seconds", options.seconds);
    else if (!outcome.address)
        fprintf(out, "ended by %s", strsignal(outcome.signal));
    else {
        fputs("touched memory that was not lent: ", out);
        if (!describe_address(out, outcome.address))
            fprintf(out, "address %p, far from all that was", outcome.address);
    }
    end_failure(t);
}

static bool left_memory_alone(struct trial *t)
{
    char text[200] = "";
    FILE *out = fmemopen(text, sizeof text, "w");
    bool written = out && describe_written(out);
    if (out)
        fclose(out);
    if (written) {
        fprintf(begin_failure(t), "%s, which was not lent", text);
        end_failure(t);
    }
    return !written;
}

struct made {
    struct trial *trial;
    int (*call)(struct trial *trial);
};

static int make_call(void *with)
{
    struct made *made = with;
    return made->call(made->trial);
}

/* Makes the call; false if it failed already or is one that yours leaves out. */
bool call_yours(struct trial *t, int (*call)(struct trial *trial))
{
    struct made made = {t, call};
    lend_all(t);
    struct outcome outcome = guarded(make_call, &made);
    if (outcome.ending != RETURNED) {
        tell_ending(t, outcome);
        return false;
    }
    t->answer = outcome.answer;
    if (t->answer == YOURS_LEFT_OUT) {
        struct tally *tally = tally_of(t->function, t->form, slot_of(t->shape.width));
        tally->tried--;
        tally->left_out++;
        return false;
    }
    if (!left_memory_alone(t))
        return false;
    take_back(t);
    return true;
}

/* The answer is 0 if `refusal` is; else it is one by which yours refuses that. */
bool same_answer(struct trial *t, int refusal)
{
    bool by_number = refuses_by(refusal) == YOURS_BY_NUMBER;
    bool same = refusal == 0 ? t->answer == 0 : by_number ? t->answer == refusal : t->answer > 0;
    if (same)
        return true;
    FILE *out = begin_failure(t);
    fprintf(out, "answered %d, ", t->answer);
    if (refusal == 0)
        fputs("where nothing is to be refused", out);
    else
        fprintf(out, "where %s is to be refused", refusal_text(refusal));
    if (by_number)
        fprintf(out, " by %d", refusal);
    end_failure(t);
    return false;
}

/* The stripe is as it should be. */
bool same_stripe(struct trial *t)
{
    size_t byte = 0, bytes = stripe_bytes(t);
    if (memcmp(t->wanted, t->got, bytes) == 0)
        return true;
    while (t->wanted[byte] == t->got[byte])
        byte++;
    FILE *out = begin_failure(t);
    if (t->column == t->shape.width * t->shape.cell_size && t->disks == t->shape.disks + 2)
        draw_difference(out, t, byte);
    else
        fprintf(out, "byte %zu of column %zu changed", byte % t->column, byte / t->column);
    end_failure(t);
    return false;
}

/* What was lent beside the stripe stands. */
bool same_beside(struct trial *t)
{
    if (memcmp(t->beside, t->lent_beside, t->beside_length) == 0)
        return true;
    fputs("changed what was lent beside the stripe, to be read alone", begin_failure(t));
    end_failure(t);
    return false;
}
