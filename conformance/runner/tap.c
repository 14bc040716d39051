/* The results in the form of the Test Anything Protocol: a test for each function and width. */

#include "kit.h"

#include <string.h>

/* The text of a failure, each line a comment. */
static void write_text(const char *text)
{
    while (*text) {
        size_t length = strcspn(text, "\n");
        printf("#%s%.*s\n", length ? " " : "", (int)length, text);
        text += length + (text[length] == '\n');
    }
}

static void write_slot(int number, const char *name, const struct tally *tally, size_t slot)
{
    printf("%s %d - yours_%s ", tally->failed ? "not ok" : "ok", number, name);
    name_slot(stdout, slot);
    printf(": %lu of %lu trials failed", tally->failed, tally->tried);
    puts(tally->tried > 0 ? "" : tally->left_out > 0 ? " # SKIP left out" : " # SKIP not asked for");
    if (tally->text)
        write_text(tally->text);
}

/* The tests of one function; the number of the last of them. */
static int write_function(int number, enum function function, enum form form)
{
    const char *name = function_name(function, form);
    if (!is_offered(function, form)) {
        printf("ok %d - yours_%s # SKIP not offered\n", ++number, name);
        return number;
    }
    for (size_t slot = 0; slot < SLOTS; slot++)
        write_slot(++number, name, tally_of(function, form, slot), slot);
    return number;
}

void write_tap(void)
{
    int number = 0;
    puts("TAP version 13");
    for (enum function function = 0; function < FUNCTIONS; function++)
        for (enum form form = 0; form < FORMS; form++)
            if (has_form(function, form))
                number = write_function(number, function, form);
    printf("1..%d\n", number);
}
