/* The results as JUnit XML: a suite for each function, a case for each width. */

#include "kit.h"

#include <string.h>

static void write_escaped(FILE *out, const char *text)
{
    for (; *text; text++) {
        switch (*text) {
        case '&': fputs("&amp;", out); break;
        case '<': fputs("&lt;", out); break;
        case '>': fputs("&gt;", out); break;
        case '"': fputs("&quot;", out); break;
        default: fputc(*text, out);
        }
    }
}

/* The first line of a failure is its message. */
static void write_failure(FILE *out, const char *text)
{
    char first[200];
    snprintf(first, sizeof first, "%.*s", (int)strcspn(text, "\n"), text);
    fputs("      <failure message=\"", out);
    write_escaped(out, first);
    fputs("\">", out);
    write_escaped(out, text);
    fputs("</failure>\n", out);
}

static void write_case(FILE *out, const char *suite, size_t slot, const struct tally *tally)
{
    fprintf(out, "    <testcase classname=\"yours_%s\" name=\"", suite);
    name_slot(out, slot);
    fputs("\">\n", out);
    if (tally->text)
        write_failure(out, tally->text);
    else if (tally->tried == 0)
        fputs("      <skipped/>\n", out);
    fputs("    </testcase>\n", out);
}

static void write_suite(FILE *out, enum function function, enum form form)
{
    const char *suite = function_name(function, form);
    int failures = 0, skipped = 0;
    for (size_t slot = 0; slot < SLOTS; slot++) {
        const struct tally *tally = tally_of(function, form, slot);
        failures += tally->failed > 0;
        skipped += tally->tried == 0;
    }
    fprintf(out, "  <testsuite name=\"yours_%s\" tests=\"%d\" failures=\"%d\" skipped=\"%d\">\n", suite, SLOTS,
            failures, skipped);
    for (size_t slot = 0; slot < SLOTS; slot++)
        write_case(out, suite, slot, tally_of(function, form, slot));
    fputs("  </testsuite>\n", out);
}

/* False, with a word on standard error, if the file cannot be written. */
bool write_junit(const char *file)
{
    FILE *out = fopen(file, "w");
    if (!out) {
        perror(file);
        return false;
    }
    fputs("<?xml version=\"1.0\" encoding=\"UTF-8\"?>\n<testsuites name=\"conformance\">\n", out);
    for (enum function function = 0; function < FUNCTIONS; function++)
        for (enum form form = 0; form < FORMS; form++)
            if (has_form(function, form))
                write_suite(out, function, form);
    fputs("</testsuites>\n", out);
    bool written = !ferror(out);
    if (fclose(out) != 0 || !written) {
        perror(file);
        return false;
    }
    return true;
}
