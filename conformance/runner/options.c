/* The words after the program's name. */

#include "kit.h"

#include <stdlib.h>
#include <string.h>

struct options options = {.seed = 20000831, .seconds = 20};

static const char USAGE[] =
    "usage: PROGRAM [OPTION...]\n"
    "  --only NAME     one function: encode, rebuild_two_columns, ..\n"
    "  --width P       one width\n"
    "  --case NAME     one trial, as a failure names it\n"
    "  --seed N        other contents (20000831 if not given)\n"
    "  --fewest        a plan for a full array that reads more cells than the fewest is a failure\n"
    "  --seconds N     that a call may take (20)\n"
    "  --tap           the results as TAP on standard output\n"
    "  --junit FILE    the results as JUnit XML, too\n"
    "status: 0 all agree, 1 something differs, 2 nothing was tried or usage\n";

static bool number_in(const char *word, uint64_t *number)
{
    char *end;
    *number = strtoull(word, &end, 10);
    return *word >= '0' && *word <= '9' && *end == '\0';
}

/* An option that has a value. */
static bool take_value(const char *option, const char *value)
{
    uint64_t number = 0;
    if (strcmp(option, "--only") == 0)
        options.only = value;
    else if (strcmp(option, "--case") == 0)
        options.named = value;
    else if (strcmp(option, "--junit") == 0)
        options.junit = value;
    else if (strcmp(option, "--seed") == 0)
        return number_in(value, &options.seed);
    else if (strcmp(option, "--width") == 0 && number_in(value, &number))
        options.width = (size_t)number;
    else if (strcmp(option, "--seconds") == 0 && number_in(value, &number) && number > 0 && number < 1000000)
        options.seconds = (unsigned)number;
    else
        return false;
    return true;
}

/* False, with a word on standard error, if the words are no options. */
bool read_options(int argc, char **argv)
{
    options.program = argv[0];
    for (int i = 1; i < argc; i++) {
        if (strcmp(argv[i], "--tap") == 0)
            options.tap = true;
        else if (strcmp(argv[i], "--fewest") == 0)
            options.fewest = true;
        else if (strcmp(argv[i], "--help") == 0) {
            fputs(USAGE, stdout);
            exit(0);
        } else if (i + 1 < argc && take_value(argv[i], argv[i + 1]))
            i++;
        else {
            fprintf(stderr, "conformance: `%s` is no option, or its value is none\n%s", argv[i], USAGE);
            return false;
        }
    }
    return true;
}
