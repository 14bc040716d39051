/* Random calls, good and bad, of the library through its header, compared with the second implementation.
 *
 * Usage: boundary [CALLS [SEED]]
 * Four threads make the calls; each lent slice ends at a protected page in one half of the calls, and begins at one in
 * the other. Prints which refusals each call gave. Exit status 1 if an answer or a byte differs, or if a call touches
 * memory that it was not lent.
 *
 * Usage: boundary stack
 * Measures and prints the stack that each call takes. Exit status 1 if one takes more than the header promises. */

#include "boundary.h"

#include <pthread.h>
#include <signal.h>
#include <stdio.h>
#include <stdlib.h>
#include <string.h>
#include <unistd.h>

#define THREADS 4

static uint64_t calls = 1000000, seed = 20000831;
static __thread struct caller *current;
static struct caller *callers[THREADS];

static void outside(int number)
{
    (void)number;
    char text[600];
    int length = snprintf(text, sizeof text, "boundary: FAILED: memory outside what was lent was touched in %s (seed %ju)\n",
                          current ? current->what : "no call", (uintmax_t)seed);
    if (write(1, text, (size_t)length) < 0)
        _exit(2);
    _exit(1);
}

static void *make_calls(void *given)
{
    struct caller *c = current = given;
    for (uint64_t i = 0; i < calls / THREADS; i++) {
        c->at_end = i % 2 == 0;
        if (!CALL[below(&c->random, CALLS)].make(c)) {
            printf("boundary: FAILED: the second implementation differs: %s, or bytes or other fields (seed %ju, call %ju)\n",
                   c->what, (uintmax_t)seed, (uintmax_t)i);
            fflush(stdout);
            _exit(1);
        }
    }
    return NULL;
}

static void print_refusals(void)
{
    for (int call = 0; call < CALLS; call++) {
        printf("refused %s:", CALL[call].name);
        for (int refusal = 1; refusal < 256; refusal++) {
            uint64_t times = 0;
            for (int t = 0; t < THREADS; t++)
                times += callers[t]->refused[call][refusal];
            if (times > 0)
                printf(" %d", refusal);
        }
        printf("\n");
    }
}

int main(int argc, char **argv)
{
    pthread_t threads[THREADS];
    if (argc == 2 && strcmp(argv[1], "stack") == 0)
        return stack_is_small() ? 0 : 1;
    if (argc > 3 || (argc > 1 && (calls = strtoull(argv[1], NULL, 10)) == 0)) {
        fprintf(stderr, "usage: boundary [CALLS [SEED]]\n       boundary stack\n");
        return 2;
    }
    if (argc > 2)
        seed = strtoull(argv[2], NULL, 10);
    signal(SIGSEGV, outside);
    signal(SIGBUS, outside);
    for (int t = 0; t < THREADS; t++) {
        struct caller *c = callers[t] = calloc(1, sizeof *c);
        if (!c)
            return 2;
        c->random.state = seed * 2654435761u + (uint64_t)t + 1;
        c->first = new_lent();
        c->second = new_lent();
        c->third = new_lent();
        if (pthread_create(&threads[t], NULL, make_calls, c) != 0) {
            fprintf(stderr, "boundary: no thread; raise the limit of processes\n");
            return 2;
        }
    }
    for (int t = 0; t < THREADS; t++)
        pthread_join(threads[t], NULL);
    print_refusals();
    printf("boundary: %ju calls by %d threads agree\n", (uintmax_t)(calls / THREADS * THREADS), THREADS);
    return 0;
}
