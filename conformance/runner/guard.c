/* Calls that may touch protected memory, raise another signal, never return, or end the program. */

#include "kit.h"

#include <setjmp.h>
#include <signal.h>
#include <stdlib.h>
#include <sys/time.h>

#define STACK ((size_t)1 << 16)

static const int CAUGHT[] = {SIGSEGV, SIGBUS, SIGFPE, SIGILL, SIGABRT};

static sigjmp_buf back;
static volatile sig_atomic_t inside;
static volatile unsigned long calls;
static struct outcome caught; /* written by a handler just before it leaves a call */
static void (*on_end)(void);

static void leave(struct outcome how)
{
    inside = 0;
    caught = how;
    siglongjmp(back, 1);
}

static void raised(int number, siginfo_t *info, void *context)
{
    (void)context;
    if (!inside) { /* ours, not yours */
        signal(number, SIG_DFL);
        raise(number);
        return;
    }
    leave((struct outcome){RAISED, 0, number, number == SIGSEGV || number == SIGBUS ? info->si_addr : NULL});
}

/* Every second: has the call under way begun before the last options.seconds? */
static void tick(int number, siginfo_t *info, void *context)
{
    static unsigned long seen;
    static unsigned seconds;
    (void)number;
    (void)info;
    (void)context;
    if (!inside || seen != calls) {
        seen = calls;
        seconds = 0;
    } else if (++seconds >= options.seconds) {
        leave((struct outcome){STUCK, 0, 0, NULL});
    }
}

static void ended(void)
{
    if (inside)
        on_end();
}

static bool catch_signal(int number, void (*handler)(int, siginfo_t *, void *))
{
    struct sigaction action = {0};
    action.sa_sigaction = handler;
    action.sa_flags = SA_SIGINFO | SA_ONSTACK | SA_NODEFER | SA_RESTART;
    return sigaction(number, &action, NULL) == 0;
}

/* Prepares for calls; `at_end` is called if one ends the program. */
bool begin_guard(void (*at_end)(void))
{
    stack_t stack = {0};
    stack.ss_sp = malloc(STACK);
    stack.ss_size = STACK;
    struct itimerval every = {{1, 0}, {1, 0}};
    on_end = at_end;
    bool ready = stack.ss_sp && sigaltstack(&stack, NULL) == 0 && atexit(ended) == 0;
    for (size_t i = 0; i < sizeof CAUGHT / sizeof *CAUGHT; i++)
        ready = ready && catch_signal(CAUGHT[i], raised);
    return ready && catch_signal(SIGALRM, tick) && setitimer(ITIMER_REAL, &every, NULL) == 0;
}

/* Makes a call, and comes back however it ends. */
struct outcome guarded(int (*call)(void *), void *with)
{
    calls++;
    if (sigsetjmp(back, 0) != 0)
        return caught;
    inside = 1;
    int answer = call(with);
    inside = 0;
    return (struct outcome){RETURNED, answer, 0, NULL};
}
