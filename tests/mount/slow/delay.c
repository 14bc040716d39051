/* Delays chosen calls below a program: preload it (LD_PRELOAD) and set
 *   DELAY_PATHS   parts of paths, with commas between: calls on other paths are as they were
 *   DELAY_CALLS   pread, stat and open, with commas between
 *   DELAY_MS      how long each of them takes
 *   DELAY_FLAG    the delay is there while this file is
 *   DELAY_COUNT   a file that gets a byte for each delayed call, when it begins
 */
#define _GNU_SOURCE
#include <dlfcn.h>
#include <errno.h>
#include <fcntl.h>
#include <stdarg.h>
#include <stdio.h>
#include <stdlib.h>
#include <string.h>
#include <sys/types.h>
#include <sys/uio.h>
#include <time.h>
#include <unistd.h>

#define REAL(answer, name, arguments)                                       \
    static answer(*real) arguments;                                         \
    if (!real)                                                              \
        real = (answer(*) arguments)dlsym(RTLD_NEXT, #name)

static int listed(const char *list, const char *text, int within)
{
    size_t len;
    for (; list && *list; list += len + (list[len] == ',')) {
        len = strcspn(list, ",");
        char one[256];
        snprintf(one, sizeof one, "%.*s", (int)len, list);
        if (len && (within ? strstr(text, one) != NULL : strcmp(text, one) == 0))
            return 1;
    }
    return 0;
}

static int concerns(const char *call, const char *path, int file)
{
    char link[64], target[4096];
    const char *flag = getenv("DELAY_FLAG");
    if (!getenv("DELAY_MS") || !listed(getenv("DELAY_CALLS"), call, 0) || (flag && access(flag, F_OK) != 0))
        return 0;
    if (!path) {
        snprintf(link, sizeof link, "/proc/self/fd/%d", file);
        ssize_t len = readlink(link, target, sizeof target - 1);
        target[len < 0 ? 0 : len] = 0;
        path = target;
    }
    return listed(getenv("DELAY_PATHS"), path, 1);
}

static void delay(const char *call, const char *path, int file)
{
    const char *count = getenv("DELAY_COUNT");
    if (!concerns(call, path, file))
        return;
    if (count) {
        FILE *to = fopen(count, "a");
        if (to) {
            fputc('.', to);
            fclose(to);
        }
    }
    long ms = atol(getenv("DELAY_MS"));
    struct timespec time = {ms / 1000, ms % 1000 * 1000000};
    nanosleep(&time, NULL);
}

ssize_t pread64(int file, void *bytes, size_t len, off64_t at)
{
    REAL(ssize_t, pread64, (int, void *, size_t, off64_t));
    delay("pread", NULL, file);
    return real(file, bytes, len, at);
}

/* A read that must not wait finds nothing in memory where reads are delayed. */
ssize_t preadv2(int file, const struct iovec *to, int count, off_t at, int flags)
{
    REAL(ssize_t, preadv2, (int, const struct iovec *, int, off_t, int));
    if (concerns("pread", NULL, file)) {
        errno = EAGAIN;
        return -1;
    }
    return real(file, to, count, at, flags);
}

int open64(const char *path, int flags, ...)
{
    REAL(int, open64, (const char *, int, ...));
    va_list more;
    va_start(more, flags);
    mode_t mode = flags & O_CREAT ? va_arg(more, mode_t) : 0;
    va_end(more);
    delay("open", path, -1);
    return real(path, flags, mode);
}

/* Without its header, by which a path is never null; std tries that. */
int statx(int folder, const char *path, int flags, unsigned mask, void *data);
int statx(int folder, const char *path, int flags, unsigned mask, void *data)
{
    REAL(int, statx, (int, const char *, int, unsigned, void *));
    delay("stat", path && path[0] ? path : NULL, folder);
    return real(folder, path, flags, mask, data);
}
