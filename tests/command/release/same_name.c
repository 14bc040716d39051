/* Gives every set the same name: what a program opens as /dev/urandom is the file that SAME_NAME names. Loaded before it. */
#define _GNU_SOURCE
#include <dlfcn.h>
#include <fcntl.h>
#include <stdarg.h>
#include <stdlib.h>
#include <string.h>

int open64(const char *path, int flags, ...)
{
    int (*real)(const char *, int, ...) = (int (*)(const char *, int, ...))dlsym(RTLD_NEXT, "open64");
    const char *same = getenv("SAME_NAME");
    va_list more;
    va_start(more, flags);
    int mode = flags & O_CREAT ? va_arg(more, int) : 0;
    va_end(more);
    return real(same && strcmp(path, "/dev/urandom") == 0 ? same : path, flags, mode);
}
