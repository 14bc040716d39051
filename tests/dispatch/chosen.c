/* Prints where the loader leads each call of a shared library: its name, and its offset in the
 * addresses of the file.
 *
 * Usage: chosen LIBRARY NAME.. */

#define _GNU_SOURCE
#include <dlfcn.h>
#include <stdio.h>

int main(int argc, char **argv)
{
    void *library = argc > 1 ? dlopen(argv[1], RTLD_NOW) : NULL;
    if (!library) {
        fprintf(stderr, "chosen: %s; usage: chosen LIBRARY NAME..\n", argc > 1 ? dlerror() : "no library named");
        return 2;
    }
    for (int i = 2; i < argc; i++) {
        Dl_info info;
        char *call = dlsym(library, argv[i]);
        if (!call || !dladdr(call, &info)) {
            fprintf(stderr, "chosen: %s has no %s\n", argv[1], argv[i]);
            return 1;
        }
        printf("%s %zx\n", argv[i], (size_t)(call - (char *)info.dli_fbase));
    }
    return 0;
}
