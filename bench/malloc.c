/* A malloc and a realloc that give nothing at the call that REFUSED names, and tell at the end how often they were
   called: for allocations.sh and sessions/memory.sh, preloaded. */
#define _GNU_SOURCE
#include <dlfcn.h>
#include <fcntl.h>
#include <stdio.h>
#include <stdlib.h>
#include <unistd.h>

static void *(*given)(size_t);
static void *(*given_again)(void *, size_t);
static long calls, refused;

static int is_refused(void) {
    if (!given) {
        given = (void *(*)(size_t))dlsym(RTLD_NEXT, "malloc");
        given_again = (void *(*)(void *, size_t))dlsym(RTLD_NEXT, "realloc");
        const char *number = getenv("REFUSED");
        refused = number ? atol(number) : 0;
    }
    return ++calls == refused;
}

void *malloc(size_t size) {
    return is_refused() ? NULL : given(size);
}

void *realloc(void *old, size_t size) {
    return is_refused() ? NULL : given_again(old, size);
}

__attribute__((destructor)) static void tell(void) {
    const char *path = getenv("CALLS");
    if (path) {
        char text[32];
        int length = snprintf(text, sizeof text, "%ld\n", calls);
        int file = open(path, O_CREAT | O_TRUNC | O_WRONLY, 0600);
        if (write(file, text, length) != length) _exit(3);
    }
}
