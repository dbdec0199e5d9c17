/* An accept4 that fails with the numbers that ERRORS names, as "24 9", one at each call, and accepts where the number
   is 0 and after the last: for doors.sh, preloaded. */
#define _GNU_SOURCE
#include <dlfcn.h>
#include <errno.h>
#include <stdlib.h>
#include <sys/socket.h>

typedef int accepting(int, struct sockaddr *, socklen_t *, int);

static const char *left;

static int next_error(void) {
    if (!left) {
        const char *errors = getenv("ERRORS");
        left = errors ? errors : "";
    }
    char *rest = NULL;
    long error = strtol(left, &rest, 10);
    left = rest;
    return (int)error;
}

int accept4(int listener, struct sockaddr *address, socklen_t *length, int flags) {
    int error = next_error();
    if (error) {
        errno = error;
        return -1;
    }
    accepting *given = (accepting *)dlsym(RTLD_NEXT, "accept4");
    return given(listener, address, length, flags);
}
