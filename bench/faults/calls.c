/* The calls by which a program reaches its streams, files and sockets, of which one goes wrong: for main.py, preloaded.

   CALLS   a file that gets a line for each call as it ends: its name, its descriptor, its option if it has one, and
           what it gave; `wrong` stands behind the one that went wrong. The last line is `left_open` with the number of
           descriptors from 3 on that are open where the program ends.
   WRONG   NAME:NUMBER:HOW: which call of that name goes wrong, counted from 1. HOW is an errno, with which it fails,
           0 where it gives nothing, or -1 where it moves one byte alone.
   PIECE   how many bytes a read or a write moves at most.
   DRAWN   RATE:SEED NAME=HOW,HOW .. : of so many calls of these names one goes wrong, in one of the ways of its name,
           as the seed draws it; for soak.sh.
   SUM     a file that gets a line for each of these names where the program ends: the name, how many calls were made,
           how many went wrong, and how many of these otherwise than by EINTR or by one byte alone. */
#define _GNU_SOURCE
#include <dlfcn.h>
#include <errno.h>
#include <fcntl.h>
#include <netdb.h>
#include <poll.h>
#include <stdarg.h>
#include <stdio.h>
#include <stdlib.h>
#include <string.h>
#include <sys/epoll.h>
#include <sys/ioctl.h>
#include <sys/socket.h>
#include <unistd.h>

enum { NOTHING = 0, ONE_BYTE = -1, RIGHT = -2 };

/* Where the calls are told, above all descriptors of the program. */
enum { TOLD = 1000 };

/* How many names DRAWN may have, and how many ways each of them. */
enum { MOST_NAMES = 16, MOST_WAYS = 16 };

static char wrong_name[16];
static long wrong_number, count;
static int wrong_how;
static size_t piece = (size_t)-1;

/* A name of DRAWN, its ways, and what was counted of it. */
static struct drawn {
    char name[16];
    int ways[MOST_WAYS], way_count;
    long calls, wrong, harmful;
} drawn[MOST_NAMES];
static int drawn_count;
static unsigned long rate, state;

/* A number that is drawn. */
static unsigned long draw(void) {
    state = state * 6364136223846793005UL + 1442695040888963407UL;
    return state >> 33;
}

/* Reads the names of DRAWN and their ways. */
static void read_drawn(char *text) {
    int length;
    if (sscanf(text, "%lu:%lu%n", &rate, &state, &length) != 2 || !rate) _exit(99);
    for (char *name = strtok(text + length, " "); name; name = strtok(NULL, " ")) {
        char *ways = strchr(name, '=');
        if (!ways || drawn_count == MOST_NAMES) _exit(99);
        struct drawn *it = &drawn[drawn_count++];
        *ways++ = 0;
        strncpy(it->name, name, sizeof it->name - 1);
        while (*ways && it->way_count < MOST_WAYS) {
            it->ways[it->way_count++] = strtol(ways, &ways, 10);
            ways += *ways == ',';
        }
    }
}

/* How a call of that name ends: as it does, or wrong as it is drawn. */
static int how_drawn(const char *name) {
    for (struct drawn *it = drawn; it < drawn + drawn_count; it++) {
        if (strcmp(name, it->name) != 0) continue;
        it->calls++;
        if (draw() % rate) return RIGHT;
        int how = it->ways[draw() % it->way_count];
        it->wrong++;
        it->harmful += how != EINTR && how != ONE_BYTE;
        return how;
    }
    return RIGHT;
}

#define REAL(name) ((__typeof__(name) *)dlsym(RTLD_NEXT, #name))

__attribute__((constructor)) static void start(void) {
    const char *path = getenv("CALLS");
    if (path) {
        int file = REAL(open)(path, O_CREAT | O_TRUNC | O_WRONLY | O_APPEND | O_CLOEXEC, 0600);
        if (REAL(fcntl)(file, F_DUPFD_CLOEXEC, TOLD) != TOLD) _exit(99);
        REAL(close)(file);
    }
    const char *wrong = getenv("WRONG");
    if (wrong && sscanf(wrong, "%15[^:]:%ld:%d", wrong_name, &wrong_number, &wrong_how) != 3) _exit(99);
    const char *most = getenv("PIECE");
    if (most) piece = strtoul(most, NULL, 10);
    const char *many = getenv("DRAWN");
    if (many) read_drawn(strdup(many));
}

/* How this call of that name ends: as it does, or wrong. */
static int how_ends(const char *name) {
    if (rate) return how_drawn(name);
    if (strcmp(name, wrong_name) != 0 || ++count != wrong_number) return RIGHT;
    return wrong_how;
}

/* Tells a call that has ended, and keeps its errno. */
static long told(const char *name, int file, int option, long gave, int how) {
    int error = errno;
    char line[96];
    const char *mark = how == RIGHT ? "" : " wrong";
    int length = snprintf(line, sizeof line, "%s %d %d %ld%s\n", name, file, option, gave, mark);
    if (getenv("CALLS") && REAL(write)(TOLD, line, length) != length) _exit(99);
    errno = error;
    return gave;
}

/* What a call gives that fails. */
static long failing(int how) {
    errno = how;
    return -1;
}

static size_t shorter(size_t size, int how) {
    if (size > piece) size = piece;
    return how == ONE_BYTE && size > 1 ? 1 : size;
}

/* A call that moves bytes, one that is not made where it fails, and one that is made all the same. */
#define MOVES(name, file, size, made) \
    int how = how_ends(#name); \
    size_t most = shorter(size, how); \
    (void)most; \
    return told(#name, file, 0, how > 0 ? failing(how) : how == NOTHING ? 0 : (long)(made), how)
#define FAILS(name, file, option, made) \
    int how = how_ends(#name); \
    return told(#name, file, option, how > 0 ? failing(how) : (long)(made), how)
#define IS_MADE(name, file, made) \
    int how = how_ends(#name); \
    long gave = made; \
    return told(#name, file, 0, how > 0 ? failing(how) : gave, how)

ssize_t read(int file, void *into, size_t size) {
    MOVES(read, file, size, REAL(read)(file, into, most));
}

ssize_t write(int file, const void *from, size_t size) {
    MOVES(write, file, size, REAL(write)(file, from, most));
}

ssize_t recv(int file, void *into, size_t size, int flags) {
    MOVES(recv, file, size, REAL(recv)(file, into, most, flags));
}

ssize_t send(int file, const void *from, size_t size, int flags) {
    MOVES(send, file, size, REAL(send)(file, from, most, flags));
}

int socket(int domain, int type, int protocol) {
    FAILS(socket, -1, 0, REAL(socket)(domain, type, protocol));
}

int bind(int file, const struct sockaddr *address, socklen_t length) {
    FAILS(bind, file, 0, REAL(bind)(file, address, length));
}

int listen(int file, int backlog) {
    FAILS(listen, file, 0, REAL(listen)(file, backlog));
}

int accept4(int file, struct sockaddr *address, socklen_t *length, int flags) {
    FAILS(accept4, file, 0, REAL(accept4)(file, address, length, flags));
}

int connect(int file, const struct sockaddr *address, socklen_t length) {
    FAILS(connect, file, 0, REAL(connect)(file, address, length));
}

int poll(struct pollfd *asked, nfds_t number, int milliseconds) {
    FAILS(poll, number ? asked->fd : -1, 0, REAL(poll)(asked, number, milliseconds));
}

int epoll_wait(int file, struct epoll_event *events, int most, int milliseconds) {
    int how = how_ends("epoll_wait");
    return how > 0 ? failing(how) : REAL(epoll_wait)(file, events, most, milliseconds);
}

int setsockopt(int file, int level, int option, const void *value, socklen_t length) {
    FAILS(setsockopt, file, option, REAL(setsockopt)(file, level, option, value, length));
}

int getsockopt(int file, int level, int option, void *value, socklen_t *length) {
    FAILS(getsockopt, file, option, REAL(getsockopt)(file, level, option, value, length));
}

int shutdown(int file, int sides) {
    FAILS(shutdown, file, 0, REAL(shutdown)(file, sides));
}

int close(int file) {
    IS_MADE(close, file, REAL(close)(file));
}

int open(const char *path, int flags, ...) {
    va_list rest;
    va_start(rest, flags);
    mode_t mode = flags & O_CREAT ? va_arg(rest, mode_t) : 0;
    va_end(rest);
    FAILS(open, -1, 0, REAL(open)(path, flags, mode));
}

int openat(int folder, const char *path, int flags, ...) {
    va_list rest;
    va_start(rest, flags);
    mode_t mode = flags & O_CREAT ? va_arg(rest, mode_t) : 0;
    va_end(rest);
    FAILS(openat, folder, 0, REAL(openat)(folder, path, flags, mode));
}

int fcntl(int file, int command, ...) {
    va_list rest;
    va_start(rest, command);
    void *word = va_arg(rest, void *);
    va_end(rest);
    FAILS(fcntl, file, command, REAL(fcntl)(file, command, word));
}

int ioctl(int file, unsigned long command, ...) {
    va_list rest;
    va_start(rest, command);
    void *word = va_arg(rest, void *);
    va_end(rest);
    FAILS(ioctl, file, 0, REAL(ioctl)(file, command, word));
}

int getaddrinfo(const char *host, const char *port, const struct addrinfo *hints, struct addrinfo **found) {
    int how = how_ends("getaddrinfo");
    return told("getaddrinfo", -1, 0, how > 0 ? EAI_AGAIN : REAL(getaddrinfo)(host, port, hints, found), how);
}

__attribute__((destructor)) static void end(void) {
    int open_files = 0;
    for (int file = 3; file < TOLD; file++) open_files += REAL(fcntl)(file, F_GETFD) != -1;
    told("left_open", -1, 0, open_files, RIGHT);
    const char *path = getenv("SUM");
    if (!path) return;
    int file = REAL(open)(path, O_CREAT | O_TRUNC | O_WRONLY, 0600);
    for (struct drawn *it = drawn; it < drawn + drawn_count; it++)
        dprintf(file, "%s %ld %ld %ld\n", it->name, it->calls, it->wrong, it->harmful);
}
