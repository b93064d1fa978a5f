/* Refuses calls of the C library in the program that this is loaded into (LD_PRELOAD), so that a test can see what the
   program then does.

   REFUSE_CALLS   which calls are counted, by letters: m memory, r reads and w writes of a file at a place, s syncs,
                  t cuts, i reads of standard input, o writes of standard output or of a connection, a accepts
   REFUSE_AT      the call that is refused, the first being 1; none where it is not said
   REFUSE_MODE    once: that call alone; on: that one and all after it; short: it moves half of its bytes; torn: it
                  writes half of its bytes and is refused; none: it moves nothing and is no error; slow: each counted
                  call moves one byte
   REFUSE_ERROR   the number of the error, 5 where it is not said
   REFUSE_WHILE   a file: calls are counted only while it is there; always where it is not said
   REFUSE_COUNT   a file into which the number of counted calls is written at the end
   REFUSE_CLOCK   a file with the seconds since 1970 that the clock shows while the file is there */
#define _GNU_SOURCE
#include <dlfcn.h>
#include <errno.h>
#include <fcntl.h>
#include <stdarg.h>
#include <stdio.h>
#include <stdlib.h>
#include <string.h>
#include <sys/socket.h>
#include <sys/syscall.h>
#include <sys/types.h>
#include <time.h>
#include <unistd.h>

extern void *__libc_malloc(size_t);
extern void *__libc_calloc(size_t, size_t);
extern void *__libc_realloc(void *, size_t);

enum mode { ONCE, ON, SHORT, TORN, NONE, SLOW };

static long count, at = -1;
static enum mode mode;
static int error = EIO, begun;
static const char *calls = "", *during;

static void begin(void) {
    static const char *names[] = {"once", "on", "short", "torn", "none", "slow"};
    const char *it;
    begun = 1;
    if ((it = getenv("REFUSE_CALLS"))) calls = it;
    during = getenv("REFUSE_WHILE");
    if ((it = getenv("REFUSE_AT"))) at = atol(it);
    if ((it = getenv("REFUSE_ERROR"))) error = atoi(it);
    if ((it = getenv("REFUSE_MODE")))
        for (int k = 0; k < 6; k++)
            if (!strcmp(it, names[k])) mode = (enum mode)k;
}

/* Whether this call is the one to refuse. */
static int is_refused(char call) {
    if (!begun) begin();
    if (!strchr(calls, call)) return 0;
    if (during && access(during, F_OK)) return 0;
    count++;
    if (mode == SLOW) return 1;
    return at > 0 && (mode == ON ? count >= at : count == at);
}

void *malloc(size_t size) {
    if (is_refused('m')) {
        errno = ENOMEM;
        return 0;
    }
    return __libc_malloc(size);
}

void *calloc(size_t items, size_t size) {
    if (is_refused('m')) {
        errno = ENOMEM;
        return 0;
    }
    return __libc_calloc(items, size);
}

void *realloc(void *old, size_t size) {
    if (is_refused('m')) {
        errno = ENOMEM;
        return 0;
    }
    return __libc_realloc(old, size);
}

#define REAL(name)                                                       \
    static __typeof__(name) *real;                                       \
    if (!real) real = (__typeof__(name) *)dlsym(RTLD_NEXT, #name);

/* What a refused call that moves bytes answers: those of the part that it moves, or an error. */
#define MOVES(whole, part)                                               \
    if (mode == SLOW && size > 1) return part(1);                        \
    if (mode == SLOW) return whole;                                      \
    if (mode == SHORT && size > 1) return part(size / 2);                \
    if (mode == NONE) return 0;                                          \
    errno = error;                                                       \
    return -1;

ssize_t pread(int file, void *bytes, size_t size, off_t place) {
    REAL(pread)
#define PART(n) real(file, bytes, n, place)
    if (is_refused('r')) { MOVES(PART(size), PART) }
    return PART(size);
#undef PART
}

ssize_t pwrite(int file, const void *bytes, size_t size, off_t place) {
    REAL(pwrite)
#define PART(n) real(file, bytes, n, place)
    if (is_refused('w')) {
        if (mode == TORN && size > 1 && PART(size / 2) < 0) return -1;
        MOVES(PART(size), PART)
    }
    return PART(size);
#undef PART
}

ssize_t read(int file, void *bytes, size_t size) {
    REAL(read)
#define PART(n) real(file, bytes, n)
    if (file == 0 && is_refused('i')) { MOVES(PART(size), PART) }
    return PART(size);
#undef PART
}

ssize_t write(int file, const void *bytes, size_t size) {
    REAL(write)
#define PART(n) real(file, bytes, n)
    if (file == 1 && is_refused('o')) { MOVES(PART(size), PART) }
    return PART(size);
#undef PART
}

#define SYNC(name) \
    int name(int file) { \
        REAL(name) \
        if (is_refused('s')) { \
            errno = error; \
            return -1; \
        } \
        return real(file); \
    }
SYNC(fsync)
SYNC(fdatasync)
#undef SYNC

int ftruncate(int file, off_t size) {
    REAL(ftruncate)
    if (is_refused('t')) {
        errno = error;
        return -1;
    }
    return real(file, size);
}

int accept4(int socket, struct sockaddr *peer, socklen_t *length, int flags) {
    REAL(accept4)
    if (is_refused('a')) {
        errno = error;
        return -1;
    }
    return real(socket, peer, length, flags);
}

int clock_gettime(clockid_t clock, struct timespec *time) {
    const char *path = clock == CLOCK_REALTIME ? getenv("REFUSE_CLOCK") : 0;
    FILE *told = path ? fopen(path, "r") : 0;
    long seconds;
    if (told) {
        int found = fscanf(told, "%ld", &seconds);
        fclose(told);
        if (found == 1) {
            time->tv_sec = seconds;
            time->tv_nsec = 0;
            return 0;
        }
    }
    return (int)syscall(SYS_clock_gettime, clock, time);
}

__attribute__((destructor)) static void end(void) {
    const char *path = getenv("REFUSE_COUNT");
    if (path) {
        char text[32];
        int size = snprintf(text, sizeof text, "%ld\n", count);
        int file = open(path, O_WRONLY | O_CREAT | O_TRUNC, 0600);
        calls = "";
        if (file >= 0 && write(file, text, (size_t)size) < 0) _exit(99);
    }
}
