/* Refuses one system call of a server and its workers. Preloaded, it counts the calls of the function that REFUSE_CALL
 * names, of all processes together, from 1 on: `malloc` stands for each allocation. With REFUSE_FROM only those count
 * that follow a call of that function. That whose number is in REFUSE_AT fails with the error of REFUSE_ERROR, and the
 * file of REFUSE_MARK is made, so that runs that made fewer calls can be told. */
#define _GNU_SOURCE
#include <dlfcn.h>
#include <errno.h>
#include <fcntl.h>
#include <stdarg.h>
#include <stdatomic.h>
#include <stdlib.h>
#include <string.h>
#include <sys/epoll.h>
#include <sys/mman.h>
#include <sys/socket.h>
#include <sys/stat.h>
#include <sys/uio.h>
#include <time.h>
#include <unistd.h>

static atomic_ulong *count, *begun;
static const char *call, *from;
static unsigned long at;
static int error;

__attribute__((constructor)) static void begin(void) {
    count = mmap(NULL, 2 * sizeof *count, PROT_READ | PROT_WRITE, MAP_SHARED | MAP_ANONYMOUS, -1, 0);
    begun = count + 1;
    from = getenv("REFUSE_FROM");
    at = strtoul(getenv("REFUSE_AT"), NULL, 10);
    error = atoi(getenv("REFUSE_ERROR"));
    call = getenv("REFUSE_CALL");
}

static int is_refused(const char *name) {
    if (call && from && !strcmp(name, from))
        *begun = 1;
    if (!call || (from && !*begun) || strcmp(name, call) || atomic_fetch_add(count, 1) + 1 != at)
        return 0;
    int mark = creat(getenv("REFUSE_MARK"), 0666);
    if (mark >= 0)
        syscall(3, mark); /* close */
    errno = error;
    return 1;
}

void *__libc_malloc(size_t size);
void *__libc_calloc(size_t count, size_t size);
void *__libc_realloc(void *block, size_t size);

void *malloc(size_t size) { return is_refused("malloc") ? NULL : __libc_malloc(size); }

void *calloc(size_t number, size_t size) { return is_refused("malloc") ? NULL : __libc_calloc(number, size); }

void *realloc(void *block, size_t size) { return is_refused("malloc") ? NULL : __libc_realloc(block, size); }

/* A call with these parameters, that returns -1 when it fails. */
#define CALL(type, name, parameters, ...)                                       \
    type name parameters {                                                      \
        static type(*next) parameters;                                          \
        if (is_refused(#name))                                                  \
            return (type)-1;                                                    \
        if (!next)                                                              \
            next = (type(*) parameters)dlsym(RTLD_NEXT, #name);                 \
        return next(__VA_ARGS__);                                               \
    }

CALL(int, accept4, (int s, struct sockaddr *a, socklen_t *n, int f), s, a, n, f)
CALL(ssize_t, recv, (int s, void *b, size_t n, int f), s, b, n, f)
CALL(ssize_t, send, (int s, const void *b, size_t n, int f), s, b, n, f)
CALL(ssize_t, sendfile, (int o, int i, off_t *at, size_t n), o, i, at, n)
CALL(ssize_t, pread, (int f, void *b, size_t n, off_t at), f, b, n, at)
CALL(ssize_t, read, (int f, void *b, size_t n), f, b, n)
CALL(ssize_t, write, (int f, const void *b, size_t n), f, b, n)
CALL(ssize_t, getrandom, (void *b, size_t n, unsigned f), b, n, f)
CALL(int, fstat, (int f, struct stat *s), f, s)
CALL(int, epoll_create1, (int f), f)
CALL(int, epoll_ctl, (int e, int o, int f, struct epoll_event *v), e, o, f, v)
CALL(int, epoll_pwait, (int e, struct epoll_event *v, int n, int t, const sigset_t *s), e, v, n, t, s)
CALL(int, shutdown, (int s, int how), s, how)
CALL(int, socket, (int d, int t, int p), d, t, p)
CALL(int, bind, (int s, const struct sockaddr *a, socklen_t n), s, a, n)
CALL(int, connect, (int s, const struct sockaddr *a, socklen_t n), s, a, n)
CALL(int, getsockopt, (int s, int l, int o, void *v, socklen_t *n), s, l, o, v, n)
CALL(int, listen, (int s, int n), s, n)
CALL(int, setsockopt, (int s, int l, int o, const void *v, socklen_t n), s, l, o, v, n)
CALL(int, getsockname, (int s, struct sockaddr *a, socklen_t *n), s, a, n)
CALL(int, clock_gettime, (clockid_t c, struct timespec *t), c, t)
CALL(pid_t, fork, (void), )

/* The descriptor is closed even so, as it is by Linux. */
int close(int descriptor) {
    int is = is_refused("close");
    long result = syscall(3, descriptor);
    errno = is ? error : errno;
    return is ? -1 : (int)result;
}

int ioctl(int descriptor, unsigned long request, ...) {
    va_list rest;
    va_start(rest, request);
    void *argument = va_arg(rest, void *);
    va_end(rest);
    return is_refused("ioctl") ? -1 : (int)syscall(16, descriptor, request, argument);
}

int open(const char *path, int flags, ...) {
    va_list rest;
    va_start(rest, flags);
    int mode = flags & O_CREAT ? va_arg(rest, int) : 0;
    va_end(rest);
    return is_refused("open") ? -1 : (int)syscall(2, path, flags, mode);
}

/* (openat2 is made by it) */
long syscall(long number, ...) {
    static long (*next)(long, ...);
    va_list rest;
    long a[4];
    va_start(rest, number);
    for (int i = 0; i < 4; i++)
        a[i] = va_arg(rest, long);
    va_end(rest);
    if (number == 437 && is_refused("openat2"))
        return -1;
    if (!next)
        next = (long (*)(long, ...))dlsym(RTLD_NEXT, "syscall");
    return next(number, a[0], a[1], a[2], a[3]);
}
