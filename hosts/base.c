#define _GNU_SOURCE
#include "base.h"

#include <errno.h>
#include <signal.h>
#include <stdarg.h>
#include <stdio.h>
#include <string.h>
#include <sys/random.h>
#include <time.h>
#include <unistd.h>

void complain(const char *format, ...) {
    char text[512];
    va_list values;
    va_start(values, format);
    int length = vsnprintf(text, sizeof text, format, values);
    va_end(values);
    if (length >= 0)
        dprintf(STDERR_FILENO, "%s: %s\n", program, text); /* if nobody reads it, there is nobody to tell */
}

void close_descriptor(int descriptor) {
    if (close(descriptor) && errno == EBADF)
        DIE("a descriptor was closed twice");
}

static void read_clock(clockid_t clock, struct timespec *time) {
    if (clock_gettime(clock, time))
        complain("no clock: %s", strerror(errno));
}

uint64_t milliseconds(void) {
    static struct timespec now;
    read_clock(CLOCK_MONOTONIC_COARSE, &now);
    return (uint64_t)now.tv_sec * 1000 + (uint64_t)now.tv_nsec / 1000000;
}

uint64_t seconds(void) {
    static struct timespec date;
    read_clock(CLOCK_REALTIME_COARSE, &date);
    return (uint64_t)date.tv_sec;
}

void fill_randomly(void *bytes, size_t length) {
    while (getrandom(bytes, length, 0) != (ssize_t)length)
        if (errno != EINTR)
            DIE("no random bytes: %s", strerror(errno));
}

void set_handler(int signal, void (*handler)(int)) {
    if (sigaction(signal, &(struct sigaction){.sa_handler = handler}, NULL))
        DIE("sigaction: %s", strerror(errno));
}
