/* What each program of this folder needs of the system: messages, clocks, descriptors, random bytes. */
#ifndef BASE_H
#define BASE_H

#include <stdbool.h>
#include <stddef.h>
#include <stdint.h>
#include <stdlib.h>

/* The name of the program, which defines it. */
extern const char program[];

/* Writes a line to standard error. */
__attribute__((format(printf, 1, 2))) void complain(const char *format, ...);

#define DIE(...) (complain(__VA_ARGS__), exit(EXIT_FAILURE))

/* On Linux a descriptor is closed even if `close` reports an error. Only a wrong one is a fault, and it is ours. */
void close_descriptor(int descriptor);

/* A time that doesn't come. */
#define NEVER UINT64_MAX

/* Milliseconds by a clock that nobody sets, and seconds since 1970. If a clock fails, the time is the last one. */
uint64_t milliseconds(void);
uint64_t seconds(void);

static inline uint64_t earliest(uint64_t one, uint64_t other) { return one < other ? one : other; }

void fill_randomly(void *bytes, size_t length);

void set_handler(int signal, void (*handler)(int));

#endif
