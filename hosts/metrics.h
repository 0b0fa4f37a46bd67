/* What the gateway counts, in memory that all workers share, as Prometheus reads it. */
#ifndef METRICS_H
#define METRICS_H

#include <stddef.h>
#include <stdint.h>

enum counter {
    CONNECTIONS,
    CLOSED_CONNECTIONS,
    REQUESTS,
    RECEIVED_BYTES,
    SENT_BYTES,
    ORIGIN_CONNECTIONS,
    ORIGIN_REUSES,
    ORIGIN_FAILURES,
    TIME_LIMITS,
    FIRST_STATUS,                    /* the first of those of 1xx to 5xx */
    FIRST_CACHED = FIRST_STATUS + 5, /* the first of those of the words */
    COUNTERS = FIRST_CACHED + 5
};

/* Where a response is from. */
enum cache_word { NO_CACHE, HIT, MISS, STALE, VALIDATED };

extern const char *const cache_words[];

/* Called before the workers begin. */
void begin_metrics(void);

/* Each worker counts by itself. */
void count_bytes(enum counter counter, uint64_t bytes);
static inline void count_event(enum counter counter) { count_bytes(counter, 1); }
void count_response(uint16_t status, enum cache_word word);

/* Writes the sums of all workers. Returns how many bytes they have, at most so many. */
size_t print_metrics(char *room, size_t size);

#endif
