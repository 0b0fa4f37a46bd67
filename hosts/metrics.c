#include "metrics.h"
#include "loop.h"
#include "supervisor.h"

#include <inttypes.h>
#include <stdarg.h>
#include <stdio.h>

const char *const cache_words[] = {"none", "hit", "miss", "stale", "validated"};

static _Atomic uint64_t (*counts)[COUNTERS]; /* of each child */

/* The names of those that have no label. */
static const struct {
    enum counter counter;
    const char *name, *help;
} plain[] = {
    {CONNECTIONS, "connections_total", "Connections of clients that were accepted."},
    {CLOSED_CONNECTIONS, "closed_connections_total", "Those of them that have ended."},
    {REQUESTS, "requests_total", "Requests of clients, also those of metrics."},
    {RECEIVED_BYTES, "received_bytes_total", "Bytes of clients, without TLS."},
    {SENT_BYTES, "sent_bytes_total", "Bytes to clients, without TLS."},
    {ORIGIN_CONNECTIONS, "origin_connections_total", "Connections to origins that were begun."},
    {ORIGIN_REUSES, "origin_reuses_total", "Requests that went out over an idle one."},
    {ORIGIN_FAILURES, "origin_failures_total", "Connections to origins that failed."},
    {TIME_LIMITS, "time_limits_total", "Exchanges that a limit of time ended."},
};

void begin_metrics(void) { counts = share(sizeof *counts * server.child_count); }

void count_bytes(enum counter counter, uint64_t bytes) {
    atomic_fetch_add_explicit(&counts[worker.child][counter], bytes, memory_order_relaxed);
}

void count_response(uint16_t status, enum cache_word word) {
    unsigned first = status / 100u;
    if (first >= 1 && first <= 5)
        count_event(FIRST_STATUS + first - 1);
    count_event(FIRST_CACHED + (unsigned)word);
}

static uint64_t sum_of(unsigned counter) {
    uint64_t sum = 0;
    for (size_t child = 0; child < server.child_count; child++)
        sum += atomic_load_explicit(&counts[child][counter], memory_order_relaxed);
    return sum;
}

__attribute__((format(printf, 4, 5))) static void print(char *room, size_t size, size_t *length, const char *format,
                                                        ...) {
    va_list values;
    va_start(values, format);
    int count = vsnprintf(room + *length, size - *length, format, values);
    va_end(values);
    if (count > 0)
        *length += (size_t)count < size - *length ? (size_t)count : size - *length - 1;
}

size_t print_metrics(char *room, size_t size) {
    size_t length = 0;
    for (size_t i = 0; i < sizeof plain / sizeof *plain; i++)
        print(room, size, &length,
              "# HELP typed_headers_gate_%s %s\n# TYPE typed_headers_gate_%s counter\n"
              "typed_headers_gate_%s %" PRIu64 "\n",
              plain[i].name, plain[i].help, plain[i].name, plain[i].name, sum_of(plain[i].counter));
    print(room, size, &length, "# HELP typed_headers_gate_responses_total Responses to clients.\n"
                               "# TYPE typed_headers_gate_responses_total counter\n");
    for (unsigned i = 0; i < 5; i++)
        print(room, size, &length, "typed_headers_gate_responses_total{status=\"%uxx\"} %" PRIu64 "\n", i + 1,
              sum_of(FIRST_STATUS + i));
    print(room, size, &length, "# HELP typed_headers_gate_cache_total Where they are from.\n"
                               "# TYPE typed_headers_gate_cache_total counter\n");
    for (unsigned i = 0; i < 5; i++)
        print(room, size, &length, "typed_headers_gate_cache_total{cache=\"%s\"} %" PRIu64 "\n", cache_words[i],
              sum_of(FIRST_CACHED + i));
    return length;
}
