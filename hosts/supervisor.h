/* The supervisor owns the listening sockets, the log and what the program opens, and starts and ends the workers. */
#ifndef SUPERVISOR_H
#define SUPERVISOR_H

#include "listening.h"
#include "settings.h"

#include <stdatomic.h>
#include <sys/types.h>
#include <typed_headers.h>

enum {
    GENERATIONS = 4,        /* of workers, by reloads, that may run at once */
    COUNT_SLOTS = 1 << 16,  /* of counts of connections by address */
};

struct child {
    pid_t process; /* 0 if there is none */
    size_t place;  /* which of the workers it is */
    bool is_old;   /* another one has taken its place */
};

/* What the supervisor owns, and the workers use. */
struct server {
    struct hosting *hosting;
    struct listener listeners[MOST_ADDRESSES];
    size_t listener_count;
    int log; /* the descriptor that takes its lines, or -1 */
    struct typed_headers_keys slot_keys;
    struct child children[GENERATIONS * MOST_WORKERS];
    size_t child_count;
    _Atomic uint16_t *counts; /* at slot * child_count + child: its connections by addresses of the slot */
};

extern struct server server;

static inline _Atomic uint16_t *count_at(size_t slot, size_t child) {
    return &server.counts[slot * server.child_count + child];
}

/* What the program defines: opens what the workers use, at first and at each SIGHUP. Returns false, and keeps what was
 * open, if something can't be opened. */
bool open_all(void);

/* Memory that all workers share, and that is 0. */
void *share(size_t size);

/* Takes signals, limits, and listens; then another user's place, if that is wanted. */
void begin_server(struct hosting *hosting);
void listen_and_drop_privileges(void);

/* Another descriptor takes the log from the next workers on. */
void replace_log(int log);

/* Starts workers, and replaces those that end, until it is told to stop. */
void supervise(void);

#endif
