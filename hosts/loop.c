#define _GNU_SOURCE
#include "loop.h"
#include "log.h"
#include "supervisor.h"

#include <errno.h>
#include <limits.h>
#include <linux/sockios.h>
#include <signal.h>
#include <string.h>
#include <sys/ioctl.h>
#include <sys/prctl.h>
#include <unistd.h>

enum {
    READY = 256,        /* so many events are taken at a time */
    ACCEPTED = 64,      /* so many connections are accepted before others have their turn */
    LINGER = 5000,           /* milliseconds in which a client that is to read the end must send or close */
    LINGER_IN_ALL = 30000,   /* and in which it must close */
    LINGER_BYTES = 16 << 20, /* so much of what it sends meanwhile is dropped */
};

struct worker worker;

static struct {
    int events;
    struct source listeners[MOST_ADDRESSES];
    bool is_listening;
    uint64_t listen_again; /* when to try, if it isn't */
    struct queue *queues, lingering;
    struct source *closed; /* those that an event may still be about */
    uint64_t complained;
    uint64_t close_listeners, stop;
} loop;

static volatile sig_atomic_t is_told_to_stop, is_told_to_retire;

void complain_of(const char *what, const char *why) {
    if (worker.now >= loop.complained) {
        loop.complained = worker.now + AGAIN;
        complain("%s: %s", what, why);
    }
}

void complain_seldom(const char *what) { complain_of(what, strerror(errno)); }

static void tell_time(void) {
    worker.now = milliseconds();
    worker.date = seconds();
}

/* ---- Addresses, and how many connections one has, of all workers ---- */

struct address address_of(const struct sockaddr_storage *from) {
    struct address address = {.family = from->ss_family};
    if (from->ss_family == AF_INET) {
        const struct sockaddr_in *in = (const struct sockaddr_in *)from;
        memcpy(address.bytes, &in->sin_addr, 4);
        address.port = ntohs(in->sin_port);
    } else if (from->ss_family == AF_INET6) {
        const struct sockaddr_in6 *in = (const struct sockaddr_in6 *)from;
        bool is_mapped = IN6_IS_ADDR_V4MAPPED(&in->sin6_addr);
        address.family = is_mapped ? AF_INET : AF_INET6;
        memcpy(address.bytes, in->sin6_addr.s6_addr + (is_mapped ? 12 : 0), is_mapped ? 4 : 16);
        address.port = ntohs(in->sin6_port);
    } else {
        address.family = AF_UNSPEC;
    }
    return address;
}

bool is_same_address(const struct address *one, const struct address *other) {
    return one->family == other->family && !memcmp(one->bytes, other->bytes, sizeof one->bytes);
}

/* Of IPv6 the first 64 bits, since a client mostly has the others to itself. A hash that no client can foresee. */
static size_t slot_of(const struct address *address) {
    uint64_t key = 0;
    memcpy(&key, address->bytes, address->family == AF_INET ? 4 : 8);
    __extension__ unsigned __int128 product = (unsigned __int128)key * (server.slot_keys.first | 1);
    return (size_t)((product + server.slot_keys.second) >> 60) % COUNT_SLOTS;
}

/* Only the worker writes its own counts. */
void count_connection(const struct address *client, int change) {
    worker.count += (size_t)change;
    if (change < 0 && !loop.is_listening)
        loop.listen_again = worker.now;
    if (client->family == AF_UNSPEC)
        return;
    _Atomic uint16_t *count = count_at(slot_of(client), worker.child);
    uint16_t before = atomic_load_explicit(count, memory_order_relaxed);
    atomic_store_explicit(count, (uint16_t)(before + change), memory_order_relaxed);
}

static bool has_too_many(const struct address *address) {
    uint64_t sum = 0;
    if (address->family == AF_UNSPEC)
        return false;
    size_t slot = slot_of(address);
    for (size_t child = 0; child < server.child_count; child++)
        sum += atomic_load_explicit(count_at(slot, child), memory_order_relaxed);
    return sum >= server.hosting->per_address;
}

/* ---- Sources ---- */

void add_queue(struct queue *queue, uint64_t time, void (*late)(struct source *), bool is_idle) {
    *queue = (struct queue){.time = time, .late = late, .is_idle = is_idle, .next = loop.queues};
    queue->end.before = queue->end.after = &queue->end;
    loop.queues = queue;
}

void wait_in(struct source *source, struct queue *queue) {
    if (source->queue) {
        source->before->after = source->after;
        source->after->before = source->before;
    }
    source->queue = queue;
    if (queue) {
        source->deadline = worker.now + queue->time;
        source->before = queue->end.before;
        source->after = &queue->end;
        source->before->after = queue->end.before = source;
    }
}

void hurry(struct queue *queue) {
    for (struct source *source = queue->end.after; source != &queue->end; source = source->after)
        source->deadline = worker.now;
}

bool is_taking(int socket, int *unsent) {
    int now;
    if (ioctl(socket, SIOCOUTQ, &now) || now >= *unsent)
        return false;
    *unsent = now;
    return true;
}

bool watch(struct source *source, uint32_t events) {
    struct epoll_event event = {.events = events, .data.ptr = source};
    int change = !source->watched ? EPOLL_CTL_ADD : events ? EPOLL_CTL_MOD : EPOLL_CTL_DEL;
    if (source->watched == events)
        return true;
    if (epoll_ctl(loop.events, change, source->socket, &event)) {
        complain_seldom("epoll_ctl");
        return false;
    }
    source->watched = events;
    return true;
}

/* The source has its socket no more, and is freed after the turn. */
static void drop_source(struct source *source) {
    wait_in(source, NULL);
    source->socket = -1;
    source->after = loop.closed;
    loop.closed = source;
}

void close_source(struct source *source) {
    if (source->socket >= 0)
        close_descriptor(source->socket);
    drop_source(source);
}

static void free_closed(void) {
    while (loop.closed) {
        struct source *source = loop.closed;
        loop.closed = source->after;
        free(source);
    }
}

/* ---- Connections that end ---- */

/* One whose client is to read the end. */
struct lingerer {
    struct source source;
    struct address client;
    uint64_t begun;
    size_t dropped; /* bytes */
};

static void end_lingering(struct source *source) {
    count_connection(&((struct lingerer *)source)->client, -1);
    close_source(source);
}

static void drop_input(struct source *source, uint32_t events) {
    static uint8_t room[64 * 1024];
    struct lingerer *lingerer = (struct lingerer *)source;
    (void)events;
    ssize_t count = recv(source->socket, room, sizeof room, 0);
    if (count < 0 && (errno == EAGAIN || errno == EINTR))
        return;
    if (count <= 0 || (lingerer->dropped += (size_t)count) > LINGER_BYTES ||
        worker.now - lingerer->begun > LINGER_IN_ALL)
        end_lingering(source);
    else
        wait_in(source, &loop.lingering);
}

void linger(struct source *source, const struct address *client) {
    struct lingerer *lingerer = calloc(1, sizeof *lingerer);
    if (!lingerer || shutdown(source->socket, SHUT_WR) || !watch(source, 0)) {
        free(lingerer);
        count_connection(client, -1);
        close_source(source);
        return;
    }
    *lingerer = (struct lingerer){{.socket = source->socket, .ready = drop_input}, *client, worker.now, 0};
    drop_source(source);
    if (watch(&lingerer->source, EPOLLIN))
        wait_in(&lingerer->source, &loop.lingering);
    else
        end_lingering(&lingerer->source);
}

/* ---- Accepting ---- */

static void stop_listening(uint64_t again) {
    for (size_t i = 0; i < server.listener_count && loop.is_listening; i++)
        watch(&loop.listeners[i], 0);
    loop.is_listening = false;
    loop.listen_again = again;
}

static void listen_again(void) {
    loop.is_listening = true;
    for (size_t i = 0; i < server.listener_count; i++) {
        bool is_shared = server.listeners[i].count == 1 && server.hosting->workers > 1;
        if (!watch(&loop.listeners[i], EPOLLIN | (is_shared ? EPOLLEXCLUSIVE : 0u)))
            stop_listening(worker.now + AGAIN);
    }
}

/* Accepts one connection. Returns whether there may be more. */
static bool accept_connection(const struct source *listener) {
    struct sockaddr_storage from = {.ss_family = AF_UNSPEC};
    socklen_t length = sizeof from;
    int socket = accept4(listener->socket, (struct sockaddr *)&from, &length, SOCK_NONBLOCK | SOCK_CLOEXEC);
    if (socket < 0) {
        switch (errno) {
        case EAGAIN: return false;
        case EINTR:
        case ECONNABORTED:
        case EPROTO: return true;
        case EMFILE:
        case ENFILE:
            if (close_idle(NULL))
                return true;
        }
        complain_seldom("accept");
        stop_listening(worker.now + AGAIN);
        return false;
    }
    struct address address = address_of(&from);
    if (has_too_many(&address) && !close_idle(&address))
        close_descriptor(socket);
    else
        begin_connection(socket, &address, (size_t)(listener - loop.listeners));
    return true;
}

/* If there are as many connections as may be, the longest idle one goes, or what comes waits. */
static void accept_connections(struct source *listener, uint32_t events) {
    (void)events;
    for (int i = 0; i < ACCEPTED; i++) {
        if (worker.count >= worker.most && !close_idle(NULL)) {
            stop_listening(NEVER);
            return;
        }
        if (!accept_connection(listener) || worker.count >= worker.most)
            return;
    }
}

static void close_listeners(void) {
    stop_listening(NEVER);
    for (size_t i = 0; i < server.listener_count; i++)
        close_descriptor(loop.listeners[i].socket);
    loop.close_listeners = NEVER;
    server.listener_count = 0;
}

/* Closes the listening sockets of other workers, so that each has one owner beside the supervisor. */
static void keep_own_listeners(void) {
    for (size_t i = 0; i < server.listener_count; i++) {
        struct listener *listener = &server.listeners[i];
        for (size_t j = 0; j < listener->count; j++) {
            if (j == worker.place % listener->count)
                loop.listeners[i] = (struct source){.socket = listener->sockets[j], .ready = accept_connections};
            else
                close_descriptor(listener->sockets[j]);
        }
    }
}

/* ---- The loop ---- */

static void on_signal(int signal) {
    if (signal == SIGTERM)
        is_told_to_stop = 1;
    else
        is_told_to_retire = 1;
}

/* From now on each response is the last of its connection. Connections that have begun are accepted for a while, and
 * an idle client has that while for a request that it has sent. */
static void begin_stop(uint64_t close_listeners_at, uint64_t stop) {
    if (!worker.is_stopping) {
        worker.is_stopping = true;
        loop.close_listeners = close_listeners_at;
        for (struct queue *queue = loop.queues; queue; queue = queue->next) {
            if (!queue->is_idle)
                continue;
            queue->time = GRACE;
            for (struct source *source = queue->end.after; source != &queue->end; source = source->after)
                source->deadline = worker.now + GRACE;
        }
    }
    loop.stop = stop;
}

static void note_signals(void) {
    if (is_told_to_stop) {
        is_told_to_stop = 0;
        begin_stop(worker.now + GRACE, worker.now + server.hosting->stop_time * 1000);
    }
    if (is_told_to_retire) { /* another worker accepts what comes to these sockets */
        is_told_to_retire = 0;
        begin_stop(worker.now, NEVER);
    }
}

/* How many milliseconds the worker may sleep. */
static int time_to_sleep(void) {
    uint64_t next = earliest(loop.stop, loop.close_listeners);
    if (!loop.is_listening && server.listener_count > 0)
        next = earliest(next, loop.listen_again);
    for (struct queue *queue = loop.queues; queue; queue = queue->next)
        if (first_in(queue))
            next = earliest(next, first_in(queue)->deadline);
    if (next == NEVER)
        return -1;
    return next <= worker.now ? 0 : (int)earliest(next - worker.now, INT_MAX);
}

static void do_what_is_due(void) {
    for (struct queue *queue = loop.queues; queue; queue = queue->next)
        while (first_in(queue) && first_in(queue)->deadline <= worker.now)
            queue->late(first_in(queue));
    if (!loop.is_listening && server.listener_count > 0 && loop.listen_again <= worker.now)
        listen_again();
    if (loop.close_listeners <= worker.now) {
        for (size_t i = 0; i < server.listener_count && loop.stop != NEVER; i++)
            accept_connections(&loop.listeners[i], EPOLLIN);
        close_listeners();
    }
}

static void begin_work(size_t place, size_t child) {
    const struct hosting *hosting = server.hosting;
    worker.place = place;
    worker.child = child;
    worker.most = (hosting->connections + hosting->workers - 1) / hosting->workers;
    loop.close_listeners = loop.stop = loop.listen_again = NEVER;
    if (prctl(PR_SET_PDEATHSIG, SIGTERM))
        DIE("prctl: %s", strerror(errno));
    set_handler(SIGINT, SIG_IGN); /* the supervisor has it too, from the keyboard, and says what to do */
    set_handler(SIGTERM, on_signal);
    set_handler(SIGHUP, on_signal);
    use_log(server.log, hosting->log);
    keep_own_listeners();
    loop.events = epoll_create1(EPOLL_CLOEXEC);
    if (loop.events < 0)
        DIE("epoll_create1: %s", strerror(errno));
    tell_time();
    add_queue(&loop.lingering, LINGER, end_lingering, false);
    begin_worker();
    listen_again();
}

/* Signals come while it sleeps, and at no other time. */
void run_worker(size_t place, size_t child) {
    struct epoll_event ready[READY];
    sigset_t none;
    sigemptyset(&none);
    begin_work(place, child);
    while (worker.count > 0 ? worker.now < loop.stop : !worker.is_stopping || server.listener_count > 0) {
        int count = epoll_pwait(loop.events, ready, READY, time_to_sleep(), &none);
        if (count < 0 && errno != EINTR)
            DIE("epoll_pwait: %s", strerror(errno));
        tell_time();
        for (int i = 0; i < count; i++) {
            struct source *source = ready[i].data.ptr;
            if (source->socket >= 0) /* else it was closed in this turn */
                source->ready(source, ready[i].events);
        }
        note_signals();
        do_what_is_due();
        free_closed();
        write_log();
    }
    end_worker();
    while (first_in(&loop.lingering))
        end_lingering(first_in(&loop.lingering));
    free_closed();
}
