/* Passes HTTP/1.1 requests on to origin servers, and stores what they answer: typed-headers-gate(1).
 *
 * The library reads the messages of both sides, gives each byte that goes to either, and chooses the connection that a
 * request goes out on. This program moves bytes, and keeps time. It decides nothing about HTTP.
 *
 * A worker owns a cache, its clients' connections, and those to origins. An exchange is a client's connection; it owns
 * the connection to the origin that it uses. One that isn't used waits in the list of its origin. */
#define _GNU_SOURCE
#include "gateway.h"
#include "log.h"
#include "loop.h"
#include "metrics.h"
#include "proxy_header.h"
#include "supervisor.h"
#include "tls.h"

#include <arpa/inet.h>
#include <errno.h>
#include <linux/sockios.h>
#include <netinet/tcp.h>
#include <stdio.h>
#include <string.h>
#include <sys/ioctl.h>
#include <typed_headers.h>

enum {
    BUFFER = 64 * 1024,
    TURN_BYTES = 1024 * 1024, /* so much an exchange moves before others have their turn */
    MOST_FAILURES = 3,        /* so often an origin may fail in turn before others are asked first, for a while */
    FAILED_TIME = 10000,      /* milliseconds */
    WAIT_TIME = 1000,         /* milliseconds after which a request that waits for another looks again */
    RESPONSES = 1000,         /* of the cache, at most, for each MiB of it */
    VARIANTS = 32,            /* of a target in the cache */
};

const char program[] = "typed-headers-gate";
static struct gateway *gateway;

/* What the supervisor opens, and the workers use. */
static struct {
    int count; /* the words of the command line */
    char **words;
    SSL_CTX *tls, *trust;
    char name[24]; /* in Via, if none is told */
} site;

/* ---- What a worker owns ---- */

/* One end of an exchange: a connection to a client, or to an origin. */
struct end {
    struct source source;
    SSL *tls;         /* NULL for a plain connection */
    bool is_readable; /* there may be something to receive */
    bool is_full;     /* the system took not all */
    bool is_broken;   /* nothing more is sent */
};

struct exchange;

struct upstream {
    struct end end;
    struct typed_headers_gate_origin connection; /* open if no exchange has it */
    struct exchange *exchange;                   /* NULL if it is idle */
    size_t origin;
    uint64_t number; /* in the pool of its group */
    bool is_connected;
};

struct exchange {
    struct end end;
    struct typed_headers_gate gate;
    struct typed_headers_pass pass;
    struct upstream *upstream; /* NULL if it has none */
    struct proxy_header *header; /* NULL unless one is awaited */
    const struct entrance *entrance;
    struct address client, told; /* who has the connection, and of whom that tells */
    size_t group;                /* of origins, that the request is for; MOST_GROUPS for none */
    uint64_t request;            /* the number of the request */
    uint64_t begun;              /* when it came */
    uint64_t date;               /* the second that its gateway knows */
    uint64_t given, left;        /* where the content of the pass goes on, and how much is left of it */
    uint64_t passed;             /* bytes of content that the client gets */
    int unsent;      /* bytes that the system had to send when the wait began */
    uint16_t status;  /* of the response, or 0 */
    uint16_t failure; /* what is answered if no origin can be connected to */
    uint8_t phase;
    enum cache_word cached;
    bool is_own;        /* nobody asked: what is stored is validated */
    bool is_asked;      /* a request came, and its response hasn't ended */
    bool is_giving;     /* the content is that of the pass */
    bool is_behind;     /* bytes waited for the client after the last step */
    bool is_storing;    /* the pass gets what passes */
    bool is_validating; /* the origin is asked by the conditions of the cache */
    bool is_tunnel;
    bool is_over;   /* nothing more is said */
    bool has_moved; /* something was received or sent since it waits */
};

/* What an exchange waits for, and so how long it may: a header of the PROXY protocol, a request, its head, the answer,
 * anything of either side, another request; and what an upstream does: a connection. */
static struct queue greeting, idle, heads, answers, silent, collapsed, connecting;

static struct {
    struct typed_headers_gate_rules rules;
    struct typed_headers_cache cache;
    struct typed_headers_keys keys;
    struct typed_headers_gate_pool pools[ALL_GROUPS];
    struct queue kept[MOST_ORIGINS]; /* the idle connections to each origin */
    uint64_t requests;               /* so many came */
    struct exchange *driven;         /* that whose turn it is */
    size_t turn_bytes;
    uint8_t buffer[BUFFER];
} own;

static void drive(struct exchange *exchange);
static void start_validation(struct exchange *of);
static void follow(struct exchange *exchange, const struct typed_headers_pass_facts *facts);

/* ---- The log ---- */

typedef uint8_t text_call(struct typed_headers_gate *, uint8_t *, size_t, size_t *);

/* A part of the request, or its field of this name, or a dash. */
static void log_part(struct exchange *exchange, const char *before, text_call *call, const char *name) {
    size_t length;
    uint8_t status = call ? call(&exchange->gate, own.buffer, BUFFER, &length)
                          : typed_headers_gate_field(&exchange->gate, (const uint8_t *)name, strlen(name), own.buffer,
                                                     BUFFER, &length);
    log_text("%s", before);
    if (status == TYPED_HEADERS_DONE && exchange->is_asked)
        log_escaped(own.buffer, length);
    else
        log_text("-");
}

static void log_line(struct exchange *exchange, uint16_t status) {
    bool is_json = gateway->hosting.log == JSON_LOG;
    unsigned long long passed = exchange->passed, took = worker.now - exchange->begun;
    size_t start = log_front(&exchange->told);
    log_part(exchange, is_json ? ",\"method\":\"" : "", typed_headers_gate_method, NULL);
    if (is_json)
        log_part(exchange, "\",\"host\":\"", typed_headers_gate_authority, NULL);
    if (is_json || exchange->is_asked)
        log_part(exchange, is_json ? "\",\"target\":\"" : " ", typed_headers_gate_target, NULL);
    if (is_json)
        log_text("\",\"status\":%u,\"bytes\":%llu,\"milliseconds\":%llu,\"cache\":\"%s\"", status, passed, took,
                 cache_words[exchange->cached]);
    else
        log_text(passed ? "%s\" %u %llu" : "%s\" %u -", exchange->is_asked ? " HTTP/1.1" : "", status, passed);
    log_part(exchange, is_json ? ",\"referer\":\"" : " \"", NULL, "referer");
    log_part(exchange, is_json ? "\",\"user_agent\":\"" : "\" \"", NULL, "user-agent");
    log_text("\"");
    log_end(start);
}

/* Notes the end of a response, also to what was no request. */
static void conclude(struct exchange *exchange, uint16_t status) {
    if (!exchange->is_own) {
        count_response(status, exchange->cached);
        if (gateway->hosting.log != NO_LOG)
            log_line(exchange, status);
    }
    if (exchange->is_asked)
        typed_headers_gate_pool_finished(&own.pools[exchange->group], exchange->request);
    exchange->is_asked = false;
}

/* ---- Connections to origins ---- */

static struct typed_headers_gate_pool *pool_at(size_t origin) { return &own.pools[gateway->origins[origin].group]; }

/* Where the origin with this number in its group is among all. */
static size_t place_of(size_t group, size_t number) {
    size_t place = 0;
    while (gateway->origins[place].group != group || number-- > 0)
        place++;
    return place;
}

static void end_tls(struct end *end) {
    if (end->tls)
        tls_end(end->tls);
    end->tls = NULL;
}

static void close_upstream(struct upstream *upstream) {
    if (upstream->exchange)
        upstream->exchange->upstream = NULL;
    typed_headers_gate_pool_gone(pool_at(upstream->origin), upstream->number);
    end_tls(&upstream->end);
    typed_headers_gate_origin_free(&upstream->connection);
    close_source(&upstream->end.source);
}

static void on_origin(struct source *source, uint32_t events);

/* Keeps the connection of an exchange for another one, if it may be kept. */
static void keep_upstream(struct exchange *exchange) {
    struct upstream *upstream = exchange->upstream;
    if (!upstream)
        return;
    uint8_t is_kept = 0;
    if (typed_headers_gate_take(&exchange->gate, &upstream->connection) != TYPED_HEADERS_DONE ||
        upstream->end.is_broken || worker.is_stopping || !watch(&upstream->end.source, EPOLLIN) ||
        typed_headers_gate_pool_release(pool_at(upstream->origin), upstream->number, &is_kept) || !is_kept) {
        close_upstream(upstream);
        return;
    }
    exchange->upstream = NULL;
    upstream->exchange = NULL;
    wait_in(&upstream->end.source, &own.kept[upstream->origin]);
}

static void close_kept(struct source *source) { close_upstream((struct upstream *)source); }

/* Notes that an origin failed, and that this request is to go to another one. */
static void note_failure(struct exchange *exchange, size_t origin, uint64_t number, const char *why) {
    if (typed_headers_gate_pool_failed(pool_at(origin), number, worker.now)) { /* out of memory */
        typed_headers_gate_pool_gone(pool_at(origin), number);
        exchange->is_over = true;
    }
    count_event(ORIGIN_FAILURES);
    complain_of(gateway->origins[origin].text, why);
}

/* Begins the connection with this number to an origin. Returns false if that fails at once. */
static bool begin_upstream(struct exchange *exchange, size_t place, uint64_t number) {
    const struct origin *origin = &gateway->origins[place];
    struct upstream *upstream = calloc(1, sizeof *upstream);
    if (!upstream) {
        note_failure(exchange, place, number, strerror(errno));
        return false;
    }
    int made = socket(origin->address.any.sa_family, SOCK_STREAM | SOCK_NONBLOCK | SOCK_CLOEXEC, 0);
    *upstream = (struct upstream){
        .end.source = {.socket = made, .ready = on_origin}, .exchange = exchange, .origin = place, .number = number};
    exchange->upstream = upstream;
    if (made < 0 || (connect(made, &origin->address.any, origin->length) && errno != EINPROGRESS) ||
        (origin->name && !(upstream->end.tls = tls_connect(site.trust, made, origin->name))) ||
        typed_headers_gate_origin_new(&upstream->connection, gateway->most_head, &own.keys) ||
        !watch(&upstream->end.source, EPOLLOUT)) {
        note_failure(exchange, place, number, strerror(errno));
        close_upstream(upstream);
        return false;
    }
    if (origin->address.any.sa_family != AF_UNIX)
        setsockopt(made, IPPROTO_TCP, TCP_NODELAY, &(int){1}, sizeof(int)); /* it goes without */
    count_event(ORIGIN_CONNECTIONS);
    wait_in(&upstream->end.source, &connecting);
    return true;
}

/* ---- Requests ---- */

static void answer(struct exchange *exchange, uint16_t status) {
    exchange->is_giving = false;
    if (typed_headers_gate_answer(&exchange->gate, status))
        exchange->is_over = true;
}

/* The pass has ended, so others need not wait for it. */
static void close_pass(struct exchange *exchange) {
    if (exchange->pass.is_open)
        hurry(&collapsed);
    typed_headers_pass_free(&exchange->pass);
    exchange->is_storing = exchange->is_validating = false;
}

/* Ends a pass whose response won't come, or not to its end. */
static void abandon_pass(struct exchange *exchange) {
    struct typed_headers_pass_facts facts;
    uint64_t number;
    if (exchange->pass.is_open) { /* it is at one of these, or at neither */
        typed_headers_pass_failed(&own.cache, &exchange->pass, worker.date, &facts);
        typed_headers_pass_ended(&own.cache, &exchange->pass, false, worker.date, &number);
    }
    close_pass(exchange);
}

/* No response of an origin comes: the cache may have one. */
static void fail(struct exchange *exchange, uint16_t status) {
    struct typed_headers_pass_facts facts;
    if (exchange->pass.is_open &&
        !typed_headers_pass_failed(&own.cache, &exchange->pass, worker.date, &facts) &&
        facts.action == TYPED_HEADERS_REPLY) {
        exchange->cached = STALE;
        follow(exchange, &facts);
    } else {
        answer(exchange, status);
    }
}

static bool is_connect(const struct exchange *exchange) { return exchange->group > MOST_GROUPS; }

static void forward(struct exchange *exchange, struct upstream *upstream) {
    upstream->is_connected = true;
    upstream->end.is_readable = upstream->end.tls != NULL; /* OpenSSL may hold bytes already; otherwise epoll tells */
    wait_in(&upstream->end.source, NULL);
    if (is_connect(exchange) ? typed_headers_gate_connected(&exchange->gate)
                             : typed_headers_gate_forward(&exchange->gate, &upstream->connection))
        exchange->is_over = true;
}

/* Forwards over the idle connection with this number. Returns false, and closes it, if it has ended or has bytes. */
static bool reuse_upstream(struct exchange *exchange, size_t origin, uint64_t number) {
    struct upstream *upstream = (struct upstream *)first_in(&own.kept[origin]);
    uint8_t byte;
    while (upstream->number != number)
        upstream = (struct upstream *)upstream->end.source.after;
    if (recv(upstream->end.source.socket, &byte, 1, MSG_PEEK) >= 0 || errno != EAGAIN) {
        close_upstream(upstream);
        return false;
    }
    upstream->exchange = exchange;
    exchange->upstream = upstream;
    count_event(ORIGIN_REUSES);
    forward(exchange, upstream);
    return true;
}

/* The group of the first route that the request is for, or MOST_GROUPS. */
static size_t group_asked(struct exchange *exchange) {
    uint8_t is = 0;
    for (size_t i = 0; i < gateway->route_count; i++) {
        const struct route *route = &gateway->routes[i];
        if (typed_headers_gate_is_for(&exchange->gate, (const uint8_t *)route->host, strlen(route->host),
                                      (const uint8_t *)route->path, strlen(route->path), &is))
            return MOST_GROUPS;
        if (is)
            return route->group;
    }
    return gateway->route_count || !gateway->group_count ? MOST_GROUPS : 0; /* without routes the first gets all */
}

/* Does what the pool says, until the request that waits has a connection, which goes on at once if it was idle. */
static void ask_origin(struct exchange *exchange) {
    struct typed_headers_gate_lease lease;
    if (exchange->group == MOST_GROUPS && (exchange->group = group_asked(exchange)) == MOST_GROUPS) {
        abandon_pass(exchange);
        answer(exchange, 404);
        return;
    }
    while (!exchange->is_over &&
           !typed_headers_gate_pool_lease(&own.pools[exchange->group], exchange->request, worker.now, 0, &lease) &&
           lease.kind <= TYPED_HEADERS_LEASE_OPEN) {
        size_t origin = place_of(exchange->group, lease.origin);
        if (lease.kind == TYPED_HEADERS_LEASE_OPEN ? begin_upstream(exchange, origin, lease.connection)
                                                   : reuse_upstream(exchange, origin, lease.connection))
            return;
    }
    if (!exchange->is_over)
        fail(exchange, exchange->failure);
}

static void fail_upstream(struct upstream *upstream, const char *why) {
    struct exchange *exchange = upstream->exchange;
    note_failure(exchange, upstream->origin, upstream->number, why);
    close_upstream(upstream);
    ask_origin(exchange);
    drive(exchange);
}

static void connect_late(struct source *source) {
    struct upstream *upstream = (struct upstream *)source;
    upstream->exchange->failure = 504;
    fail_upstream(upstream, "no connection in time");
}

/* Goes on with a connection that begins. */
static void connect_on(struct upstream *upstream) {
    int error = 0, is_done = 1;
    socklen_t length = sizeof error;
    const char *why = NULL;
    if (getsockopt(upstream->end.source.socket, SOL_SOCKET, SO_ERROR, &error, &length))
        error = errno;
    if (error)
        why = strerror(error);
    else if (upstream->end.tls)
        is_done = tls_shake_hands(upstream->end.tls, &why);
    if (why) {
        fail_upstream(upstream, why);
    } else if (is_done) {
        typed_headers_gate_pool_opened(pool_at(upstream->origin), upstream->number);
        forward(upstream->exchange, upstream);
        drive(upstream->exchange);
    } else if (!watch(&upstream->end.source, tls_wants_output(upstream->end.tls) ? EPOLLOUT : EPOLLIN)) {
        fail_upstream(upstream, "epoll_ctl");
    }
}

static void on_origin(struct source *source, uint32_t events) {
    struct upstream *upstream = (struct upstream *)source;
    upstream->end.is_readable |= (events & ~(uint32_t)EPOLLOUT) != 0;
    upstream->end.is_full = false;
    if (!upstream->exchange)
        close_upstream(upstream); /* it has ended, or has bytes that nobody asked for */
    else if (upstream->is_connected)
        drive(upstream->exchange);
    else
        connect_on(upstream);
}

/* ---- The cache ---- */

/* Gives the next piece of a response that isn't the origin's, and its end after the last one. */
static void give_piece(struct exchange *exchange) {
    size_t count = exchange->left < BUFFER ? (size_t)exchange->left : BUFFER;
    if (count > 0) {
        if (typed_headers_pass_content(&exchange->pass, exchange->given, own.buffer, count, &count))
            count = 0;
        if (count == 0 || typed_headers_gate_push(&exchange->gate, own.buffer, count)) {
            exchange->is_over = true;
            return;
        }
    }
    exchange->given += count;
    exchange->left -= count;
    if (exchange->left > 0)
        return;
    exchange->is_giving = false;
    close_pass(exchange);
    exchange->is_over = typed_headers_gate_end(&exchange->gate) != TYPED_HEADERS_DONE;
}

/* Writes the field line that says what the pass comes to. Returns its length: 0 if nothing is said. */
static size_t say_status(const struct exchange *exchange, uint8_t *room, size_t length) {
    const uint8_t *name = (const uint8_t *)gateway->cache_status;
    size_t count;
    if (!name || typed_headers_pass_status(&exchange->pass, name, strlen(gateway->cache_status), room, length, &count))
        return 0;
    return count;
}

/* Begins to give the client the stored response that a step of a pass names. The first piece goes with the head, unless
 * responses before it wait: a client that reads none must not make many of them wait. */
static void give(struct exchange *exchange, const struct typed_headers_pass_facts *facts) {
    size_t length;
    hurry(&collapsed); /* the pass has ended */
    if (typed_headers_pass_fields(&exchange->pass, own.buffer, BUFFER, &length)) {
        answer(exchange, 502);
        return;
    }
    length += say_status(exchange, own.buffer + length, BUFFER - length);
    if (typed_headers_gate_respond(&exchange->gate, facts->status, own.buffer, length, facts->count, &own.keys)) {
        answer(exchange, 502);
        return;
    }
    exchange->status = facts->status;
    exchange->is_giving = true;
    exchange->given = facts->first;
    exchange->left = exchange->passed = facts->count;
    if (facts->action == TYPED_HEADERS_REPLY_AND_VALIDATE)
        start_validation(exchange);
    if (!exchange->is_behind)
        give_piece(exchange);
}

/* Does what the step of a pass says. */
static void follow(struct exchange *exchange, const struct typed_headers_pass_facts *facts) {
    size_t length;
    switch (facts->action) {
    case TYPED_HEADERS_REPLY:
    case TYPED_HEADERS_REPLY_AND_VALIDATE: give(exchange, facts); break;
    case TYPED_HEADERS_VALIDATE:
        exchange->is_validating = true;
        if (typed_headers_pass_fields(&exchange->pass, own.buffer, BUFFER, &length) ||
            typed_headers_gate_conditions(&exchange->gate, own.buffer, length, &own.keys))
            abandon_pass(exchange);
        ask_origin(exchange);
        break;
    case TYPED_HEADERS_ASK: ask_origin(exchange); break;
    case TYPED_HEADERS_SEND_504:
        close_pass(exchange);
        answer(exchange, 504);
        break;
    case TYPED_HEADERS_WAIT: wait_in(&exchange->end.source, &collapsed); break;
    default: answer(exchange, 502); /* (NO_RESPONSE) */
    }
}

/* Looks again whether a request has to wait for another one. */
static void resume(struct source *source) {
    struct exchange *exchange = (struct exchange *)source;
    struct typed_headers_pass_facts facts;
    wait_in(source, NULL);
    if (typed_headers_pass_resume(&own.cache, &exchange->pass, worker.date, &facts)) {
        close_pass(exchange);
        ask_origin(exchange);
    } else {
        exchange->cached = facts.action <= TYPED_HEADERS_REPLY_AND_VALIDATE ? HIT : MISS;
        follow(exchange, &facts);
    }
    drive(exchange);
}

/* Begins a pass for a request. Without one it is forwarded. */
static void begin_pass(struct exchange *exchange) {
    enum { KEY = 0, METHOD = BUFFER / 2, FIELDS = METHOD + 1024 };
    size_t key, method, fields;
    struct typed_headers_pass_facts facts;
    if (typed_headers_gate_key(&exchange->gate, own.buffer + KEY, METHOD - KEY, &key) == TYPED_HEADERS_DONE &&
        typed_headers_gate_method(&exchange->gate, own.buffer + METHOD, FIELDS - METHOD, &method) ==
            TYPED_HEADERS_DONE &&
        typed_headers_gate_fields(&exchange->gate, own.buffer + FIELDS, BUFFER - FIELDS, &fields) ==
            TYPED_HEADERS_DONE) {
        const struct typed_headers_cache_request request = {
            {own.buffer + KEY, key}, {own.buffer + METHOD, method}, {own.buffer + FIELDS, fields}};
        if (typed_headers_pass_begin(&own.cache, &exchange->pass, &request, worker.date, &facts) ==
            TYPED_HEADERS_DONE) {
            exchange->cached = facts.action <= TYPED_HEADERS_REPLY_AND_VALIDATE ? HIT : MISS;
            follow(exchange, &facts);
            return;
        }
    }
    ask_origin(exchange);
}

/* The head of the origin's response came. */
static void take_response(struct exchange *exchange) {
    struct typed_headers_pass_facts facts = {.action = TYPED_HEADERS_PASS_ON};
    size_t length;
    bool has_pass = exchange->pass.is_open;
    if (typed_headers_gate_response(&exchange->gate, &exchange->status, own.buffer, BUFFER, &length))
        has_pass = false;
    if (has_pass && typed_headers_pass_came(&own.cache, &exchange->pass, exchange->status, own.buffer, length,
                                            worker.date, &facts)) {
        facts.action = exchange->is_validating ? TYPED_HEADERS_ASK : TYPED_HEADERS_PASS_ON;
        abandon_pass(exchange);
    }
    length = say_status(exchange, own.buffer, BUFFER);
    switch (facts.action) {
    case TYPED_HEADERS_PASS_ON_TO_END: exchange->is_storing = true; break;
    case TYPED_HEADERS_PASS_ON: close_pass(exchange); break;
    case TYPED_HEADERS_ASK:
        exchange->is_validating = false;
        if (typed_headers_gate_again(&exchange->gate))
            exchange->is_over = true;
        return;
    default:
        exchange->cached = exchange->status < 500 ? VALIDATED : STALE;
        follow(exchange, &facts);
        return;
    }
    if (length > 0)
        typed_headers_gate_add(&exchange->gate, own.buffer, length, &own.keys); /* out of memory, it isn't said */
    if (typed_headers_gate_pass(&exchange->gate))
        exchange->is_over = true;
}

/* A piece of the response was passed on. */
static void take_piece(struct exchange *exchange, uint64_t length) {
    size_t count;
    exchange->passed += length;
    if (exchange->is_storing &&
        (typed_headers_gate_piece(&exchange->gate, own.buffer, BUFFER, &count) ||
         typed_headers_pass_received(&exchange->pass, own.buffer, count) == TYPED_HEADERS_ABSENT))
        abandon_pass(exchange);
}

/* ---- Input and output ---- */

static ssize_t send_bytes(const struct end *end, size_t length) {
    return end->tls ? tls_write(end->tls, own.buffer, length)
                    : send(end->source.socket, own.buffer, length, MSG_NOSIGNAL);
}

/* Nothing more is sent to this end. */
static void end_output(struct end *end) {
    if (end->is_broken)
        return;
    end->is_broken = true;
    if (end->tls)
        tls_finish(end->tls);
    else
        shutdown(end->source.socket, SHUT_WR); /* it may have gone */
}

/* Sends what waits for a side. Returns whether something moved. */
static bool send_some(struct exchange *exchange, struct end *end, uint8_t side) {
    size_t length;
    if (typed_headers_gate_output(&exchange->gate, side, own.buffer, BUFFER, &length)) {
        exchange->is_over = true;
        return false;
    }
    ssize_t count = end->source.socket < 0 ? (ssize_t)length : send_bytes(end, length);
    if (count < 0 && errno == EINTR)
        return true;
    if (count < 0 && errno == EAGAIN) {
        end->is_full = true;
        return false;
    }
    if (count < 0) { /* what an origin has sent before is still read */
        end_output(end);
        end->is_readable = true;
        exchange->is_over |= side == TYPED_HEADERS_CLIENT;
        return false;
    }
    own.turn_bytes += (size_t)count;
    if (side == TYPED_HEADERS_CLIENT && !exchange->is_own)
        count_bytes(SENT_BYTES, (uint64_t)count);
    return typed_headers_gate_sent(&exchange->gate, side, (uint64_t)count) == TYPED_HEADERS_DONE;
}

/* Receives what a side has. Returns whether something moved. */
static bool receive_some(struct exchange *exchange, struct end *end, uint8_t side) {
    ssize_t count = end->tls ? tls_read(end->tls, own.buffer, BUFFER)
                             : recv(end->source.socket, own.buffer, BUFFER, 0);
    if (count < 0 && errno == EINTR)
        return true;
    if (count < 0 && errno == EAGAIN) {
        end->is_readable = false;
        return false;
    }
    end->is_readable = end->tls || count == BUFFER; /* what is shorter was all that there is */
    if (count < 0 && side == TYPED_HEADERS_CLIENT) {
        exchange->is_over = true;
        return false;
    }
    if (count <= 0) {
        end->is_broken |= count < 0;
        return typed_headers_gate_finish(&exchange->gate, side) == TYPED_HEADERS_DONE;
    }
    own.turn_bytes += (size_t)count;
    if (side == TYPED_HEADERS_CLIENT)
        count_bytes(RECEIVED_BYTES, (uint64_t)count);
    if (typed_headers_gate_receive(&exchange->gate, side, own.buffer, (size_t)count) == TYPED_HEADERS_DONE)
        return true;
    exchange->is_over = true;
    return false;
}

/* Moves bytes as the exchange wants it. Returns whether some moved. */
static bool move(struct exchange *exchange, const struct typed_headers_gate_facts *facts) {
    struct end *client = &exchange->end, *origin = exchange->upstream ? &exchange->upstream->end : NULL;
    bool has_moved = false;
    if (facts->client_output && !client->is_full && !client->is_broken)
        has_moved |= send_some(exchange, client, TYPED_HEADERS_CLIENT);
    if (facts->origin_output && origin && !origin->is_full && !origin->is_broken)
        has_moved |= send_some(exchange, origin, TYPED_HEADERS_ORIGIN);
    if (!exchange->is_over && facts->origin_input && origin && origin->is_readable)
        has_moved |= receive_some(exchange, origin, TYPED_HEADERS_ORIGIN);
    if (!exchange->is_over && facts->client_input && client->is_readable)
        has_moved |= receive_some(exchange, client, TYPED_HEADERS_CLIENT);
    exchange->has_moved |= has_moved;
    return has_moved;
}

/* ---- Exchanges ---- */

/* Frees all that an exchange has but its socket. */
static void release(struct exchange *exchange) {
    if (exchange->is_asked)
        conclude(exchange, exchange->status ? exchange->status : 499); /* (as other proxies log it) */
    abandon_pass(exchange);
    if (exchange->upstream)
        close_upstream(exchange->upstream);
    end_tls(&exchange->end);
    typed_headers_gate_free(&exchange->gate);
    free(exchange->header);
    exchange->header = NULL;
    if (!exchange->is_own)
        count_event(CLOSED_CONNECTIONS);
}

/* Closes both connections. If a message isn't whole, the client is to see that. */
static void close_exchange(struct exchange *exchange, bool is_cut) {
    struct end *client = &exchange->end;
    if (is_cut && !exchange->is_own) {
        /* (if it can't be reset, it ends) */
        setsockopt(client->source.socket, SOL_SOCKET, SO_LINGER, &(struct linger){1, 0}, sizeof(struct linger));
        if (client->tls)
            tls_cut(client->tls);
        client->tls = NULL;
    }
    release(exchange);
    if (!exchange->is_own)
        count_connection(&exchange->client, -1);
    close_source(&client->source);
}

/* All was sent: closes both, once the client has read the end. */
static void end_exchange(struct exchange *exchange) {
    if (exchange->is_own) {
        close_exchange(exchange, false);
        return;
    }
    release(exchange);
    linger(&exchange->end.source, &exchange->client);
}

/* Ends what is to be ended of a tunnel. Returns false if nothing is left. */
static bool end_tunnel(struct exchange *exchange, const struct typed_headers_gate_facts *facts) {
    if (facts->ends_client)
        end_output(&exchange->end);
    if (facts->ends_origin && exchange->upstream)
        end_output(&exchange->upstream->end);
    return exchange->upstream && !(facts->ends_client && facts->ends_origin);
}

static void give_metrics(struct exchange *exchange) {
    static const char path[] = "/metrics";
    static const uint8_t fields[] = "content-type: text/plain; version=0.0.4\ncache-control: no-store\n";
    size_t length;
    if (typed_headers_gate_target(&exchange->gate, own.buffer, BUFFER, &length) || length != sizeof path - 1 ||
        memcmp(own.buffer, path, length)) {
        answer(exchange, 404);
        return;
    }
    exchange->status = 200;
    exchange->passed = length = print_metrics((char *)own.buffer, BUFFER);
    exchange->is_over =
        typed_headers_gate_respond(&exchange->gate, 200, fields, sizeof fields - 1, length, &own.keys) ||
        typed_headers_gate_push(&exchange->gate, own.buffer, length) || typed_headers_gate_end(&exchange->gate);
}

/* Begins a connection to the target of a CONNECT. Returns false if the request is none. */
static bool begin_connect(struct exchange *exchange) {
    const uint8_t *targets = (const uint8_t *)gateway->targets;
    uint64_t number;
    uint8_t status = typed_headers_gate_connect_to(&exchange->gate, targets, strlen(gateway->targets), &number);
    if (status == TYPED_HEADERS_DONE) {
        exchange->group = MOST_GROUPS + 1 + number;
        ask_origin(exchange);
    }
    return status != TYPED_HEADERS_ABSENT;
}

static void begin_request(struct exchange *exchange) {
    exchange->begun = worker.now;
    exchange->request = own.requests++;
    exchange->group = MOST_GROUPS;
    exchange->passed = exchange->status = 0;
    exchange->failure = 502;
    exchange->cached = NO_CACHE;
    exchange->is_asked = true;
    if (!exchange->is_own)
        count_event(REQUESTS);
    if (worker.is_stopping && typed_headers_gate_close_after(&exchange->gate))
        exchange->is_over = true;
    if (exchange->entrance->is_metrics)
        give_metrics(exchange);
    else if (gateway->targets && begin_connect(exchange))
        return;
    else if (own.cache.is_open)
        begin_pass(exchange);
    else
        ask_origin(exchange);
}

/* Whether the request waits for a connection, or for another request. */
static bool is_looking(const struct exchange *exchange) {
    const struct upstream *upstream = exchange->upstream;
    return upstream ? !upstream->is_connected : exchange->end.source.queue == &collapsed;
}

/* Asks again: over a new connection, if that of the request ended. */
static void repeat_request(struct exchange *exchange) {
    struct upstream *upstream = exchange->upstream;
    uint8_t goes_again = 1;
    if (upstream) {
        if (typed_headers_gate_pool_ended(pool_at(upstream->origin), upstream->number, &goes_again))
            goes_again = 0; /* out of memory */
        close_upstream(upstream);
    }
    if (goes_again)
        ask_origin(exchange);
    else
        fail(exchange, 502);
}

/* The response has ended, or is asked for again. */
static void end_request(struct exchange *exchange, uint8_t phase) {
    uint16_t status = exchange->status;
    uint64_t number;
    keep_upstream(exchange);
    if (phase == TYPED_HEADERS_GATE_ASKING)
        return;
    if (typed_headers_gate_own(&exchange->gate, &status) == TYPED_HEADERS_DONE)
        abandon_pass(exchange);
    if (exchange->is_storing) /* out of memory, it isn't stored */
        typed_headers_pass_ended(&own.cache, &exchange->pass, true, worker.date, &number);
    close_pass(exchange);
    conclude(exchange, status);
}

static void begin_tunnel(struct exchange *exchange) {
    if (exchange->is_asked)
        conclude(exchange, is_connect(exchange) ? 200 : 101);
    abandon_pass(exchange);
    exchange->is_tunnel = true;
    exchange->is_over = typed_headers_gate_tunnel(&exchange->gate) != TYPED_HEADERS_DONE;
}

static struct queue *queue_of(const struct exchange *exchange) {
    switch (exchange->phase) {
    case TYPED_HEADERS_GATE_IDLE: return &idle;
    case TYPED_HEADERS_GATE_HEAD: return &heads;
    case TYPED_HEADERS_GATE_ANSWER: return &answers;
    case TYPED_HEADERS_GATE_ASKING: return exchange->upstream ? NULL : &collapsed;
    default: return &silent;
    }
}

static bool watch_end(struct end *end, bool wants_input, bool wants_output, uint32_t otherwise) {
    uint32_t events = (wants_input ? EPOLLIN : 0u) | (wants_output ? EPOLLOUT : 0u);
    if (end->source.socket < 0)
        return true;
    if (end->tls && tls_wants_output(end->tls))
        events |= EPOLLOUT;
    if (!end->is_readable) /* input that isn't wanted is told once */
        events |= end->source.watched & EPOLLIN;
    return watch(&end->source, events ? events : otherwise);
}

/* Lets an exchange wait. Its time begins anew if something has moved, but for that of a head and of an answer. */
static void wait_on(struct exchange *exchange, const struct typed_headers_gate_facts *facts) {
    struct queue *queue = queue_of(exchange), *before = exchange->end.source.queue;
    struct upstream *upstream = exchange->upstream;
    if (queue != before || (exchange->has_moved && queue != &heads && queue != &answers && queue != &collapsed)) {
        wait_in(&exchange->end.source, queue);
        if (queue == &silent && exchange->end.source.socket >= 0 &&
            ioctl(exchange->end.source.socket, SIOCOUTQ, &exchange->unsent))
            exchange->unsent = 0;
    }
    exchange->has_moved = false;
    if (!watch_end(&exchange->end, facts->client_input, facts->client_output && !exchange->end.is_broken, EPOLLERR) ||
        (upstream && upstream->is_connected &&
         !watch_end(&upstream->end, facts->origin_input, facts->origin_output && !upstream->end.is_broken, 0)))
        close_exchange(exchange, true);
}

/* Says the time, if another second has begun. */
static void set_clock(struct exchange *exchange) {
    if (exchange->is_tunnel || exchange->date == worker.date)
        return;
    exchange->date = worker.date;
    if (typed_headers_gate_clock(&exchange->gate, worker.date))
        exchange->is_over = true;
}

/* Does what the exchange wants, until it has to wait, or others have their turn. */
static void take_turn(struct exchange *exchange) {
    struct typed_headers_gate_facts facts;
    set_clock(exchange);
    while (!exchange->is_over) {
        if (typed_headers_gate_next(&exchange->gate, &own.rules, worker.date, &facts))
            break;
        exchange->phase = facts.phase;
        exchange->is_behind = facts.client_output;
        switch (facts.event) {
        case TYPED_HEADERS_GATE_REQUEST:
        case TYPED_HEADERS_GATE_REPEAT:
            if (!is_looking(exchange))
                facts.event == TYPED_HEADERS_GATE_REQUEST ? begin_request(exchange) : repeat_request(exchange);
            if (!is_looking(exchange))
                continue;
            break;
        case TYPED_HEADERS_GATE_RESPONSE: take_response(exchange); continue;
        case TYPED_HEADERS_GATE_PIECE: take_piece(exchange, facts.piece); continue;
        case TYPED_HEADERS_GATE_EXCHANGED:
            end_request(exchange, facts.phase);
            exchange->is_over |= exchange->is_own && !exchange->is_asked;
            continue;
        case TYPED_HEADERS_GATE_TUNNEL: begin_tunnel(exchange); continue;
        case TYPED_HEADERS_GATE_ABORTED: close_exchange(exchange, true); return;
        case TYPED_HEADERS_GATE_CLOSED: /* nothing is read any more */
            facts.client_input = facts.origin_input = facts.origin_output = false;
            if (facts.client_output && move(exchange, &facts))
                continue;
            if (facts.client_output && !exchange->is_over)
                wait_on(exchange, &facts);
            else
                end_exchange(exchange);
            return;
        case TYPED_HEADERS_GATE_WAITS:
            if (exchange->is_giving && !facts.client_output) {
                give_piece(exchange);
                continue;
            }
            if (exchange->is_tunnel && !end_tunnel(exchange, &facts)) {
                close_exchange(exchange, false);
                return;
            }
            break;
        default: exchange->is_over = true;
        }
        if (!exchange->is_over && (own.turn_bytes >= TURN_BYTES || !move(exchange, &facts)) && !exchange->is_over) {
            wait_on(exchange, &facts);
            return;
        }
    }
    close_exchange(exchange, exchange->is_asked && exchange->status);
}

static void drive(struct exchange *exchange) {
    struct exchange *before = own.driven;
    own.driven = exchange;
    own.turn_bytes = 0;
    take_turn(exchange);
    own.driven = before;
}

static void end_slow(struct source *source) {
    struct exchange *exchange = (struct exchange *)source;
    if (source->queue == &silent && is_taking(source->socket, &exchange->unsent)) {
        wait_in(source, &silent);
        return;
    }
    if (source->queue != &idle)
        count_event(TIME_LIMITS);
    set_clock(exchange);
    if (exchange->is_tunnel || exchange->phase == TYPED_HEADERS_GATE_OVER ||
        typed_headers_gate_timed_out(&exchange->gate))
        close_exchange(exchange, !exchange->is_tunnel);
    else
        drive(exchange);
}

/* ---- Clients ---- */

/* Begins HTTP with a client. Returns false, and closes, if there is no memory. */
static bool begin_exchange(struct exchange *exchange) {
    char node[INET6_ADDRSTRLEN] = "";
    bool is_tls = exchange->entrance->is_tls;
    if (exchange->told.family != AF_UNSPEC)
        inet_ntop(exchange->told.family, exchange->told.bytes, node, sizeof node);
    const struct typed_headers_gate_peer peer = {.node = {(const uint8_t *)node, strlen(node)},
                                                 .is_secure = is_tls,
                                                 .is_trusted = is_trusted(gateway, &exchange->told)};
    if (typed_headers_gate_new(&exchange->gate, &peer, gateway->most_head, &own.keys) ||
        (!exchange->is_own && is_tls && !(exchange->end.tls = tls_begin(site.tls, exchange->end.source.socket)))) {
        complain_seldom("no connection");
        close_exchange(exchange, true);
        return false;
    }
    wait_in(&exchange->end.source, &idle);
    if (!exchange->is_own)
        drive(exchange); /* the request is mostly there */
    return true;
}

static void greet(struct source *source, bool is_late) {
    struct exchange *exchange = (struct exchange *)source;
    enum proxy_state state = is_late ? PROXY_WRONG
                                     : read_proxy_header(source->socket, exchange->header, &exchange->told);
    if (state == PROXY_WAITS)
        return;
    free(exchange->header);
    exchange->header = NULL;
    if (state == PROXY_WRONG)
        close_exchange(exchange, true);
    else
        begin_exchange(exchange);
}

static void greet_late(struct source *source) { greet(source, true); }

static void on_client(struct source *source, uint32_t events) {
    struct exchange *exchange = (struct exchange *)source;
    exchange->end.is_readable |= (events & ~(uint32_t)EPOLLOUT) != 0;
    exchange->end.is_full = false;
    if (exchange->header)
        greet(source, false);
    else if (events & (EPOLLERR | EPOLLHUP) && !(source->watched & EPOLLIN))
        close_exchange(exchange, false); /* it has gone */
    else
        drive(exchange);
}

void begin_connection(int socket, const struct address *client, size_t listener) {
    struct exchange *exchange = calloc(1, sizeof *exchange);
    if (!exchange) {
        complain_seldom("no connection");
        close_descriptor(socket);
        return;
    }
    exchange->end = (struct end){.source = {.socket = socket, .ready = on_client}, .is_readable = true};
    exchange->client = exchange->told = *client;
    exchange->entrance = &gateway->entrances[listener];
    count_connection(client, 1);
    count_event(CONNECTIONS);
    if (!watch(&exchange->end.source, EPOLLIN)) {
        close_exchange(exchange, true);
    } else if (!exchange->entrance->has_proxy_header) {
        begin_exchange(exchange);
    } else if (!is_trusted(gateway, client) || !(exchange->header = calloc(1, sizeof *exchange->header))) {
        complain_of("a connection", "it has a header of the PROXY protocol to come, and isn't trusted");
        close_exchange(exchange, true);
    } else {
        wait_in(&exchange->end.source, &greeting);
        greet(&exchange->end.source, false);
    }
}

/* Validates, for nobody, the response that an exchange gives (RFC 5861, section 3). */
static void start_validation(struct exchange *of) {
    enum { FIELDS = 0, TARGET = BUFFER / 2, METHOD = BUFFER - 1024 };
    struct exchange *made = calloc(1, sizeof *made);
    size_t fields, target, method;
    if (!made)
        return;
    made->end.source.socket = -1;
    made->is_own = true;
    made->entrance = of->entrance;
    if (!begin_exchange(made))
        return;
    if (typed_headers_pass_validation(&of->pass, own.buffer + FIELDS, TARGET - FIELDS, &fields) ||
        typed_headers_gate_target(&of->gate, own.buffer + TARGET, METHOD - TARGET, &target) ||
        typed_headers_gate_method(&of->gate, own.buffer + METHOD, BUFFER - METHOD, &method) ||
        typed_headers_gate_ask(&made->gate, own.buffer + METHOD, method, own.buffer + TARGET, target,
                               own.buffer + FIELDS, fields))
        close_exchange(made, false);
    else
        drive(made);
}

/* (but not the one whose turn it is) */
bool close_idle(const struct address *of) {
    if (worker.count == 0)
        return false;
    for (struct source *source = idle.end.after; source != &idle.end; source = source->after) {
        struct exchange *exchange = (struct exchange *)source;
        if (exchange != own.driven && !exchange->is_own && (!of || is_same_address(&exchange->client, of))) {
            close_exchange(exchange, false);
            return true;
        }
    }
    return false;
}

/* ---- The worker ---- */

static struct typed_headers_text text_of(const char *text) {
    return (struct typed_headers_text){(const uint8_t *)text, strlen(text)};
}

static void open_rules(void) {
    const struct typed_headers_gateway messages = {.name = text_of(gateway->name ? gateway->name : site.name),
                                                   .protected_fields = text_of(gateway->protected_fields),
                                                   .passes_underscores = gateway->passes_underscores};
    const struct typed_headers_gate_options options = {.authority = text_of(gateway->authority),
                                                       .writes_forwarded = gateway->writes_forwarded,
                                                       .writes_x_forwarded = gateway->writes_x_forwarded,
                                                       .answers_expect = gateway->answers_expect,
                                                       .passes_websocket = true,
                                                       .passes_connect = gateway->targets != NULL};
    uint8_t status = typed_headers_gate_rules_new(&own.rules, &messages, &options);
    if (status != TYPED_HEADERS_DONE)
        DIE("%s", status == TYPED_HEADERS_REFUSED ? "name, authority or protect isn't one"
                                                  : typed_headers_status_text(status));
}

static void open_cache(void) {
    const struct typed_headers_cache_options options = {.variants = VARIANTS,
                                                        .responses = RESPONSES * (1 + (gateway->cache_bytes >> 20)),
                                                        .bytes = gateway->cache_bytes,
                                                        .guess = gateway->cache_guess,
                                                        .is_shared = true};
    const struct typed_headers_cache_extensions extensions = {.immutable = true, .wait = gateway->cache_wait};
    uint8_t status = typed_headers_cache_new_with(&own.cache, &options, &extensions, &own.keys);
    if (status != TYPED_HEADERS_DONE)
        DIE("no cache: %s", typed_headers_status_text(status));
}

static void open_pools(void) {
    for (size_t group = 0; group < ALL_GROUPS; group++) {
        struct typed_headers_gate_pool_options options = {.failures = MOST_FAILURES,
                                                          .pause = FAILED_TIME,
                                                          .most = UINT64_MAX,
                                                          .idle = gateway->keep_time ? gateway->most_kept : 0};
        for (size_t i = 0; i < gateway->origin_count; i++)
            options.origins += gateway->origins[i].group == group;
        uint8_t status = options.origins ? typed_headers_gate_pool_new(&own.pools[group], &options) : 0;
        if (status != TYPED_HEADERS_DONE)
            DIE("no pool: %s", typed_headers_status_text(status));
    }
}

void begin_worker(void) {
    add_queue(&greeting, gateway->head_time * 1000, greet_late, false);
    add_queue(&idle, gateway->idle_time * 1000, end_slow, true);
    add_queue(&heads, gateway->head_time * 1000, end_slow, false);
    add_queue(&answers, gateway->response_time * 1000, end_slow, false);
    add_queue(&silent, gateway->silence_time * 1000, end_slow, false);
    add_queue(&collapsed, WAIT_TIME, resume, false);
    add_queue(&connecting, gateway->connect_time * 1000, connect_late, false);
    for (size_t i = 0; i < gateway->origin_count; i++)
        add_queue(&own.kept[i], gateway->keep_time * 1000, close_kept, false);
    open_pools();
    fill_randomly(&own.keys, sizeof own.keys);
    open_rules();
    if (gateway->cache_bytes > 0)
        open_cache();
}

void end_worker(void) {
    struct queue *const queues[] = {&greeting, &idle, &heads, &answers, &silent, &collapsed};
    for (size_t i = 0; i < sizeof queues / sizeof *queues; i++)
        while (first_in(queues[i]))
            close_exchange((struct exchange *)first_in(queues[i]), true);
    while (first_in(&connecting))
        close_exchange(((struct upstream *)first_in(&connecting))->exchange, true);
    for (size_t i = 0; i < gateway->origin_count; i++)
        while (first_in(&own.kept[i]))
            close_kept(first_in(&own.kept[i]));
    for (size_t group = 0; group < ALL_GROUPS; group++)
        typed_headers_gate_pool_free(&own.pools[group]);
    typed_headers_cache_free(&own.cache);
    typed_headers_gate_rules_free(&own.rules);
}

/* ---- The supervisor ---- */

/* Whether one gateway may take the place of another without a restart. */
static bool is_alike(const struct gateway *one, const struct gateway *other) {
    bool is = one->hosting.address_count == other->hosting.address_count &&
              one->hosting.workers == other->hosting.workers &&
              !memcmp(one->entrances, other->entrances, sizeof one->entrances);
    for (size_t i = 0; is && i < one->hosting.address_count; i++)
        is = !strcmp(one->hosting.addresses[i], other->hosting.addresses[i]);
    return is;
}

/* The gateway that is told now. NULL if it can't be used. */
static struct gateway *read_again(void) {
    struct gateway *next = read_gateway(site.count, site.words);
    if (next && !is_alike(next, gateway)) {
        complain("other addresses or workers need a restart");
        free_gateway(next);
        return NULL;
    }
    if (next)
        next->hosting.connections = gateway->hosting.connections;
    return next;
}

static bool has_tls_origin(const struct gateway *of) {
    for (size_t i = 0; i < of->origin_count; i++)
        if (of->origins[i].name)
            return true;
    return false;
}

/* Opens certificates and the log, and at SIGHUP reads the file before. */
bool open_all(void) {
    struct gateway *next = server.log < 0 ? gateway : read_again();
    if (!next)
        return false;
    SSL_CTX *tls = next->certificate ? tls_open(next->certificate, next->key) : NULL;
    SSL_CTX *trust = has_tls_origin(next) ? tls_trust(next->authorities) : NULL;
    bool is_open = (tls || !next->certificate) && (trust || !has_tls_origin(next));
    int log = is_open && !next->checks ? open_log(next->hosting.log_file) : -1;
    if (log < 0) {
        tls_close(tls);
        tls_close(trust);
        if (next != gateway)
            free_gateway(next);
        return is_open && next->checks;
    }
    tls_close(site.tls);
    tls_close(site.trust);
    replace_log(log);
    site.tls = tls;
    site.trust = trust;
    if (next != gateway)
        free_gateway(gateway);
    gateway = next;
    server.hosting = &gateway->hosting;
    return true;
}

int main(int count, char **words) {
    unsigned long long digits;
    site.count = count;
    site.words = words;
    gateway = read_gateway(count, words);
    if (!gateway)
        return MISTAKE;
    if (gateway->checks)
        return open_all() ? EXIT_SUCCESS : MISTAKE;
    fill_randomly(&digits, sizeof digits);
    snprintf(site.name, sizeof site.name, "gate-%016llx", digits);
    begin_server(&gateway->hosting);
    begin_metrics();
    listen_and_drop_privileges();
    if (!open_all())
        return EXIT_FAILURE;
    for (size_t i = 0; i < server.listener_count; i++)
        say_where(&server.listeners[i], gateway->entrances[i].is_tls ? "https" : "http");
    supervise();
    free_gateway(gateway);
    return EXIT_SUCCESS;
}
