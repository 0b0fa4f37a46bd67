/* The event loop of a worker: a process with one epoll and no thread. It accepts connections, watches sockets, and ends
 * what waits for too long. */
#ifndef LOOP_H
#define LOOP_H

#include "base.h"

#include <netinet/in.h>
#include <sys/epoll.h>
#include <sys/socket.h>

enum {
    AGAIN = 1000, /* milliseconds after which what failed is tried again */
    GRACE = 500,  /* milliseconds in which requests that are on their way reach a program that stops */
};

struct address {
    uint8_t bytes[16];
    int family; /* AF_INET, AF_INET6, or AF_UNSPEC if it isn't known */
    uint16_t port;
};

/* Of IPv4 also if it is mapped to IPv6. */
struct address address_of(const struct sockaddr_storage *from);
bool is_same_address(const struct address *one, const struct address *other);

/* What the loop watches: a socket, which it owns, and the list in which it waits for something. It is the first member
 * of an allocated struct, or of a static one that is never closed. */
struct source {
    int socket; /* -1 if it has none, as once it is closed */
    void (*ready)(struct source *source, uint32_t events); /* is told of events of epoll */
    struct queue *queue; /* NULL if it doesn't wait */
    struct source *before, *after;
    uint64_t deadline;
    uint32_t watched; /* EPOLLIN, EPOLLOUT, both or none */
};

/* Sources that wait for the same, the longest waiting first, and so for how long they may. */
struct queue {
    struct source end;
    uint64_t time;                       /* milliseconds */
    void (*late)(struct source *source); /* what waited for so long leaves the queue, or waits anew */
    bool is_idle;                        /* who waits here has only GRACE once the worker stops */
    struct queue *next;
};

struct worker {
    size_t place, child; /* which worker it is, and which of all that run */
    uint64_t now, date;  /* in milliseconds by a clock of their own, and in seconds since 1970 */
    size_t count, most;  /* of connections that were accepted */
    bool is_stopping;    /* each response is the last of its connection */
};

extern struct worker worker;

/* What the program defines. */
void begin_worker(void);                   /* begins what a worker has, as its queues */
void end_worker(void);                     /* closes what is left */
bool close_idle(const struct address *of); /* closes the longest idle connection, of this address or of any */
/* Owns a socket that was accepted at the listener with this number. */
void begin_connection(int socket, const struct address *client, size_t listener);

void add_queue(struct queue *queue, uint64_t time, void (*late)(struct source *), bool is_idle);
/* Lets a source wait, from now on, or no longer, if the queue is NULL. */
void wait_in(struct source *source, struct queue *queue);
static inline struct source *first_in(const struct queue *queue) {
    return queue->end.after == &queue->end ? NULL : queue->end.after;
}
/* Lets the time of all that wait there be over. */
void hurry(struct queue *queue);

/* Which events are told of a source. Returns false if the system can't. */
bool watch(struct source *source, uint32_t events);

/* Whether the peer took something of what the system has for it, since `*unsent` bytes of that were noted: they are
 * many, and the system tells of room only once a large part has gone. */
bool is_taking(int socket, int *unsent);

/* Closes the socket, if it has one. The memory of the source is freed after the turn, since an event may still be about
 * it. */
void close_source(struct source *source);

/* Ends the output of a connection, and owns its socket and its count from now on. It drops what the client still sends,
 * for a while, until it has read the end: bytes that are unread when a socket is closed would reset the connection (RFC
 * 9112, section 9.6). The source is freed as by `close_source`. */
void linger(struct source *source, const struct address *client);

/* Counts a connection that begins, or with -1 one that ends. */
void count_connection(const struct address *client, int change);

/* Says once a second what goes wrong: a flood of connections is none of messages. */
void complain_of(const char *what, const char *why);
void complain_seldom(const char *what); /* why, says errno */

/* Works until it is told to stop. */
void run_worker(size_t place, size_t child);

#endif
