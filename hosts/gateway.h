/* What the gateway is told: by its command line, or by a file with the same names. */
#ifndef GATEWAY_H
#define GATEWAY_H

#include "loop.h"
#include "settings.h"

#include <sys/un.h>

enum { MOST_ORIGINS = 64, MOST_GROUPS = 32, MOST_ROUTES = 128, MOST_TRUSTED = 64 };
enum { ALL_GROUPS = MOST_GROUPS + 1 + MOST_ORIGINS }; /* those with a name, none, and one for each target of CONNECT */

/* What comes to an address. */
struct entrance {
    bool is_tls, has_proxy_header; /* a header of the PROXY protocol comes first */
    bool is_metrics;               /* its requests are for /metrics */
};

/* An origin server. */
struct origin {
    const char *text; /* HOST:PORT, [HOST]:PORT or unix:PATH */
    const char *name; /* that its certificate has to have; NULL for plain connections */
    size_t group; /* of a target of CONNECT: MOST_GROUPS, 1, and the number of its line */
    union {
        struct sockaddr any;
        struct sockaddr_un un;
        struct sockaddr_storage storage;
    } address;
    socklen_t length;
};

/* Which group of origins gets the requests for a host, below a path. */
struct route {
    const char *host; /* empty for any */
    const char *path;
    size_t group;
};

struct range {
    struct address address; /* AF_UNSPEC: of Unix sockets */
    unsigned bits;          /* so many of its first bits count */
};

struct gateway {
    struct hosting hosting;
    const char *file; /* with more settings, or NULL */
    bool checks;      /* it only reads them */
    struct entrance entrances[MOST_ADDRESSES];
    struct origin origins[MOST_ORIGINS];
    const char *groups[MOST_GROUPS];
    struct route routes[MOST_ROUTES]; /* in the order in which they are asked */
    struct range trusted[MOST_TRUSTED];
    size_t origin_count, target_count, group_count, route_count, trusted_count;
    const char *certificate, *key, *authorities; /* NULL for none, and for those of the system */

    /* What the library decides by. */
    const char *name, *authority;
    char *protected_fields; /* a line for each */
    char *targets;          /* of CONNECT, a line for each; NULL for none */
    bool writes_forwarded, writes_x_forwarded, passes_underscores, answers_expect;
    uint64_t most_head;
    uint64_t cache_bytes, cache_guess, cache_wait; /* bytes of a worker, and seconds */
    const char *cache_status; /* the cache's name in Cache-Status, or NULL for none */

    /* Limits of time, in seconds. */
    uint64_t idle_time, head_time, connect_time, response_time, silence_time, keep_time;
    uint64_t most_kept; /* idle connections to an origin */
    struct text *texts; /* which it owns */
};

/* Reads the words of the command line, and the file that they name. Returns NULL, and complains, if the file can't be
 * used. A wrong word ends the process with status 2. */
struct gateway *read_gateway(int count, char **words);
void free_gateway(struct gateway *gateway);

bool is_trusted(const struct gateway *gateway, const struct address *address);

#endif
