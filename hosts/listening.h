/* Where a program listens. */
#ifndef LISTENING_H
#define LISTENING_H

#include "settings.h"

/* The sockets of an address, which the supervisor owns. */
struct listener {
    int sockets[MOST_WORKERS]; /* one for each worker by SO_REUSEPORT, or one for all */
    size_t count;
    char path[108];    /* of a Unix socket that was made here, or empty */
    bool is_inherited; /* systemd made it, and has it open too */
};

/* Listens at these addresses, or at those of systemd, or else at port 8080 of 127.0.0.1. Returns how many
 * these are, at most MOST_ADDRESSES. Ends the process if one can't be had. */
size_t listen_at_all(struct listener *listeners, const struct hosting *hosting);

/* Says on standard error where it listens. */
void say_where(const struct listener *listener, const char *scheme);

/* Lets no more connections begin, while those that have begun are accepted. */
void refuse_new(const struct listener *listener);

#endif
