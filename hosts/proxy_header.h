/* The header of the PROXY protocol, versions 1 and 2, by which a proxy tells who its client is. */
#ifndef PROXY_HEADER_H
#define PROXY_HEADER_H

#include "loop.h"

/* What was read of a header: at first nothing. A longer one is wrong. */
struct proxy_header {
    size_t length;
    uint8_t bytes[4096];
};

enum proxy_state { PROXY_WAITS, PROXY_READ, PROXY_WRONG };

/* Reads what a socket has of the header, and nothing behind it. Once it was read, `*client` is who it tells of, if it
 * tells of anybody. */
enum proxy_state read_proxy_header(int socket, struct proxy_header *header, struct address *client);

#endif
