#define _GNU_SOURCE
#include "proxy_header.h"

#include <arpa/inet.h>
#include <errno.h>
#include <stdio.h>
#include <string.h>

enum { LONGEST_LINE = 107, FRONT = 16 }; /* what is before the addresses of version 2 */

static const uint8_t signature[12] = "\r\n\r\n\0\r\nQUIT\n";

static bool is_line(const struct proxy_header *header) { return header->bytes[0] == 'P'; }

/* How many more bytes are the header's for sure. */
static size_t bytes_left(const struct proxy_header *header) {
    size_t length = header->length;
    if (length == 0 || is_line(header))
        return length == 0 || header->bytes[length - 1] != '\n';
    return length < FRONT ? FRONT - length : FRONT + (size_t)(header->bytes[14] << 8 | header->bytes[15]) - length;
}

/* Whether it can't be a header any more. */
static bool is_wrong(const struct proxy_header *header) {
    size_t length = header->length;
    if (is_line(header))
        return length > LONGEST_LINE || memcmp(header->bytes, "PROXY ", length < 6 ? length : 6);
    if (memcmp(header->bytes, signature, length < sizeof signature ? length : sizeof signature))
        return true;
    return length >= FRONT && (header->bytes[12] >> 4 != 2 || (header->bytes[12] & 0xf) > 1 ||
                               length + bytes_left(header) >= sizeof header->bytes);
}

/* "PROXY TCP4 CLIENT SERVER PORT PORT", or "PROXY UNKNOWN" and anything. */
static bool read_line(const char *line, struct address *told) {
    char protocol[8], node[INET6_ADDRSTRLEN + 1];
    unsigned port, other;
    if (!strncmp(line, "PROXY UNKNOWN", 13) && strchr(" \r", line[13]))
        return true;
    if (sscanf(line, "PROXY %7s %46s %*46s %5u %5u\r", protocol, node, &port, &other) != 4 || port > UINT16_MAX)
        return false;
    told->family = !strcmp(protocol, "TCP4") ? AF_INET : AF_INET6;
    told->port = (uint16_t)port;
    return (told->family == AF_INET || !strcmp(protocol, "TCP6")) && inet_pton(told->family, node, told->bytes) == 1;
}

/* The addresses: of the client, of the server, and then their ports. A proxy that connects for itself tells none. */
static bool read_addresses(const struct proxy_header *header, struct address *told) {
    const uint8_t *bytes = header->bytes;
    int family = bytes[13] >> 4 == 1 ? AF_INET : bytes[13] >> 4 == 2 ? AF_INET6 : AF_UNSPEC;
    size_t size = family == AF_INET ? 4 : 16, ports = FRONT + 2 * size;
    if ((bytes[12] & 0xf) == 0 || family == AF_UNSPEC)
        return true;
    if (header->length < ports + 4)
        return false;
    memcpy(told->bytes, bytes + FRONT, size);
    told->family = family;
    told->port = (uint16_t)(bytes[ports] << 8 | bytes[ports + 1]);
    return true;
}

enum proxy_state read_proxy_header(int socket, struct proxy_header *header, struct address *client) {
    struct address told = {.family = AF_UNSPEC};
    while (bytes_left(header) > 0) {
        ssize_t count = recv(socket, header->bytes + header->length, bytes_left(header), 0);
        if (count < 0 && errno == EINTR)
            continue;
        if (count <= 0)
            return count < 0 && errno == EAGAIN ? PROXY_WAITS : PROXY_WRONG;
        header->length += (size_t)count;
        if (is_wrong(header))
            return PROXY_WRONG;
    }
    header->bytes[header->length] = 0;
    if (!(is_line(header) ? read_line((const char *)header->bytes, &told) : read_addresses(header, &told)))
        return PROXY_WRONG;
    if (told.family != AF_UNSPEC)
        *client = told;
    return PROXY_READ;
}
