#define _GNU_SOURCE
#include "listening.h"

#include <arpa/inet.h>
#include <errno.h>
#include <fcntl.h>
#include <linux/filter.h>
#include <netdb.h>
#include <netinet/in.h>
#include <netinet/tcp.h>
#include <stdio.h>
#include <stdlib.h>
#include <string.h>
#include <sys/socket.h>
#include <sys/un.h>
#include <unistd.h>

enum { BACKLOG = 4096 };

union any_address {
    struct sockaddr any;
    struct sockaddr_in6 in6;
    struct sockaddr_un un;
    struct sockaddr_storage storage;
};

/* Reads PORT, HOST:PORT, [HOST]:PORT or unix:PATH. */
static socklen_t read_address(const char *text, union any_address *address) {
    char host[INET6_ADDRSTRLEN + 2] = "127.0.0.1";
    const char *colon = strrchr(text, ':'), *port = colon ? colon + 1 : text;
    struct addrinfo *found, hints = {.ai_flags = AI_NUMERICHOST | AI_NUMERICSERV, .ai_socktype = SOCK_STREAM};
    if (!strncmp(text, "unix:", 5)) {
        if (strlen(text + 5) - 1 >= sizeof address->un.sun_path - 1)
            DIE("'%s' has no path, or a long one", text);
        address->un.sun_family = AF_UNIX;
        strcpy(address->un.sun_path, text + 5);
        return sizeof address->un;
    }
    if (colon) {
        bool is_bracketed = *text == '[' && colon > text && colon[-1] == ']';
        snprintf(host, sizeof host, "%.*s", (int)(colon - text) - 2 * is_bracketed, text + is_bracketed);
    }
    if (strlen(port) > 5 || strtoul(port, NULL, 10) > UINT16_MAX || getaddrinfo(host, port, &hints, &found))
        DIE("'%s' is no PORT, HOST:PORT, [HOST]:PORT or unix:PATH, with an address as its host", text);
    socklen_t length = found->ai_addrlen;
    memcpy(address, found->ai_addr, length);
    freeaddrinfo(found);
    return length;
}

static void set_option(int socket, int level, int option, const char *text) {
    if (setsockopt(socket, level, option, &(int){1}, sizeof(int)))
        DIE("'%s': setsockopt: %s", text, strerror(errno));
}

/* A socket at an address, or -1 if that is taken. What is accepted has its TCP_NODELAY. */
static int bind_socket(const union any_address *address, socklen_t length, bool is_shared, const char *text) {
    int made = socket(address->any.sa_family, SOCK_STREAM | SOCK_NONBLOCK | SOCK_CLOEXEC, 0);
    if (made < 0)
        DIE("'%s': socket: %s", text, strerror(errno));
    if (address->any.sa_family != AF_UNIX) {
        set_option(made, IPPROTO_TCP, TCP_NODELAY, text);
        set_option(made, SOL_SOCKET, SO_REUSEADDR, text);
    }
    if (is_shared)
        set_option(made, SOL_SOCKET, SO_REUSEPORT, text);
    if (bind(made, &address->any, length)) {
        if (errno != EADDRINUSE)
            DIE("'%s': bind: %s", text, strerror(errno));
        close_descriptor(made);
        return -1;
    }
    return made;
}

/* Removes the Unix socket of a server that is no more: nobody accepts there. */
static bool remove_stale(const union any_address *address, socklen_t length) {
    int probe = socket(AF_UNIX, SOCK_STREAM | SOCK_CLOEXEC, 0);
    bool is_stale = probe >= 0 && connect(probe, &address->any, length) && errno == ECONNREFUSED &&
                    !unlink(address->un.sun_path);
    if (probe >= 0)
        close_descriptor(probe);
    return is_stale;
}

static void start_listening(struct listener *listener, int socket, const char *text) {
    if (listen(socket, BACKLOG))
        DIE("'%s': listen: %s", text, strerror(errno));
    listener->sockets[listener->count++] = socket;
}

void say_where(const struct listener *listener, const char *scheme) {
    union any_address address = {0};
    socklen_t length = sizeof address;
    char host[INET6_ADDRSTRLEN], port[8];
    if (getsockname(listener->sockets[0], &address.any, &length))
        DIE("getsockname: %s", strerror(errno));
    if (address.any.sa_family == AF_UNIX)
        complain("listening at unix:%s", address.un.sun_path);
    else if (getnameinfo(&address.any, length, host, sizeof host, port, sizeof port, NI_NUMERICHOST | NI_NUMERICSERV))
        DIE("a socket has no address");
    else
        complain(strchr(host, ':') ? "listening at %s://[%s]:%s/" : "listening at %s://%s:%s/", scheme, host, port);
}

/* Listens at an address: by a socket for each worker, among which the system divides the connections. The first one
 * doesn't share its address, so that no other server can have it. */
static void listen_at(struct listener *listener, const char *text, size_t workers) {
    union any_address address = {0};
    socklen_t length = read_address(text, &address);
    bool is_unix = address.any.sa_family == AF_UNIX;
    int first = bind_socket(&address, length, false, text);
    if (first < 0 && is_unix && remove_stale(&address, length))
        first = bind_socket(&address, length, false, text);
    if (first < 0)
        DIE("'%s' is taken", text);
    if (is_unix) {
        strcpy(listener->path, address.un.sun_path);
        start_listening(listener, first, text);
    } else if (getsockname(first, &address.any, &length)) {
        DIE("getsockname: %s", strerror(errno));
    } else {
        close_descriptor(first);
        for (size_t i = 0; i < workers; i++) {
            int socket = bind_socket(&address, length, workers > 1, text);
            if (socket < 0)
                DIE("'%s' is taken", text);
            start_listening(listener, socket, text);
        }
    }
}

/* Takes the sockets that systemd has made, if any: sd_listen_fds(3). */
static size_t take_sockets(struct listener *listeners) {
    size_t taken = 0;
    const char *process = getenv("LISTEN_PID"), *number = getenv("LISTEN_FDS");
    long count = process && number && strtol(process, NULL, 10) == getpid() ? strtol(number, NULL, 10) : 0;
    for (int socket = 3; socket < 3 + count; socket++) {
        int is_listening = 0, type = 0, flags = fcntl(socket, F_GETFL);
        socklen_t length = sizeof(int);
        if (taken == MOST_ADDRESSES || flags < 0 || fcntl(socket, F_SETFL, flags | O_NONBLOCK) ||
            fcntl(socket, F_SETFD, FD_CLOEXEC) || getsockopt(socket, SOL_SOCKET, SO_TYPE, &type, &length) ||
            getsockopt(socket, SOL_SOCKET, SO_ACCEPTCONN, &is_listening, &length) || !is_listening ||
            type != SOCK_STREAM)
            DIE("systemd passed something that isn't a listening stream socket");
        /* (a Unix socket has no such option) */
        if (setsockopt(socket, IPPROTO_TCP, TCP_NODELAY, &(int){1}, sizeof(int)) && errno != EOPNOTSUPP)
            DIE("setsockopt: %s", strerror(errno));
        listeners[taken++] = (struct listener){.sockets = {socket}, .count = 1, .is_inherited = true};
    }
    return taken;
}

size_t listen_at_all(struct listener *listeners, const struct hosting *hosting) {
    for (size_t i = 0; i < hosting->address_count; i++)
        listen_at(&listeners[i], hosting->addresses[i], hosting->workers);
    size_t count = hosting->address_count ? hosting->address_count : take_sockets(listeners);
    if (count > 0)
        return count;
    listen_at(&listeners[0], "8080", hosting->workers);
    return 1;
}

/* Packets of TCP with SYN, and no ACK, are dropped: their senders try again, until nobody listens. */
void refuse_new(const struct listener *listener) {
    static struct sock_filter code[] = {
        BPF_STMT(BPF_LD | BPF_B | BPF_ABS, 13),
        BPF_STMT(BPF_ALU | BPF_AND | BPF_K, 0x12),
        BPF_JUMP(BPF_JMP | BPF_JEQ | BPF_K, 0x02, 0, 1),
        BPF_STMT(BPF_RET | BPF_K, 0),
        BPF_STMT(BPF_RET | BPF_K, UINT32_MAX),
    };
    struct sock_fprog filter = {.len = sizeof code / sizeof *code, .filter = code};
    if (*listener->path && unlink(listener->path) && errno != ENOENT)
        complain("'%s' is left: %s", listener->path, strerror(errno));
    for (size_t i = 0; i < listener->count && !*listener->path && !listener->is_inherited; i++)
        if (setsockopt(listener->sockets[i], SOL_SOCKET, SO_ATTACH_FILTER, &filter, sizeof filter))
            complain("setsockopt: %s", strerror(errno));
}
