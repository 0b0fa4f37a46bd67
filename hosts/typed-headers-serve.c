/* Serves the files of a folder over HTTP/1.1: typed-headers-serve(1).
 *
 * The library reads the requests, names the paths to open, and gives each byte of a response that isn't a file's. This
 * program moves bytes, opens files and keeps time. It decides nothing about HTTP.
 *
 * The supervisor owns the listening sockets, the folder, the log and the certificate, and starts and ends the workers.
 * A worker is a process with one epoll and no thread, and owns its peers. A peer is one connection: it owns its socket,
 * its TLS, its handle of the library, and the file that it still sends once its turn is over. */
#define _GNU_SOURCE
#include "log.h"
#include "loop.h"
#include "options.h"
#include "supervisor.h"
#include "tls.h"

#include <errno.h>
#include <fcntl.h>
#include <limits.h>
#include <linux/openat2.h>
#include <linux/sockios.h>
#include <stdio.h>
#include <string.h>
#include <sys/ioctl.h>
#include <sys/sendfile.h>
#include <sys/stat.h>
#include <sys/syscall.h>
#include <typed_headers.h>
#include <unistd.h>

enum {
    BUFFER = 64 * 1024,
    SMALL = 16 * 1024,       /* so much of a file is copied behind the head, and sent with it */
    LARGE = 256 * 1024,      /* so much of a file isn't put behind the head, which would cut its pages in two */
    TURN_BYTES = 1024 * 1024, /* so much a peer sends before others have their turn */
    TURN_EVENTS = 64,        /* so many things a peer does before */
    MOST_FOUND = 3,          /* the library names at most so many paths for a request */
    LOOKS = 8,               /* so many files that were opened may be found again */
    LOOK_PATH = 256,         /* if their paths are shorter than this */
    LOOK_BYTES = 4096,       /* with their content, if it is no longer than this */
};

const char program[] = "typed-headers-serve";
static struct options options;

/* What the supervisor opens, and the workers use. */
static struct {
    int folder;
    SSL_CTX *tls; /* NULL for plain connections */
    struct typed_headers_keys tag_keys;
    char boundary[33];
} site = {.folder = -1};

/* ---- What a worker owns ---- */

struct peer {
    struct source source;
    SSL *tls; /* NULL for a plain connection */
    struct typed_headers_connection connection;
    uint64_t begun;           /* when the request or the response began */
    int file;                 /* which is being sent, or -1 */
    struct timespec modified; /* the time of that file, and its length, when it was opened */
    off_t length;
    uint64_t opened; /* in which turn */
    uint64_t requests;
    int unsent;     /* bytes that the system had to send when the wait began */
    struct address address;
    uint8_t event;    /* what the connection wants, if it is told */
    bool is_told;     /* and nothing was done since */
    bool is_readable; /* there may be something to receive */
    bool is_last;     /* its response is to be the last, though the client didn't ask for that */
    bool has_begun;   /* something was received since the last response */
    bool has_ended;   /* the client has ended its side */
    bool has_moved;   /* something was received or sent since it waits */
};

/* What a peer waits for, and so how long it may. In the last one looks wait for the end of the round, in which each
 * source that was ready has its turn. */
static struct queue idle, receiving, sending, round_end;

/* A file that was opened for one of the requests that were ready, and that the others of the round find again. It owns
 * the file, until a peer needs that for longer than its turn. */
struct look {
    int file; /* -1 if it owns none now */
    struct timespec changed;
    off_t length;
    bool has_content;
    char path[LOOK_PATH];
    uint8_t content[LOOK_BYTES];
};

static struct {
    struct typed_headers_files files;
    struct typed_headers_keys keys;
    struct peer *driven; /* that whose turn it is */
    uint64_t turn;
    size_t turn_bytes;
    struct source looking; /* waits while there are looks */
    struct look looks[LOOKS];
    size_t look_count;
    bool may_look; /* the request that is answered was ready before the round */
    uint8_t buffer[BUFFER];
} own;

/* ---- The log ---- */

/* The first line of a field of the request that waits, or a dash if no request waits or it has no such field. */
static void log_field(struct peer *peer, const char *name) {
    size_t length;
    if (typed_headers_connection_field(&peer->connection, (const uint8_t *)name, strlen(name), own.buffer, BUFFER,
                                       &length) == TYPED_HEADERS_DONE)
        log_escaped(own.buffer, length);
    else
        log_text("-");
}

static void log_rest(struct peer *peer, size_t start, uint16_t status, uint64_t length, bool has_length) {
    bool is_json = options.hosting.log == JSON_LOG;
    char text[24] = "-";
    if (has_length)
        snprintf(text, sizeof text, "%llu", (unsigned long long)length);
    if (is_json)
        log_text(",\"status\":%u,\"bytes\":%s,\"referer\":\"", (unsigned)status, has_length ? text : "0");
    else
        log_text("\" %u %s \"", (unsigned)status, text);
    log_field(peer, "referer");
    log_text(is_json ? "\",\"user_agent\":\"" : "\" \"");
    log_field(peer, "user-agent");
    log_text("\"");
    log_end(start);
}

/* Logs the request that waits, and what was planned for it. */
static void log_request(struct peer *peer) {
    size_t length;
    uint8_t version = 0;
    uint16_t status = 0;
    uint64_t planned = 0;
    bool is_json = options.hosting.log == JSON_LOG, is_head = false;
    if (options.hosting.log == NO_LOG)
        return;
    size_t start = log_front(&peer->address);
    if (is_json)
        log_text(",\"method\":\"");
    if (typed_headers_connection_method(&peer->connection, own.buffer, BUFFER, &length) == TYPED_HEADERS_DONE) {
        is_head = length == 4 && !memcmp(own.buffer, "HEAD", 4);
        log_escaped(own.buffer, length);
    }
    log_text(is_json ? "\",\"target\":\"" : " ");
    if (typed_headers_connection_path(&peer->connection, own.buffer, BUFFER, &length) == TYPED_HEADERS_DONE)
        log_escaped(own.buffer, length);
    if (typed_headers_connection_query(&peer->connection, own.buffer, BUFFER, &length) == TYPED_HEADERS_DONE) {
        log_text("?");
        log_escaped(own.buffer, length);
    }
    if (is_json)
        log_text("\"");
    else if (typed_headers_connection_version(&peer->connection, &version) == TYPED_HEADERS_DONE)
        log_text(" HTTP/%u.%u", version / 10u, version % 10u);
    if (typed_headers_connection_planned(&peer->connection, &status, &planned) != TYPED_HEADERS_DONE)
        complain("a plan is missing");
    log_rest(peer, start, status, planned, planned > 0 && !is_head);
}

/* Logs what was rejected, and so is no request of which more is known. */
static void log_rejection(struct peer *peer, uint16_t status) {
    if (options.hosting.log == NO_LOG)
        return;
    size_t start = log_front(&peer->address);
    log_text("%s", options.hosting.log == JSON_LOG ? "" : "-");
    log_rest(peer, start, status, 0, false);
}

/* ---- Peers ---- */

/* Lets a peer wait. Its time begins anew if something has moved, or if it waits for something else. */
static void wait_for(struct peer *peer, struct queue *queue) {
    if (peer->source.queue == queue && !peer->has_moved)
        return;
    peer->has_moved = false;
    wait_in(&peer->source, queue);
}

static struct look *look_of(int file) {
    for (size_t i = 0; i < own.look_count; i++)
        if (own.looks[i].file == file)
            return &own.looks[i];
    return NULL;
}

/* Closes a file, unless it may be found again. */
static void leave_file(int file) {
    if (file >= 0 && !look_of(file))
        close_descriptor(file);
}

static void close_file(struct peer *peer) {
    leave_file(peer->file);
    peer->file = -1;
}

/* Lets the peer own the file that it sends. */
static void keep_file(const struct peer *peer) {
    struct look *look = peer->file >= 0 ? look_of(peer->file) : NULL;
    if (look)
        look->file = -1;
}

static void forget_looks(struct source *source) {
    wait_in(source, NULL);
    for (size_t i = 0; i < own.look_count; i++)
        if (own.looks[i].file >= 0)
            close_descriptor(own.looks[i].file);
    own.look_count = 0;
}

static void end_tls(struct peer *peer) {
    if (peer->tls)
        tls_end(peer->tls);
    peer->tls = NULL;
}

static void close_peer(struct peer *peer) {
    end_tls(peer);
    typed_headers_connection_free(&peer->connection);
    close_file(peer);
    count_connection(&peer->address, -1);
    close_source(&peer->source);
}

static void drive(struct peer *peer);

static void on_ready(struct source *source, uint32_t events) {
    struct peer *peer = (struct peer *)source;
    peer->is_readable |= (events & ~(uint32_t)EPOLLOUT) != 0;
    own.may_look = source->queue == &idle && (events & EPOLLIN) != 0;
    drive(peer);
    own.may_look = false;
}

/* Owns the socket, also if there is no memory for a peer. */
static struct peer *new_peer(int socket, const struct address *address) {
    struct peer *peer = calloc(1, sizeof *peer);
    if (peer)
        peer->source = (struct source){.socket = socket, .ready = on_ready};
    if (!peer || (site.tls && !(peer->tls = tls_begin(site.tls, socket))) ||
        typed_headers_connection_new(&peer->connection, options.most_content, &own.keys)) {
        complain_seldom("no connection");
        if (peer) {
            end_tls(peer);
            typed_headers_connection_free(&peer->connection);
        }
        free(peer);
        close_descriptor(socket);
        return NULL;
    }
    peer->file = -1;
    peer->begun = worker.now;
    peer->is_readable = true;
    peer->address = *address;
    count_connection(address, 1);
    wait_in(&peer->source, &idle);
    return peer;
}

/* (but not the peer whose turn it is) */
bool close_idle(const struct address *of) {
    if (worker.count == 0) /* as in the supervisor */
        return false;
    for (struct source *source = idle.end.after; source != &idle.end; source = source->after) {
        struct peer *peer = (struct peer *)source;
        if (peer != own.driven && (!of || is_same_address(&peer->address, of))) {
            close_peer(peer);
            return true;
        }
    }
    return false;
}

/* Lets the client read the end of what was sent. */
static void linger_peer(struct peer *peer) {
    end_tls(peer);
    typed_headers_connection_free(&peer->connection);
    close_file(peer);
    linger(&peer->source, &peer->address);
}

/* Sends bytes as send(2) does. */
static ssize_t send_bytes(const struct peer *peer, size_t length, int flags) {
    return peer->tls ? tls_write(peer->tls, own.buffer, length)
                     : send(peer->source.socket, own.buffer, length, MSG_NOSIGNAL | flags);
}

/* Ends the connection of a client that is too slow, with what the library has to say to it, if anything. */
static void end_slow(struct source *source) {
    struct peer *peer = (struct peer *)source;
    size_t length;
    if (peer->source.queue == &sending && is_taking(source->socket, &peer->unsent)) {
        peer->has_moved = true;
        wait_for(peer, &sending);
        return;
    }
    if (typed_headers_connection_time_out(&peer->connection, own.buffer, BUFFER, &length) != TYPED_HEADERS_DONE ||
        send_bytes(peer, length, 0) != (ssize_t)length) {
        close_peer(peer);
        return;
    }
    log_rejection(peer, 408);
    linger_peer(peer);
}

/* ---- Files ---- */

/* Opens a path below the folder, through no link that leads out of it. EAGAIN: a folder was moved meanwhile. */
static int open_below(const char *path) {
    struct open_how how = {
        .flags = O_RDONLY | O_CLOEXEC | O_NONBLOCK | O_NOCTTY,
        .resolve = RESOLVE_BENEATH | RESOLVE_NO_MAGICLINKS,
    };
    long file = -1;
    for (int tries = 0; tries < 8; tries++) {
        file = syscall(SYS_openat2, site.folder, path, &how, sizeof how);
        if (file >= 0 || (errno != EAGAIN && errno != EINTR && !(errno == EMFILE && close_idle(NULL))))
            break;
    }
    return (int)file;
}

static uint8_t kind_by(int error) {
    switch (error) {
    case ENOENT:
    case ENOTDIR:
    case ENAMETOOLONG:
    case EXDEV: /* it leads out of the folder */
        return TYPED_HEADERS_ENTRY_MISSING;
    case EACCES:
    case EPERM:
    case ELOOP:
    case ENXIO: /* a socket, or a device that isn't there */
        return TYPED_HEADERS_ENTRY_FORBIDDEN;
    default:
        return TYPED_HEADERS_ENTRY_UNAVAILABLE;
    }
}

static bool is_same_time(struct timespec one, struct timespec other) {
    return one.tv_sec == other.tv_sec && one.tv_nsec == other.tv_nsec;
}

/* Finds a file again, unless it has changed or lost a name since. Returns its descriptor, or -1. */
static int find_again(const char *path, struct stat *status) {
    for (size_t i = 0; own.may_look && i < own.look_count; i++) {
        struct look *look = &own.looks[i];
        if (look->file < 0 || strcmp(look->path, path))
            continue;
        if (!fstat(look->file, status) && is_same_time(status->st_ctim, look->changed) &&
            status->st_size == look->length)
            return look->file;
        close_descriptor(look->file);
        look->file = -1;
    }
    return -1;
}

/* Lets others find a file that was opened, if there is room. */
static void note_look(const char *path, int file, const struct stat *status) {
    size_t length = strlen(path);
    if (!own.may_look || own.look_count == LOOKS || length >= LOOK_PATH)
        return;
    struct look *look = &own.looks[own.look_count++];
    look->file = file;
    look->changed = status->st_ctim;
    look->length = status->st_size;
    look->has_content = false;
    memcpy(look->path, path, length + 1);
    wait_in(&own.looking, &round_end);
}

/* Says what there is at a path, and opens it, if it is a file. Returns its descriptor, or -1. */
static int find(const char *path, struct typed_headers_entry *entry, struct stat *status) {
    int again = find_again(path, status), file = again >= 0 ? again : open_below(path);
    *entry = (struct typed_headers_entry){0};
    if (file < 0 || (file != again && fstat(file, status))) {
        entry->kind = kind_by(errno);
        if (file >= 0)
            close_descriptor(file);
        return -1;
    }
    if (S_ISREG(status->st_mode) && (uint64_t)status->st_size <= options.most_file) {
        entry->kind = TYPED_HEADERS_ENTRY_FILE;
        entry->length = (uint64_t)status->st_size;
        entry->modified = (uint64_t)status->st_mtim.tv_sec;
        entry->device = status->st_dev;
        entry->inode = status->st_ino;
        entry->changed = (uint64_t)status->st_ctim.tv_sec;
        entry->changed_nanosecond = (uint64_t)status->st_ctim.tv_nsec;
        if (file != again)
            note_look(path, file, status);
        return file;
    }
    entry->kind = S_ISDIR(status->st_mode) ? TYPED_HEADERS_ENTRY_FOLDER : TYPED_HEADERS_ENTRY_FORBIDDEN;
    close_descriptor(file);
    return -1;
}

/* Whether the file that is being sent has another time or length than when it was opened. (Its time of change isn't
 * asked for: that is another one also once a new file has taken its name.) */
static bool has_changed(const struct peer *peer) {
    struct stat status;
    return fstat(peer->file, &status) || status.st_size != peer->length ||
           !is_same_time(status.st_mtim, peer->modified);
}

/* ---- Answers ---- */

enum step { ON, WAIT, SLOW, REJECTED, OVER };

/* Plans the response to a request for the path of --health, if that is what waits. */
static bool plan_health(struct peer *peer) {
    size_t length;
    if (!options.health ||
        typed_headers_connection_path(&peer->connection, own.buffer, BUFFER, &length) != TYPED_HEADERS_DONE ||
        length != strlen(options.health) || memcmp(own.buffer, options.health, length))
        return false;
    static const uint8_t type[] = "content-type", text[] = "text/plain", connection[] = "connection", close[] = "close";
    const char *page = worker.is_stopping ? "stopping\n" : "ok\n";
    return !typed_headers_connection_plan(&peer->connection, worker.is_stopping ? 503 : 200) &&
           !typed_headers_connection_plan_field(&peer->connection, type, sizeof type - 1, text, sizeof text - 1) &&
           (!peer->is_last || !typed_headers_connection_plan_field(&peer->connection, connection, sizeof connection - 1,
                                                             close, sizeof close - 1)) &&
           !typed_headers_connection_plan_bytes(&peer->connection, (const uint8_t *)page, strlen(page));
}

/* Opens the paths that the library names, has it plan the response, and keeps open the file that it sends. */
static bool plan_file(struct peer *peer) {
    struct typed_headers_entry found[MOST_FOUND];
    struct stat statuses[MOST_FOUND];
    int files[MOST_FOUND];
    size_t count = 0, length, source = MOST_FOUND;
    uint8_t status;
    char path[PATH_MAX];
    bool has_path;
    do { /* It mostly names one path. A plan is refused while it names another. */
        status = typed_headers_files_path(&own.files, &peer->connection, found, count, (uint8_t *)path,
                                          sizeof path - 1, &length);
        has_path = status == TYPED_HEADERS_DONE || status == TYPED_HEADERS_NO_ROOM;
        if (has_path) {
            /* The system opens no path that is longer than the room. */
            path[status == TYPED_HEADERS_DONE ? length : 0] = 0;
            files[count] = find(path, &found[count], &statuses[count]);
            count++;
        } else if (status != TYPED_HEADERS_ABSENT) {
            break;
        }
        status = typed_headers_files_plan(&own.files, &peer->connection, found, count, worker.date, peer->is_last,
                                          &source);
    } while (status == TYPED_HEADERS_REFUSED && has_path && count < MOST_FOUND);
    for (size_t i = 0; i < count; i++) {
        if (status == TYPED_HEADERS_DONE && i == source && files[i] >= 0) {
            peer->file = files[i];
            peer->modified = statuses[i].st_mtim;
            peer->length = statuses[i].st_size;
            peer->opened = own.turn;
        } else
            leave_file(files[i]);
    }
    return status == TYPED_HEADERS_DONE;
}

static enum step answer(struct peer *peer) {
    peer->requests++;
    peer->is_last = worker.is_stopping || peer->requests == options.requests;
    close_file(peer);
    if (!plan_health(peer) && !plan_file(peer))
        return OVER;
    own.may_look = false; /* the next one of this peer may have come since */
    log_request(peer);
    peer->has_begun = false;
    peer->begun = worker.now;
    return typed_headers_connection_respond(&peer->connection) == TYPED_HEADERS_DONE ? ON : OVER;
}

/* ---- Input and output ---- */

static bool is_late(const struct peer *peer) {
    return worker.now - peer->begun > options.request_time * 1000;
}

/* What follows if nothing was received. The handshake of TLS has the times of a request. */
static enum step receive_nothing(struct peer *peer) {
    if (errno == EPROTO) /* OpenSSL has sent an alert, which the client is to read */
        return REJECTED;
    if (errno != EAGAIN)
        return OVER;
    if (!peer->tls)
        return WAIT;
    peer->is_readable = tls_wants_output(peer->tls);
    peer->has_moved |= tls_is_in_handshake(peer->tls);
    return tls_is_in_handshake(peer->tls) && is_late(peer) ? SLOW : WAIT;
}

static enum step receive(struct peer *peer) {
    if (!peer->is_readable)
        return WAIT;
    ssize_t count = peer->tls ? tls_read(peer->tls, own.buffer, BUFFER)
                              : recv(peer->source.socket, own.buffer, BUFFER, 0);
    if (count < 0 && errno == EINTR)
        return ON;
    /* What is shorter than the buffer was all that there is. */
    peer->is_readable = count == BUFFER;
    if (count < 0)
        return receive_nothing(peer);
    peer->has_moved = true;
    if (count == 0) {
        peer->has_ended = true;
        return typed_headers_connection_finish_input(&peer->connection) == TYPED_HEADERS_DONE ? ON : OVER;
    }
    if (!peer->has_begun)
        peer->begun = worker.now;
    peer->has_begun = true;
    if (is_late(peer))
        return SLOW;
    return typed_headers_connection_receive(&peer->connection, own.buffer, (size_t)count) == TYPED_HEADERS_DONE
               ? ON
               : OVER;
}

/* Reads bytes of the file. Returns whether all came. */
static bool read_range(const struct peer *peer, uint8_t *room, uint64_t start, size_t range) {
    struct look *look = look_of(peer->file);
    bool is_whole = look && start == 0 && range <= LOOK_BYTES && (off_t)range == look->length;
    if (is_whole && look->has_content)
        memcpy(room, look->content, range);
    else if (pread(peer->file, room, range, (off_t)start) != (ssize_t)range)
        return false;
    else if (is_whole) {
        memcpy(look->content, room, range);
        look->has_content = true;
    }
    return true;
}

/* Sends bytes of the library, and with them those of the file that follow, if they are few. Returns how many. */
static ssize_t send_output(struct peer *peer, size_t length, uint64_t start, uint64_t range) {
    size_t extra = 0;
    if (range > 0 && range <= SMALL && length + range <= BUFFER &&
        read_range(peer, own.buffer + length, start, (size_t)range))
        extra = (size_t)range;
    ssize_t count = send_bytes(peer, length + extra, range > extra && range < LARGE ? MSG_MORE : 0);
    if (count <= (ssize_t)length)
        return count;
    if (typed_headers_connection_sent(&peer->connection, length) != TYPED_HEADERS_DONE)
        DIE("the library counts otherwise");
    own.turn_bytes += length;
    return count - (ssize_t)length;
}

/* Sends bytes of the file. Returns how many, and 0 if it has fewer now, or others. */
static ssize_t send_range(struct peer *peer, uint64_t start, uint64_t range) {
    if (peer->opened != own.turn && has_changed(peer))
        return 0;
    if (peer->tls) {
        ssize_t count = pread(peer->file, own.buffer, range < BUFFER ? (size_t)range : BUFFER, (off_t)start);
        return count > 0 ? send_bytes(peer, (size_t)count, 0) : count;
    }
    off_t at = (off_t)start;
    return sendfile(peer->source.socket, peer->file, &at, range < TURN_BYTES ? (size_t)range : TURN_BYTES);
}

static enum step send_some(struct peer *peer) {
    size_t length;
    uint64_t start = 0, range = 0;
    if (options.response_time > 0 && worker.now - peer->begun > options.response_time * 1000)
        return OVER;
    if (typed_headers_connection_output(&peer->connection, own.buffer, BUFFER, &length) != TYPED_HEADERS_DONE)
        return OVER;
    if (typed_headers_connection_range(&peer->connection, &start, &range) != TYPED_HEADERS_DONE)
        range = 0;
    ssize_t count = length > 0 ? send_output(peer, length, start, range) : send_range(peer, start, range);
    if (count < 0 && errno == EINTR)
        return ON;
    if (count < 0 && errno == EAGAIN)
        return WAIT;
    if (count <= 0)
        return OVER;
    peer->has_moved = true;
    own.turn_bytes += (size_t)count;
    return typed_headers_connection_sent(&peer->connection, (uint64_t)count) == TYPED_HEADERS_DONE ? ON : OVER;
}

/* Does what the connection wants, until it has to wait, or others have their turn. */
static void take_turn(struct peer *peer) {
    uint8_t event = TYPED_HEADERS_ABORTED;
    uint16_t status;
    enum step step = ON;
    for (int i = 0; i < TURN_EVENTS; i++) {
        step = ON;
        if (!peer->is_told && typed_headers_connection_next(&peer->connection, &peer->event) != TYPED_HEADERS_DONE)
            peer->event = TYPED_HEADERS_ABORTED;
        peer->is_told = true;
        event = peer->event;
        if (own.turn_bytes >= TURN_BYTES && (event == TYPED_HEADERS_REQUEST || event == TYPED_HEADERS_OUTPUT))
            break;
        switch (event) {
        case TYPED_HEADERS_NEEDS_INPUT:
            close_file(peer);
            step = receive(peer);
            break;
        case TYPED_HEADERS_REQUEST: step = answer(peer); break;
        case TYPED_HEADERS_OUTPUT: step = send_some(peer); break;
        case TYPED_HEADERS_CLOSED_CONNECTION:
            if (typed_headers_connection_rejection(&peer->connection, &status) == TYPED_HEADERS_DONE)
                log_rejection(peer, status);
            else if (!peer->is_last || peer->has_ended) /* the client has no more to say */
                step = OVER;
            step == OVER ? close_peer(peer) : linger_peer(peer);
            return;
        default: step = OVER;
        }
        switch (step) {
        case ON: peer->is_told = false; continue;
        case WAIT: break;
        case SLOW: end_slow(&peer->source); return;
        case REJECTED: linger_peer(peer); return;
        case OVER: close_peer(peer); return;
        }
        break;
    }
    keep_file(peer);
    /* The events of epoll are told as long as they hold: so a peer that need not wait has its turn again. */
    bool has_output = event != TYPED_HEADERS_NEEDS_INPUT, is_in_handshake = peer->tls && tls_is_in_handshake(peer->tls);
    bool wants_output = peer->tls && step == WAIT ? tls_wants_output(peer->tls) : has_output;
    if (!watch(&peer->source, wants_output ? EPOLLOUT : EPOLLIN) ||
        (has_output && ioctl(peer->source.socket, SIOCOUTQ, &peer->unsent)))
        close_peer(peer);
    else
        wait_for(peer, has_output ? &sending : peer->has_begun || is_in_handshake ? &receiving : &idle);
}

static void drive(struct peer *peer) {
    own.driven = peer;
    own.turn++;
    own.turn_bytes = 0;
    take_turn(peer);
    own.driven = NULL;
}

void begin_connection(int socket, const struct address *client, size_t listener) {
    (void)listener;
    struct peer *peer = new_peer(socket, client);
    if (peer)
        drive(peer); /* the request is mostly there */
}

/* ---- The worker ---- */

static void open_files(void) {
    const char *control = options.cache_control, *hosts = options.hosts ? options.hosts : "";
    const struct typed_headers_files_options given = {
        .cache_control = {(const uint8_t *)control, strlen(control)},
        .hosts = {(const uint8_t *)hosts, strlen(hosts)},
        .boundary = {(const uint8_t *)site.boundary, strlen(site.boundary)},
        .negotiates = options.is_precompressed};
    uint8_t status = typed_headers_files_new(&own.files, &given, &site.tag_keys);
    if (status != TYPED_HEADERS_DONE)
        DIE("%s", status == TYPED_HEADERS_REFUSED ? "--cache-control or --host has a byte that no field value can have"
                                                  : typed_headers_status_text(status));
}

void begin_worker(void) {
    add_queue(&idle, options.idle_time * 1000, end_slow, true);
    add_queue(&receiving, options.receive_time * 1000, end_slow, false);
    add_queue(&sending, options.send_time * 1000, end_slow, false);
    add_queue(&round_end, 0, forget_looks, false);
    fill_randomly(&own.keys, sizeof own.keys);
    open_files();
}

void end_worker(void) {
    struct queue *const queues[] = {&idle, &receiving, &sending};
    for (size_t i = 0; i < sizeof queues / sizeof *queues; i++)
        while (first_in(queues[i]))
            close_peer((struct peer *)first_in(queues[i]));
    forget_looks(&own.looking);
    typed_headers_files_free(&own.files);
}

/* ---- The supervisor ---- */

/* Opens the folder, the log and the certificate. */
bool open_all(void) {
    SSL_CTX *tls = options.certificate ? tls_open(options.certificate, options.key) : NULL;
    if (options.certificate && !tls)
        return false;
    int folder = open(options.folder, O_PATH | O_DIRECTORY | O_CLOEXEC), log = -1;
    if (folder < 0)
        complain("'%s': %s", options.folder, strerror(errno));
    else
        log = open_log(options.hosting.log_file);
    if (log < 0) {
        if (folder >= 0)
            close_descriptor(folder);
        tls_close(tls);
        return false;
    }
    if (site.folder >= 0)
        close_descriptor(site.folder);
    tls_close(site.tls);
    replace_log(log);
    site.folder = folder;
    site.tls = tls;
    return true;
}

/* ---- The start ---- */

/* Entity tags are hashed by these bytes, and parts divided by digits that nobody can foresee. */
static void make_keys(void) {
    unsigned long long digits[2];
    fill_randomly(digits, sizeof digits);
    snprintf(site.boundary, sizeof site.boundary, "%016llx%016llx", digits[0], digits[1]);
    fill_randomly(&site.tag_keys, sizeof site.tag_keys);
    if (options.tag_key) {
        int file = open(options.tag_key, O_RDONLY | O_CLOEXEC);
        if (file < 0 || read(file, &site.tag_keys, sizeof site.tag_keys) != sizeof site.tag_keys)
            DIE("'%s' can't be read, or has fewer than 16 bytes", options.tag_key);
        close_descriptor(file);
    }
}

int main(int count, char **words) {
    read_options(&options, count, words);
    begin_server(&options.hosting);
    make_keys();
    listen_and_drop_privileges();
    if (!open_all())
        return EXIT_FAILURE;
    int probe = open_below(".");
    if (probe < 0)
        DIE("'%s': openat2: %s", options.folder, strerror(errno));
    close_descriptor(probe);
    for (size_t i = 0; i < server.listener_count; i++)
        say_where(&server.listeners[i], site.tls ? "https" : "http");
    supervise();
    return EXIT_SUCCESS;
}
