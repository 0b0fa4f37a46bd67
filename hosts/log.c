#define _GNU_SOURCE
#include "log.h"

#include <arpa/inet.h>
#include <errno.h>
#include <fcntl.h>
#include <limits.h>
#include <stdarg.h>
#include <stdio.h>
#include <string.h>
#include <time.h>
#include <unistd.h>

enum { ROOM = 256 * 1024 }; /* more than a line takes, since the library bounds the head of a request */

static struct {
    int descriptor;
    enum log_form form;
    size_t length;
    char lines[ROOM];
} log_;

int open_log(const char *file) {
    int log = file ? open(file, O_WRONLY | O_APPEND | O_CREAT | O_CLOEXEC, 0640) : STDOUT_FILENO;
    if (log < 0)
        complain("'%s': %s", file, strerror(errno));
    return log;
}

void use_log(int descriptor, enum log_form form) {
    log_.descriptor = descriptor;
    log_.form = form;
}

static void write_lines(size_t length) {
    size_t at = 0;
    while (at < length) {
        ssize_t count = write(log_.descriptor, log_.lines + at, length - at);
        if (count < 0 && errno == EINTR)
            continue;
        if (count < 0) {
            complain_seldom("lines of the log are lost");
            break;
        }
        at += (size_t)count;
    }
    log_.length -= length;
    memmove(log_.lines, log_.lines + length, log_.length);
}

void write_log(void) { write_lines(log_.length); }

void log_bytes(const char *bytes, size_t length) {
    size_t room = sizeof log_.lines - log_.length, count = length < room ? length : room;
    memcpy(log_.lines + log_.length, bytes, count);
    log_.length += count;
}

void log_text(const char *format, ...) {
    char text[128];
    va_list values;
    va_start(values, format);
    int length = vsnprintf(text, sizeof text, format, values);
    va_end(values);
    if (length > 0)
        log_bytes(text, (size_t)length < sizeof text ? (size_t)length : sizeof text - 1);
}

void log_escaped(const uint8_t *bytes, size_t length) {
    const char *escape = log_.form == JSON_LOG ? "\\u%04x" : "\\x%02x";
    for (size_t i = 0; i < length; i++) {
        if (bytes[i] >= ' ' && bytes[i] < 127 && bytes[i] != '"' && bytes[i] != '\\')
            log_bytes((const char *)bytes + i, 1);
        else
            log_text(escape, bytes[i]);
    }
}

size_t log_front(const struct address *client) {
    size_t start = log_.length;
    char text[64] = "-", node[INET6_ADDRSTRLEN] = "-";
    struct tm parts;
    time_t date = (time_t)worker.date;
    bool is_json = log_.form == JSON_LOG;
    if (!gmtime_r(&date, &parts) ||
        !strftime(text, sizeof text, is_json ? "%Y-%m-%dT%H:%M:%SZ" : "%d/%b/%Y:%H:%M:%S +0000", &parts))
        strcpy(text, "-");
    if (client->family != AF_UNSPEC)
        inet_ntop(client->family, client->bytes, node, sizeof node);
    if (is_json)
        log_text("{\"time\":\"%s\",\"client\":\"%s\"", text, node);
    else
        log_text("%s - - [%s] \"", node, text);
    return start;
}

void log_end(size_t start) {
    log_text(log_.form == JSON_LOG ? "}\n" : "\n");
    if (log_.length > PIPE_BUF && start > 0)
        write_lines(start);
}
