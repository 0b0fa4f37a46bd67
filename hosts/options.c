#include "options.h"

#include <string.h>

#define AT(field) offsetof(struct options, field)

/* Adds the line of a host. */
static const char *add_host(void *settings, char *name) {
    struct options *options = settings;
    size_t before = options->hosts ? strlen(options->hosts) : 0, length = strlen(name);
    if (strchr(name, '\n') || !length)
        return "host is no name of a host";
    char *hosts = realloc(options->hosts, before + length + 2);
    if (!hosts)
        return "no memory";
    memcpy(hosts + before, name, length);
    memcpy(hosts + before + length, "\n", 2);
    options->hosts = hosts;
    return NULL;
}

static const struct row rows[] = {
    {"listen", "ADDRESS", "listen at PORT, HOST:PORT, [HOST]:PORT or unix:PATH; may be repeated", OTHER, 0, 0, 0,
     add_address},
    {"certificate", "FILE", "speak TLS, by the chain of certificates in FILE (PEM)", TEXT, AT(certificate), 0, 0, NULL},
    {"key", "FILE", "the private key of the certificate (the same file)", TEXT, AT(key), 0, 0, NULL},
    {"cache-control", "VALUE", "Cache-Control of the answers 200, 206 and 304", TEXT, AT(cache_control), 0, 0, NULL},
    {"host", "NAME", "answer 421 to requests for other hosts; may be repeated", OTHER, 0, 0, 0, add_host},
    {"precompressed", NULL, "send FILE.br or FILE.gz to clients that accept them", FLAG, AT(is_precompressed), 0, 0,
     NULL},
    {"tag-key", "FILE", "hash entity tags by its 16 bytes, so that they outlive a restart", TEXT, AT(tag_key), 0, 0,
     NULL},
    {"max-file", "BYTES", "answer 403 for a longer file", NUMBER, AT(most_file), 0, INT64_MAX, NULL},
    {"max-content", "BYTES", "answer 413 to a request with more content (65536)", NUMBER, AT(most_content), 0, 1 << 30,
     NULL},
    {"requests", "N", "close a connection after N requests (0: never)", NUMBER, AT(requests), 0, UINT32_MAX, NULL},
    SECONDS("receive-time", AT(receive_time), 1, "of a request that has begun something must come within (10)"),
    SECONDS("request-time", AT(request_time), 1, "a request must come whole within (60)"),
    SECONDS("idle-time", AT(idle_time), 1, "a connection may wait for a request (60)"),
    SECONDS("send-time", AT(send_time), 1, "the client must take something within (30)"),
    SECONDS("response-time", AT(response_time), 0, "the client must take a response within (0: no limit)"),
    {"health", "PATH", "answer requests for PATH by 200, and by 503 while the server stops", TEXT, AT(health), 0, 0,
     NULL},
};

static const struct table table = {
    .usage = "typed-headers-serve [OPTION..] FOLDER",
    .about = "Serves the files of a folder over HTTP/1.1.",
    .end = "SIGTERM ends the server once responses are sent. SIGHUP opens folder, log and certificate anew.",
    .rows = rows,
    .count = sizeof rows / sizeof *rows,
};

void read_options(struct options *options, int count, char **words) {
    *options = (struct options){
        .hosting = usual_hosting(),
        .cache_control = "",
        .most_file = INT64_MAX,
        .most_content = 65536,
        .receive_time = 10,
        .request_time = 60,
        .idle_time = 60,
        .send_time = 30,
    };
    int first = read_words(&table, options, count, words);
    if (first + 1 != count)
        mistake(wrong("there is %s FOLDER", first == count ? "no" : "more than one"));
    options->folder = words[first];
    if (!options->key)
        options->key = options->certificate;
    if (!options->certificate && options->key)
        mistake("there is a --key, and no --certificate");
    if (options->hosting.log_file && !options->hosting.log)
        options->hosting.log = COMBINED_LOG;
}
