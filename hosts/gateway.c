#define _GNU_SOURCE
#include "gateway.h"

#include <arpa/inet.h>
#include <ctype.h>
#include <errno.h>
#include <netdb.h>
#include <stdio.h>
#include <string.h>

enum { MOST_FILE = 1 << 20, MOST_WORDS = 4 };

/* A text that was allocated. */
struct text {
    struct text *next;
    char bytes[];
};

static char *keep(struct gateway *gateway, const char *bytes, size_t length) {
    struct text *text = malloc(sizeof *text + length + 1);
    if (!text)
        DIE("no memory");
    memcpy(text->bytes, bytes, length);
    text->bytes[length] = 0;
    text->next = gateway->texts;
    gateway->texts = text;
    return text->bytes;
}

/* Splits a copy of a value at its blanks. Returns how many words there are, at most one more than there is room for. */
static size_t split(struct gateway *gateway, const char *value, char *words[MOST_WORDS]) {
    char *rest = keep(gateway, value, strlen(value)), *word;
    size_t count = 0;
    while ((word = strsep(&rest, " \t")))
        if (*word && count++ < MOST_WORDS)
            words[count - 1] = word;
    return count;
}

/* ---- What a setting says ---- */

static const char *take_entrance(struct gateway *gateway, const char *value, struct entrance entrance) {
    char *words[MOST_WORDS];
    size_t count = split(gateway, value, words), place = gateway->hosting.address_count;
    for (size_t i = 1; i < count && i < MOST_WORDS; i++) {
        bool *flag = !strcmp(words[i], "tls")     ? &entrance.is_tls
                     : !strcmp(words[i], "proxy") ? &entrance.has_proxy_header
                                                  : NULL;
        if (!flag || *flag || entrance.is_metrics)
            return wrong("after the address is '%s'", words[i]);
        *flag = true;
    }
    if (count == 0 || count > 3)
        return "it isn't an address, perhaps with 'tls' and 'proxy' after it";
    const char *what = add_address(gateway, words[0]);
    if (!what)
        gateway->entrances[place] = entrance;
    return what;
}

static const char *take_listen(void *settings, char *value) {
    return take_entrance(settings, value, (struct entrance){0});
}

static const char *take_metrics(void *settings, char *value) {
    return take_entrance(settings, value, (struct entrance){.is_metrics = true});
}

/* The number of a group with this name, or how many there are. */
static size_t group_of(const struct gateway *gateway, const char *name) {
    size_t group = 0;
    while (group < gateway->group_count && strcmp(gateway->groups[group], name))
        group++;
    return group;
}

/* The host of HOST:PORT or [HOST]:PORT. */
static char *host_of(struct gateway *gateway, const char *text) {
    const char *colon = strrchr(text, ':');
    bool is_bracketed = *text == '[' && colon && colon[-1] == ']';
    return colon ? keep(gateway, text + is_bracketed, (size_t)(colon - text) - 2 * is_bracketed) : NULL;
}

static const char *add_origin(struct gateway *gateway, const char *group_name, const char *text, const char *name) {
    size_t group = group_of(gateway, group_name);
    bool is_unix = !strncmp(text, "unix:", 5);
    if (gateway->origin_count == MOST_ORIGINS || group == MOST_GROUPS)
        return wrong("there are more than %d origins, or %d groups", MOST_ORIGINS, MOST_GROUPS);
    if (is_unix ? strlen(text + 5) - 1 >= sizeof((struct sockaddr_un *)0)->sun_path - 1 : !strrchr(text, ':'))
        return wrong("'%s' is no HOST:PORT, [HOST]:PORT or unix:PATH", text);
    if (name && !*name)
        name = is_unix ? "localhost" : host_of(gateway, text);
    if (group == gateway->group_count)
        gateway->groups[gateway->group_count++] = group_name;
    gateway->origins[gateway->origin_count++] = (struct origin){.text = text, .name = name, .group = group};
    return NULL;
}

static const char *take_origin(void *settings, char *value) {
    struct gateway *gateway = settings;
    char *words[MOST_WORDS];
    size_t count = split(gateway, value, words);
    if (count < 2 || count > 4 || (count > 2 && strcmp(words[2], "tls")))
        return "it isn't GROUP ADDRESS, perhaps with 'tls' and the name of its certificate after it";
    return add_origin(gateway, words[0], words[1], count == 4 ? words[3] : count == 3 ? "" : NULL);
}

/* Whether a route is asked first: those for one host are, and the longer path of two. */
static bool is_before(const struct route *route, const struct route *other) {
    if (!*route->host != !*other->host)
        return *route->host != 0;
    return strlen(route->path) > strlen(other->path);
}

static const char *take_route(void *settings, char *value) {
    struct gateway *gateway = settings;
    char *words[MOST_WORDS];
    if (split(gateway, value, words) != 2)
        return "it isn't HOST/PATH GROUP, where '*' is any host";
    char *path = strchr(words[0], '/');
    size_t length = path ? (size_t)(path - words[0]) : strlen(words[0]), group = group_of(gateway, words[1]);
    char *host = keep(gateway, words[0], length);
    if (group == gateway->group_count)
        return wrong("no origin before has the group '%s'", words[1]);
    if (gateway->route_count == MOST_ROUTES || !length)
        return wrong("it has no host, or there are more than %d routes", MOST_ROUTES);
    if (!strcmp(host, "*"))
        *host = 0;
    struct route route = {host, path ? path : "/", group};
    size_t place = gateway->route_count++;
    for (; place > 0 && is_before(&route, &gateway->routes[place - 1]); place--)
        gateway->routes[place] = gateway->routes[place - 1];
    gateway->routes[place] = route;
    return NULL;
}

static const char *take_trusted(void *settings, char *value) {
    struct gateway *gateway = settings;
    struct range range = {.bits = 0};
    char *slash = strchr(value, '/'), *end = NULL, *text = keep(gateway, value, strcspn(value, "/"));
    if (gateway->trusted_count == MOST_TRUSTED)
        return wrong("more than %d are trusted", MOST_TRUSTED);
    range.address.family = strchr(text, ':') ? AF_INET6 : AF_INET;
    unsigned most = range.address.family == AF_INET ? 32 : 128;
    range.bits = most;
    if (slash)
        range.bits = (unsigned)strtoul(slash + 1, &end, 10);
    if (!strcmp(value, "unix"))
        range = (struct range){.address = {.family = AF_UNSPEC}};
    else if (inet_pton(range.address.family, text, range.address.bytes) != 1 || range.bits > most ||
             (slash && (*end || !isdigit((unsigned char)slash[1]))))
        return wrong("'%s' is no address, ADDRESS/BITS or 'unix'", value);
    gateway->trusted[gateway->trusted_count++] = range;
    return NULL;
}

/* The lines of a text, which may be NULL, and one more. */
static char *add_line(struct gateway *gateway, const char *text, const char *line) {
    char *lines;
    int length = asprintf(&lines, "%s%s\n", text ? text : "", line);
    if (length < 0)
        DIE("no memory");
    char *kept = keep(gateway, lines, (size_t)length);
    free(lines);
    return kept;
}

static const char *take_protected(void *settings, char *value) {
    struct gateway *gateway = settings;
    gateway->protected_fields = add_line(gateway, gateway->protected_fields, value);
    return NULL;
}

static const char *take_connect(void *settings, char *value) {
    struct gateway *gateway = settings;
    const char *colon = strrchr(value, ':');
    if (!colon || !colon[1] || !strncmp(value, "unix:", 5))
        return wrong("'%s' is no HOST:PORT or [HOST]:PORT", value);
    if (gateway->origin_count == MOST_ORIGINS)
        return wrong("there are more than %d origins and targets", MOST_ORIGINS);
    gateway->targets = add_line(gateway, gateway->targets, value);
    gateway->origins[gateway->origin_count++] = (struct origin){
        .text = keep(gateway, value, strlen(value)), .group = MOST_GROUPS + 1 + gateway->target_count++};
    return NULL;
}

#define AT(field) offsetof(struct gateway, field)

static const struct row rows[] = {
    {"config", "FILE", "read more of these settings from the lines of FILE", TEXT, AT(file), 0, 0, NULL},
    {"check", NULL, "only read them: the status is 2 if one is wrong", FLAG, AT(checks), 0, 0, NULL},
    {"listen", "ADDRESS [tls] [proxy]", "listen at PORT, HOST:PORT, [HOST]:PORT or unix:PATH", OTHER, 0, 0, 0,
     take_listen},
    {"metrics", "ADDRESS", "answer requests for /metrics here", OTHER, 0, 0, 0, take_metrics},
    {"certificate", "FILE", "the chain of certificates of TLS (PEM)", TEXT, AT(certificate), 0, 0, NULL},
    {"key", "FILE", "its private key (the same file)", TEXT, AT(key), 0, 0, NULL},
    {"origin", "GROUP ADDRESS [tls [NAME]]", "an origin server of a group", OTHER, 0, 0, 0, take_origin},
    {"origin-ca", "FILE", "trust these certificates of origins (those of the system)", TEXT, AT(authorities), 0, 0,
     NULL},
    {"route", "HOST[/PATH] GROUP", "the group that gets the requests for a host (* for any) below a path", OTHER, 0, 0,
     0, take_route},
    {"name", "TOKEN", "its name in Via (random)", TEXT, AT(name), 0, 0, NULL},
    {"connect", "HOST:PORT", "CONNECT may open a tunnel to this target", OTHER, 0, 0, 0, take_connect},
    {"authority", "HOST", "Host of a request of HTTP/1.0 without one (localhost)", TEXT, AT(authority), 0, 0, NULL},
    {"forwarded", NULL, "send Forwarded", FLAG, AT(writes_forwarded), 0, 0, NULL},
    {"x-forwarded", NULL, "send X-Forwarded-For, -Host and -Proto", FLAG, AT(writes_x_forwarded), 0, 0, NULL},
    {"trust", "ADDRESS[/BITS]", "believe what this proxy says about clients; `unix` for Unix sockets", OTHER, 0, 0, 0,
     take_trusted},
    {"protect", "FIELD", "no client may have this field removed by Connection", OTHER, 0, 0, 0, take_protected},
    {"underscores", NULL, "pass on fields with an underscore in their name", FLAG, AT(passes_underscores), 0, 0, NULL},
    {"answer-expect", NULL, "answer Expect: 100-continue, without asking the origin", FLAG, AT(answers_expect), 0, 0,
     NULL},
    {"cache", "BYTES", "store responses in so many bytes, in each worker (0: none)", NUMBER, AT(cache_bytes), 0,
     1ull << 40, NULL},
    SECONDS("cache-guess", AT(cache_guess), 0, "guess at most so many if the origin states no lifetime (0)"),
    SECONDS("cache-wait", AT(cache_wait), 0, "a request waits so long for another one for the same (5)"),
    {"cache-status", "NAME", "say in Cache-Status what the cache of this name did (don't)", TEXT, AT(cache_status), 0,
     0, NULL},
    {"max-head", "BYTES", "reject a longer head (16384)", NUMBER, AT(most_head), 256, 1 << 20, NULL},
    SECONDS("idle-time", AT(idle_time), 1, "a connection may wait for a request (60)"),
    SECONDS("head-time", AT(head_time), 1, "the head of a request must come within (20)"),
    SECONDS("connect-time", AT(connect_time), 1, "an origin must accept a connection within (5)"),
    SECONDS("response-time", AT(response_time), 1, "an origin must begin to answer within (60)"),
    SECONDS("silence-time", AT(silence_time), 1, "content, and a tunnel, must go on within (60)"),
    SECONDS("keep-time", AT(keep_time), 0, "keep an idle connection to an origin (30)"),
    {"keep", "N", "keep at most so many idle ones to an origin, in each worker (32)", NUMBER, AT(most_kept), 0, 100000,
     NULL},
};

static const struct table table = {
    .usage = "typed-headers-gate [OPTION..] [HOST:PORT]",
    .about = "Passes HTTP/1.1 requests on to origin servers, and stores what they answer.",
    .end = "A line `NAME VALUE` of FILE is the option --NAME. HOST:PORT is an origin for all requests.\n"
           "SIGTERM ends it once responses are sent. SIGHUP reads and opens all but the addresses anew.",
    .rows = rows,
    .count = sizeof rows / sizeof *rows,
};

/* ---- The whole ---- */

static bool read_file(struct gateway *gateway) {
    errno = 0;
    FILE *file = fopen(gateway->file, "re");
    char *lines = calloc(1, MOST_FILE);
    size_t length = file && lines ? fread(lines, 1, MOST_FILE - 1, file) : 0;
    bool is_whole = file && lines && !ferror(file) && length < MOST_FILE - 1 && !memchr(lines, 0, length);
    if (!is_whole)
        complain("'%s' can't be read: %s", gateway->file, errno ? strerror(errno) : "it is no text, or too long");
    if (file)
        fclose(file);
    char *kept = is_whole ? keep(gateway, lines, length) : NULL;
    free(lines);
    return kept && read_lines(&table, gateway, gateway->file, kept);
}

/* Looks the name of an origin up. Returns NULL, or why it has no address. */
static const char *look_up(struct gateway *gateway, struct origin *origin) {
    struct addrinfo *found, hints = {.ai_socktype = SOCK_STREAM, .ai_flags = AI_NUMERICSERV};
    if (!strncmp(origin->text, "unix:", 5)) {
        origin->address.un.sun_family = AF_UNIX;
        strcpy(origin->address.un.sun_path, origin->text + 5);
        origin->length = sizeof origin->address.un;
        return NULL;
    }
    int error = getaddrinfo(host_of(gateway, origin->text), strrchr(origin->text, ':') + 1, &hints, &found);
    if (error)
        return gai_strerror(error);
    memcpy(&origin->address, found->ai_addr, found->ai_addrlen);
    origin->length = found->ai_addrlen;
    freeaddrinfo(found);
    return NULL;
}

static bool is_visible(const char *text) {
    while (*text >= ' ' && *text <= '~')
        text++;
    return !*text;
}

/* Returns NULL, or what is wrong. */
static const char *finish(struct gateway *gateway) {
    bool has_tls = false;
    for (size_t i = 0; i < gateway->hosting.address_count; i++)
        has_tls |= gateway->entrances[i].is_tls;
    if (gateway->origin_count == 0)
        return "there is no origin";
    if (has_tls && !gateway->certificate)
        return "an address has 'tls', and there is no certificate";
    if (gateway->cache_status && !is_visible(gateway->cache_status))
        return "the name of cache-status isn't visible ASCII and spaces";
    if (!gateway->key)
        gateway->key = gateway->certificate;
    if (gateway->hosting.log_file && !gateway->hosting.log)
        gateway->hosting.log = COMBINED_LOG;
    if (!gateway->protected_fields)
        gateway->protected_fields = keep(gateway, "", 0);
    for (size_t i = 0; i < gateway->origin_count; i++) {
        const char *why = look_up(gateway, &gateway->origins[i]);
        if (why)
            return wrong("the origin '%s' has no address: %s", gateway->origins[i].text, why);
    }
    return NULL;
}

struct gateway *read_gateway(int count, char **words) {
    struct gateway *gateway = calloc(1, sizeof *gateway);
    if (!gateway)
        DIE("no memory");
    *gateway = (struct gateway){
        .hosting = usual_hosting(),
        .authority = "localhost",
        .most_head = 16384,
        .cache_wait = 5,
        .idle_time = 60,
        .head_time = 20,
        .connect_time = 5,
        .response_time = 60,
        .silence_time = 60,
        .keep_time = 30,
        .most_kept = 32,
    };
    int first = read_words(&table, gateway, count, words);
    const char *what = first < count ? add_origin(gateway, "default", words[first], NULL) : NULL;
    if (first + 1 < count)
        what = "there is more than one HOST:PORT";
    if (what)
        mistake(what);
    bool is_read = !gateway->file || read_file(gateway);
    what = is_read ? finish(gateway) : NULL;
    if (what)
        complain("%s", what);
    if (is_read && !what)
        return gateway;
    free_gateway(gateway);
    return NULL;
}

void free_gateway(struct gateway *gateway) {
    while (gateway->texts) {
        struct text *text = gateway->texts;
        gateway->texts = text->next;
        free(text);
    }
    free(gateway);
}

/* ---- What it says of a request ---- */

bool is_trusted(const struct gateway *gateway, const struct address *address) {
    for (size_t i = 0; i < gateway->trusted_count; i++) {
        const struct range *range = &gateway->trusted[i];
        unsigned whole = range->bits / 8, rest = range->bits % 8;
        if (range->address.family == address->family && !memcmp(range->address.bytes, address->bytes, whole) &&
            (!rest || !((range->address.bytes[whole] ^ address->bytes[whole]) >> (8 - rest))))
            return true;
    }
    return false;
}
