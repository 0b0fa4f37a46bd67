#define _GNU_SOURCE
#include "settings.h"

#include <errno.h>
#include <getopt.h>
#include <sched.h>
#include <stdarg.h>
#include <stdio.h>
#include <string.h>
#include <typed_headers.h>

enum { FIRST_OPTION = 256, MOST_ROWS = 96 };

const char *wrong(const char *format, ...) {
    static char text[400];
    va_list values;
    va_start(values, format);
    vsnprintf(text, sizeof text, format, values);
    va_end(values);
    return text;
}

void mistake(const char *what) {
    complain("%s; --help lists the options", what);
    exit(MISTAKE);
}

const char *add_address(void *settings, char *value) {
    struct hosting *hosting = settings;
    if (hosting->address_count == MOST_ADDRESSES)
        return wrong("more than %d addresses to listen at", MOST_ADDRESSES);
    hosting->addresses[hosting->address_count++] = value;
    return NULL;
}

static const char *take_user(void *settings, char *value) {
    struct hosting *hosting = settings;
    char *colon = strchr(value, ':');
    hosting->user = value;
    hosting->group = colon ? colon + 1 : NULL;
    if (colon)
        *colon = 0;
    return NULL;
}

static const char *take_log(void *settings, char *value) {
    struct hosting *hosting = settings;
    if (strcmp(value, "combined") && strcmp(value, "json"))
        return wrong("log is '%s', and neither 'combined' nor 'json'", value);
    hosting->log = strcmp(value, "json") ? COMBINED_LOG : JSON_LOG;
    return NULL;
}

#define AT(field) offsetof(struct hosting, field)

static const struct row common[] = {
    {"workers", "N", "so many processes (as many as processors)", NUMBER, AT(workers), 1, MOST_WORKERS, NULL},
    {"user", "USER[:GROUP]", "run as this user, once it listens", OTHER, 0, 0, 0, take_user},
    SECONDS("stop-time", AT(stop_time), 0, "at SIGTERM responses may go on for (30)"),
    {"connections", "N", "at most so many connections (10000)", NUMBER, AT(connections), 1, 1000000, NULL},
    {"per-address", "N", "at most so many connections of one address (1000)", NUMBER, AT(per_address), 1, UINT16_MAX,
     NULL},
    {"log", "FORM", "write a line for each request, `combined` or `json`", OTHER, 0, 0, 0, take_log},
    {"log-file", "FILE", "append these lines to FILE (standard output)", TEXT, AT(log_file), 0, 0, NULL},
    {"help", NULL, "print this text", HELP, 0, 0, 0, NULL},
    {"version", NULL, "print the version", VERSION, 0, 0, 0, NULL},
};

enum { COMMON = sizeof common / sizeof *common };

/* The row at a place: those of the program come first. */
static const struct row *row_at(const struct table *table, size_t place) {
    return place < table->count ? &table->rows[place] : &common[place - table->count];
}

/* As many workers as processors that this process may use. */
static uint64_t processors(void) {
    cpu_set_t set;
    int count = sched_getaffinity(0, sizeof set, &set) ? 1 : CPU_COUNT(&set);
    return count < MOST_WORKERS ? (uint64_t)count : MOST_WORKERS;
}

struct hosting usual_hosting(void) {
    return (struct hosting){.workers = processors(), .connections = 10000, .per_address = 1000, .stop_time = 30};
}

/* Ends the process once standard output has what was printed. */
__attribute__((noreturn)) static void end_output(void) {
    exit(fflush(stdout) || ferror(stdout) ? EXIT_FAILURE : EXIT_SUCCESS);
}

static void print_help(const struct table *table) {
    printf("usage: %s\n\n%s\n\n", table->usage, table->about);
    for (size_t place = 0; place < table->count + COMMON; place++) {
        const struct row *row = row_at(table, place);
        char name[48];
        snprintf(name, sizeof name, "--%s%s%s", row->name, row->value ? " " : "", row->value ? row->value : "");
        printf("  %-26s %s\n", name, row->help);
    }
    printf("\n%s\n", table->end);
}

static const char *take_number(const struct row *row, uint64_t *place, const char *text) {
    char *end;
    errno = 0;
    unsigned long long number = strtoull(text, &end, 10);
    if (*text < '0' || *text > '9' || *end || errno || number < row->least || number > row->most)
        return wrong("%s is '%s', and not a number from %llu to %llu", row->name, text, (unsigned long long)row->least,
                     (unsigned long long)row->most);
    *place = number;
    return NULL;
}

/* Returns NULL, or what is wrong with the value. */
static const char *take(const struct table *table, const struct row *row, void *settings, char *value) {
    void *place = (char *)settings + row->place;
    switch (row->kind) {
    case TEXT: *(const char **)place = value; break;
    case NUMBER: return take_number(row, place, value);
    case FLAG: *(bool *)place = true; break;
    case OTHER: return row->take(settings, value);
    case HELP: print_help(table); end_output();
    case VERSION: printf("%s %s\n", program, typed_headers_version()); end_output();
    }
    return NULL;
}

int read_words(const struct table *table, void *settings, int count, char **words) {
    struct option names[MOST_ROWS + 1] = {{0}};
    if (table->count + COMMON > MOST_ROWS)
        DIE("there are too many options");
    for (size_t i = 0; i < table->count + COMMON; i++)
        names[i] = (struct option){row_at(table, i)->name, row_at(table, i)->value != NULL, NULL,
                                   FIRST_OPTION + (int)i};
    int option;
    opterr = optind = 0; /* (it may be called again) */
    while ((option = getopt_long(count, words, ":", names, NULL)) != -1) {
        if (option == ':')
            mistake(wrong("%s has no value", words[optind - 1]));
        if (option < FIRST_OPTION)
            mistake(wrong("'%s' is no option", words[optind - 1]));
        const char *what = take(table, row_at(table, (size_t)(option - FIRST_OPTION)), settings, optarg);
        if (what)
            mistake(what);
    }
    return optind;
}

/* Takes the setting of a line. Returns NULL, or what is wrong. */
static const char *take_line(const struct table *table, void *settings, char *name) {
    char *value = name + strcspn(name, " \t");
    if (*value)
        *value++ = 0;
    value += strspn(value, " \t");
    for (size_t place = 0; place < table->count + COMMON; place++) {
        const struct row *row = row_at(table, place);
        if (strcmp(row->name, name) || row->kind == HELP || row->kind == VERSION)
            continue;
        if ((row->value != NULL) != (*value != 0))
            return wrong(row->value ? "%s has no value" : "%s has a value, and takes none", name);
        return take(table, row, settings, value);
    }
    return wrong("'%s' is no setting", name);
}

bool read_lines(const struct table *table, void *settings, const char *file, char *lines) {
    bool is_right = true;
    for (int number = 1; lines; number++) {
        char *line = strsep(&lines, "\n");
        line += strspn(line, " \t");
        for (size_t end = strlen(line); end > 0 && strchr(" \t\r", line[end - 1]); end--)
            line[end - 1] = 0;
        const char *what = *line && *line != '#' ? take_line(table, settings, line) : NULL;
        if (what)
            complain("%s:%d: %s", file, number, what);
        is_right &= !what;
    }
    return is_right;
}
