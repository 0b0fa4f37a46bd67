/* What a program is told, by the words of its command line or by the lines of a file. */
#ifndef SETTINGS_H
#define SETTINGS_H

#include "base.h"

enum { MOST_ADDRESSES = 16, MOST_WORKERS = 64, MISTAKE = 2 };

enum log_form { NO_LOG, COMBINED_LOG, JSON_LOG };

/* What each program is told: the first member of all that a program is told. A text is of the command line or of a
 * line. */
struct hosting {
    const char *addresses[MOST_ADDRESSES];
    size_t address_count;
    const char *user, *group;
    uint64_t workers, connections, per_address;
    uint64_t stop_time; /* seconds */
    enum log_form log;
    const char *log_file;
};

/* What is taken if nothing is told. */
struct hosting usual_hosting(void);

enum kind { TEXT, NUMBER, FLAG, OTHER, HELP, VERSION };

/* A setting: its name, its value or NULL if it has none, what it does, and the place to which its value goes. */
struct row {
    const char *name, *value, *help;
    enum kind kind;
    size_t place;         /* of a TEXT, a NUMBER or a FLAG */
    uint64_t least, most; /* of a NUMBER */
    /* Takes what is OTHER. Returns NULL, or what is wrong. */
    const char *(*take)(void *settings, char *value);
};

#define MOST_SECONDS 10000000
#define SECONDS(name, place, least, help) {name, "SECONDS", help, NUMBER, place, least, MOST_SECONDS, NULL}

/* The settings of a program; each has those of `hosting` beside its own. */
struct table {
    const char *usage, *about, *end; /* of --help */
    const struct row *rows;
    size_t count;
};

/* A text that says what is wrong, until the next one does. */
__attribute__((format(printf, 1, 2))) const char *wrong(const char *format, ...);

/* Ends the process, with status 2 and this on standard error. */
__attribute__((noreturn)) void mistake(const char *what);

/* Adds an address to those at which the program listens. */
const char *add_address(void *hosting, char *value);

/* Reads the options of a command line. A mistake ends the process with status 2, --help and --version with 0. Returns
 * the place of the first word that is no option. */
int read_words(const struct table *table, void *settings, int count, char **words);

/* Reads lines `NAME VALUE`, which it changes. A line of blanks, or one that begins with `#`, says nothing. Returns
 * false, and complains with the name of the file and the number of the line, if one can't be used. */
bool read_lines(const struct table *table, void *settings, const char *file, char *lines);

#endif
