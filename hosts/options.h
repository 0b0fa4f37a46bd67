/* The command line of typed-headers-serve. */
#ifndef OPTIONS_H
#define OPTIONS_H

#include "settings.h"

/* Every text is a word of the command line, but for `hosts`, which is allocated once and never freed. */
struct options {
    struct hosting hosting;
    const char *folder;
    const char *certificate, *key; /* NULL for plain connections */

    /* What the library decides by. */
    const char *cache_control, *tag_key;
    char *hosts; /* a line for each host */
    bool is_precompressed;
    uint64_t requests; /* of a connection; 0 for any number */
    uint64_t most_file, most_content;

    /* Limits of time, in seconds. */
    uint64_t receive_time, request_time, idle_time, send_time, response_time;

    const char *health;
};

/* Reads the words of the command line. A mistake ends the process with status 2, --help and --version with 0. */
void read_options(struct options *options, int count, char **words);

#endif
