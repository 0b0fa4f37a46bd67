/* The access log of a worker: whole lines, so that those of several workers don't mix. */
#ifndef LOG_H
#define LOG_H

#include "loop.h"
#include "settings.h"

/* Opens the file that takes the lines, or standard output if it is NULL. Returns -1, and complains, if that fails. */
int open_log(const char *file);

/* The worker's lines go to this descriptor from now on. */
void use_log(int descriptor, enum log_form form);

/* Begins a line: with the time, the client, and the place of the request. Returns where it begins. */
size_t log_front(const struct address *client);

/* Adds to the line. What a client chose is escaped: it ends neither the quoted text nor the line. */
void log_bytes(const char *bytes, size_t length);
void log_escaped(const uint8_t *bytes, size_t length);
__attribute__((format(printf, 1, 2))) void log_text(const char *format, ...);

/* Ends the line that begins there. */
void log_end(size_t start);

/* Writes all lines. */
void write_log(void);

#endif
