/* numbyroga-relay: what one file of this folder has for another. Each function is described here. */
#ifndef RELAY_H
#define RELAY_H

#include "../proxy/proxy.h"

/* ======== log.c */

/* Opens the file of the log; standard output if it is NULL. False if it cannot be opened, which is said. */
bool log_open(const char *name);
/* Adds a line. It is there once log_flush was called. */
void log_line(const void *text, size_t length);
/* Adds a line, as printf has it. */
__attribute__((format(printf, 1, 2))) void log_text(const char *format, ...);
/* Writes what was added. If that fails, since nobody reads it any more or there is no room, it says so, and the program
 * goes on without a log. */
void log_flush(void);
void log_close(void);

/* ======== middle.c */

/* From here on there is a relay for each connection, over this table, which lives longer; if `log_only`, one that has a
 * copy of what goes through. False if there can be none, which is said. */
bool relay_over(const nb_table *table, bool log_only);
/* Frees what all connections shared. */
void relay_forget(void);

#endif
