/* numbyroga-guard: what one file of this folder has for another. Each function is described here. */
#ifndef GUARD_H
#define GUARD_H

#include "../proxy/proxy.h"

/* ======== policy.c */

/* Makes the policy that a file says, over this table. A name without a slash is that of a policy which comes with this
 * program. False if it is refused, which is said with its line. */
bool policy_read(nb_policy *policy, const nb_table *table, const char *name);
/* Makes the policy that allows each interface of the table. */
bool policy_of_all(nb_policy *policy, const nb_table *table);

/* Up to which version an interface of this name is allowed; 0 if it is not. */
uint32_t policy_version(struct span name);
/* Whether this request of this interface is ignored. */
bool policy_ignores(struct span interface, struct span request);
/* Frees what these look at. */
void policy_forget(void);

/* ======== lines.c */

/* What lines of messages need to know of a connection. */
struct lines;

/* Begins with a connection on which nothing was said. `table` lives longer. */
struct lines *lines_new(const nb_table *table);
void lines_free(struct lines *lines);
/* How many descriptors a message of a side has, of which at least the header is there. */
size_t lines_descriptors(struct lines *lines, uint32_t side, const uint8_t *bytes);
/* Writes the line of a message that the guard has passed, with these descriptors. */
void lines_put(struct lines *lines, uint32_t side, const uint8_t *bytes, const int32_t *descriptors, FILE *to);

/* ======== watch.c */

/* What a connection is seen to say. It decides nothing. */
struct watch;

/* Begins to see a connection. `table` lives longer. */
struct watch *watch_new(unsigned number, const nb_table *table);
/* How much of what came is to go into the guard at once: all, unless each message is logged. Then it is one message, or
 * the descriptors that one awaits, so that it is known which messages the guard passes. In these parts the guard
 * decides as if all had come at once: none has a descriptor before its message needs it, but the last one. */
struct parcel watch_part(const struct watch *watch, uint32_t side, const struct parcel *came);
/* This goes into the guard. */
void watch_bytes(struct watch *watch, uint32_t side, const struct parcel *part);
/* They have, and the connection has not ended. */
void watch_passed(struct watch *watch, uint32_t side);
/* The connection has ended so, with this text for the client, which may be empty. */
void watch_end(struct watch *watch, const nb_end *end, struct span text);
void watch_free(struct watch *watch);

/* Opens the file for what is seen. False if it cannot be opened, which is said. */
bool log_open(const char *name);
/* The file is told each message, too. False if there is none. */
bool log_messages(void);
/* Keeps in mind what is seen, for print_what. */
void keep_what(void);
/* Prints the policy that what was bound needs. */
void print_what(const nb_table *table, FILE *to);
/* Closes the file, and forgets what is in mind. */
void watch_close(void);

/* ======== middle.c */

/* From here on connections are guarded by this policy, over this table. Both live longer. */
void guard_by(nb_policy *policy, const nb_table *table);

/* ======== context.c */

/* Asks the compositor for a socket at which it knows that who connects is sandboxed: as this application, of this
 * engine. WAYLAND_DISPLAY names that socket from then on. If there is none, it says so. False if a signal came that
 * ends this program. */
bool context_make(const nb_table *table, const char *application, const char *engine);
void context_end(void);

#endif
