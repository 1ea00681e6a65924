/* What the programs between clients and their compositor share: numbyroga-guard and numbyroga-relay. Each function is
 * described here. */
#ifndef PROXY_H
#define PROXY_H

#include <numbyroga.h>
#include <stdbool.h>
#include <stddef.h>
#include <stdint.h>
#include <stdio.h>

/* Bytes that are not the program's, and end nowhere. */
struct span {
    const char *at;
    size_t length;
};

bool span_is(struct span span, const char *word);

/* Ends the program: there is no memory. */
void *checked(void *memory);

/* The whole of a file, with a zero behind it; NULL if it cannot be read, which it says. */
char *read_file(const char *name);

/* ======== What each program has of its own */

/* Its name, for what it says. */
extern const char program_name[];

/* What stands between the two sides of a connection: a guard, or a relay. */
struct middle;

/* What comes from a side, or goes to it: so many bytes, with these descriptors. */
struct parcel {
    const uint8_t *bytes;
    size_t length;
    const int32_t *descriptors;
    size_t count;
};

/* Begins with a connection on which nothing was said. NULL if there is no memory. */
struct middle *middle_new(unsigned number);
/* Takes what came from a side. The descriptors are the middle's to close. False if nothing more is to be taken from
 * either side: what waits is still sent. */
bool middle_receive(struct middle *middle, uint32_t side, const struct parcel *came);
/* What is to be sent to a side next; no bytes if nothing is. It is there until the next call. False if there is no
 * memory to tell: then the connection ends. */
bool middle_to_send(struct middle *middle, uint32_t side, struct parcel *next);
/* So many of these bytes were sent, and with the first of them the descriptors, which are closed; or nobody takes them
 * any more, and they are dropped. */
void middle_sent(struct middle *middle, uint32_t side, const struct parcel *next, size_t taken, bool is_dropped);
/* The connection has ended, and all that was to be sent is. Closes the descriptors that are left. */
void middle_end(struct middle *middle);

/* ======== table.c */

/* A table that grows. */
struct table {
    nb_table rows;
};

/* Begins with the interfaces that are built in. */
void table_begin(struct table *table);
/* Adds those of a protocol file. One whose name is taken is left out, which is said. False if the file is refused,
 * which is said, too. */
bool table_read(struct table *table, const char *file);
/* Takes the interfaces of these files in place of all others: of those of one name the first one of the greatest
 * version. False if a file is refused, which is said. */
bool table_take(struct table *table, char *const *files, size_t count);
struct span table_name(const nb_table *table, size_t place);
/* The number of an interface; 0 if there is none of the name. */
uint32_t table_number(const nb_table *table, struct span name);
bool table_has(const nb_table *table, struct span name);
void table_end(struct table *table);

/* ======== connection.c */

struct connection;

/* Connects to the server, and never waits for that: a server that rests is to stop no other client. Returns the socket,
 * or the negative of `errno`, which it does not print. */
int connection_to_server(void);
/* Begins to stand between a client that was accepted and a connection to the server. Its sockets are watched by epoll:
 * the data of an event are a struct end. NULL if that fails. Both sockets are closed then. */
struct connection *connection_new(int epoll, int client, int server, unsigned number);
/* Something can be done on a socket. True as long as the connection lives: false frees it. */
struct end;
bool connection_event(struct end *end, uint32_t events);
/* Ends each that lives, with what waits. */
void connection_end_all(void);

/* ======== loop.c */

/* Serves the clients of a listening socket until a signal comes, or, if there is a program (not -1), until it has ended
 * and no client is left. Returns the status of the program, or 0 if there is none. */
int loop_run(int listener, int program);

/* ======== start.c */

enum { NOT_STARTED = 2 };

/* Closes the connection that WAYLAND_SOCKET names: it is for one client that its giver knows, so no program gets it by
 * this one, or around it. It comes before anything is opened, which could have its number. */
void close_given(void);
/* Takes as many descriptors as this process may have, and holds back the signals that the loop takes. A program that is
 * started later has both as they were. It is called once. */
void prepare(void);
/* Listens at a path or a name in $XDG_RUNTIME_DIR, or, if it is NULL, in a folder that only this user may enter. Starts
 * the program, if it is not NULL, as a client of that socket, and serves all that connect. `*status` is then that of
 * the program, which may be NOT_STARTED, too, or 0 if there is none. False if it cannot begin, which is said: the
 * status stays as it is. prepare() comes before it. */
bool serve(const char *socket, char **program, int *status);

#endif
