/* One load on two servers. Each server is a file: it serves sockets until the load says that it is over. */
#ifndef BENCH_H
#define BENCH_H

enum { MOST_CLIENTS = 1000 };

/* The globals have the names 1, 2 and 3: wl_compositor of version 4, wl_output of version 3, wl_shm of version 1. */
struct server {
    const char *name;
    /* Serves these sockets, and calls on_control whenever `control` can be read, until that answers that it is over. */
    void (*serve)(const int *sockets, int count, int control);
    /* Sends so many events wl_output.scale to the output of each client. */
    void (*send_events)(int each);
};

extern const struct server library, libwayland;

/* What the load says next. Answers whether it is over. */
int on_control(void);

/* How many requests were handled. */
extern unsigned long handled;

#endif
