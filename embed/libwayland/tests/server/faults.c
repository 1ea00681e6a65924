/* Black-box tests of requests that a client may not send, of big ones, and of descriptors. */
#include "world.h"

static void send_words(const uint32_t *words, size_t count)
{
    send_bytes(words, count * sizeof *words, NULL, 0);
}
#define WORDS(...) send_words((const uint32_t[]){ __VA_ARGS__ }, sizeof((const uint32_t[]){ __VA_ARGS__ }) / 4)

static void faults(int which)
{
    begin_with_thing();
    switch (which) {
    case 0: request(42, 0, ""); break;                                     /* an unknown object */
    case 1: request(0, 0, ""); break;                                      /* the object 0 */
    case 2: request(3, 33, ""); break;                                     /* an unknown request */
    case 3: request(3, THING_OBJECTS, "ww", 0, 77); break;                 /* an unknown object as an argument */
    case 4: request(3, THING_OBJECTS, "ww", 0, 0); break;                  /* null that may not be */
    case 5: request(3, THING_OBJECTS, "ww", 0, 3); break;                  /* an object of another interface */
    case 6: request(3, THING_OBJECTS, "ww", 0, 0xff000000u); break;        /* an unknown one of the server's */
    case 7: request(3, THING_STRINGS, "ss", NULL, "b"); break;             /* a null string that may not be */
    case 8: request(3, THING_NUMBERS, "w", 1); break;                      /* too short */
    case 9: request(3, THING_NUMBERS, "wwww", 1, 2, 3, 4); break;          /* too long */
    case 10: request(3, THING_MAKE, "w", 9); break;                        /* a new number with a gap */
    case 11: request(3, THING_MAKE, "w", 0xff000001u); break;              /* one of the server's */
    case 12: request(3, THING_MAKE, "w", 3); break;                        /* one that is used */
    case 13: request(3, THING_MAKE, "w", 0); break;                        /* 0 */
    case 14: request(3, THING_STRINGS, "www", 0, 4, 0x61616161); break;    /* a string without a zero */
    case 15: request(3, THING_STRINGS, "www", 900, 0, 0); break;           /* a string beyond the end */
    case 16: request(3, THING_ARRAY, "w", 900); break;                     /* an array beyond the end */
    case 17: request(3, THING_ARRAY, "w", 0xfffffff0u); break;             /* an array that is huge */
    case 18: request(3, THING_STRINGS, "ww", 0xffffffffu, 0); break;       /* a string that is huge */
    case 19: WORDS(3, THING_NUMBERS | 4 << 16); break;                     /* shorter than its header */
    case 20: WORDS(3, THING_NUMBERS); break;                               /* of length 0 */
    case 21: WORDS(3, THING_STRINGS | 14 << 16, 1, 0, 0); break;           /* of a length that is no multiple of 4 */
    case 22: WORDS(3, 0xffff | 8 << 16); break;                            /* the greatest opcode */
    case 23: WORDS(3, THING_STRINGS | 24 << 16, 5, 0x61006161, 0x61, 0); break; /* a zero within a string */
    }
    turn();
    show();
}

/* A message that comes in parts. */
static void parts(int which)
{
    const uint32_t words[] = { 3, THING_NUMBERS | 20 << 16, 1, 2, 3 };
    begin_with_thing();
    for (size_t at = 0; at < sizeof words; at += (size_t)which) {
        size_t left = sizeof words - at;
        send_bytes((const char *)words + at, left < (size_t)which ? left : (size_t)which, NULL, 0);
        dispatch_all();
        printf("  %zu bytes\n", at);
    }
    turn();
}

static void end_in_the_middle(int which)
{
    const uint32_t words[] = { 3, THING_NUMBERS | 20 << 16, 1, 2, 3 };
    begin_with_thing();
    send_bytes(words, 12, NULL, 0);
    dispatch_all();
    if (which == 0)
        shutdown(peer, SHUT_WR);
    else
        close(peer);
    dispatch_all();
    printf("  %d clients\n", wl_list_length(wl_display_get_client_list(display)));
}

static char big[70000];

static void big_request(int which)
{
    begin_with_thing();
    memset(big, 'x', sizeof big);
    request(3, THING_ARRAY, "a", big, (size_t)which);
    for (int i = 0; i < 20; i++)
        dispatch_all();
    request(3, THING_NUMBERS, "www", 1, 2, 3);
    for (int i = 0; i < 20; i++)
        dispatch_all();
    show();
}

/* ======== Descriptors */

static size_t open_count(void)
{
    size_t count = 0;
    for (int fd = 0; fd < 1000; fd++)
        count += fcntl(fd, F_GETFD) >= 0;
    return count;
}

static void no_descriptor(int which)
{
    begin_with_thing();
    (void)which;
    request(3, THING_DESCRIPTOR, "");
    turn();
    request(3, THING_NUMBERS, "www", 1, 2, 3);
    turn();
    show();
}

/* They belong to the requests in order, also if they come early. */
static void order_of_descriptors(int which)
{
    int one = file_with("one"), two = file_with("two");
    const int both[] = { one, two };
    const uint32_t words[] = { 3, THING_DESCRIPTOR | 8 << 16, 3, THING_DESCRIPTOR | 8 << 16 };
    begin_with_thing();
    if (which == 0)
        send_bytes(words, sizeof words, both, 2);
    else {
        send_bytes(words, 4, both, 2);
        dispatch_all();
        send_bytes(words + 1, 12, NULL, 0);
    }
    turn();
}

static void spare_descriptors(int which)
{
    int file = file_with("spare");
    size_t before = open_count();
    begin_with_thing();
    size_t begun = open_count();
    for (int i = 0; i < which; i++)
        request(3, THING_NUMBERS, "wwwh", 1, 2, 3, file);
    turn();
    request(42, 0, "h", file);
    turn();
    show();
    close(peer);
    dispatch_all();
    printf("  left open: %zd of %zd\n", (ssize_t)(open_count() - before), (ssize_t)(begun - before));
}

/* The descriptors of a request that is refused, and of one whose client ends. */
static void refused_descriptor(int which)
{
    int file = file_with("refused");
    begin_with_thing();
    size_t before = open_count();
    if (which == 0)
        request(3, THING_MIXED, "sashas", NULL, "1", (size_t)1, "x", file, "2", (size_t)1, NULL);
    else {
        request(3, THING_NUMBERS, "ww", 1, 2); /* too short */
        request(3, THING_DESCRIPTOR, "h", file);
    }
    turn();
    show();
    printf("  %zd more are open\n", (ssize_t)(open_count() - before));
}

static void many_descriptors(int which)
{
    int file = file_with("many");
    begin_with_thing();
    behaviour.is_quiet = true;
    size_t before = open_count();
    for (int i = 0; i < which; i++) {
        request(3, THING_DESCRIPTOR, "h", file);
        if (i % 100 == 99)
            dispatch_all();
    }
    dispatch_all();
    printf("  %d taken, %zd more are open\n", descriptor_count, (ssize_t)(open_count() - before));
    show();
}

static void many_at_once(int which)
{
    int files[253];
    uint32_t words[253 * 2];
    begin_with_thing();
    behaviour.is_quiet = true;
    for (int i = 0; i < which; i++) {
        files[i] = peer;
        words[2 * i] = 3;
        words[2 * i + 1] = THING_DESCRIPTOR | 8 << 16;
    }
    send_bytes(words, (size_t)which * 8, files, (size_t)which);
    dispatch_all();
    printf("  %d taken\n", descriptor_count);
    show();
}

const struct test fault_tests[] = {
    { "fault", faults, 0 },   { "fault", faults, 1 },   { "fault", faults, 2 },   { "fault", faults, 3 },
    { "fault", faults, 4 },   { "fault", faults, 5 },   { "fault", faults, 6 },   { "fault", faults, 7 },
    { "fault", faults, 8 },   { "fault", faults, 9 },   { "fault", faults, 10 },  { "fault", faults, 11 },
    { "fault", faults, 12 },  { "fault", faults, 13 },  { "fault", faults, 14 },  { "fault", faults, 15 },
    { "fault", faults, 16 },  { "fault", faults, 17 },  { "fault", faults, 18 },  { "fault", faults, 19 },
    { "fault", faults, 20 },  { "fault", faults, 21 },  { "fault", faults, 22 },  { "fault", faults, 23 },
    { "parts", parts, 1 },    { "parts", parts, 4 },    { "parts", parts, 8 },    { "parts", parts, 12 },
    { "end-in-the-middle", end_in_the_middle, 0 },      { "end-in-the-middle", end_in_the_middle, 1 },
    { "big-request", big_request, 4000 },               { "big-request", big_request, 5000 },
    { "big-request", big_request, 65000 },              { "no-descriptor", no_descriptor, 0 },
    { "order-of-descriptors", order_of_descriptors, 0 }, { "order-of-descriptors", order_of_descriptors, 1 },
    { "spare-descriptors", spare_descriptors, 1 },      { "spare-descriptors", spare_descriptors, 20 },
    { "refused-descriptor", refused_descriptor, 0 },    { "refused-descriptor", refused_descriptor, 1 },
    { "many-descriptors", many_descriptors, 20 },       { "many-descriptors", many_descriptors, 400 },
    { "many-at-once", many_at_once, 28 },               { "many-at-once", many_at_once, 29 },
    { "many-at-once", many_at_once, 200 },              { 0 }
};
