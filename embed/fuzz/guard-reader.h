/* A reader of what goes between a client and a compositor, for guard.c. It knows a policy, the rows of guarded.xml and
 * the protocol's text, and asks the library nothing: what it takes for allowed is what may come out of the guard. */
#ifndef GUARD_READER_H
#define GUARD_READER_H

#include <numbyroga.h>
#include <stdbool.h>
#include <stddef.h>
#include <stdint.h>

enum { DISPLAY = 1, REGISTRY, CALLBACK, FIRST_INTERFACE, INTERFACES = FIRST_INTERFACE + 5 };
enum { HEADER = 8, MOST_OPCODES = 8, MOST_OBJECTS = 64, MOST_GLOBALS = 32 };

/* The numbers from here on are the compositor's. */
#define SERVER_NUMBERS 0xff000000u

/* A request or an event. */
struct row {
    char name[16];
    const nb_argument_row *arguments;
    uint32_t count, since;
    bool is_destructor;
};

struct interface {
    char name[16];
    uint32_t version;
    struct row rows[2][MOST_OPCODES]; /* by the side that says them */
    uint32_t row_counts[2];
};

/* By their numbers. */
extern struct interface interfaces[INTERFACES];

/* What a policy says of a request. */
enum rule { ALLOWED, REFUSED, IGNORED };

struct rules {
    uint32_t versions[INTERFACES]; /* 0: not allowed */
    enum rule requests[INTERFACES][MOST_OPCODES];
    uint32_t objects, globals;
};

struct object {
    uint32_t interface, version; /* the interface is 0 if the number is no object's */
    bool is_ended;               /* by the client */
};

/* The last announcement of a number. */
struct told {
    uint32_t number, interface, version;
    bool is_shown;
};

/* What is known of a session. */
struct world {
    struct object objects[2][MOST_OBJECTS]; /* by the side that gives the number out */
    uint32_t begun[2];                      /* the numbers below this one were in use, from the side's first one on */
    struct told told[MOST_GLOBALS];
    size_t told_count;
};

/* What becomes of the message at the front of what a side sent. */
enum fate { WAITS, GOES_ON, IS_DROPPED, BREAKS_A_RULE };

struct judged {
    enum fate fate;
    size_t size, descriptors; /* of the message */
    uint32_t lowered;         /* it goes on with this version, which is its last word; 0 if it goes on as it came */
};

void reader_begin(void);
void world_begin(struct world *world);
struct object *world_find(struct world *world, uint32_t number);
/* Reads the message at the front, of which so many bytes and descriptors are there, and notes what it says. */
struct judged reader_judge(struct world *world, const struct rules *rules, unsigned side, const uint8_t *bytes,
                           size_t length, size_t descriptors);
/* What follows the rule's name in the text of a refusal of this message: `: maker#3.show`. */
void reader_name(struct world *world, const uint8_t *bytes, size_t length, char text[64]);
uint32_t word_at(const uint8_t *bytes);

#endif
