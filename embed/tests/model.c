/* Queues of events beside a model of their rules: random calls, of which both have to answer the same.
 *
 *   test-model [RUNS]    the last line is `N passed, M failed`, of runs
 *
 * The model is a list of all events in the order in which they came, each with the queue that it came into and the
 * objects that it names; and of each slot and each queue what has become of it. It keeps no counts: an object is unused
 * if it is destroyed, and no event of the list names it. */
#include <numbyroga.h>
#include <stdio.h>
#include <stdlib.h>
#include <string.h>

enum { SLOTS = 12, QUEUES = 12, EVENTS = 40, NAMES = 3, STEPS = 600 };

/* ======== The model */

enum state { NOT_THERE, WAITS, IN_HAND };

static struct {
    uint32_t fate;
    size_t queue;
    uint64_t content;
} slots[SLOTS + 1]; /* the last one is never used */

static struct {
    enum state state;
    uint64_t came, ticket;
    size_t queue, sender, count, objects[NAMES];
} events[EVENTS];

static int is_dropped[QUEUES], has_failed;
static size_t made; /* queues */
static uint64_t came, tickets;

static int is_open(size_t queue)
{
    return queue < made && !is_dropped[queue];
}

static int is_alive(size_t slot)
{
    return slots[slot].fate == NB_SLOT_ALIVE;
}

static int names(size_t event, size_t slot)
{
    int named = events[event].sender == slot;
    for (size_t i = 0; i < events[event].count; i++)
        named |= events[event].objects[i] == slot;
    return named && events[event].state != NOT_THERE;
}

static int is_unused(size_t slot)
{
    int named = 0;
    for (size_t i = 0; i < EVENTS; i++)
        named |= names(i, slot);
    return slots[slot].fate == NB_SLOT_DESTROYED && !named;
}

/* The event that waits first in the queue, or EVENTS. */
static size_t first_event(size_t queue)
{
    size_t first = EVENTS;
    for (size_t i = 0; i < EVENTS; i++)
        if (events[i].state == WAITS && events[i].queue == queue &&
            (first == EVENTS || events[i].came < events[first].came))
            first = i;
    return first;
}

static size_t event_in_hand(uint64_t ticket)
{
    for (size_t i = 0; i < EVENTS; i++)
        if (events[i].state == IN_HAND && events[i].ticket == ticket)
            return i;
    return EVENTS;
}

/* ======== Both */

static nb_queues queues;
static uint64_t state;
static int is_right;

static size_t choose(size_t below)
{
    state ^= state << 13;
    state ^= state >> 7;
    state ^= state << 17;
    return (size_t)(state >> 33) % below;
}

static void expect(int holds)
{
    is_right &= holds;
}

static void new_queue(void)
{
    size_t queue = 77;
    if (made == QUEUES)
        return;
    expect(nb_queues_new_queue(&queues, &queue) == NB_OK && queue == made);
    made++;
}

static void drop_queue(size_t queue)
{
    const int drops = queue != 0 && is_open(queue);
    expect(nb_queues_drop_queue(&queues, queue) == (drops ? NB_OK : NB_NO_QUEUE));
    if (!drops)
        return;
    is_dropped[queue] = 1;
    for (size_t i = 0; i < SLOTS; i++)
        if (slots[i].queue == queue)
            slots[i].queue = 0;
}

static void add(size_t queue)
{
    const uint64_t content = state; /* one of many */
    size_t slot = SLOTS, free = 0;
    for (size_t i = 0; i < SLOTS; i++)
        free += slots[i].fate == NB_SLOT_FREE;
    if (free == 0)
        return;
    expect(nb_queues_add(&queues, queue, content, &slot) == (is_open(queue) ? NB_OK : NB_NO_QUEUE));
    if (!is_open(queue))
        return;
    expect(slot < SLOTS && slots[slot].fate == NB_SLOT_FREE);
    slots[slot < SLOTS ? slot : 0].fate = NB_SLOT_ALIVE;
    slots[slot < SLOTS ? slot : 0].queue = queue;
    slots[slot < SLOTS ? slot : 0].content = content;
}

static void set_queue(size_t slot, size_t queue)
{
    const nb_status wanted = !is_alive(slot) ? NB_INVALID_ID : is_open(queue) ? NB_OK : NB_NO_QUEUE;
    expect(nb_queues_set_queue(&queues, slot, queue) == wanted);
    if (wanted == NB_OK)
        slots[slot].queue = queue;
}

static void destroy(size_t slot)
{
    expect(nb_queues_destroy(&queues, slot) == (is_alive(slot) ? NB_OK : NB_INVALID_ID));
    if (is_alive(slot))
        slots[slot].fate = NB_SLOT_DESTROYED;
}

static void put(size_t event, size_t sender)
{
    size_t objects[NAMES], count = choose(NAMES + 1);
    int is_well = is_alive(sender);
    for (size_t i = 0; i < count; i++)
        is_well &= is_alive(objects[i] = choose(SLOTS + 1));
    if (events[event].state != NOT_THERE)
        return;
    expect(nb_queues_put(&queues, sender, objects, count, 1000 + event) == (is_well ? NB_OK : NB_INVALID_ID));
    if (!is_well)
        return;
    events[event].state = WAITS;
    events[event].came = came++;
    events[event].queue = slots[sender].queue;
    events[event].sender = sender;
    events[event].count = count;
    memcpy(events[event].objects, objects, sizeof objects);
}

/* What becomes of the event that waits first. */
static uint32_t outcome_of(size_t event)
{
    if (has_failed)
        return NB_SESSION_FAILED;
    if (is_dropped[events[event].queue])
        return NB_QUEUE_DROPPED;
    return is_alive(events[event].sender) ? NB_HANDED : NB_SENDER_DESTROYED;
}

static int is_same(const nb_queued_event *told, size_t event, uint32_t outcome)
{
    return told->content == 1000 + event && told->sender == events[event].sender &&
           told->arguments == events[event].count && told->outcome == outcome;
}

static void next_of(size_t queue)
{
    nb_queued_event told = { 7, 7, 7, 7, 7 };
    const size_t event = first_event(queue);
    const nb_status wanted = queue >= made ? NB_NO_QUEUE : event == EVENTS ? NB_WOULD_BLOCK : NB_OK;
    expect(nb_queues_next_of(&queues, queue, &told) == wanted);
    if (wanted != NB_OK)
        return;
    const uint32_t outcome = outcome_of(event);
    expect(is_same(&told, event, outcome) && told.ticket == (outcome == NB_HANDED ? tickets : 0));
    events[event].state = outcome == NB_HANDED ? IN_HAND : NOT_THERE;
    events[event].ticket = tickets;
    tickets += outcome == NB_HANDED;
}

static void finish(uint64_t ticket)
{
    uint64_t content = 7;
    const size_t event = event_in_hand(ticket);
    expect(nb_queues_finish(&queues, ticket, &content) == (event < EVENTS ? NB_OK : NB_INVALID_ID));
    expect(content == (event < EVENTS ? 1000 + event : 7));
    if (event < EVENTS)
        events[event].state = NOT_THERE;
}

static void look(uint64_t ticket, size_t place)
{
    nb_queued_event told;
    size_t slot = 77;
    const size_t event = event_in_hand(ticket);
    expect(nb_queues_event(&queues, ticket, &told) == (event < EVENTS ? NB_OK : NB_INVALID_ID));
    expect(event == EVENTS || (is_same(&told, event, NB_HANDED) && told.ticket == ticket));
    const int is_there = event < EVENTS && place < events[event].count && is_alive(events[event].objects[place]);
    expect(nb_queues_argument(&queues, ticket, place, &slot) == (is_there ? NB_OK : NB_INVALID_ID));
    expect(slot == (is_there ? events[event].objects[place] : 77));
}

/* Each that is unused is told once, with its content, and no other. */
static void take_unused(void)
{
    size_t slot = 77;
    uint64_t content = 77;
    while (nb_queues_next_unused(&queues, &slot, &content) == NB_OK && is_right) {
        expect(slot < SLOTS && is_unused(slot) && content == slots[slot].content);
        slots[slot < SLOTS ? slot : 0].fate = NB_SLOT_FREE;
        slots[slot < SLOTS ? slot : 0].queue = 0;
        slots[slot < SLOTS ? slot : 0].content = 0;
    }
    for (size_t i = 0; i < SLOTS; i++)
        expect(!is_unused(i));
}

static void compare(void)
{
    for (size_t i = 0; i <= SLOTS; i++) {
        nb_queued_object object;
        expect(nb_queues_object(&queues, i, &object) == NB_OK && object.fate == slots[i].fate &&
               object.queue == slots[i].queue && object.content == slots[i].content);
    }
    for (size_t i = 0; i <= QUEUES; i++) {
        uint32_t has_events;
        expect(nb_queues_has_events(&queues, i, &has_events) == NB_OK && has_events == (first_event(i) < EVENTS));
    }
}

static void step(void)
{
    switch (choose(16)) {
    case 0: new_queue(); break;
    case 1: drop_queue(choose(QUEUES + 1)); break;
    case 2:
    case 3: add(choose(made + 1)); break;
    case 4: set_queue(choose(SLOTS + 1), choose(made + 1)); break;
    case 5: destroy(choose(SLOTS + 1)); break;
    case 6:
    case 7:
    case 8: put(choose(EVENTS), choose(SLOTS + 1)); break;
    case 9:
    case 10:
    case 11: next_of(choose(made + 1)); break;
    case 12:
    case 13: finish(tickets - choose(8)); break;
    case 14: look(tickets - choose(8), choose(NAMES + 1)); break;
    default: take_unused(); break;
    }
}

static int run(uint64_t seed)
{
    memset(slots, 0, sizeof slots);
    memset(events, 0, sizeof events);
    memset(is_dropped, 0, sizeof is_dropped);
    state = (seed + 1) * 0x9e3779b97f4a7c15u;
    has_failed = 0;
    came = tickets = 0;
    made = is_right = nb_queues_start(&queues) == NB_OK;
    for (int i = 0; i < STEPS && is_right; i++) {
        step();
        if (i == STEPS - 100 && seed % 2 == 0) {
            has_failed = 1;
            expect(nb_queues_fail(&queues) == NB_OK);
        }
        compare();
    }
    expect(nb_queues_end(&queues) == NB_OK);
    return is_right;
}

int main(int count, char **arguments)
{
    const unsigned long runs = count > 1 ? strtoul(arguments[1], NULL, 10) : 2000;
    unsigned long passed = 0;
    for (unsigned long i = 0; i < runs; i++) {
        const int is_well = run(i);
        passed += (unsigned long)is_well;
        if (!is_well)
            printf("FAILED run %lu\n", i);
    }
    printf("%lu passed, %lu failed\n", passed, runs - passed);
    return passed < runs;
}
