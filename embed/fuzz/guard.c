/* A fuzzer's target: a client and a compositor with numbyroga-guard between them. Sockets and descriptors are numbers
 * of a kernel that stands here, so that each byte and each descriptor is seen.
 *
 * The input chooses the policy, what both say (guard-peers.c) and how it is cut, how much is taken of what the guard
 * sends, when a side hangs up, and when malloc refuses. What comes out has to be what the reader (guard-reader.c) takes
 * for allowed, whole and in order, and nothing behind a breach; each descriptor goes out at most once, not behind its
 * message, and is closed once; and the program neither waits for nothing nor lets anything wait. */
#define _GNU_SOURCE
#include "../guard/guard.h"
#include "../socket.h"
#include "answers.h"
#include "guard-peers.h"
#include "guarded.h"
#include <sys/epoll.h>

enum { CLIENT_SOCKET = 100, FIRST_DESCRIPTOR = 1000, MOST_DESCRIPTORS = 2000, MOST_STREAM = 1 << 19 };
enum { MOST_PIECES = 4000, MOST_MARKS = 8000, MOST_ROUNDS = 300 };

uint64_t answers;

/* What the reader takes for allowed, or what came out. */
struct stream {
    uint8_t bytes[MOST_STREAM];
    int32_t descriptors[MOST_DESCRIPTORS];
    size_t length, count;
};

/* Up to here a message is whole, and so many descriptors belong to what stands before. */
struct mark {
    size_t length, count;
};

/* What a peer sent at once: it is received so, or less of it. */
struct piece {
    size_t length, count;
};

/* One of the guard's sockets, and the peer behind it. */
struct side {
    struct stream came, unread; /* sent by the peer and not received; received and not judged */
    struct piece pieces[MOST_PIECES];
    size_t first, last;                 /* of the pieces */
    struct stream wanted, sent, passed; /* passed: what the peer sent up to a breach, also what is dropped */
    struct mark logged;                 /* of that */
    struct mark marks[MOST_MARKS];
    size_t mark_count;
    size_t said, held; /* bytes that the peer has said, and descriptors that are still to follow them */
    size_t room;       /* so many bytes are taken */
    int error;         /* of each send, if it is not 0 */
    struct epoll_event watched;
    bool is_open, is_watched;
    bool has_hung_up, is_broken; /* nothing more comes; nothing more is taken, either */
    bool is_lost, is_torn;       /* a send failed; the next receive does, since there are too many descriptors */
};

static struct side sides[2];
static enum { UNSEEN, ON_ITS_WAY, OPEN, CLOSED } states[MOST_DESCRIPTORS];
static int32_t descriptor_count;

static struct world world;
static struct rules rules;
static bool has_broken, is_told; /* a side broke a rule; it was the client */
static char name_of_breach[64];

static unsigned malloc_left; /* until one is refused; 0: none is */
static bool in_library, was_refused;

static void fail(const char *what)
{
    fprintf(stderr, "guard: %s\n", what);
    abort();
}

/* ======== Memory: malloc refuses the library at most once */

void *__real_malloc(size_t size);
void *__wrap_malloc(size_t size);
void *__real_realloc(void *memory, size_t size);
void *__wrap_realloc(void *memory, size_t size);

static bool refuses(void)
{
    if (!in_library || malloc_left == 0 || --malloc_left > 0)
        return false;
    was_refused = true;
    return true;
}

void *__wrap_malloc(size_t size)
{
    return refuses() ? NULL : __real_malloc(size);
}

void *__wrap_realloc(void *memory, size_t size)
{
    return refuses() ? NULL : __real_realloc(memory, size);
}

static nb_status new_guard(nb_guard *place)
{
    in_library = true;
    const nb_status status = nb_guard_new(place);
    in_library = false;
    return status;
}

static nb_status received(nb_guard *place, nb_policy *policy, uint32_t side, const uint8_t *bytes, size_t byte_count,
                          const int32_t *descriptors, size_t descriptor_count)
{
    in_library = true;
    const nb_status status = nb_guard_received(place, policy, side, bytes, byte_count, descriptors, descriptor_count);
    in_library = false;
    return status;
}

/* ======== What is wanted */

static void append(struct stream *to, const uint8_t *bytes, size_t length, const int32_t *descriptors, size_t count)
{
    if (to->length + length > MOST_STREAM || to->count + count > MOST_DESCRIPTORS)
        fail("the target has no room");
    memcpy(to->bytes + to->length, bytes, length);
    if (count > 0)
        memcpy(to->descriptors + to->count, descriptors, count * sizeof *descriptors);
    to->length += length;
    to->count += count;
}

static void drop(struct stream *from, size_t length, size_t count)
{
    from->length -= length;
    from->count -= count;
    memmove(from->bytes, from->bytes + length, from->length);
    memmove(from->descriptors, from->descriptors + count, from->count * sizeof *from->descriptors);
}

/* An announcement with this version: what stands behind its arguments is not there, and its padding is zeros. */
static void append_lowered(struct stream *to, const uint8_t *message, uint32_t version)
{
    const size_t text = word_at(message + HEADER + 4), padded = (text + 3) / 4 * 4, size = HEADER + 8 + padded + 4;
    const uint32_t words[] = { word_at(message), (uint32_t)size << 16, word_at(message + HEADER), (uint32_t)text };
    static const uint8_t zeros[4];
    append(to, (const uint8_t *)words, sizeof words, NULL, 0);
    append(to, message + sizeof words, text, NULL, 0);
    append(to, zeros, padded - text, NULL, 0);
    append(to, (const uint8_t *)&version, 4, NULL, 0);
}

static void want(unsigned from, const struct judged *judged)
{
    struct stream *unread = &sides[from].unread;
    struct side *to = &sides[1 - from];
    if (judged->fate == GOES_ON && judged->lowered > 0)
        append_lowered(&to->wanted, unread->bytes, judged->lowered);
    else if (judged->fate == GOES_ON)
        append(&to->wanted, unread->bytes, judged->size, unread->descriptors, judged->descriptors);
    append(&sides[from].passed, unread->bytes, judged->size, unread->descriptors, judged->descriptors);
    if (to->mark_count == MOST_MARKS)
        fail("the target has no room for marks");
    to->marks[to->mark_count++] = (struct mark){ to->wanted.length, to->wanted.count };
    drop(unread, judged->size, judged->descriptors);
}

/* This came into the guard, of which the reader says what may come out. */
static void read_all(unsigned from)
{
    struct stream *unread = &sides[from].unread;
    struct judged judged = { .fate = GOES_ON };
    while (!has_broken && judged.fate != WAITS) {
        judged = reader_judge(&world, &rules, from, unread->bytes, unread->length, unread->count);
        if (judged.fate == GOES_ON || judged.fate == IS_DROPPED)
            want(from, &judged);
        has_broken = judged.fate == BREAKS_A_RULE ||
                     (judged.fate == WAITS && (unread->count > 112 || unread->length >= 1 << 16));
        is_told = has_broken && from == NB_CLIENT_SIDE;
        if (is_told)
            reader_name(&world, unread->bytes, unread->length, name_of_breach);
    }
}

/* ======== What came out */

/* What the client is sent behind all that is wanted: the error that tells it of its breach, once it is whole. */
static void check_error(const uint8_t *bytes, size_t length)
{
    if (!is_told)
        fail("more came out than is allowed");
    if (length < HEADER + 12)
        return;
    const size_t text = word_at(bytes + HEADER + 8), name = strlen(name_of_breach);
    if (word_at(bytes) != 1 || (word_at(bytes + 4) & 0xffff) != 0 || word_at(bytes + HEADER) != 1 ||
        length > HEADER + 12 + (text + 3) / 4 * 4)
        fail("the client is not told by an error of the display");
    if (length < word_at(bytes + 4) >> 16)
        return;
    if (length < HEADER + 12 + text || text < name + 12 || bytes[HEADER + 12 + text - 1] != 0 ||
        memcmp(bytes + HEADER + 12, "refused by ", 11) != 0 ||
        memcmp(bytes + HEADER + 12 + text - 1 - name, name_of_breach, name) != 0)
        fail("the error does not name the breach");
}

static void check_sent(const struct side *side, size_t before)
{
    const struct stream *wanted = &side->wanted, *sent = &side->sent;
    const size_t both = sent->length < wanted->length ? sent->length : wanted->length;
    if (before < both && memcmp(wanted->bytes + before, sent->bytes + before, both - before) != 0)
        fail("what came out is not what is allowed");
    if (sent->length > wanted->length) {
        if (side != &sides[NB_CLIENT_SIDE])
            fail("more came out than is allowed");
        check_error(sent->bytes + wanted->length, sent->length - wanted->length);
    }
    if (sent->count > wanted->count ||
        memcmp(wanted->descriptors, sent->descriptors, sent->count * sizeof *sent->descriptors) != 0)
        fail("other descriptors came out than are allowed");
    for (size_t i = side->mark_count; i-- > 0;)
        if (side->marks[i].length <= sent->length) {
            if (side->marks[i].count > sent->count)
                fail("a message came out before its descriptors");
            break;
        }
}

/* ======== The log */

static bool is_logged;

void __real_lines_put(struct lines *lines, uint32_t side, const uint8_t *bytes, const int32_t *numbers, FILE *to);
void __wrap_lines_put(struct lines *lines, uint32_t side, const uint8_t *bytes, const int32_t *numbers, FILE *to);

/* A line is of the next message that the guard has passed, with its descriptors. */
void __wrap_lines_put(struct lines *lines, uint32_t side, const uint8_t *bytes, const int32_t *numbers, FILE *to)
{
    struct mark *logged = &sides[side].logged;
    const struct stream *passed = &sides[side].passed;
    const size_t size = word_at(bytes + 4) >> 16, count = lines_descriptors(lines, side, bytes);
    if (logged->length + size > passed->length || logged->count + count > passed->count ||
        memcmp(passed->bytes + logged->length, bytes, size) != 0 ||
        memcmp(passed->descriptors + logged->count, numbers, count * sizeof *numbers) != 0)
        fail("a line is of another message than the next that was passed");
    logged->length += size;
    logged->count += count;
    __real_lines_put(lines, side, bytes, numbers, to);
}

static struct watch *watch_some(unsigned number, const nb_table *table)
{
    return is_logged ? watch_new(number, table) : NULL;
}

/* ======== The kernel */

static struct side *side_of(int socket)
{
    return socket == CLIENT_SOCKET || socket == CLIENT_SOCKET + 1 ? &sides[socket - CLIENT_SOCKET] : NULL;
}

static int close_number(int number)
{
    struct side *side = side_of(number);
    if (side) {
        if (!side->is_open)
            fail("a socket is closed twice");
        side->is_open = side->is_watched = false;
    } else {
        if (number < FIRST_DESCRIPTOR || number >= FIRST_DESCRIPTOR + descriptor_count ||
            states[number - FIRST_DESCRIPTOR] != OPEN)
            fail("what is closed is not open");
        states[number - FIRST_DESCRIPTOR] = CLOSED;
        saw((uint64_t)number);
    }
    return 0;
}

static void close_numbers(const int32_t *numbers, size_t count)
{
    for (size_t i = 0; i < count; i++)
        close_number(numbers[i]);
}

static int control(int epoll, int operation, int number, struct epoll_event *event)
{
    struct side *side = side_of(number);
    (void)epoll;
    if (!side || !side->is_open || side->is_watched != (operation != EPOLL_CTL_ADD))
        fail("a socket is watched that is not, or twice");
    side->is_watched = operation != EPOLL_CTL_DEL;
    side->watched = *event;
    return 0;
}

static ssize_t receive_some(int socket, uint8_t *bytes, size_t length, int32_t *numbers, size_t *count)
{
    struct side *side = side_of(socket), *other = side_of(2 * CLIENT_SOCKET + 1 - socket);
    struct piece *piece = &side->pieces[side->first];
    *count = 0;
    if (!side->is_open || has_broken)
        fail("something is received of a socket that is closed, or after a breach");
    if (!other->is_lost && !was_refused && other->sent.length < other->wanted.length)
        fail("something is received while something waits for the other side");
    if (side->first == side->last)
        return side->has_hung_up ? side->is_broken ? -ECONNRESET : 0 : -EAGAIN;
    if (side->is_torn) {
        for (size_t i = 0; i < piece->count; i++)
            states[side->came.descriptors[i] - FIRST_DESCRIPTOR] = CLOSED;
        return -EPROTO;
    }
    const size_t came = length < piece->length ? length : piece->length;
    *count = piece->count;
    memcpy(bytes, side->came.bytes, came);
    memcpy(numbers, side->came.descriptors, piece->count * sizeof *numbers);
    for (size_t i = 0; i < piece->count; i++)
        states[numbers[i] - FIRST_DESCRIPTOR] = OPEN;
    append(&side->unread, bytes, came, numbers, piece->count);
    drop(&side->came, came, piece->count);
    piece->length -= came;
    piece->count = 0;
    side->first += piece->length == 0;
    read_all((unsigned)(side - sides));
    return (ssize_t)came;
}

static ssize_t send_some(int socket, const uint8_t *bytes, size_t length, const int32_t *numbers, size_t count)
{
    struct side *side = side_of(socket);
    const size_t before = side->sent.length, taken = length < side->room ? length : side->room;
    if (!side->is_open || length == 0 || count > NB_MOST_DESCRIPTORS)
        fail("a send of nothing, of too much, or by a socket that is closed");
    if (side->error) {
        side->is_lost = true;
        return -side->error;
    }
    if (taken == 0)
        return -EAGAIN;
    for (size_t i = 0; i < count; i++)
        if (states[numbers[i] - FIRST_DESCRIPTOR] != OPEN)
            fail("a descriptor is sent that is not open");
    append(&side->sent, bytes, taken, numbers, count);
    side->room -= side->room == SIZE_MAX ? 0 : taken;
    saw_bytes(bytes, taken);
    saw(count);
    check_sent(side, before);
    return (ssize_t)taken;
}

/* ======== The guard's program over it */

static char policy_text[MOST_POLICY];

static char *text_of_policy(const char *name)
{
    (void)name;
    return strdup(policy_text);
}

#define close             close_number
#define close_all         close_numbers
#define epoll_ctl         control
#define socket_receive    receive_some
#define socket_send       send_some
#define nb_guard_new      new_guard
#define nb_guard_received received
#define read_file         text_of_policy
#define watch_new         watch_some
#include "../proxy/connection.c"
#include "../guard/middle.c"
#include "../guard/policy.c"
#undef close

/* ======== A run */

static void peer_sends(unsigned number, const uint8_t *bytes, size_t length, size_t count)
{
    struct side *side = &sides[number];
    int32_t numbers[NB_MOST_DESCRIPTORS];
    for (size_t i = 0; i < count; i++) {
        states[descriptor_count] = ON_ITS_WAY;
        numbers[i] = FIRST_DESCRIPTOR + descriptor_count++;
    }
    append(&side->came, bytes, length, numbers, count);
    side->pieces[side->last++] = (struct piece){ length, count };
}

/* A side says something, in pieces: their descriptors come with the first of them, or later. */
static void peer_says(unsigned side)
{
    static uint8_t said[4 * MOST_MESSAGE];
    struct side *peer = &sides[side];
    size_t length = 0;
    if (peer->has_hung_up || peer->said > MOST_STREAM / 4)
        return;
    for (unsigned count = 1 + chance(4); count > 0; count--) {
        size_t more;
        length += some_message(side, &rules, said + length, &more);
        peer->held += more;
    }
    peer->said += length;
    peer->held += chance(40) == 1 ? chance(40) : 0;
    const bool is_cut = chance(3) == 1;
    for (size_t at = 0; at < length && peer->last < MOST_PIECES && descriptor_count < MOST_DESCRIPTORS / 2;) {
        const size_t most = is_cut ? 1 + chance(chance(4) == 1 ? 0 : 24) % (length - at) : length - at;
        size_t count = peer->held < NB_MOST_DESCRIPTORS ? peer->held : NB_MOST_DESCRIPTORS;
        if (is_cut && count > 0)
            count = chance((unsigned)count + 1);
        peer_sends(side, said + at, most, count);
        peer->held -= count;
        at += most;
    }
}

/* What epoll would tell of a side. */
static uint32_t ready(const struct side *side)
{
    uint32_t events = side->first < side->last || side->has_hung_up ? EPOLLIN : 0;
    if (!side->is_watched)
        return 0;
    if (side->room > 0 || side->error)
        events |= EPOLLOUT;
    return (events & side->watched.events) | (side->is_broken ? EPOLLHUP : 0);
}

/* The program's loop, for so many events. True if the connection lives. */
static bool go_on(unsigned count)
{
    while (count-- > 0) {
        struct side *side = &sides[chance(2)];
        if (!ready(side))
            side = &sides[side == sides];
        if (!ready(side))
            break;
        if (!connection_event(side->watched.data.ptr, ready(side)))
            return false;
    }
    return true;
}

/* What most connections begin with. True if it lives. */
static bool begin_talk(void)
{
    static uint8_t said[MOST_MESSAGE];
    for (int round = 0; round < FIRST_ROUNDS; round++) {
        peer_sends(round == 1, said, first_messages(round, &rules, said), 0);
        if (!go_on(10))
            return false;
    }
    return true;
}

static void something_happens(void)
{
    struct side *side = &sides[chance(2)];
    switch (chance(12)) {
    case 0: side->room = chance(40); break;
    case 1: side->room = SIZE_MAX; break;
    case 2:
        side->has_hung_up = chance(8) == 1;
        side->is_broken = side->has_hung_up && chance(2);
        if (side->is_broken)
            side->error = EPIPE;
        break;
    case 3:
        side->error = chance(12) == 1 ? ETOOMANYREFS : side->error;
        side->is_torn = side->is_torn || chance(12) == 1;
        break;
    default: peer_says((unsigned)(side - sides));
    }
}

/* All is taken, and the program goes on until it waits for what does not come. */
static bool settle(void)
{
    for (unsigned i = 0; i < 2; i++)
        sides[i].room = SIZE_MAX;
    if (!go_on(4 * MOST_PIECES))
        return false;
    for (unsigned i = 0; i < 2; i++) {
        if (ready(&sides[i]))
            fail("the program is busy with nothing");
        if (sides[i].first < sides[i].last || sides[i].has_hung_up)
            fail("what a side says waits for ever");
        if (is_logged && sides[i].logged.length != sides[i].passed.length)
            fail("a message is not logged");
    }
    if (has_broken)
        fail("the connection lives behind a breach");
    was_refused = false; /* nothing depended on that memory, so nothing may be missing */
    return true;
}

/* What had to come out has, if its side took it. */
static void check_all(void)
{
    for (unsigned i = 0; i < 2; i++) {
        const struct side *side = &sides[i];
        if (side->is_open)
            fail("a socket is open");
        if (side->is_lost || was_refused)
            continue;
        if (side->sent.length < side->wanted.length || side->sent.count < side->wanted.count)
            fail("less came out than is allowed");
        if (i == NB_CLIENT_SIDE && is_told && side->sent.length == side->wanted.length)
            fail("the client is not told of its breach");
    }
    for (int32_t i = 0; i < descriptor_count; i++)
        if (states[i] == OPEN)
            fail("a descriptor is open");
}

static void begin_run(void)
{
    for (unsigned i = 0; i < 2; i++) {
        struct side *side = &sides[i];
        side->came.length = side->came.count = side->unread.length = side->unread.count = 0;
        side->wanted.length = side->wanted.count = side->sent.length = side->sent.count = 0;
        side->passed.length = side->passed.count = side->logged.length = side->logged.count = 0;
        side->first = side->last = side->mark_count = side->said = side->held = 0;
        side->room = SIZE_MAX;
        side->error = 0;
        side->is_open = true;
        side->is_watched = side->has_hung_up = side->is_broken = side->is_lost = side->is_torn = false;
    }
    descriptor_count = 0;
    has_broken = is_told = was_refused = false;
    world_begin(&world);
}

int LLVMFuzzerTestOneInput(const uint8_t *data, size_t size);

int LLVMFuzzerTestOneInput(const uint8_t *data, size_t size)
{
    static struct table table;
    nb_policy policy = NB_EMPTY;
    if (interfaces[DISPLAY].version == 0) {
        reader_begin();
        table.rows = guarded;
    }
    peers_begin(data, size);
    begin_run();
    some_policy(&rules, policy_text);
    if (!policy_read(&policy, &table.rows, "/"))
        fail("the policy is refused");
    if (!log_open("/dev/null") || !log_messages())
        fail("there is no /dev/null");
    keep_what();
    is_logged = chance(2);
    malloc_left = chance(8) == 1 ? chance(0) % 400 : 0;
    guard_by(&policy, &table.rows);
    bool lives = connection_new(7, CLIENT_SOCKET, CLIENT_SOCKET + 1, 1) != NULL;
    if (lives && chance(8) != 1)
        lives = begin_talk();
    for (int round = 0; lives && round < MOST_ROUNDS && !input_has_ended(); round++) {
        something_happens();
        lives = go_on(chance(6));
    }
    if (lives && settle())
        connection_end_all();
    check_all();
    watch_close();
    policy_forget();
    nb_policy_end(&policy);
    return 0;
}
