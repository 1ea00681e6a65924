/* A target of libFuzzer: its input decides what hostile clients send, when they end, and what the compositor does meanwhile (deeds.h).
 *
 * Requests are nearly right, else none would come far: of the interfaces that the compositor has, and of wl_shm, whose buffers it reads. No
 * call may crash, nothing may be lost or ended twice, and no descriptor may stay open. */
#include "deeds.h"

/* The headers of 1.22 and older do not have these. */
struct wl_shm_buffer *wl_shm_buffer_ref(struct wl_shm_buffer *buffer);
void wl_shm_buffer_unref(struct wl_shm_buffer *buffer);

enum { MOST_ROUNDS = 100, MOST_WORDS = 400, FILE_SIZE = 4096 };

static const uint8_t *input;
static size_t input_left;

/* After the input's end it is always 0. Below 0 stands for any number. */
static unsigned chance(unsigned below)
{
    unsigned value = 0;
    for (int i = below == 0 || below > 256 ? 4 : 1; i > 0 && input_left > 0; i--, input_left--)
        value = value << 8 | *input++;
    return below > 0 ? value % below : value;
}

/* ======== Requests */

static uint32_t words[MOST_WORDS];
static size_t at;
static int descriptors[40];
static size_t descriptor_total;

static uint32_t some_id(const struct peer_client *it)
{
    switch (chance(40)) {
    case 0: return chance(0);
    case 1: return 0;
    case 2: return 0xff000000u + chance(4);
    case 3: return chance(IDS);
    default: return any_id(it, THING + (int)chance(BUFFER));
    }
}

static uint32_t some_new_id(struct peer_client *it, int kind)
{
    uint32_t id = chance(40) ? free_id(it) : some_id(it);
    if (id < IDS && it->ids[id] == FREE)
        it->ids[id] = kind;
    return id;
}

static void add_bytes(const char *bytes, size_t length)
{
    words[at] = chance(60) ? (uint32_t)length : chance(0);
    words[at + 1 + length / 4] = 0;
    memcpy(words + at + 1, bytes, length);
    at += 1 + (length + 3) / 4;
}

static void add_text(const char *text)
{
    size_t length = strlen(text);
    add_bytes(text, length + (chance(60) > 0)); /* mostly with its zero */
}

static void add_argument(struct peer_client *it, char letter, int kind)
{
    switch (letter) {
    case 's': add_text(chance(4) ? "text" : ""); break;
    case 'a': add_bytes("123456789", chance(10)); break;
    case 'o': words[at++] = some_id(it); break;
    case 'n': words[at++] = some_new_id(it, kind); break;
    case 'h': descriptors[descriptor_total++] = file; break;
    default: words[at++] = chance(4) ? chance(80) : chance(0);
    }
}

/* The arguments of a request, as its signature has them. */
static void add_arguments(struct peer_client *it, const char *signature, int kind)
{
    for (; *signature; signature++)
        if (strchr("iufsonah", *signature))
            add_argument(it, *signature, kind);
}

static void add_bind(struct peer_client *it)
{
    static const char *const names[] = { "thing", "wl_shm", "part" };
    unsigned which = chance(3);
    words[at++] = chance(10) ? which + 1 : chance(9);
    add_text(names[which]);
    words[at++] = chance(10) ? 1 + chance(which == 1 ? 1 : 5) : chance(0);
    words[at++] = some_new_id(it, which == 0 ? THING : which == 1 ? SHM : PART);
}

/* The request of a buffer, which mostly lies in its pool. */
static void add_buffer(struct peer_client *it)
{
    const uint32_t sensible[] = { chance(1000), 8, 8, 32, 0 };
    words[at++] = some_new_id(it, BUFFER);
    for (int i = 0; i < 5; i++)
        words[at++] = chance(12) ? sensible[i] : chance(0);
}

/* Puts together a request of an object of this kind; returns its opcode. */
static uint32_t add_request(struct peer_client *it, int kind)
{
    uint32_t opcode = kind == THING ? chance(THING_REQUESTS) : chance(3);
    if (kind == REGISTRY)
        add_bind(it);
    else if (kind == POOL && opcode == 0)
        add_buffer(it);
    else if (kind == POOL && opcode == 2)
        words[at++] = chance(3) ? 5000 + chance(4096) : chance(0);
    else if (kind == SHM) {
        add_arguments(it, "nh", POOL);
        words[at++] = chance(6) ? 1 + chance(2 * FILE_SIZE) : chance(0);
        opcode = 0;
    } else if (kind == THING)
        add_arguments(it, thing_interface.methods[opcode].signature, PART);
    else if (kind == PART)
        add_arguments(it, part_interface.methods[opcode].signature, FREE);
    return opcode;
}

/* One of the display's: the answer to sync ends its number, and the registry stays. */
static uint32_t add_request_of_display(struct peer_client *it)
{
    uint32_t opcode = chance(2);
    words[at++] = some_new_id(it, opcode == 0 ? WAITING : REGISTRY);
    return opcode;
}

/* What the program's destructors end gives its number back with a delete_id, as for all. */
static void forget(struct peer_client *it, uint32_t id, int kind, uint32_t opcode)
{
    bool is_end = kind == POOL ? opcode == 1 : opcode == 0 && (kind == THING || kind == PART || kind == BUFFER);
    if (is_end && id < IDS)
        it->ids[id] = WAITING;
}

static void send_anything(struct peer_client *it)
{
    int kind = it->ids[2] == FREE ? FREE : (int)chance(BUFFER + 1);
    uint32_t sender = kind == FREE || kind == WAITING ? 1 : any_id(it, kind);
    at = 2;
    descriptor_total = 0;
    uint32_t opcode = sender == 1 ? add_request_of_display(it) : add_request(it, kind);
    forget(it, sender, kind, opcode);
    words[0] = chance(60) ? sender : some_id(it);
    words[1] = (uint32_t)(at * 4) << 16 | (chance(60) ? opcode : chance(20));
    if (chance(60) == 0)
        words[chance((unsigned)at)] ^= 1u << chance(32);
    if (chance(60) == 0)
        for (descriptor_total = chance(29), opcode = 0; opcode < descriptor_total; opcode++)
            descriptors[opcode] = file;
    send_bytes(words, chance(80) ? at * 4 : 1 + chance((unsigned)at * 4), descriptors, descriptor_total);
    if (chance(60) == 0) {
        close(it->socket);
        it->socket = -1;
    }
}

static void act_as_clients(void)
{
    for (int i = 0; i < MOST_CLIENTS; i++) {
        struct peer_client *it = &clients[i];
        if (it->socket < 0 || !it->is_listed)
            continue;
        peer = it->socket;
        if (chance(3))
            read_events(it);
        for (unsigned j = chance(6); j > 0 && it->socket >= 0; j--)
            send_anything(it);
    }
}

/* ======== Buffers */

static struct wl_shm_buffer *kept; /* or NULL */
static struct wl_shm_pool *kept_pool;

/* The compositor reads a buffer's pixels, whose file may be shorter than the client says. */
static void read_buffer(struct wl_shm_buffer *buffer)
{
    size_t length = (size_t)wl_shm_buffer_get_stride(buffer) * (size_t)wl_shm_buffer_get_height(buffer);
    wl_shm_buffer_begin_access(buffer);
    const unsigned char *pixels = wl_shm_buffer_get_data(buffer);
    if (pixels && length > 0) {
        look_at(pixels, 1);
        look_at(pixels + length - 1, 1);
    }
    wl_shm_buffer_end_access(buffer);
}

static void let_go(void)
{
    if (kept)
        wl_shm_buffer_unref(kept);
    if (kept_pool)
        wl_shm_pool_unref(kept_pool);
    kept = NULL;
    kept_pool = NULL;
}

static void use_buffers(void)
{
    struct wl_client *of = any_client();
    struct wl_resource *resource = of ? wl_client_get_object(of, chance(IDS)) : NULL;
    struct wl_shm_buffer *buffer = resource ? wl_shm_buffer_get(resource) : NULL;
    if (chance(3) == 0)
        let_go();
    if (kept && chance(2))
        read_buffer(kept);
    if (!buffer)
        return;
    if (!kept && chance(2)) {
        kept = wl_shm_buffer_ref(buffer);
        kept_pool = wl_shm_buffer_ref_pool(buffer);
    }
    read_buffer(buffer);
    if (place_of(resource) == resource_count && wl_client_get_object(of, wl_resource_get_id(resource)) == resource)
        wl_buffer_send_release(resource);
}

/* ======== A run */

static void run(void)
{
    begin_server();
    set_logger(input_left % 2);
    wl_display_init_shm(display);
    for (int round = 0; round < MOST_ROUNDS && (round == 0 || input_left > 0); round++) {
        if (chance(4) == 0)
            begin_client();
        act_as_clients();
        wl_event_loop_dispatch(loop, 0);
        if (chance(3) == 0)
            deeds();
        if (chance(2))
            use_buffers();
        wl_display_flush_clients(display);
    }
    let_go();
    end_server();
}

int LLVMFuzzerInitialize(int *count, char ***arguments);
int LLVMFuzzerInitialize(int *count, char ***arguments)
{
    (void)count;
    (void)arguments;
    signal(SIGPIPE, SIG_IGN);
    wl_log_set_handler_server(discard);
    return 0;
}

int LLVMFuzzerTestOneInput(const uint8_t *bytes, size_t length);
int LLVMFuzzerTestOneInput(const uint8_t *bytes, size_t length)
{
    int before = open_count();
    input = bytes;
    input_left = length;
    file = file_with("x");
    if (ftruncate(file, FILE_SIZE) < 0)
        abort();
    run();
    close(file);
    expect(open_count() == before, "no descriptor is left open");
    if (failed > 0)
        abort();
    return 0;
}
