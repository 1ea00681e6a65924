/* A policy and a guard: each call, each refusal, and each allocation of a run refused in turn. Linked with
 * -Wl,--wrap=malloc,--wrap=realloc. Descriptors are numbers here: the library opens and closes none. */
#include "refusing.h"
#include "tests.h"

enum { WAITING = 64 };

static nb_policy policy;
static nb_guard guard;
static nb_end end;

static nb_status allow(const char *name, uint32_t version)
{
    return nb_policy_allow(&policy, (const uint8_t *)name, strlen(name), version);
}

static nb_status refuse(const char *name, const char *request)
{
    return nb_policy_refuse(&policy, (const uint8_t *)name, strlen(name), (const uint8_t *)request, strlen(request));
}

static nb_status ignore(const char *name, const char *request)
{
    return nb_policy_ignore(&policy, (const uint8_t *)name, strlen(name), (const uint8_t *)request, strlen(request));
}

/* `quad` up to version 2, of which `link` is refused and `give` ignored. */
static void begin_guard(void)
{
    OK(nb_policy_start(&policy, &quad, 20, 3, WAITING, &fault));
    OK(allow("quad", 2));
    OK(refuse("quad", "link"));
    OK(ignore("quad", "give"));
    OK(nb_guard_new(&guard));
}

static void end_guard(void)
{
    OK(nb_guard_end(&guard));
    OK(nb_policy_end(&policy));
    HOLDS(guard.state == 0 && policy.state == 0);
}

/* What was put came from this side, with these descriptors. */
static nb_status came(uint32_t side, const int32_t *with, size_t count)
{
    const size_t length = wire_length;
    wire_length = 0;
    return nb_guard_received(&guard, &policy, side, wire, length, with, count);
}

/* Whether what was put, with these descriptors, is what is to be sent to the side. It is sent then. */
static int goes(uint32_t side, const int32_t *with, size_t count)
{
    if (nb_guard_to_send(&guard, side, bytes, sizeof bytes, descriptors, NB_MOST_DESCRIPTORS, &counts) != NB_OK)
        return 0;
    return is_wire(bytes, counts.bytes) && counts.descriptors == count &&
           (count == 0 || memcmp(descriptors, with, count * sizeof *with) == 0) &&
           nb_guard_sent(&guard, side, counts.bytes) == NB_OK;
}

static int is_released(int32_t wanted)
{
    int32_t descriptor = -7;
    return nb_guard_next_released(&guard, &descriptor) == NB_OK && descriptor == wanted;
}

static void rules(void)
{
    IS(allow("none", 1), NB_UNKNOWN_INTERFACE);
    IS(allow("qua", 1), NB_UNKNOWN_INTERFACE);
    IS(allow("quad\xff", 1), NB_UNKNOWN_INTERFACE);
    IS(allow("wl_registry", 1), NB_WRONG_INTERFACE);
    IS(allow("quad", 0), NB_VERSION_TOO_HIGH);
    IS(allow("quad", 4), NB_VERSION_TOO_HIGH);
    IS(refuse("none", "poke"), NB_UNKNOWN_INTERFACE);
    IS(refuse("wl_display", "sync"), NB_WRONG_INTERFACE);
    IS(refuse("quad", "none"), NB_UNKNOWN_OPCODE);
    IS(refuse("quad", "poke\xff"), NB_UNKNOWN_OPCODE);
    IS(ignore("quad", "make"), NB_WRONG_KIND);
    IS(ignore("quad", "destroy"), NB_WRONG_KIND);
    IS(ignore("quad\xff", "poke"), NB_UNKNOWN_INTERFACE);
    IS(nb_policy_start(&policy, &quad, 20, 3, WAITING, &fault), NB_IN_USE);
    IS(nb_guard_new(&guard), NB_IN_USE);
}

/* The client gets a registry, is told of `quad` in version 2, and binds it as object 3. */
static void bind_quad(void)
{
    put(1, 1, "u", 2);
    OK(came(NB_CLIENT_SIDE, NULL, 0));
    put(1, 1, "u", 2);
    HOLDS(goes(NB_SERVER_SIDE, NULL, 0));
    put(2, 0, "usu", 7, "quad", 3);
    OK(came(NB_SERVER_SIDE, NULL, 0));
    put(2, 0, "usu", 7, "quad", 2);
    HOLDS(goes(NB_CLIENT_SIDE, NULL, 0));
    put(2, 0, "usuu", 7, "quad", 2, 3);
    OK(came(NB_CLIENT_SIDE, NULL, 0));
    put(2, 0, "usuu", 7, "quad", 2, 3);
    HOLDS(goes(NB_SERVER_SIDE, NULL, 0));
}

static void passes(void)
{
    const int32_t given[] = { 11, 12 };
    bind_quad();
    put(3, 4, "sa", "a", "b", 1); /* ignored */
    put(3, 0, "u", 5);
    OK(came(NB_CLIENT_SIDE, given, 2));
    put(3, 0, "u", 5);
    HOLDS(goes(NB_SERVER_SIDE, NULL, 0));
    HOLDS(is_released(11));
    IS(nb_guard_next_released(&guard, descriptors), NB_WOULD_BLOCK); /* 12 may be of a message that is to come */
    IS(came(2, NULL, 0), NB_INVALID_INPUT);
    IS(nb_guard_to_send(&guard, 2, bytes, 1, descriptors, 1, &counts), NB_INVALID_INPUT);
    IS(nb_guard_sent(&guard, 2, 1), NB_INVALID_INPUT);
    OK(nb_guard_how_ended(&guard, &end));
    HOLDS(end.reason == NB_NOT_ENDED);
}

static void has_no_room(void)
{
    int rounds = 0;
    nb_status status = NB_OK;
    while (status == NB_OK && rounds++ < 100) {
        put(3, 0, "u", rounds);
        status = came(NB_CLIENT_SIDE, NULL, 0);
    }
    IS(status, NB_WOULD_BLOCK);
    HOLDS(rounds == WAITING / 12 + 2); /* each takes 12 bytes; the one that begins below the limit is still taken */
    OK(nb_guard_to_send(&guard, NB_SERVER_SIDE, bytes, 5, descriptors, 0, &counts));
    HOLDS(counts.bytes == 5 && counts.descriptors == 0);
    OK(nb_guard_sent(&guard, NB_SERVER_SIDE, 1000)); /* all that one send takes */
    put(3, 0, "u", 1);
    OK(came(NB_CLIENT_SIDE, NULL, 0));
    OK(nb_guard_sent(&guard, NB_SERVER_SIDE, 1000));
}

static void refuses_link(void)
{
    const int32_t last[] = { 13 };
    put(3, 3, "uu", 0, 3);
    put(3, 0, "u", 6);
    OK(came(NB_CLIENT_SIDE, last, 1));
    HOLDS(goes(NB_SERVER_SIDE, NULL, 0));
    put(1, 0, "uus", 1, 3, "refused by policy: quad#3.link");
    HOLDS(goes(NB_CLIENT_SIDE, NULL, 0));
    OK(nb_guard_how_ended(&guard, &end));
    HOLDS(end.reason == NB_END_POLICY && end.side == NB_CLIENT_SIDE && end.object == 3 && end.opcode == 3);
    put(3, 0, "u", 6);
    IS(came(NB_CLIENT_SIDE, NULL, 0), NB_CLOSED);
    IS(came(NB_SERVER_SIDE, NULL, 0), NB_CLOSED);
    HOLDS(is_released(12) && is_released(13));
    IS(nb_guard_next_released(&guard, descriptors), NB_WOULD_BLOCK);
}

/* A side hangs up in the middle of a message with a descriptor. */
static void hangs_up(void)
{
    const int32_t given[] = { 21 };
    begin_guard();
    bind_quad();
    put(3, 4, "sa", "a", "b", 1);
    wire_length -= 4;
    OK(came(NB_CLIENT_SIDE, given, 1));
    IS(nb_guard_next_released(&guard, descriptors), NB_WOULD_BLOCK);
    OK(nb_guard_hang_up(&guard));
    HOLDS(is_released(21));
    end_guard();
    IS(nb_guard_hang_up(&guard), NB_NO_SESSION);
}

/* A compositor announces more numbers of globals than are remembered. */
static void has_too_many_globals(void)
{
    begin_guard();
    bind_quad();
    put(2, 0, "usu", 8, "none", 1);
    put(2, 0, "usu", 9, "none", 1);
    put(2, 0, "usu", 10, "none", 1);
    OK(came(NB_SERVER_SIDE, NULL, 0));
    OK(nb_guard_how_ended(&guard, &end));
    HOLDS(end.reason == NB_END_GLOBALS && end.side == NB_SERVER_SIDE);
    HOLDS(goes(NB_CLIENT_SIDE, NULL, 0));
    end_guard();
}

/* Each allocation of this is refused in turn. Whatever that leads to, nothing goes on but the first messages, whole,
 * and each descriptor comes out once. */
static int run_without(long refused)
{
    const int32_t given[] = { 31 };
    int32_t descriptor;
    int out = 0;
    size_t sent = 0;
    nb_status status;
    left = refused;
    is_refused = 0;
    status = nb_policy_start(&policy, &quad, 20, 3, 1 << 16, &fault);
    if (status == NB_OK)
        status = allow("quad", 3);
    if (status == NB_OK)
        status = refuse("quad", "link");
    if (status == NB_OK)
        status = nb_guard_new(&guard);
    if (status == NB_OK) {
        put(1, 1, "u", 2);
        status = came(NB_CLIENT_SIDE, NULL, 0);
    }
    if (status == NB_OK) {
        put(2, 0, "usu", 7, "quad", 3);
        status = came(NB_SERVER_SIDE, NULL, 0);
    }
    if (status == NB_OK) {
        put(2, 0, "usuu", 7, "quad", 3, 3);
        put(3, 4, "sa", "a", "b", 1);
        status = came(NB_CLIENT_SIDE, given, 1);
        out -= status == NB_OK;
    }
    left = 0;
    wire_length = 0;
    while (nb_guard_to_send(&guard, NB_SERVER_SIDE, bytes, sizeof bytes, descriptors, 28, &counts) == NB_OK &&
           counts.bytes > 0) {
        sent += counts.bytes;
        out += (int)counts.descriptors;
        nb_guard_sent(&guard, NB_SERVER_SIDE, counts.bytes);
    }
    nb_guard_sent(&guard, NB_CLIENT_SIDE, 1000);
    nb_guard_hang_up(&guard);
    while (nb_guard_next_released(&guard, &descriptor) == NB_OK)
        out += descriptor == 31;
    nb_guard_end(&guard);
    nb_policy_end(&policy);
    HOLDS(out == 0);
    HOLDS(sent == 0 || sent == 12 || sent == 44 || sent == 68);
    HOLDS(refused == 0 || !is_refused || sent < 68 || status == NB_OK);
    return is_refused;
}

int main(void)
{
    long refused = 0;
    begin_guard();
    rules();
    passes();
    has_no_room();
    refuses_link();
    end_guard();
    hangs_up();
    has_too_many_globals();
    run_without(0);
    while (run_without(++refused))
        ;
    HOLDS(refused > 10);
    return tell();
}
