/* A relay: each call, each refusal, and each allocation of a run refused in turn. Linked with
 * -Wl,--wrap=malloc,--wrap=realloc. Descriptors are numbers here: the library opens and closes none. */
#include "refusing.h"
#include "tests.h"

static nb_relay relay;

/* What was put came from this side, with these descriptors. */
static nb_status came(uint32_t side, const int32_t *with, size_t count)
{
    const size_t length = wire_length;
    wire_length = 0;
    return nb_relay_received(&relay, side, wire, length, with, count);
}

/* Whether what was put, with these descriptors, is what is to be sent to the side. It is sent then. */
static int goes(uint32_t side, const int32_t *with, size_t count)
{
    if (nb_relay_to_send(&relay, side, bytes, sizeof bytes, descriptors, NB_MOST_DESCRIPTORS, &counts) != NB_OK)
        return 0;
    return is_wire(bytes, counts.bytes) && counts.descriptors == count &&
           (count == 0 || memcmp(descriptors, with, count * sizeof *with) == 0) &&
           nb_relay_sent(&relay, side, counts.bytes) == NB_OK;
}

/* Whether this is the next line. */
static int is_line(const char *wanted)
{
    uint8_t text[256];
    size_t length = 0;
    const nb_status status = nb_relay_next_line(&relay, text, sizeof text, &length);
    const int same = status == NB_OK && length == strlen(wanted) && memcmp(text, wanted, length) == 0;
    if (!same)
        printf("  line: %.*s\n  wanted: %s\n", status == NB_OK ? (int)length : 0, (const char *)text, wanted);
    return same;
}

static int has_no_line(void)
{
    uint8_t text[4] = "...";
    size_t length = 7;
    return nb_relay_next_line(&relay, text, sizeof text, &length) == NB_WOULD_BLOCK && length == 7 && text[0] == '.';
}

/* The client gets a registry, is told of `quad`, and binds it as object 3. */
static void bind_quad(void)
{
    put(1, 1, "u", 2);
    OK(came(NB_CLIENT_SIDE, NULL, 0));
    put(1, 1, "u", 2);
    HOLDS(goes(NB_SERVER_SIDE, NULL, 0));
    HOLDS(is_line(" -> wl_display@1.get_registry(new id wl_registry@2)") && has_no_line());
    put(2, 0, "usu", 7, "quad", 5);
    put(2, 0, "usu", 8, "none", 1);
    OK(came(NB_SERVER_SIDE, NULL, 0));
    put(2, 0, "usu", 7, "quad", 3);
    HOLDS(goes(NB_CLIENT_SIDE, NULL, 0));
    HOLDS(is_line("wl_registry@2.global(7, \"quad\", 5) [lowered to 3]"));
    HOLDS(is_line("wl_registry@2.global(8, \"none\", 1) [dropped]") && has_no_line());
    put(2, 0, "usuu", 7, "quad", 3, 3);
    OK(came(NB_CLIENT_SIDE, NULL, 0));
    put(2, 0, "usuu", 7, "quad", 3, 3);
    HOLDS(goes(NB_SERVER_SIDE, NULL, 0));
    HOLDS(is_line(" -> wl_registry@2.bind(7, \"quad\", 3, new id [unknown]@3)") && has_no_line());
}

/* Messages in pieces, of which the first one has the descriptors. */
static void hands_on(void)
{
    const int32_t given[] = { 11, 12 };
    put(3, 4, "sa", "a", "b", 1);
    put(3, 4, "sa", "c", "d", 1);
    const size_t length = wire_length;
    wire_length = 0;
    for (size_t i = 0; i < length; i++)
        OK(nb_relay_received(&relay, NB_CLIENT_SIDE, wire + i, 1, given, i == 0 ? 2 : 0));
    IS(nb_relay_to_send(&relay, NB_SERVER_SIDE, bytes, 8, descriptors, 1, &counts), NB_TOO_SMALL);
    HOLDS(counts.bytes == 8 && counts.descriptors == 2);
    OK(nb_relay_to_send(&relay, NB_SERVER_SIDE, bytes, 9, descriptors, 2, &counts));
    HOLDS(counts.bytes == 9 && counts.descriptors == 2 && descriptors[0] == 11 && descriptors[1] == 12);
    HOLDS(memcmp(bytes, wire, 9) == 0);
    OK(nb_relay_sent(&relay, NB_SERVER_SIDE, 9));
    OK(nb_relay_to_send(&relay, NB_SERVER_SIDE, bytes, sizeof bytes, descriptors, 0, &counts));
    HOLDS(counts.bytes == length - 9 && counts.descriptors == 0 && memcmp(bytes, wire + 9, length - 9) == 0);
    OK(nb_relay_sent(&relay, NB_SERVER_SIDE, 1000)); /* all */
    HOLDS(goes(NB_SERVER_SIDE, NULL, 0));
    HOLDS(is_line(" -> quad@3.give(\"a\", array[1], fd 11)") && is_line(" -> quad@3.give(\"c\", array[1], fd 12)"));
    put(3, 0, "u", 5);
    OK(came(NB_SERVER_SIDE, NULL, 0));
    HOLDS(goes(NB_SERVER_SIDE, NULL, 0)); /* nothing */
    put(3, 0, "u", 5);
    HOLDS(goes(NB_CLIENT_SIDE, NULL, 0) && is_line("quad@3.moved(5)") && has_no_line());
}

/* More descriptors than one message may have go in several: the first with one byte. */
static void hands_many_on(void)
{
    int32_t given[NB_MOST_DESCRIPTORS + 1];
    for (int32_t i = 0; i < NB_MOST_DESCRIPTORS + 1; i++)
        given[i] = 100 + i;
    put(3, 4, "sa", "a", "b", 1);
    IS(came(NB_CLIENT_SIDE, given, NB_MOST_DESCRIPTORS + 1), NB_TOO_MANY_DESCRIPTORS);
    for (int i = 0; i < NB_MOST_DESCRIPTORS + 1; i++) {
        put(3, 4, "sa", "a", "b", 1);
        OK(came(NB_CLIENT_SIDE, given + i, 1));
        HOLDS(nb_relay_next_line(&relay, bytes, sizeof bytes, &(size_t){ 0 }) == NB_OK);
    }
    OK(nb_relay_to_send(&relay, NB_SERVER_SIDE, bytes, sizeof bytes, descriptors, NB_MOST_DESCRIPTORS, &counts));
    HOLDS(counts.bytes == 1 && counts.descriptors == NB_MOST_DESCRIPTORS &&
          memcmp(descriptors, given, sizeof descriptors) == 0);
    OK(nb_relay_sent(&relay, NB_SERVER_SIDE, 1));
    OK(nb_relay_to_send(&relay, NB_SERVER_SIDE, bytes, sizeof bytes, descriptors, NB_MOST_DESCRIPTORS, &counts));
    HOLDS(counts.descriptors == 1 && descriptors[0] == 100 + NB_MOST_DESCRIPTORS);
    HOLDS(counts.bytes == 24 * (NB_MOST_DESCRIPTORS + 1) - 1);
    OK(nb_relay_sent(&relay, NB_SERVER_SIDE, counts.bytes));
    HOLDS(goes(NB_SERVER_SIDE, NULL, 0));
}

static void refuses_calls(void)
{
    uint8_t text[40] = "...";
    size_t length = 0;
    IS(nb_relay_start(&relay, &quad, 0, &fault), NB_IN_USE);
    put(1, 0, "u", 4);
    IS(came(2, NULL, 0), NB_INVALID_INPUT);
    IS(nb_relay_to_send(&relay, 2, bytes, 1, descriptors, 1, &counts), NB_INVALID_INPUT);
    IS(nb_relay_sent(&relay, 2, 1), NB_INVALID_INPUT);
    put(1, 0, "u", 4);
    OK(came(NB_CLIENT_SIDE, NULL, 0));
    IS(nb_relay_next_line(&relay, text, 3, &length), NB_TOO_SMALL);
    HOLDS(length == strlen(" -> wl_display@1.sync(new id wl_callback@4)") && memcmp(text, "...", 3) == 0);
    HOLDS(is_line(" -> wl_display@1.sync(new id wl_callback@4)") && has_no_line());
    OK(nb_relay_sent(&relay, NB_SERVER_SIDE, 1000)); /* nothing was made ready, so nothing was sent */
    put(1, 0, "u", 4);
    HOLDS(goes(NB_SERVER_SIDE, NULL, 0));
}

/* A side that sends no messages is read no longer, and what it sends goes on. */
static void passes_noise_on(void)
{
    static const char noise[] = "no message at all";
    const int32_t given[] = { 13 };
    OK(nb_relay_received(&relay, NB_SERVER_SIDE, (const uint8_t *)noise, sizeof noise, given, 1));
    HOLDS(is_line("[server is no longer read: malformed]") && has_no_line());
    put_bytes(noise, sizeof noise);
    wire_length = sizeof noise;
    HOLDS(goes(NB_CLIENT_SIDE, given, 1));
    put(3, 0, "u", 6);
    OK(came(NB_CLIENT_SIDE, NULL, 0));
    HOLDS(is_line(" -> quad@3.poke(6)"));
}

/* A relay that only logs hands an announcement on as it is. */
static void only_logs(void)
{
    OK(nb_relay_start(&relay, &quad, 1, &fault));
    put(1, 1, "u", 2);
    OK(came(NB_CLIENT_SIDE, NULL, 0));
    put(2, 0, "usu", 8, "none", 1);
    OK(came(NB_SERVER_SIDE, NULL, 0));
    HOLDS(is_line(" -> wl_display@1.get_registry(new id wl_registry@2)"));
    HOLDS(is_line("wl_registry@2.global(8, \"none\", 1)") && has_no_line());
    put(2, 0, "usu", 8, "none", 1);
    HOLDS(goes(NB_CLIENT_SIDE, NULL, 0));
    OK(nb_relay_end(&relay));
    HOLDS(relay.state == 0);
}

/* All that goes to the server, as far as there is memory, behind what went there before. Returns the status that ended
 * it. */
static nb_status send_all(uint8_t *to, size_t *length, size_t *count)
{
    nb_status status;
    while ((status = nb_relay_to_send(&relay, NB_SERVER_SIDE, bytes, sizeof bytes, descriptors, 28, &counts)) ==
               NB_OK &&
           counts.bytes > 0) {
        memcpy(to + *length, bytes, counts.bytes);
        *length += counts.bytes;
        *count += counts.descriptors;
        OK(nb_relay_sent(&relay, NB_SERVER_SIDE, counts.bytes));
    }
    return status;
}

/* Each allocation of this is refused in turn. Whatever that leads to, what goes on is the first of what came, and each
 * message has its line. */
static int run_without(long refused)
{
    static uint8_t sent[256], whole[256];
    const int32_t given[] = { 31 };
    size_t length = 0, count = 0, line = 0, lines = 0, most = 0;
    nb_status status, last;
    put(1, 1, "u", 2);
    put(2, 0, "usuu", 7, "quad", 3, 3);
    put(3, 4, "sa", "a", "b", 1);
    memcpy(whole, wire, most = wire_length);
    left = refused;
    is_refused = 0;
    status = nb_relay_start(&relay, &quad, 0, &fault);
    if (status == NB_OK)
        status = came(NB_CLIENT_SIDE, given, 1);
    last = send_all(sent, &length, &count);
    left = 0;
    wire_length = 0;
    if (last == NB_OUT_OF_MEMORY && status == NB_OK)
        last = send_all(sent, &length, &count); /* nothing is lost */
    while (nb_relay_next_line(&relay, bytes, sizeof bytes, &line) == NB_OK)
        lines++;
    nb_relay_end(&relay);
    HOLDS(status == NB_OK ? length == most && lines == 3 && count == 1
                          : status == NB_OUT_OF_MEMORY || status == NB_BAD_TABLE);
    HOLDS(length <= most && memcmp(sent, whole, length) == 0);
    HOLDS(refused == 0 || is_refused || status == NB_OK);
    return is_refused;
}

int main(void)
{
    long refused = 0;
    OK(nb_relay_start(&relay, &quad, 0, &fault));
    bind_quad();
    hands_on();
    hands_many_on();
    refuses_calls();
    passes_noise_on();
    OK(nb_relay_end(&relay));
    HOLDS(relay.state == 0);
    IS(nb_relay_end(&relay), NB_NO_SESSION);
    only_logs();
    run_without(0);
    while (run_without(++refused))
        ;
    HOLDS(refused > 10);
    return tell();
}
