/* A compositor and its clients in one process that do anything at any time (deeds.h); the clients are nearly honest.
 *
 *   stress [SEED [ROUNDS]]
 *
 * It is linked with the library's objects and the sanitizers. The last line is `N passed, M failed`. */
#include "deeds.h"

static unsigned chance_state = 1;
static unsigned chance(unsigned below)
{
    chance_state = chance_state * 1103515245 + 12345;
    return (chance_state >> 8) % below;
}

/* ======== What clients do by chance */

static void send_request(struct peer_client *it)
{
    uint32_t thing_id = any_id(it, THING), part_id = any_id(it, PART), registry = any_id(it, REGISTRY),
             new_id = free_id(it);
    int number = (int)chance(1000);
    if (!registry && new_id) {
        it->ids[new_id] = REGISTRY;
        get_registry(new_id);
        return;
    }
    if (!thing_id && new_id) {
        it->ids[new_id] = THING;
        bind_global(registry, 1, "thing", 1 + chance(5), new_id);
        return;
    }
    switch (chance(40)) {
    case 0: request(thing_id, THING_STRINGS, "ss", "text", chance(2) ? NULL : "other"); break;
    case 1: request(thing_id, THING_ARRAY, "a", "12345", (size_t)5); break;
    case 2: request(thing_id, THING_DESCRIPTOR, "h", file); break;
    case 3: request(thing_id, THING_OBJECTS, "ww", chance(2) ? thing_id : 0, part_id); break;
    case 4: request(thing_id, THING_ANY, "w", chance(3) ? thing_id : registry); break;
    case 5: request(part_id ? part_id : thing_id, THING_DESTROY, ""); it->ids[part_id ? part_id : thing_id] = WAITING; break;
    case 6: request(1, 0, "w", new_id); if (new_id) it->ids[new_id] = WAITING; break;
    case 7: if (chance(10) == 0) bind_global(registry, chance(7), "part", chance(4), new_id); break;
    case 8: if (chance(30) == 0) request(chance(IDS), chance(12), "ww", chance(70), chance(70)); break;
    case 9: if (chance(30) == 0) { close(it->socket); it->socket = -1; } break;
    case 10: if (chance(30) == 0) send_bytes("xyz", 3, NULL, 0); break;
    default:
        if (new_id && chance(2)) {
            it->ids[new_id] = PART;
            request(thing_id, THING_MAKE, "w", new_id);
        } else
            request(thing_id, THING_NUMBERS, "www", number, number + 1, number + 2);
    }
}

static void act_as_clients(void)
{
    for (int i = 0; i < MOST_CLIENTS; i++) {
        struct peer_client *it = &clients[i];
        if (it->socket < 0)
            continue;
        peer = it->socket;
        if (chance(3))
            read_events(it);
        for (unsigned j = chance(4); j > 0 && it->socket >= 0 && it->client; j--)
            send_request(it);
    }
}

int main(int count, char **words)
{
    long rounds = count > 2 ? atol(words[2]) : 3000;
    chance_state = count > 1 ? (unsigned)atol(words[1]) : 1;
    are_honest = true;
    signal(SIGPIPE, SIG_IGN);
    wl_log_set_handler_server(discard);
    int before = open_count();
    file = file_with("x");
    begin_server();
    for (long round = 0; round < rounds; round++) {
        act_as_clients();
        wl_event_loop_dispatch(loop, 0);
        if (chance(3) == 0)
            deeds();
        wl_display_flush_clients(display);
        if (chance(4) == 0)
            begin_client();
        if (chance(60) == 0)
            set_logger(chance(2));
    }
    end_server();
    close(file);
    expect(open_count() == before, "no descriptor is left open");
    printf("%lu clients, %lu binds, %lu requests, %lu resources, %lu events, %lu errors\n", counts[CLIENTS],
           counts[BINDS], counts[REQUESTS], counts[RESOURCES], counts[EVENTS], counts[ERRORS]);
    printf("%d passed, %d failed\n", failed == 0, failed);
    return failed > 0;
}
