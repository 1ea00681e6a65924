/* Each call on a place without a session answers NB_NO_SESSION: before there was one, after its end, and after one that
 * was refused. */
#include "tests.h"

static nb_client session;
static nb_extension_fault why;

#define NONE(call) IS(call, NB_NO_SESSION)

static void server_calls(void)
{
    uint32_t number = 7;
    uint64_t data = 7;
    nb_client_id id = { 7, 3 };
    nb_object_id object = { 1, { 7, 3 }, 4, 9 };
    nb_global_id global = { 1, 1 };
    nb_object_info info;
    nb_held_object held;
    nb_global_info offered;
    nb_gone gone;
    nb_note note;
    nb_waiting waiting;
    nb_violation violation;
    nb_told told;
    NONE(nb_server_end(&server));
    NONE(nb_server_extend(&server, &quad, &fault));
    NONE(nb_server_join(&server, &quad, &number, &why));
    NONE(nb_server_memory_refused(&server, &number));
    NONE(nb_server_set_default_max_buffer_size(&server, 1));
    NONE(nb_server_refuse_nulls(&server, 1));
    NONE(nb_server_set_object_limit(&server, 1));
    NONE(nb_server_tell_messages(&server, 1));
    NONE(nb_server_set_max_buffer_size(&server, &id, 1));
    NONE(nb_server_set_room(&server, &id, 1));
    NONE(nb_server_insert_client(&server, 1, 1, &global, 1, &id));
    NONE(nb_server_client_data(&server, &id, &data));
    NONE(nb_server_clients(&server, &id, 1, &number));
    NONE(nb_server_kill_client(&server, &id));
    NONE(nb_server_received(&server, &id, bytes, 8, descriptors, 1));
    NONE(nb_server_received_end(&server, &id));
    NONE(nb_server_receive_failed(&server, &id, 5));
    NONE(nb_server_send_failed(&server, &id));
    NONE(nb_server_next_action(&server, &id, &action, arguments, 16, bytes, sizeof bytes));
    NONE(nb_server_next_told(&server, &id, &told, arguments, 16, bytes, sizeof bytes));
    NONE(nb_server_finish_request(&server, &id));
    NONE(nb_server_finish_request_with(&server, &id, 1, &number));
    NONE(nb_server_finish_bind(&server, &id, 1, &number));
    NONE(nb_server_finish_action(&server, &id, &action));
    NONE(nb_server_send_event(&server, &object, 0, arguments, 0, bytes, 0));
    NONE(nb_server_post_error(&server, &object, 0, bytes, 3));
    NONE(nb_server_create_object(&server, &id, 4, 1, 1, 1, &object));
    NONE(nb_server_create_object_at(&server, &id, 4, 1, 2, 1, 1, &object));
    NONE(nb_server_claim_object(&server, &id, 4, 1, 2, 1, &object));
    NONE(nb_server_set_object_version(&server, &object, 1));
    NONE(nb_server_destroy_object(&server, &object));
    NONE(nb_server_object_info(&server, &object, &info));
    NONE(nb_server_object_data(&server, &object, &data));
    NONE(nb_server_set_object_data(&server, &object, 1));
    NONE(nb_server_object_for_protocol_id(&server, &id, 4, 3, &object));
    NONE(nb_server_objects(&server, &id, &object, 1, &number));
    NONE(nb_server_object_by_number(&server, &id, 3, &held));
    NONE(nb_server_held_objects(&server, &id, &held, 1, &number));
    NONE(nb_server_next_client_id(&server, &id));
    NONE(nb_server_next_global_id(&server, &global));
    NONE(nb_server_create_global(&server, 4, 1, 1, 1, &id, 1, &global));
    NONE(nb_server_disable_global(&server, &global));
    NONE(nb_server_remove_global(&server, &global));
    NONE(nb_server_keep_global_names(&server, 1));
    NONE(nb_server_hand_out_registries(&server, 1));
    NONE(nb_server_announce_global(&server, &object, &global));
    NONE(nb_server_withdraw_global(&server, &global));
    NONE(nb_server_global_info(&server, &global, &offered));
    NONE(nb_server_global_data(&server, &global, &data));
    NONE(nb_server_global_name(&server, &global, &id, &number));
    NONE(nb_server_next_writable(&server, &id));
    NONE(nb_server_flush_client(&server, &id));
    NONE(nb_server_to_send(&server, &id, bytes, 9, descriptors, NB_MOST_DESCRIPTORS, &counts));
    NONE(nb_server_sent(&server, &id, 1));
    NONE(nb_server_waiting(&server, &id, &waiting));
    NONE(nb_server_violation(&server, &id, &violation));
    NONE(nb_server_cleanup(&server));
    NONE(nb_server_next_gone(&server, &gone, bytes, 9, descriptors, NB_MOST_DESCRIPTORS));
    NONE(nb_server_next_note(&server, &note, bytes, 9));
    NONE(nb_server_keep_notes(&server, 1));
    NONE(nb_server_next_dropped(&server, descriptors));
    HOLDS(number == 7 && data == 7 && server.state == 0);
}

static void client_calls(void)
{
    uint32_t number = 7;
    uint64_t data = 7;
    nb_object_id object = { 1, { 0, 0 }, 4, 9 };
    nb_object_info info;
    nb_event event;
    nb_request request = { { 1, { 0, 0 }, 4, 9 }, 0, 0, 0, 0, 0, 0, 0 };
    nb_error error;
    nb_waiting waiting;
    nb_told told;
    nb_run run = { 7, 0, 0, 0, 0, 0, 0, 0, 0, 0, 0 };
    NONE(nb_client_end(&session));
    NONE(nb_client_extend(&session, &quad, &fault));
    NONE(nb_client_join(&session, &quad, &number, &why));
    NONE(nb_client_memory_refused(&session, &number));
    NONE(nb_client_set_max_buffer_size(&session, 1, 1));
    NONE(nb_client_refuse_nulls(&session, 1));
    NONE(nb_client_set_room(&session, 1));
    NONE(nb_client_pass_over_unknown_senders(&session, 1));
    NONE(nb_client_tell_messages(&session, 1));
    NONE(nb_client_display(&session, &object));
    NONE(nb_client_received(&session, bytes, 8, descriptors, 1));
    NONE(nb_client_next_run(&session, bytes, 8, 1, &run));
    NONE(nb_client_received_end(&session));
    NONE(nb_client_receive_failed(&session, 5));
    NONE(nb_client_fail(&session, 5));
    NONE(nb_client_send_failed(&session, 5));
    NONE(nb_client_next_event(&session, &event, arguments, 16, bytes, sizeof bytes));
    NONE(nb_client_finish_event(&session));
    NONE(nb_client_finish_event_with(&session, 1, &number));
    NONE(nb_client_next_told(&session, &told, arguments, 16, bytes, sizeof bytes));
    NONE(nb_client_send_request(&session, &request, arguments, 0, bytes, 0, &object));
    NONE(nb_client_object_for_protocol_id(&session, 1, &object));
    NONE(nb_client_object_info(&session, &object, &info));
    NONE(nb_client_object_data(&session, &object, &data));
    NONE(nb_client_set_object_data(&session, &object, 1));
    NONE(nb_client_destroy_object(&session, &object));
    NONE(nb_client_give_up_object(&session, &object));
    NONE(nb_client_reclaim(&session, &object));
    NONE(nb_client_flush(&session));
    NONE(nb_client_to_send(&session, bytes, 9, descriptors, NB_MOST_DESCRIPTORS, &counts));
    NONE(nb_client_sent(&session, 1));
    NONE(nb_client_waiting(&session, &waiting));
    NONE(nb_client_last_error(&session, &error, bytes, 9));
    NONE(nb_client_next_note(&session, &object, &data));
    NONE(nb_client_keep_freed(&session, 1));
    NONE(nb_client_next_freed(&session, &object));
    NONE(nb_client_next_dropped(&session, descriptors));
    HOLDS(number == 7 && data == 7 && session.state == 0);
}

static void queue_calls(void)
{
    nb_queues queues = NB_EMPTY;
    nb_queued_event event = { 7, 7, 7, 7, 7 };
    nb_queued_object object = { 7, 7, 7 };
    size_t slot = 7;
    uint64_t content = 7;
    uint32_t flag = 7;
    for (int round = 0; round < 2; round++) {
        NONE(nb_queues_end(&queues));
        NONE(nb_queues_new_queue(&queues, &slot));
        NONE(nb_queues_drop_queue(&queues, 1));
        NONE(nb_queues_has_events(&queues, 0, &flag));
        NONE(nb_queues_fail(&queues));
        NONE(nb_queues_add(&queues, 0, 9, &slot));
        NONE(nb_queues_set_queue(&queues, 0, 0));
        NONE(nb_queues_destroy(&queues, 0));
        NONE(nb_queues_object(&queues, 0, &object));
        NONE(nb_queues_next_unused(&queues, &slot, &content));
        NONE(nb_queues_put(&queues, 0, &slot, 1, 9));
        NONE(nb_queues_next_of(&queues, 0, &event));
        NONE(nb_queues_event(&queues, 0, &event));
        NONE(nb_queues_argument(&queues, 0, 0, &slot));
        NONE(nb_queues_finish(&queues, 0, &content));
        HOLDS(slot == 7 && content == 7 && flag == 7 && event.outcome == 7 && object.queue == 7 && queues.state == 0);
        OK(nb_queues_start(&queues));
        IS(nb_queues_start(&queues), NB_IN_USE);
        OK(nb_queues_end(&queues));
    }
}

static void guard_calls(void)
{
    nb_policy policy = NB_EMPTY;
    nb_guard guard = NB_EMPTY;
    nb_end end = { 7, 7, 7, 7 };
    int32_t descriptor = 7;
    for (int round = 0; round < 2; round++) {
        NONE(nb_policy_end(&policy));
        NONE(nb_policy_allow(&policy, bytes, 4, 1));
        NONE(nb_policy_refuse(&policy, bytes, 4, bytes, 4));
        NONE(nb_policy_ignore(&policy, bytes, 4, bytes, 4));
        NONE(nb_guard_end(&guard));
        NONE(nb_guard_received(&guard, &policy, NB_CLIENT_SIDE, bytes, 8, descriptors, 1));
        NONE(nb_guard_to_send(&guard, NB_CLIENT_SIDE, bytes, 8, descriptors, 1, &counts));
        NONE(nb_guard_sent(&guard, NB_CLIENT_SIDE, 1));
        NONE(nb_guard_next_released(&guard, &descriptor));
        NONE(nb_guard_how_ended(&guard, &end));
        HOLDS(descriptor == 7 && end.reason == 7 && end.opcode == 7 && policy.state == 0 && guard.state == 0);
        OK(nb_policy_start(&policy, &quad, 10, 10, 10, &fault));
        NONE(nb_guard_received(&guard, &policy, NB_CLIENT_SIDE, bytes, 8, descriptors, 1));
        OK(nb_policy_end(&policy));
        OK(nb_guard_new(&guard));
        NONE(nb_guard_received(&guard, &policy, NB_CLIENT_SIDE, bytes, 8, descriptors, 1));
        OK(nb_guard_end(&guard));
    }
}

static void relay_calls(void)
{
    nb_relay relay = NB_EMPTY;
    uint8_t text[4] = "...";
    size_t length = 7;
    for (int round = 0; round < 2; round++) {
        NONE(nb_relay_end(&relay));
        NONE(nb_relay_received(&relay, NB_CLIENT_SIDE, bytes, 8, descriptors, 1));
        NONE(nb_relay_to_send(&relay, NB_CLIENT_SIDE, bytes, 8, descriptors, 1, &counts));
        NONE(nb_relay_sent(&relay, NB_CLIENT_SIDE, 1));
        NONE(nb_relay_next_line(&relay, text, sizeof text, &length));
        HOLDS(length == 7 && text[0] == '.' && relay.state == 0);
        OK(nb_relay_start(&relay, &quad, 0, &fault));
        OK(nb_relay_end(&relay));
    }
}

int main(void)
{
    const nb_interface_row wrong = { 0, 99, 1, 0, 0 };
    server_calls();
    client_calls();
    queue_calls();
    guard_calls();
    relay_calls();
    IS(nb_server_new(&server, bytes, 4, &wrong, 1, NULL, 0, NULL, 0, &fault), NB_BAD_TABLE);
    IS(nb_client_connect(&session, bytes, 4, &wrong, 1, NULL, 0, NULL, 0, &fault), NB_BAD_TABLE);
    server_calls();
    client_calls();
    OK(nb_server_start(&server, &quad, &fault));
    OK(nb_client_start(&session, &quad, &fault));
    IS(nb_server_start(&server, &quad, &fault), NB_IN_USE);
    IS(nb_client_start(&session, &quad, &fault), NB_IN_USE);
    /* A place may be moved between calls. */
    nb_server elsewhere = server;
    memset(&server, 0, sizeof server);
    server_calls();
    OK(nb_server_cleanup(&elsewhere));
    OK(nb_server_end(&elsewhere));
    OK(nb_client_end(&session));
    IS(nb_server_end(&elsewhere), NB_NO_SESSION);
    server_calls();
    client_calls();
    return tell();
}
