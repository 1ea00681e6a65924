/* The layout of each struct, as the library has it. tools/try-embed compares the fields themselves with the library's
 * sources. */
#include "tests.h"

#define SIZE(type, size)        _Static_assert(sizeof(type) == (size), #type)
#define AT(type, field, offset) _Static_assert(offsetof(type, field) == (offset), #type "." #field)

SIZE(nb_server, 16);
SIZE(nb_client, 16);
AT(nb_server, session, 8);
AT(nb_client, session, 8);

SIZE(nb_client_id, 16);
AT(nb_client_id, slot, 8);
SIZE(nb_object_id, 32);
AT(nb_object_id, client, 8);
AT(nb_object_id, interface, 24);
AT(nb_object_id, number, 28);
SIZE(nb_global_id, 16);
AT(nb_global_id, name, 8);

SIZE(nb_interface_row, 20);
AT(nb_interface_row, name_length, 4);
AT(nb_interface_row, version, 8);
AT(nb_interface_row, requests, 12);
AT(nb_interface_row, events, 16);
SIZE(nb_message_row, 20);
AT(nb_message_row, name_length, 4);
AT(nb_message_row, since, 8);
AT(nb_message_row, is_destructor, 12);
AT(nb_message_row, arguments, 16);
SIZE(nb_argument_row, 12);
AT(nb_argument_row, is_nullable, 4);
AT(nb_argument_row, interface, 8);
SIZE(nb_table_fault, 8);
AT(nb_table_fault, fault, 4);
SIZE(nb_extension_fault, 20);
AT(nb_extension_fault, fault, 4);
AT(nb_extension_fault, is_event, 8);
AT(nb_extension_fault, opcode, 12);
AT(nb_extension_fault, version, 16);

SIZE(nb_argument, 56);
AT(nb_argument, value, 4);
AT(nb_argument, at, 8);
AT(nb_argument, length, 12);
AT(nb_argument, object, 16);
AT(nb_argument, data, 48);
SIZE(nb_action, 120);
AT(nb_action, opcode, 4);
AT(nb_action, arguments, 8);
AT(nb_action, is_destructor, 12);
AT(nb_action, sender, 16);
AT(nb_action, data, 48);
AT(nb_action, created, 56);
AT(nb_action, version, 88);
AT(nb_action, bytes, 92);
AT(nb_action, global, 96);
AT(nb_action, forbidden_null, 112);
SIZE(nb_event, 104);
AT(nb_event, arguments, 4);
AT(nb_event, is_destructor, 8);
AT(nb_event, bytes, 12);
AT(nb_event, sender, 16);
AT(nb_event, data, 48);
AT(nb_event, created, 56);
AT(nb_event, version, 88);
AT(nb_event, has_data, 92);
AT(nb_event, forbidden_null, 96);
SIZE(nb_request, 64);
AT(nb_request, opcode, 32);
AT(nb_request, has_data, 36);
AT(nb_request, data, 40);
AT(nb_request, has_child, 48);
AT(nb_request, child_interface, 52);
AT(nb_request, child_version, 56);
AT(nb_request, unused, 60);
SIZE(nb_object_info, 12);
AT(nb_object_info, interface, 4);
AT(nb_object_info, version, 8);
SIZE(nb_held_object, 40);
AT(nb_held_object, data, 32);
SIZE(nb_global_info, 16);
AT(nb_global_info, version, 4);
AT(nb_global_info, is_disabled, 8);
SIZE(nb_counts, 8);
AT(nb_counts, descriptors, 4);
SIZE(nb_waiting, 16);
AT(nb_waiting, to_send, 8);
SIZE(nb_note, 80);
AT(nb_note, is_protocol_error, 4);
AT(nb_note, code, 8);
AT(nb_note, object_number, 12);
AT(nb_note, client, 16);
AT(nb_note, object, 32);
AT(nb_note, data, 64);
AT(nb_note, message_length, 72);
AT(nb_note, interface_length, 76);
SIZE(nb_gone, 32);
AT(nb_gone, data, 16);
AT(nb_gone, waiting, 24);
SIZE(nb_error, 28);
AT(nb_error, status, 4);
AT(nb_error, number, 8);
AT(nb_error, code, 12);
AT(nb_error, object_number, 16);
AT(nb_error, message_length, 20);
AT(nb_error, interface_length, 24);

SIZE(nb_queues, 16);
AT(nb_queues, queues, 8);
SIZE(nb_queued_event, 40);
AT(nb_queued_event, content, 8);
AT(nb_queued_event, sender, 16);
AT(nb_queued_event, arguments, 24);
AT(nb_queued_event, outcome, 32);
SIZE(nb_queued_object, 24);
AT(nb_queued_object, content, 8);
AT(nb_queued_object, fate, 16);
SIZE(nb_readers, 24);
AT(nb_readers, ended, 8);
AT(nb_readers, is_reading, 16);
SIZE(nb_turn, 16);
AT(nb_turn, reads, 8);

SIZE(nb_policy, 16);
AT(nb_policy, policy, 8);
SIZE(nb_guard, 16);
AT(nb_guard, guard, 8);
SIZE(nb_relay, 16);
AT(nb_relay, relay, 8);

/* An action whose fields have different numbers: if one stood elsewhere in the library, another number would be here.
 */
int main(void)
{
    nb_object_id object = begin();
    nb_object_info info;
    nb_gone gone;
    HOLDS((nb_version() & ~NB_UNPROVED) == NB_VERSION);
    HOLDS(object.number == 3 && object.interface == NB_QUAD && object.serial != 0);
    HOLDS(nb_same_client(&object.client, &client));
    OK(nb_server_object_info(&server, &object, &info));
    HOLDS(info.number == 3 && info.interface == NB_QUAD && info.version == 3);
    put(3, NB_QUAD_REQUEST_GIVE, "sa", "text", "array", 5);
    put(3, NB_QUAD_REQUEST_MAKE, "u", 4);
    put(3, NB_QUAD_REQUEST_LINK, "uu", 0, 3);
    descriptors[0] = 61;
    OK(arrive(descriptors, 1));
    memset(&action, 0xee, sizeof action);
    memset(arguments, 0xee, sizeof arguments);
    OK(next_action());
    HOLDS(action.kind == NB_REQUEST && action.opcode == NB_QUAD_REQUEST_GIVE && action.arguments == 3 &&
          action.is_destructor == 0);
    HOLDS(nb_same_object(&action.sender, &object) && action.data == 77 && nb_is_null(&action.created) &&
          action.version == 0);
    HOLDS(action.bytes == 16 && action.forbidden_null == 0);
    HOLDS(arguments[0].kind == NB_STRING && arguments[0].at == 0 && arguments[0].length == 4 &&
          strcmp((const char *)bytes, "text") == 0);
    HOLDS(arguments[1].kind == NB_ARRAY && arguments[1].at == 8 && arguments[1].length == 5 &&
          memcmp(bytes + 8, "array\0\0\0", 8) == 0);
    HOLDS(arguments[2].kind == NB_DESCRIPTOR && arguments[2].value == 61);
    OK(nb_server_finish_request(&server, &client));
    OK(next_action());
    uint32_t is_kept = 7;
    HOLDS(action.opcode == NB_QUAD_REQUEST_MAKE && action.created.number == 4 && action.version == 3 &&
          action.arguments == 1);
    HOLDS(arguments[0].kind == NB_NEW_ID && nb_same_object(&arguments[0].object, &action.created) &&
          arguments[0].data == 0);
    OK(nb_server_finish_request_with(&server, &client, 78, &is_kept));
    HOLDS(is_kept == 1);
    OK(next_action());
    HOLDS(action.opcode == NB_QUAD_REQUEST_LINK && arguments[0].kind == NB_OBJECT && nb_is_null(&arguments[0].object) &&
          arguments[0].data == 0);
    HOLDS(arguments[1].kind == NB_OBJECT && nb_same_object(&arguments[1].object, &object) && arguments[1].data == 77);
    OK(nb_server_finish_request(&server, &client));
    OK(nb_server_kill_client(&server, &client));
    OK(nb_server_cleanup(&server));
    OK(nb_server_next_gone(&server, &gone, bytes, sizeof bytes, descriptors, NB_MOST_DESCRIPTORS));
    HOLDS(nb_same_client(&gone.client, &client) && gone.data == 5 && gone.waiting.bytes == 0 &&
          gone.waiting.descriptors == 0);
    OK(nb_server_end(&server));
    return tell();
}
