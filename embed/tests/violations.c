/* How a client broke the protocol, which a server's session tells when it has killed the client for a message. */
#include "tests.h"

/* Whether it is told so: what was wrong with which message, and the values of that. */
static int is_told(uint32_t kind, uint32_t sender, uint32_t interface, uint32_t opcode, uint32_t argument,
                   uint32_t number, uint32_t wanted, uint32_t found)
{
    nb_violation told = { 0 };
    return nb_server_violation(&server, &client, &told) == NB_OK && told.kind == kind && told.sender == sender &&
           told.interface == interface && told.opcode == opcode && told.argument == argument &&
           told.number == number && told.wanted == wanted && told.found == found;
}

/* What was put arrives, and kills the client. */
static void refused(nb_status wanted, const int32_t *with, size_t count)
{
    nb_violation none;
    IS(nb_server_violation(&server, &client, &none), NB_INVALID_ID);
    OK(arrive(with, count));
    IS(next_action(), wanted);
}

/* It is told until the cleanup takes the client out. */
static void gone(void)
{
    nb_violation none;
    OK(nb_server_violation(&server, &client, &none));
    OK(nb_server_cleanup(&server));
    IS(nb_server_violation(&server, &client, &none), NB_INVALID_ID);
    OK(nb_server_end(&server));
}

static void malformed(void)
{
    const int32_t one[] = { 70 };
    begin();
    put(42, 1, "");
    refused(NB_PROTOCOL_ERROR, NULL, 0);
    HOLDS(is_told(NB_VIOLATION_UNKNOWN_SENDER, 42, NB_INTERFACE_ANY, 1, 0, 0, 0, 0));
    gone();
    begin();
    put(3, 33, "");
    refused(NB_PROTOCOL_ERROR, NULL, 0);
    HOLDS(is_told(NB_VIOLATION_UNKNOWN_OPCODE, 3, NB_QUAD, 33, 0, 0, 0, 0));
    gone();
    begin();
    put_word(3);
    put_word(4 << 16);
    refused(NB_PROTOCOL_ERROR, NULL, 0);
    HOLDS(is_told(NB_VIOLATION_SHORT_HEADER, 3, NB_QUAD, 0, 0, 0, 0, 0));
    gone();
    begin();
    put(3, NB_QUAD_REQUEST_LINK, "u", 0);
    refused(NB_PROTOCOL_ERROR, NULL, 0);
    HOLDS(is_told(NB_VIOLATION_MISSING_BYTES, 3, NB_QUAD, NB_QUAD_REQUEST_LINK, 1, 0, 0, 0));
    gone();
    begin();
    put(3, NB_QUAD_REQUEST_GIVE, "uuu", 3, 0x636261, 0); /* `abc` without a zero, and no bytes */
    refused(NB_PROTOCOL_ERROR, one, 1);
    HOLDS(is_told(NB_VIOLATION_UNENDED_STRING, 3, NB_QUAD, NB_QUAD_REQUEST_GIVE, 0, 0, 0, 0));
    gone();
}

/* The request that the object lacks, which is of version 1. */
static void later(void)
{
    nb_object_id object;
    begin();
    OK(nb_server_create_object(&server, &client, NB_QUAD, 1, 1, 0, &object));
    put(object.number, NB_QUAD_REQUEST_MAKE, "u", 4);
    refused(NB_CLOSED, NULL, 0);
    HOLDS(is_told(NB_VIOLATION_SINCE_LATER, object.number, NB_QUAD, NB_QUAD_REQUEST_MAKE, 0, 0, 2, 1));
    gone();
}

static void binds(void)
{
    begin();
    put(2, 0, "usuu", 9, "quad", 3, 4);
    refused(NB_CLOSED, NULL, 0);
    HOLDS(is_told(NB_VIOLATION_REFUSED_BIND, 2, NB_INTERFACE_REGISTRY, 0, 0, 9, 3, 0));
    gone();
    begin();
    put(2, 0, "u0uu", 1, 3, 4);
    refused(NB_CLOSED, NULL, 0);
    HOLDS(is_told(NB_VIOLATION_NULL_NAME, 2, NB_INTERFACE_REGISTRY, 0, 0, 1, 3, 0));
    gone();
    begin();
    put(2, 0, "usuu", 1, "quad", 3, 9);
    refused(NB_CLOSED, NULL, 0);
    HOLDS(is_told(NB_VIOLATION_INVALID_NEW_ID, 2, NB_INTERFACE_REGISTRY, 0, 3, 9, 0, 0));
    gone();
}

static void objects(void)
{
    begin();
    put(3, NB_QUAD_REQUEST_LINK, "uu", 0, 9);
    refused(NB_CLOSED, NULL, 0);
    HOLDS(is_told(NB_VIOLATION_UNKNOWN_ID, 3, NB_QUAD, NB_QUAD_REQUEST_LINK, 1, 9, 0, 0));
    gone();
    begin();
    put(3, NB_QUAD_REQUEST_LINK, "uu", 2, 3);
    refused(NB_CLOSED, NULL, 0);
    HOLDS(is_told(NB_VIOLATION_WRONG_INTERFACE, 3, NB_QUAD, NB_QUAD_REQUEST_LINK, 0, 2, NB_QUAD,
                  NB_INTERFACE_REGISTRY));
    gone();
    begin();
    put(3, NB_QUAD_REQUEST_LINK, "uu", 3, 0);
    refused(NB_CLOSED, NULL, 0);
    HOLDS(is_told(NB_VIOLATION_NULL_OBJECT, 3, NB_QUAD, NB_QUAD_REQUEST_LINK, 1, 0, 0, 0));
    gone();
}

/* A new object above the limit of objects. */
static void above_the_limit(void)
{
    begin();
    OK(nb_server_set_object_limit(&server, 3));
    put(3, NB_QUAD_REQUEST_MAKE, "u", 4);
    refused(NB_CLOSED, NULL, 0);
    HOLDS(is_told(NB_VIOLATION_TOO_MANY_OBJECTS, 3, NB_QUAD, NB_QUAD_REQUEST_MAKE, 0, 0, 3, 0));
    gone();
}

/* Of a client that ends in another way nothing is told. */
static void others(void)
{
    nb_violation none;
    begin();
    OK(nb_server_kill_client(&server, &client));
    IS(nb_server_violation(&server, &client, &none), NB_INVALID_ID);
    OK(nb_server_end(&server));
    begin();
    OK(nb_server_received_end(&server, &client));
    IS(next_action(), NB_CLOSED);
    IS(nb_server_violation(&server, &client, &none), NB_INVALID_ID);
    OK(nb_server_end(&server));
}

int main(void)
{
    malformed();
    later();
    binds();
    objects();
    above_the_limit();
    others();
    return tell();
}
