/* A fault for corpus.c, talk.c and beside.c to find, linked by -Wl,--wrap=nb_server_to_send: the last byte that is to
 * be sent is another. */
#include <numbyroga.h>

nb_status __real_nb_server_to_send(nb_server *place, const nb_client_id *client, uint8_t *bytes, size_t byte_room,
                                   int32_t *descriptors, size_t descriptor_room, nb_counts *counts);
nb_status __wrap_nb_server_to_send(nb_server *place, const nb_client_id *client, uint8_t *bytes, size_t byte_room,
                                   int32_t *descriptors, size_t descriptor_room, nb_counts *counts);

nb_status __wrap_nb_server_to_send(nb_server *place, const nb_client_id *client, uint8_t *bytes, size_t byte_room,
                                   int32_t *descriptors, size_t descriptor_room, nb_counts *counts)
{
    nb_status status = __real_nb_server_to_send(place, client, bytes, byte_room, descriptors, descriptor_room, counts);
    if (status == NB_OK && counts->bytes > 0)
        bytes[counts->bytes - 1] ^= 1;
    return status;
}
