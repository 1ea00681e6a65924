/* Faults for guard.c to find, each by its name in GUARD_FAULT: calls of the library that do something else. They are
 * linked by -Wl,--wrap=nb_policy_refuse and so on. */
#include <numbyroga.h>
#include <stdlib.h>
#include <string.h>

/* The word before a call's name is __real_ for the library's and __wrap_ for the one that stands here. */
#define RULE(word)                                                                                                     \
    word##nb_policy_refuse(nb_policy *place, const uint8_t *interface, size_t interface_length,                        \
                           const uint8_t *request, size_t request_length)
#define IGNORE(word)                                                                                                   \
    word##nb_policy_ignore(nb_policy *place, const uint8_t *interface, size_t interface_length,                        \
                           const uint8_t *request, size_t request_length)
#define ALLOW(word)                                                                                                    \
    word##nb_policy_allow(nb_policy *place, const uint8_t *interface, size_t interface_length, uint32_t version)
#define TO_SEND(word)                                                                                                  \
    word##nb_guard_to_send(nb_guard *place, uint32_t side, uint8_t *bytes, size_t byte_room, int32_t *descriptors,     \
                           size_t descriptor_room, nb_counts *counts)
#define RELEASED(word)  word##nb_guard_next_released(nb_guard *place, int32_t *descriptor)
#define HOW_ENDED(word) word##nb_guard_how_ended(nb_guard *place, nb_end *end)

nb_status RULE(__real_);
nb_status RULE(__wrap_);
nb_status IGNORE(__real_);
nb_status IGNORE(__wrap_);
nb_status ALLOW(__real_);
nb_status ALLOW(__wrap_);
nb_status TO_SEND(__real_);
nb_status TO_SEND(__wrap_);
nb_status RELEASED(__real_);
nb_status RELEASED(__wrap_);
nb_status HOW_ENDED(__real_);
nb_status HOW_ENDED(__wrap_);

static int is_planted(const char *fault)
{
    const char *planted = getenv("GUARD_FAULT");
    return planted && strcmp(planted, fault) == 0;
}

/* `refuse`: a refused request goes on. */
nb_status RULE(__wrap_)
{
    if (is_planted("refuse"))
        return NB_OK;
    return __real_nb_policy_refuse(place, interface, interface_length, request, request_length);
}

/* `ignore`: so does an ignored one. `end`: it ends the connection. */
nb_status IGNORE(__wrap_)
{
    if (is_planted("ignore"))
        return NB_OK;
    if (is_planted("end"))
        return __real_nb_policy_refuse(place, interface, interface_length, request, request_length);
    return __real_nb_policy_ignore(place, interface, interface_length, request, request_length);
}

/* `allow`: one version more than is allowed, where there is one. */
nb_status ALLOW(__wrap_)
{
    if (is_planted("allow") && __real_nb_policy_allow(place, interface, interface_length, version + 1) == NB_OK)
        return NB_OK;
    return __real_nb_policy_allow(place, interface, interface_length, version);
}

/* `byte`: the last byte for the server is another. `twice`: a descriptor goes to it twice. `late`: none goes with the
 * bytes. */
nb_status TO_SEND(__wrap_)
{
    const nb_status status =
        __real_nb_guard_to_send(place, side, bytes, byte_room, descriptors, descriptor_room, counts);
    if (status != NB_OK || side != NB_SERVER_SIDE || counts->bytes == 0)
        return status;
    if (is_planted("byte"))
        bytes[counts->bytes - 1] ^= 1;
    if (counts->descriptors > 1 && is_planted("twice"))
        descriptors[1] = descriptors[0];
    if (is_planted("late"))
        counts->descriptors = 0;
    return status;
}

/* `lost`: those that do not go on stay open. */
nb_status RELEASED(__wrap_)
{
    return is_planted("lost") ? NB_WOULD_BLOCK : __real_nb_guard_next_released(place, descriptor);
}

/* `life`: nobody hears that the connection has ended. */
nb_status HOW_ENDED(__wrap_)
{
    return is_planted("life") ? NB_OK : __real_nb_guard_how_ended(place, end);
}
