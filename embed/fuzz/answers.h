/* All that the library answers in a run of a target, as one number: two libraries that answer the same have the same.
 * Structs have unused bytes, so fields are seen one by one. */
#ifndef ANSWERS_H
#define ANSWERS_H

#include <numbyroga.h>

extern uint64_t answers;

/* The hash FNV-1a. */
static inline void saw_bytes(const void *bytes, size_t length)
{
    for (size_t i = 0; i < length; i++)
        answers = (answers ^ ((const uint8_t *)bytes)[i]) * 1099511628211u;
}

static inline void saw(uint64_t number)
{
    saw_bytes(&number, sizeof number);
}

static inline void saw_client(const nb_client_id *id)
{
    saw(id->serial);
    saw(id->slot);
}

static inline void saw_object(const nb_object_id *id)
{
    saw(id->serial);
    saw_client(&id->client);
    saw(id->interface);
    saw(id->number);
}

static inline void saw_global(const nb_global_id *id)
{
    saw(id->serial);
    saw(id->name);
}

static inline void saw_arguments(const nb_argument *arguments, uint32_t count)
{
    for (uint32_t i = 0; i < count; i++) {
        saw(arguments[i].kind);
        saw((uint64_t)arguments[i].value);
        saw(arguments[i].at);
        saw(arguments[i].length);
        saw_object(&arguments[i].object);
        saw(arguments[i].data);
    }
}

#endif
