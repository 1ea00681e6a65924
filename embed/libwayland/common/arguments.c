/* Arguments in the two forms. It touches the heap, and duplicates or closes the descriptors among arguments. */
#include "common.h"
#include <errno.h>
#include <fcntl.h>
#include <stdio.h>
#include <string.h>
#include <unistd.h>

void arguments_from_list(const char *signature, va_list list, union wl_argument *arguments)
{
    char letter;
    bool is_nullable;
    for (uint32_t i = 0; i < MOST_ARGUMENTS && (signature = signature_next(signature, &letter, &is_nullable)); i++)
        switch (letter) {
        case 's': arguments[i].s = va_arg(list, const char *); break;
        case 'a': arguments[i].a = va_arg(list, struct wl_array *); break;
        case 'o':
        case 'n': arguments[i].o = va_arg(list, struct wl_object *); break;
        default: arguments[i].i = va_arg(list, int32_t);
        }
}

/* ======== From a session to the program */

void unpack(union wl_argument *to, const nb_argument *from, uint8_t *bytes, struct wl_array *array)
{
    switch (from->kind) {
    case NB_STRING: to->s = (const char *)bytes + from->at; break;
    case NB_ARRAY:
        *array = (struct wl_array){ from->length, 0, bytes + from->at };
        to->a = array;
        break;
    case NB_NULL_STRING: to->s = NULL; break;
    case NB_OBJECT: to->o = NULL; break;
    case NB_NEW_ID: to->n = from->object.number; break;
    default: to->i = from->value;
    }
}

void close_descriptors(const nb_argument *arguments, uint32_t count)
{
    for (uint32_t i = 0; i < count; i++)
        if (arguments[i].kind == NB_DESCRIPTOR)
            close(arguments[i].value);
}

/* ======== From the program to a session */

static bool fail(struct packed *packed, int error, const char *format, ...) WL_PRINTF(3, 4);
static bool fail(struct packed *packed, int error, const char *format, ...)
{
    va_list list;
    va_start(list, format);
    vsnprintf(packed->fault, sizeof packed->fault, format, list);
    va_end(list);
    errno = error;
    return false;
}

/* Where the next string or array goes, behind those that are there; NULL if there was no memory. */
static uint8_t *room_for(struct packed *to, size_t length)
{
    uint8_t *into = to->many ? to->many : to->few;
    if (!to->many && to->length + length > sizeof to->few)
        into = to->many = malloc(NB_MOST_BYTES);
    if (!into)
        return NULL;
    if (to->bytes != into)
        memcpy(into, to->bytes, to->length);
    to->bytes = into;
    return into + to->length;
}

/* Packs a string or an array: one that is alone is not copied. A message has its length and the zero that it ends in, if
 * it does, and is filled up to whole words. */
static bool pack_text(struct packed *to, const void *text, size_t length, bool is_string)
{
    const uint32_t at = (uint32_t)to->length;
    if (length > NB_MOST_BYTES - to->length)
        return fail(to, E2BIG, ": it is longer than a message can be");
    if (to->length == 0)
        to->bytes = text;
    else if (length > 0) {
        uint8_t *into = room_for(to, length);
        if (!into)
            return fail(to, ENOMEM, ": there is no memory");
        memcpy(into, text, length);
    }
    to->arguments[to->count] = is_string ? nb_string(at, (uint32_t)length) : nb_array(at, (uint32_t)length);
    to->length += length;
    to->size += 4 + ((length + is_string + 3) & ~(size_t)3);
    return true;
}

static bool pack_descriptor(struct packed *to, nb_argument *slot, int descriptor)
{
    int copy = fcntl(descriptor, F_DUPFD_CLOEXEC, 0);
    if (copy < 0)
        return fail(to, errno, ": dup failed: %s", strerror(errno));
    *slot = nb_descriptor(copy);
    to->descriptors++;
    return true;
}

static bool is_pointer(char letter)
{
    return letter == 's' || letter == 'o' || letter == 'n' || letter == 'a';
}

/* What is null may be so: an array is empty then. */
static bool pack_one(struct packed *to, char letter, const union wl_argument *argument)
{
    nb_argument *slot = &to->arguments[to->count];
    switch (letter) {
    case 's':
        if (argument->s)
            return pack_text(to, argument->s, strlen(argument->s), true);
        *slot = nb_null_string();
        break;
    case 'a':
        if (argument->a)
            return pack_text(to, argument->a->data, argument->a->size, false);
        *slot = nb_array(0, 0);
        break;
    case 'o': *slot = nb_object(to->id_of(argument->o)); break;
    case 'n':
        *slot = nb_new_id(to->id_of(argument->o));
        to->made = argument->o;
        break;
    case 'h': return pack_descriptor(to, slot, argument->h);
    case 'u': *slot = nb_uint(argument->u); break;
    case 'f': *slot = nb_fixed(argument->f); break;
    default: *slot = nb_int(argument->i);
    }
    to->size += 4;
    return true;
}

bool pack(struct packed *to, const char *signature, union wl_argument *arguments, struct wl_object *made,
          object_id *id_of)
{
    const char *rest = signature;
    char letter;
    bool is_nullable;
    to->id_of = id_of;
    to->made = NULL;
    to->count = to->descriptors = 0;
    to->bytes = NULL;
    to->length = 0;
    to->size = 8;
    to->fault[0] = 0;
    to->many = NULL;
    for (; to->count < MOST_ARGUMENTS && (rest = signature_next(rest, &letter, &is_nullable)); to->count++) {
        union wl_argument *argument = &arguments[to->count];
        if (letter == 'n' && made)
            argument->o = made;
        if (is_pointer(letter) && !argument->o && !is_nullable)
            return fail(to, EINVAL, " (signature %s): null value passed for arg %u", signature, to->count);
        if (!pack_one(to, letter, argument))
            return false;
    }
    return true;
}
