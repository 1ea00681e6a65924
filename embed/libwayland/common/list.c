/* Lists and arrays of wayland-util.h, which both libraries export. They touch what the caller names, and the heap. */
#include "common.h"
#include <string.h>

EXPORT void wl_list_init(struct wl_list *list)
{
    list->next = list;
    list->prev = list;
}

EXPORT void wl_list_insert(struct wl_list *list, struct wl_list *element)
{
    struct wl_list *after = list->next;
    element->prev = list;
    element->next = after;
    after->prev = element;
    list->next = element;
}

/* A second removal would write where the list no longer is: with null pointers it fails at once instead. */
EXPORT void wl_list_remove(struct wl_list *element)
{
    struct wl_list *before = element->prev, *after = element->next;
    before->next = after;
    after->prev = before;
    element->prev = NULL;
    element->next = NULL;
}

EXPORT int wl_list_length(const struct wl_list *list)
{
    int length = 0;
    for (const struct wl_list *element = list->next; element != list; element = element->next)
        length++;
    return length;
}

EXPORT int wl_list_empty(const struct wl_list *list)
{
    return list == list->next;
}

EXPORT void wl_list_insert_list(struct wl_list *list, struct wl_list *other)
{
    struct wl_list *after = list->next;
    if (wl_list_empty(other))
        return;
    list->next = other->next;
    other->next->prev = list;
    after->prev = other->prev;
    other->prev->next = after;
}

EXPORT void wl_array_init(struct wl_array *array)
{
    memset(array, 0, sizeof *array);
}

/* No heap hands out the address that is left: to free it again, or to read there, fails at once. */
EXPORT void wl_array_release(struct wl_array *array)
{
    free(array->data);
    array->data = (void *)4;
}

EXPORT void *wl_array_add(struct wl_array *array, size_t size)
{
    size_t room = array->alloc > 0 ? array->alloc : 16;
    if (size > SIZE_MAX / 2 - array->size)
        return NULL;
    while (room < array->size + size)
        room *= 2;
    if (room > array->alloc) {
        void *grown = array->alloc > 0 ? realloc(array->data, room) : malloc(room);
        if (!grown)
            return NULL;
        array->data = grown;
        array->alloc = room;
    }
    void *added = (char *)array->data + array->size;
    array->size += size;
    return added;
}

EXPORT int wl_array_copy(struct wl_array *array, struct wl_array *source)
{
    if (source->size > array->size && !wl_array_add(array, source->size - array->size))
        return -1;
    array->size = source->size;
    if (source->size > 0)
        memcpy(array->data, source->data, source->size);
    return 0;
}
