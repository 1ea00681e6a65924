/* Black-box tests of lists, arrays and signals. */
#include "world.h"

static void show_list(const struct wl_list *list, const struct wl_list *elements)
{
    printf("  %d elements, %s:", wl_list_length(list), wl_list_empty(list) ? "empty" : "not empty");
    for (const struct wl_list *it = list->next; it != list; it = it->next)
        printf(" %d", (int)(it - elements));
    printf("\n");
}

static void lists(int which)
{
    struct wl_list one, other, elements[5];
    (void)which;
    wl_list_init(&one);
    wl_list_init(&other);
    show_list(&one, elements);
    for (int i = 0; i < 5; i++)
        wl_list_insert(i < 2 ? &one : &other, &elements[i]);
    show_list(&one, elements);
    wl_list_insert_list(&one, &other);
    show_list(&one, elements);
    wl_list_init(&other);
    wl_list_insert_list(one.prev, &other);
    show_list(&one, elements);
    wl_list_insert_list(elements[0].prev, &other);
    wl_list_remove(&elements[3]);
    show_list(&one, elements);
    printf("  removed: %s %s\n", elements[3].next ? "next" : "null", elements[3].prev ? "previous" : "null");
}

static void arrays(int which)
{
    struct wl_array array, copy;
    (void)which;
    wl_array_init(&array);
    printf("  %zu of %zu at %p\n", array.size, array.alloc, array.data);
    for (int i = 0; i < 40; i++) {
        char *added = wl_array_add(&array, 3);
        memcpy(added, "abc", 3);
        if (i % 6 == 0)
            printf("  %zu of %zu, added at %td\n", array.size, array.alloc, added - (char *)array.data);
    }
    wl_array_init(&copy);
    printf("  copied %d: %zu, %s\n", wl_array_copy(&copy, &array), copy.size,
           memcmp(copy.data, array.data, copy.size) == 0 ? "equal" : "not equal");
    array.size = 5;
    printf("  copied %d: %zu\n", wl_array_copy(&copy, &array), copy.size);
    printf("  nothing added at %td of %zu\n", (char *)wl_array_add(&array, 0) - (char *)array.data, array.size);
    alarm(3); /* it may never come back */
    printf("  too much: %s\n", wl_array_add(&array, SIZE_MAX / 2) ? "taken" : "refused");
    wl_array_release(&array);
    printf("  released: %p\n", array.data);
    wl_array_release(&copy);
}

static struct wl_signal rung;
static struct wl_listener *victim;

static void remove_some(struct wl_listener *listener, void *data)
{
    (void)data;
    printf("  listener that removes\n");
    wl_list_remove(&listener->link);
    wl_list_init(&listener->link);
    wl_list_remove(&victim->link);
    wl_list_init(&victim->link);
    wl_signal_add(&rung, named("added"));
}

static void ring_again(struct wl_listener *listener, void *data)
{
    printf("  listener that rings again\n");
    wl_list_remove(&listener->link);
    wl_list_init(&listener->link);
    wl_signal_emit_mutable(&rung, data);
}

static void signals(int which)
{
    struct wl_listener remover = { .notify = which == 0 ? remove_some : ring_again };
    wl_signal_init(&rung);
    wl_signal_emit_mutable(&rung, NULL);
    wl_signal_add(&rung, named("first"));
    wl_signal_add(&rung, &remover);
    victim = named("third");
    wl_signal_add(&rung, victim);
    wl_signal_add(&rung, named("fourth"));
    printf("  found: %s\n", wl_signal_get(&rung, remover.notify) == &remover ? "yes" : "no");
    wl_signal_emit_mutable(&rung, NULL);
    printf("  again\n");
    wl_signal_emit_mutable(&rung, NULL);
    printf("  by the inline one\n");
    wl_signal_emit(&rung, NULL);
}

const struct test util_tests[] = {
    { "lists", lists, 0 }, { "arrays", arrays, 0 }, { "signals", signals, 0 }, { "signals", signals, 1 }, { 0 }
};
