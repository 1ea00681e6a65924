/* libwayland-server, as a compositor uses it: resources with implementations, and the display's own event loop. */
#define _GNU_SOURCE
#include "bench.h"
#include <stdint.h>
#include <stdlib.h>
#include <unistd.h>
#include <wayland-server-core.h>

extern const struct wl_interface wl_compositor_interface, wl_output_interface, wl_shm_interface, wl_surface_interface,
    wl_region_interface, wl_shm_pool_interface;

static struct wl_display *display;
static struct wl_client *clients[MOST_CLIENTS];
static struct wl_resource *outputs[MOST_CLIENTS];
static int client_count, is_over;

typedef void (*request)(void);

static void destroy(struct wl_client *client, struct wl_resource *self)
{
    (void)client;
    handled++;
    wl_resource_destroy(self);
}

static void damage(struct wl_client *client, struct wl_resource *self, int32_t x, int32_t y, int32_t width,
                   int32_t height)
{
    (void)client, (void)self, (void)x, (void)y, (void)width, (void)height;
    handled++;
}

/* Only the requests of the load have an implementation. */
static const request surface_requests[16] = { (request)destroy, NULL, (request)damage };
static const request region_requests[16] = { (request)destroy };
static const request pool_requests[16] = { NULL, (request)destroy };

static void make(struct wl_client *client, struct wl_resource *self, const struct wl_interface *interface,
                 const request *requests, uint32_t id)
{
    handled++;
    wl_resource_set_implementation(wl_resource_create(client, interface, wl_resource_get_version(self), id), requests,
                                   NULL, NULL);
}

static void create_surface(struct wl_client *client, struct wl_resource *self, uint32_t id)
{
    make(client, self, &wl_surface_interface, surface_requests, id);
}

static void create_region(struct wl_client *client, struct wl_resource *self, uint32_t id)
{
    make(client, self, &wl_region_interface, region_requests, id);
}

static void create_pool(struct wl_client *client, struct wl_resource *self, uint32_t id, int32_t file, int32_t size)
{
    (void)size;
    close(file);
    make(client, self, &wl_shm_pool_interface, pool_requests, id);
}

static const request compositor_requests[4] = { (request)create_surface, (request)create_region };
static const request shm_requests[4] = { (request)create_pool };
static const request output_requests[4] = { (request)destroy };

static void bind_global(struct wl_client *client, void *data, uint32_t version, uint32_t id)
{
    const struct wl_interface *interface = data;
    struct wl_resource *resource = wl_resource_create(client, interface, (int)version, id);
    wl_resource_set_implementation(resource,
                                   interface == &wl_compositor_interface ? compositor_requests
                                   : interface == &wl_shm_interface      ? shm_requests
                                                                         : output_requests,
                                   NULL, NULL);
    for (int i = 0; interface == &wl_output_interface && i < client_count; i++)
        if (clients[i] == client)
            outputs[i] = resource;
}

static int control_is_ready(int control, uint32_t mask, void *data)
{
    (void)control, (void)mask, (void)data;
    is_over = on_control();
    return 0;
}

static void serve(const int *sockets, int count, int control)
{
    display = wl_display_create();
    wl_global_create(display, &wl_compositor_interface, 4, (void *)&wl_compositor_interface, bind_global);
    wl_global_create(display, &wl_output_interface, 3, (void *)&wl_output_interface, bind_global);
    wl_global_create(display, &wl_shm_interface, 1, (void *)&wl_shm_interface, bind_global);
    wl_event_loop_add_fd(wl_display_get_event_loop(display), control, WL_EVENT_READABLE, control_is_ready, NULL);
    client_count = count;
    for (int i = 0; i < count; i++)
        clients[i] = wl_client_create(display, sockets[i]);
    while (!is_over) {
        wl_event_loop_dispatch(wl_display_get_event_loop(display), -1);
        wl_display_flush_clients(display);
    }
}

static void send_events(int each)
{
    for (int i = 0; i < client_count; i++)
        for (int k = 0; k < each; k++)
            wl_resource_post_event(outputs[i], 3, 2);
}

const struct server libwayland = { "libwayland", serve, send_events };
