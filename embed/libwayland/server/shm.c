/* wl_shm: memory that clients share by files. It owns the mappings, a handler of SIGBUS, and the pools and buffers.
 *
 * A pool lives as long as one of these: its resource, a buffer in it, a use by the program (wl_shm_buffer_ref_pool). A
 * buffer lives as long as its resource, or a use by the program (wl_shm_buffer_ref). `pool_drop` and `buffer_drop` are the
 * places that free them. While the program uses a pool its mapping keeps its place: it grows afterwards.
 *
 * A client may shrink its file at any time. A program that reads between begin_access and end_access lives on: where the
 * file has nothing any more there are zeros then, and the client is told of its error. */
#include "server.h"
#include <errno.h>
#include <fcntl.h>
#include <signal.h>
#include <string.h>
#include <sys/mman.h>
#include <sys/stat.h>
#include <unistd.h>

struct wl_shm_pool {
    struct wl_resource *resource; /* NULL once it is destroyed */
    unsigned owners;              /* its resource and its buffers */
    unsigned uses;                /* by the program */
    char *data;
    size_t size, next_size;
    bool cannot_shrink; /* the file is sealed, and long enough */
};

struct wl_shm_buffer {
    struct wl_resource *resource; /* NULL once it is destroyed */
    unsigned owners;
    struct wl_shm_pool *pool;
    int32_t offset, width, height, stride;
    uint32_t format;
};

/* ======== Accesses */

/* What this thread accesses, and how often it has begun. */
static _Thread_local struct wl_shm_pool *volatile accessed;
static _Thread_local unsigned access_count;
static _Thread_local volatile sig_atomic_t was_replaced;
static struct sigaction action_before;
static bool is_caught;

static bool is_in(const struct wl_shm_pool *pool, const void *address)
{
    const uintptr_t at = (uintptr_t)address, begin = (uintptr_t)pool->data;
    return at >= begin && at - begin < pool->size;
}

/* What is not for this library is for the handler that was there before: of the program, or of another libwayland. */
static void on_bus_error(int number, siginfo_t *info, void *context)
{
    const struct wl_shm_pool *pool = accessed;
    if (pool && is_in(pool, info->si_addr) &&
        mmap(pool->data, pool->size, PROT_READ | PROT_WRITE, MAP_PRIVATE | MAP_FIXED | MAP_ANONYMOUS, -1, 0) !=
            MAP_FAILED) {
        was_replaced = 1;
    } else if (action_before.sa_flags & SA_SIGINFO) {
        action_before.sa_sigaction(number, info, context);
    } else if (action_before.sa_handler != SIG_DFL && action_before.sa_handler != SIG_IGN) {
        action_before.sa_handler(number);
    } else {
        sigaction(SIGBUS, &action_before, NULL);
        raise(number);
    }
}

static void catch_bus_errors(void)
{
    struct sigaction action = { .sa_sigaction = on_bus_error, .sa_flags = SA_SIGINFO | SA_NODEFER };
    if (is_caught)
        return;
    sigemptyset(&action.sa_mask);
    is_caught = sigaction(SIGBUS, &action, &action_before) == 0;
}

/* When the library is unloaded its code is gone, so no signal may find it. A handler that was set since then stays. */
__attribute__((destructor)) static void stop_catching(void)
{
    struct sigaction now;
    if (is_caught && sigaction(SIGBUS, NULL, &now) == 0 && now.sa_sigaction == on_bus_error)
        sigaction(SIGBUS, &action_before, NULL);
}

EXPORT void wl_shm_buffer_begin_access(struct wl_shm_buffer *buffer)
{
    struct wl_shm_pool *pool = buffer->pool;
    if (pool->cannot_shrink)
        return;
    catch_bus_errors();
    if (accessed && accessed != pool)
        log_and_abort("wl_shm_buffer_begin_access: a buffer of another pool is accessed\n");
    accessed = pool;
    access_count++;
}

EXPORT void wl_shm_buffer_end_access(struct wl_shm_buffer *buffer)
{
    struct wl_shm_pool *pool = buffer->pool;
    if (pool->cannot_shrink)
        return;
    if (accessed != pool || access_count == 0)
        log_and_abort("wl_shm_buffer_end_access: no access has begun\n");
    if (--access_count > 0)
        return;
    accessed = NULL;
    if (was_replaced && buffer->resource)
        wl_resource_post_error(buffer->resource, WL_SHM_ERROR_INVALID_FD, "error accessing SHM buffer");
    was_replaced = 0;
}

/* ======== Pools */

/* Brings the mapping to its next size, if the program does not use it. */
static void pool_settle(struct wl_shm_pool *pool)
{
    if (pool->uses > 0 || pool->next_size == pool->size)
        return;
    void *data = mremap(pool->data, pool->size, pool->next_size, MREMAP_MAYMOVE);
    if (data != MAP_FAILED) {
        pool->data = data;
        pool->size = pool->next_size;
        return;
    }
    pool->next_size = pool->size;
    if (pool->resource)
        wl_resource_post_error(pool->resource, WL_SHM_ERROR_INVALID_FD, "failed mremap");
}

static void pool_drop(struct wl_shm_pool *pool)
{
    if (pool->owners + pool->uses > 0) {
        pool_settle(pool);
        return;
    }
    munmap(pool->data, pool->size);
    free(pool);
}

EXPORT struct wl_shm_pool *wl_shm_buffer_ref_pool(struct wl_shm_buffer *buffer)
{
    buffer->pool->uses++;
    return buffer->pool;
}

EXPORT void wl_shm_pool_unref(struct wl_shm_pool *pool)
{
    pool->uses--;
    pool_drop(pool);
}

static void pool_is_destroyed(struct wl_resource *resource)
{
    struct wl_shm_pool *pool = wl_resource_get_user_data(resource);
    pool->resource = NULL;
    pool->owners--;
    pool_drop(pool);
}

/* ======== Buffers */

static void buffer_drop(struct wl_shm_buffer *buffer)
{
    struct wl_shm_pool *pool = buffer->pool;
    if (--buffer->owners > 0)
        return;
    free(buffer);
    pool->owners--;
    pool_drop(pool);
}

static void buffer_is_destroyed(struct wl_resource *resource)
{
    struct wl_shm_buffer *buffer = wl_resource_get_user_data(resource);
    buffer->resource = NULL;
    buffer_drop(buffer);
}

static void destroy(struct wl_client *client, struct wl_resource *resource)
{
    (void)client;
    wl_resource_destroy(resource);
}

static const struct wl_buffer_interface buffer_requests = { .destroy = destroy };

static bool is_offered(const struct wl_display *display, uint32_t format)
{
    const uint32_t *more = display->shm_formats.data;
    if (format == WL_SHM_FORMAT_ARGB8888 || format == WL_SHM_FORMAT_XRGB8888)
        return true;
    for (size_t i = 0; i < display->shm_formats.size / sizeof *more; i++)
        if (more[i] == format)
            return true;
    return false;
}

/* Whether a picture of this form lies in the pool. */
static bool has_room(const struct wl_shm_pool *pool, int32_t offset, int32_t width, int32_t height, int32_t stride)
{
    return offset >= 0 && width > 0 && height > 0 && stride >= width && INT32_MAX / stride >= height &&
           (int64_t)offset + (int64_t)stride * height <= (int64_t)pool->next_size;
}

static void create_buffer(struct wl_client *client, struct wl_resource *resource, uint32_t id, int32_t offset,
                          int32_t width, int32_t height, int32_t stride, uint32_t format)
{
    struct wl_shm_pool *pool = wl_resource_get_user_data(resource);
    if (!is_offered(client->display, format)) {
        wl_resource_post_error(resource, WL_SHM_ERROR_INVALID_FORMAT, "invalid format 0x%x", format);
        return;
    }
    if (!has_room(pool, offset, width, height, stride)) {
        wl_resource_post_error(resource, WL_SHM_ERROR_INVALID_STRIDE, "invalid width, height or stride (%dx%d, %u)",
                               width, height, (unsigned)stride);
        return;
    }
    struct wl_shm_buffer *buffer = calloc(1, sizeof *buffer);
    if (!buffer) {
        wl_client_post_no_memory(client);
        return;
    }
    *buffer = (struct wl_shm_buffer){ .owners = 1,
                                      .pool = pool,
                                      .offset = offset,
                                      .width = width,
                                      .height = height,
                                      .stride = stride,
                                      .format = format };
    buffer->resource = wl_resource_create(client, &wl_buffer_interface, 1, id);
    if (!buffer->resource) {
        free(buffer);
        wl_client_post_no_memory(client);
        return;
    }
    pool->owners++;
    wl_resource_set_implementation(buffer->resource, &buffer_requests, buffer, buffer_is_destroyed);
}

static void resize(struct wl_client *client, struct wl_resource *resource, int32_t size)
{
    struct wl_shm_pool *pool = wl_resource_get_user_data(resource);
    (void)client;
    if (size < 0 || (size_t)size < pool->next_size) {
        wl_resource_post_error(resource, WL_SHM_ERROR_INVALID_FD, "shrinking pool invalid");
        return;
    }
    pool->next_size = (size_t)size;
    pool->cannot_shrink = false; /* the file may be shorter than the new size */
    pool_settle(pool);
}

static const struct wl_shm_pool_interface pool_requests = { .create_buffer = create_buffer,
                                                            .destroy = destroy,
                                                            .resize = resize };

static bool is_sealed(int descriptor, size_t size)
{
    struct stat file;
    int seals = fcntl(descriptor, F_GET_SEALS);
    return seals >= 0 && (seals & F_SEAL_SHRINK) && fstat(descriptor, &file) == 0 && file.st_size >= 0 &&
           (size_t)file.st_size >= size;
}

static struct wl_shm_pool *pool_map(struct wl_client *client, struct wl_resource *resource, int descriptor, size_t size)
{
    struct wl_shm_pool *pool = calloc(1, sizeof *pool);
    if (!pool) {
        wl_client_post_no_memory(client);
        return NULL;
    }
    pool->data = mmap(NULL, size, PROT_READ | PROT_WRITE, MAP_SHARED, descriptor, 0);
    if (pool->data == MAP_FAILED) {
        wl_resource_post_error(resource, WL_SHM_ERROR_INVALID_FD, "failed mmap fd %d: %s", descriptor,
                               strerror(errno));
        free(pool);
        return NULL;
    }
    pool->size = pool->next_size = size;
    pool->owners = 1;
    pool->cannot_shrink = is_sealed(descriptor, size);
    return pool;
}

static void create_pool(struct wl_client *client, struct wl_resource *resource, uint32_t id, int32_t fd, int32_t size)
{
    struct wl_shm_pool *pool = NULL;
    if (size <= 0)
        wl_resource_post_error(resource, WL_SHM_ERROR_INVALID_STRIDE, "invalid size (%d)", size);
    else
        pool = pool_map(client, resource, fd, (size_t)size);
    close(fd);
    if (!pool)
        return;
    pool->resource = wl_resource_create(client, &wl_shm_pool_interface, 1, id);
    if (pool->resource) {
        wl_resource_set_implementation(pool->resource, &pool_requests, pool, pool_is_destroyed);
        return;
    }
    wl_client_post_no_memory(client);
    pool->owners = 0;
    pool_drop(pool);
}

#ifdef WL_SHM_RELEASE_SINCE_VERSION
enum { SHM_VERSION = WL_SHM_RELEASE_SINCE_VERSION };
static const struct wl_shm_interface shm_requests = { .create_pool = create_pool, .release = destroy };
#else
enum { SHM_VERSION = 1 };
static const struct wl_shm_interface shm_requests = { .create_pool = create_pool };
#endif

static void bind_shm(struct wl_client *client, void *data, uint32_t version, uint32_t id)
{
    const struct wl_display *display = data;
    struct wl_resource *resource = wl_resource_create(client, &wl_shm_interface, (int)version, id);
    const uint32_t *more = display->shm_formats.data;
    if (!resource) {
        wl_client_post_no_memory(client);
        return;
    }
    wl_resource_set_implementation(resource, &shm_requests, data, NULL);
    wl_shm_send_format(resource, WL_SHM_FORMAT_ARGB8888);
    wl_shm_send_format(resource, WL_SHM_FORMAT_XRGB8888);
    for (size_t i = 0; i < display->shm_formats.size / sizeof *more; i++)
        wl_shm_send_format(resource, more[i]);
}

EXPORT int wl_display_init_shm(struct wl_display *display)
{
    return wl_global_create(display, &wl_shm_interface, SHM_VERSION, display, bind_shm) ? 0 : -1;
}

/* ======== What the program asks of a buffer */

EXPORT struct wl_shm_buffer *wl_shm_buffer_get(struct wl_resource *resource)
{
    if (!resource || !wl_resource_instance_of(resource, &wl_buffer_interface, &buffer_requests))
        return NULL;
    return wl_resource_get_user_data(resource);
}

/* It stays where it is while the program uses the pool, or makes no call of the library. */
EXPORT void *wl_shm_buffer_get_data(struct wl_shm_buffer *buffer)
{
    const struct wl_shm_pool *pool = buffer->pool;
    if (pool->uses > 0 && pool->next_size != pool->size)
        log_line("Buffer address requested when its parent pool has an external reference and a deferred resize "
                 "pending.\n");
    return pool->data + buffer->offset;
}

EXPORT int32_t wl_shm_buffer_get_stride(READ_ONLY(struct wl_shm_buffer) buffer)
{
    return buffer->stride;
}

EXPORT uint32_t wl_shm_buffer_get_format(READ_ONLY(struct wl_shm_buffer) buffer)
{
    return buffer->format;
}

EXPORT int32_t wl_shm_buffer_get_width(READ_ONLY(struct wl_shm_buffer) buffer)
{
    return buffer->width;
}

EXPORT int32_t wl_shm_buffer_get_height(READ_ONLY(struct wl_shm_buffer) buffer)
{
    return buffer->height;
}

/* Since 1.24. */
EXPORT struct wl_shm_buffer *wl_shm_buffer_ref(struct wl_shm_buffer *buffer)
{
    buffer->owners++;
    return buffer;
}

EXPORT void wl_shm_buffer_unref(struct wl_shm_buffer *buffer)
{
    buffer_drop(buffer);
}

/* A buffer without a pool, from before 1.0: libwayland makes none either. */
struct wl_shm_buffer *wl_shm_buffer_create(struct wl_client *client, uint32_t id, int32_t width, int32_t height,
                                           int32_t stride, uint32_t format);
EXPORT struct wl_shm_buffer *wl_shm_buffer_create(struct wl_client *client, uint32_t id, int32_t width, int32_t height,
                                                  int32_t stride, uint32_t format)
{
    (void)client;
    (void)id;
    (void)width;
    (void)height;
    (void)stride;
    (void)format;
    return NULL;
}
