/* Black-box tests of wl_shm. */
#include "world.h"

enum { SIZE = 4096 };

static struct wl_resource *buffer_resource;

static void remember(struct wl_listener *listener, void *data)
{
    (void)listener;
    if (strcmp(wl_resource_get_class(data), "wl_buffer") == 0)
        buffer_resource = data;
    printf("  created %s@%u version %d\n", wl_resource_get_class(data), wl_resource_get_id(data),
           wl_resource_get_version(data));
}

/* A client with wl_shm as 3, and a pool of SIZE bytes as 4. Answers the file. */
static int begin_with_pool(bool has_pool)
{
    static struct wl_listener listener = { .notify = remember };
    int file = memfd_create("pool", MFD_ALLOW_SEALING);
    begin();
    printf("  init: %d\n", wl_display_init_shm(display));
    *wl_display_add_shm_format(display, 0x36314752) = 0x36314752;
    get_registry(2);
    bind_global(2, 2, "wl_shm", 1, 3);
    turn();
    wl_client_add_resource_created_listener(client, &listener);
    if (ftruncate(file, SIZE) < 0)
        exit(9);
    if (has_pool) {
        request(3, 0, "whw", 4, file, SIZE);
        turn();
    }
    return file;
}

static void create_buffer(uint32_t id, int offset, int width, int height, int stride, uint32_t format)
{
    request(4, 0, "wwwwww", id, offset, width, height, stride, format);
}

static void show_buffer(void)
{
    struct wl_shm_buffer *buffer = wl_shm_buffer_get(buffer_resource);
    if (!buffer) {
        printf("  no buffer\n");
        return;
    }
    printf("  %dx%d stride %d format %u\n", wl_shm_buffer_get_width(buffer), wl_shm_buffer_get_height(buffer),
           wl_shm_buffer_get_stride(buffer), wl_shm_buffer_get_format(buffer));
}

static void buffers(int which)
{
    (void)which;
    int file = begin_with_pool(true);
    pwrite(file, "pixels", 6, 16);
    create_buffer(5, 16, 4, 2, 16, WL_SHM_FORMAT_XRGB8888);
    turn();
    show_buffer();
    struct wl_shm_buffer *buffer = wl_shm_buffer_get(buffer_resource);
    wl_shm_buffer_begin_access(buffer);
    printf("  %.6s\n", (const char *)wl_shm_buffer_get_data(buffer));
    memcpy(wl_shm_buffer_get_data(buffer), "PIX", 3);
    wl_shm_buffer_end_access(buffer);
    char read[7] = "";
    pread(file, read, 6, 16);
    printf("  the client reads %s\n", read);
    printf("  not a buffer: %d\n", wl_shm_buffer_get(wl_client_get_object(client, 4)) == NULL);
    create_buffer(6, 0, 1, 1, 4, 0x36314752);
    turn();
    show_buffer();
    request(5, 0, "");
    request(4, 1, ""); /* the pool: its buffers live on */
    turn();
    show_buffer();
    request(6, 0, "");
    turn();
    printf("  made without a pool: %d\n", wl_shm_buffer_create(client, 7, 1, 1, 4, 0) == NULL);
}

static void bad_pools(int which)
{
    int file = begin_with_pool(false), ends[2];
    switch (which) {
    case 0: request(3, 0, "whw", 4, file, 0); break;
    case 1: request(3, 0, "whw", 4, file, (uint32_t)-1); break;
    case 2:
        if (pipe(ends) < 0)
            exit(9);
        request(3, 0, "whw", 4, ends[0], SIZE);
        break;
    case 3: request(3, 0, "whw", 4, open("/dev/null", O_RDONLY), SIZE); break;
    case 4: request(3, 0, "whw", 9, file, SIZE); break;
    }
    turn();
    show();
}

static void bad_buffers(int which)
{
    begin_with_pool(true);
    switch (which) {
    case 0: create_buffer(5, 0, 1, 1, 4, 999); break;
    case 1: create_buffer(5, -4, 1, 1, 4, 0); break;
    case 2: create_buffer(5, 0, 0, 1, 4, 0); break;
    case 3: create_buffer(5, 0, 1, 0, 4, 0); break;
    case 4: create_buffer(5, 0, -1, 1, 4, 0); break;
    case 5: create_buffer(5, 0, 8, 1, 4, 0); break;               /* the stride is below the width */
    case 6: create_buffer(5, 0, 1, 1025, 4, 0); break;            /* beyond the pool */
    case 7: create_buffer(5, 4093, 1, 1, 4, 0); break;
    case 8: create_buffer(5, 4092, 1, 1, 4, 0); break;            /* just fits */
    case 9: create_buffer(5, 0, 65536, 65536, 65536, 0); break;   /* overflows */
    case 10: create_buffer(5, 0, 1, 1, 0, 0); break;
    case 11: create_buffer(5, 0x7fffffff, 1, 1, 4, 0); break;
    }
    turn();
    show();
}

static void resizes(int which)
{
    int file = begin_with_pool(true);
    create_buffer(5, 0, 1, 1, 4, 0);
    turn();
    switch (which) {
    case 0: request(4, 2, "w", SIZE - 1); break;
    case 1: request(4, 2, "w", (uint32_t)-1); break;
    case 2: request(4, 2, "w", SIZE); break;
    case 3:
        if (ftruncate(file, 4 * SIZE) < 0)
            exit(9);
        request(4, 2, "w", 4 * SIZE);
        create_buffer(6, 3 * SIZE, 8, 8, 32, 0);
        break;
    }
    turn();
    if (which > 1) /* else its client has ended */
        show_buffer();
    show();
}

/* While the program uses a pool its mapping stays, also when the client has let it go. */
static void uses(int which)
{
    int file = begin_with_pool(true);
    create_buffer(5, 0, 1, 1, 4, 0);
    turn();
    struct wl_shm_buffer *buffer = wl_shm_buffer_get(buffer_resource);
    struct wl_shm_pool *pool = wl_shm_buffer_ref_pool(buffer);
    char *data = wl_shm_buffer_get_data(buffer);
    pwrite(file, "stays", 6, 0);
    if (which == 0) {
        if (ftruncate(file, 100 * SIZE) < 0)
            exit(9);
        request(4, 2, "w", 100 * SIZE);
        turn();
        printf("  it stays where it is: %d\n", wl_shm_buffer_get_data(buffer) == data);
    } else {
        request(5, 0, "");
        request(4, 1, "");
        turn();
        wl_client_destroy(client);
    }
    printf("  %s\n", data);
    wl_shm_pool_unref(pool);
    if (which == 0) {
        create_buffer(6, 99 * SIZE, 8, 8, 32, 0);
        turn();
    }
}

/* The client makes its file shorter than the pool. */
static void shrinks(int which)
{
    int file = begin_with_pool(true);
    create_buffer(5, 0, 16, 16, 64, 0);
    turn();
    pwrite(file, "pixels", 6, 0);
    if (which == 2)
        fcntl(file, F_ADD_SEALS, F_SEAL_SHRINK);
    struct wl_shm_buffer *buffer = wl_shm_buffer_get(buffer_resource);
    if (ftruncate(file, 0) < 0)
        printf("  it cannot\n");
    if (which != 1)
        wl_shm_buffer_begin_access(buffer);
    wl_shm_buffer_begin_access(buffer);
    volatile const char *data = wl_shm_buffer_get_data(buffer);
    printf("  reads %d\n", data[0]);
    wl_shm_buffer_end_access(buffer);
    if (which != 1)
        wl_shm_buffer_end_access(buffer);
    turn();
    request(1, 0, "w", 6);
    turn();
    show();
}

static void unguarded(int which)
{
    int file = begin_with_pool(true);
    create_buffer(5, 0, 16, 16, 64, 0);
    turn();
    struct wl_shm_buffer *buffer = wl_shm_buffer_get(buffer_resource);
    if (which == 1) {
        wl_shm_buffer_begin_access(buffer);
        wl_shm_buffer_end_access(buffer);
    }
    if (ftruncate(file, 0) < 0)
        exit(9);
    printf("  reads %d\n", *(volatile const char *)wl_shm_buffer_get_data(buffer));
}

static void sealed(int which)
{
    int file = begin_with_pool(false);
    (void)which;
    fcntl(file, F_ADD_SEALS, F_SEAL_SHRINK);
    request(3, 0, "whw", 4, file, SIZE);
    create_buffer(5, 0, 16, 16, 64, 0);
    turn();
    struct wl_shm_buffer *buffer = wl_shm_buffer_get(buffer_resource);
    wl_shm_buffer_begin_access(buffer);
    printf("  reads %d\n", *(volatile const char *)wl_shm_buffer_get_data(buffer));
    wl_shm_buffer_end_access(buffer);
    turn();
}

const struct test shm_tests[] = {
    { "shm-buffers", buffers, 0 },   { "shm-bad-pool", bad_pools, 0 },     { "shm-bad-pool", bad_pools, 1 },
    { "shm-bad-pool", bad_pools, 2 }, { "shm-bad-pool", bad_pools, 3 },    { "shm-bad-pool", bad_pools, 4 },
    { "shm-bad-buffer", bad_buffers, 0 },  { "shm-bad-buffer", bad_buffers, 1 },  { "shm-bad-buffer", bad_buffers, 2 },
    { "shm-bad-buffer", bad_buffers, 3 },  { "shm-bad-buffer", bad_buffers, 4 },  { "shm-bad-buffer", bad_buffers, 5 },
    { "shm-bad-buffer", bad_buffers, 6 },  { "shm-bad-buffer", bad_buffers, 7 },  { "shm-bad-buffer", bad_buffers, 8 },
    { "shm-bad-buffer", bad_buffers, 9 },  { "shm-bad-buffer", bad_buffers, 10 }, { "shm-bad-buffer", bad_buffers, 11 },
    { "shm-resize", resizes, 0 },    { "shm-resize", resizes, 1 },         { "shm-resize", resizes, 2 },
    { "shm-resize", resizes, 3 },    { "shm-uses", uses, 0 },              { "shm-uses", uses, 1 },
    { "shm-shrinks", shrinks, 0 },   { "shm-shrinks", shrinks, 1 },        { "shm-shrinks", shrinks, 2 },
    { "shm-unguarded", unguarded, 0 }, { "shm-unguarded", unguarded, 1 },  { "shm-sealed", sealed, 0 },
    { 0 }
};
