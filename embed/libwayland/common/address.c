/* Where a server listens. It asks the environment. */
#include "common.h"
#include <errno.h>
#include <stdio.h>

bool find_address(struct sockaddr_un *address, const char *name, const char *stop)
{
    const size_t room = sizeof address->sun_path;
    const char *folder = getenv("XDG_RUNTIME_DIR"), *between = "/";
    *address = (struct sockaddr_un){ .sun_family = AF_UNIX };
    if (!name)
        name = getenv("WAYLAND_DISPLAY");
    if (!name)
        name = "wayland-0";
    if (name[0] == '/')
        folder = between = "";
    else if (!folder || folder[0] != '/') {
        log_line("error: XDG_RUNTIME_DIR is invalid or not set in the environment%s\n", stop);
        errno = ENOENT;
        return false;
    }
    if ((size_t)snprintf(address->sun_path, room, "%s%s%s", folder, between, name) < room)
        return true;
    log_line("error: socket path \"%s%s%s\" plus null terminator exceeds %zu bytes\n", folder, between, name, room);
    errno = ENAMETOOLONG;
    return false;
}
