/* numbyroga-relay: a relay between Wayland clients and their compositor, which logs what they say. docs/relay.md says
 * what it does.
 *
 *   numbyroga-relay [-l LOG] [-n] [-x FILE.xml]... [-s SOCKET] [-- PROGRAM ..]
 *
 *   -l LOG       the file of the log; standard output without it
 *   -n           log only: the relay has a copy of what goes through, and changes nothing
 *   -x FILE.xml  a protocol file, in place of those whose interfaces are built in; of two versions of an interface the
 *                greater counts
 *   -s SOCKET    a path, or a name in $XDG_RUNTIME_DIR, to listen at; without it, one of its own
 *
 * With a program it starts that, behind it, and ends with its status, once no client is left. Without one it ends by a
 * signal. The compositor is that of WAYLAND_DISPLAY: the connection of WAYLAND_SOCKET, if there is one, is closed. */
#define _GNU_SOURCE
#include "relay.h"
#include <getopt.h>
#include <signal.h>
#include <stdlib.h>

/* What was asked for. */
struct options {
    const char *log, *socket;
    char **files; /* protocol files */
    size_t file_count;
    bool is_log_only;
    char **program; /* NULL without one */
};

static bool usage(void)
{
    fprintf(stderr, "usage: numbyroga-relay [-l LOG] [-n] [-x FILE.xml]... [-s SOCKET] [-- PROGRAM [ARGUMENT]...]\n");
    return false;
}

/* Reads the options. False if they are refused, which is said. */
static bool read_options(int argc, char **argv, struct options *options)
{
    int option;
    while ((option = getopt(argc, argv, "+l:nx:s:")) != -1)
        switch (option) {
        case 'l': options->log = optarg; break;
        case 'n': options->is_log_only = true; break;
        case 'x': options->files[options->file_count++] = optarg; break;
        case 's': options->socket = optarg; break;
        default: return usage();
        }
    options->program = optind < argc ? argv + optind : NULL;
    return options->program || options->socket || usage();
}

/* A log that nobody reads any more ends the log, and not this program. It comes behind prepare, so that a program that
 * is started takes this signal as before. */
static void hold_broken_pipes(void)
{
    sigset_t pipes;
    sigemptyset(&pipes);
    sigaddset(&pipes, SIGPIPE);
    sigprocmask(SIG_BLOCK, &pipes, NULL);
}

int main(int argc, char **argv)
{
    struct options options = { .files = checked(calloc((size_t)argc, sizeof *options.files)) };
    struct table table;
    int status = NOT_STARTED;
    close_given();
    table_begin(&table);
    if (read_options(argc, argv, &options) &&
        (options.file_count == 0 || table_take(&table, options.files, options.file_count)) &&
        relay_over(&table.rows, options.is_log_only) && log_open(options.log)) {
        prepare();
        hold_broken_pipes();
        serve(options.socket, options.program, &status);
    }
    log_close();
    relay_forget();
    table_end(&table);
    free(options.files);
    return status;
}
