/* numbyroga-guard: a guard between Wayland clients and their compositor. docs/guard.md says what it is for.
 *
 *   numbyroga-guard [-p POLICY] [-l LOG [-m]] [-x FILE.xml]... [-a APP_ID [-e ENGINE]] [-s SOCKET] [-- PROGRAM ..]
 *   numbyroga-guard --what [-l LOG [-m]] [-x FILE.xml]... -- PROGRAM ..
 *
 *   -p POLICY    a file of rules (policy.c), or the name of one that comes with it; 'toolkit' without it
 *   -l LOG       a file that is told which globals clients see and bind, and which of them are refused
 *   -m           the log is told each message, too
 *   -x FILE.xml  a protocol file whose interfaces the table lacks
 *   -s SOCKET    a path, or a name in $XDG_RUNTIME_DIR, to listen at; without it, one of its own
 *   -a APP_ID    the compositor is told, if it takes that, that its clients are this sandboxed application
 *   -e ENGINE    and of this sandbox engine; 'numbyroga-guard' without it
 *   --what       all of the table is allowed, and the policy that the program needed is printed
 *
 * With a program it starts that, behind it, and ends with its status, once no client is left. Without one it ends by a
 * signal. The compositor is that of WAYLAND_DISPLAY: the connection of WAYLAND_SOCKET, if there is one, is closed. */
#define _GNU_SOURCE
#include "guard.h"
#include <getopt.h>

/* What was asked for. */
struct options {
    const char *policy, *socket, *application, *engine;
    bool says_what, has_messages;
    char **program; /* NULL without one */
};

static int usage(void)
{
    fprintf(stderr,
            "usage: numbyroga-guard [-p POLICY] [-l LOG [-m]] [-x FILE.xml]... [-a APP_ID [-e ENGINE]] [-s SOCKET]\n"
            "                       [-- PROGRAM [ARGUMENT]...]\n"
            "       numbyroga-guard --what [-l LOG [-m]] [-x FILE.xml]... -- PROGRAM [ARGUMENT]...\n");
    return NOT_STARTED;
}

/* Reads the options. False if they are refused, which is said. */
static bool read_options(int argc, char **argv, struct options *options, struct table *table)
{
    static const struct option words[] = { { "what", no_argument, NULL, 'w' }, { NULL, 0, NULL, 0 } };
    int option;
    while ((option = getopt_long(argc, argv, "+p:l:mx:s:a:e:", words, NULL)) != -1)
        switch (option) {
        case 'p': options->policy = optarg; break;
        case 's': options->socket = optarg; break;
        case 'a': options->application = optarg; break;
        case 'e': options->engine = optarg; break;
        case 'w': options->says_what = true; break;
        case 'm': options->has_messages = true; break;
        case 'l':
            if (!log_open(optarg))
                return false;
            break;
        case 'x':
            if (!table_read(table, optarg))
                return false;
            break;
        default: usage(); return false;
        }
    options->program = optind < argc ? argv + optind : NULL;
    if ((options->program || (options->socket && !options->says_what)) && (!options->has_messages || log_messages()))
        return true;
    usage();
    return false;
}

static int run(const struct options *options, nb_policy *policy, const nb_table *table)
{
    int status = NOT_STARTED;
    bool has_begun = false;
    prepare();
    guard_by(policy, table);
    if (!options->application || context_make(table, options->application, options->engine))
        has_begun = serve(options->socket, options->program, &status);
    context_end();
    if (options->says_what && has_begun)
        print_what(table, stdout);
    return status;
}

int main(int argc, char **argv)
{
    struct options options = { .policy = "toolkit", .engine = "numbyroga-guard" };
    struct table table;
    nb_policy policy = NB_EMPTY;
    int status = NOT_STARTED;
    close_given();
    table_begin(&table);
    if (read_options(argc, argv, &options, &table)) {
        if (options.says_what)
            keep_what();
        if (options.says_what ? policy_of_all(&policy, &table.rows) : policy_read(&policy, &table.rows, options.policy))
            status = run(&options, &policy, &table.rows);
    }
    watch_close();
    policy_forget();
    nb_policy_end(&policy);
    table_end(&table);
    return status;
}
