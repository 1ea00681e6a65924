/* Prints what a program and a client see of libwayland-server, test by test: so two libraries can be compared.
 *
 *   blackbox [NAME..]      all tests, or those whose names begin so
 *
 * Each test is a process of its own. Its standard error is printed, too, and how it ended. */
#include "world.h"
#include <sys/wait.h>

enum { MOST_SECONDS = 20 };

static const struct test *const all[] = { util_tests,  loop_tests,  display_tests, global_tests, request_tests,
                                          fault_tests, event_tests, end_tests,     shm_tests,    log_tests };

static void run(const struct test *test, const char *folder)
{
    char name[64];
    snprintf(name, sizeof name, "%s-%d", test->name, test->which);
    printf("== %s\n", name);
    fflush(stdout);
    pid_t child = fork();
    if (child == 0) {
        setvbuf(stdout, NULL, _IOLBF, 0);
        dup2(1, 2);
        setenv("XDG_RUNTIME_DIR", folder, 1);
        unsetenv("WAYLAND_DISPLAY");
        unsetenv("WAYLAND_DEBUG");
        alarm(MOST_SECONDS);
        test->run(test->which);
        exit(0);
    }
    int status = 0;
    waitpid(child, &status, 0);
    if (WIFSIGNALED(status))
        printf("  ended by signal %d\n", WTERMSIG(status));
    else if (WEXITSTATUS(status))
        printf("  ended with status %d\n", WEXITSTATUS(status));
}

static bool is_asked(const struct test *test, int count, char **names)
{
    for (int i = 1; i < count; i++)
        if (strncmp(test->name, names[i], strlen(names[i])) == 0)
            return true;
    return count < 2;
}

int main(int count, char **names)
{
    char folder[] = "/tmp/blackbox-XXXXXX", command[64];
    signal(SIGPIPE, SIG_IGN);
    if (!mkdtemp(folder))
        return 3;
    for (size_t i = 0; i < sizeof all / sizeof *all; i++)
        for (const struct test *test = all[i]; test->name; test++)
            if (is_asked(test, count, names))
                run(test, folder);
    snprintf(command, sizeof command, "rm -rf %s", folder);
    return system(command);
}
