/* Policies: text files of rules, one on a line. Whether a rule is one of the table is the library's to say.
 *
 *   allow INTERFACE VERSION       the client is told of such globals, and may bind them, up to this version
 *   refuse INTERFACE.REQUEST      this request ends the connection
 *   ignore INTERFACE.REQUEST      this request is dropped, and its descriptors are closed
 *   limit objects NUMBER          each side gives objects the numbers below this one, from its first; 10000 without it
 *   limit globals NUMBER          so many numbers of globals are remembered; 1000 without it
 *
 * A # begins a comment. The rule of a later line takes the place of an earlier one of the same interface. */
#define _GNU_SOURCE
#include "guard.h"
#include <errno.h>
#include <limits.h>
#include <stdlib.h>
#include <string.h>
#include <unistd.h>

/* While more bytes wait for a side, the guard takes nothing from the other. connection.c stops before that. */
enum { MOST_WAITING = 1 << 20 };

/* A policy while it is read: its lines as three words. */
struct reading {
    const char *file;
    unsigned line;
    struct span words[3];
    uint32_t objects, globals;
};

/* What is allowed, for those who only look. */
static struct allowed {
    char *name;
    uint32_t version;
} * all_allowed;
static size_t allowed_count;

/* The words of those rules that ignore: INTERFACE.REQUEST. */
static char **all_ignored;
static size_t ignored_count;

uint32_t policy_version(struct span name)
{
    for (size_t i = allowed_count; i-- > 0;)
        if (span_is(name, all_allowed[i].name))
            return all_allowed[i].version;
    return 0;
}

bool policy_ignores(struct span interface, struct span request)
{
    for (size_t i = 0; i < ignored_count; i++) {
        const size_t length = strcspn(all_ignored[i], ".");
        if (length == interface.length && memcmp(all_ignored[i], interface.at, length) == 0 &&
            span_is(request, all_ignored[i] + length + 1))
            return true;
    }
    return false;
}

void policy_forget(void)
{
    while (allowed_count > 0)
        free(all_allowed[--allowed_count].name);
    while (ignored_count > 0)
        free(all_ignored[--ignored_count]);
    free(all_allowed);
    free(all_ignored);
    all_allowed = NULL;
    all_ignored = NULL;
}

static nb_status allow(nb_policy *policy, struct span name, uint32_t version)
{
    const nb_status status = nb_policy_allow(policy, (const uint8_t *)name.at, name.length, version);
    if (status != NB_OK)
        return status;
    all_allowed = checked(realloc(all_allowed, (allowed_count + 1) * sizeof *all_allowed));
    all_allowed[allowed_count++] = (struct allowed){ checked(strndup(name.at, name.length)), version };
    return NB_OK;
}

static bool refuse(const struct reading *reading, struct span word, const char *why)
{
    fprintf(stderr, "%s:%u: %.*s: %s\n", reading->file, reading->line, (int)word.length, word.at, why);
    return false;
}

/* What is wrong with a rule. */
static const char *reason_of(nb_status status)
{
    switch (status) {
    case NB_UNKNOWN_INTERFACE: return "the table has no such interface (-x names a protocol file that has)";
    case NB_WRONG_INTERFACE: return "there are no rules about this interface";
    case NB_VERSION_TOO_HIGH: return "the table does not have this version of it";
    case NB_UNKNOWN_OPCODE: return "the interface has no such request";
    case NB_WRONG_KIND: return "a request that makes an object or ends one cannot be ignored";
    default: return nb_status_text(status);
    }
}

/* A number in decimal digits from 1 on. False if it is none of 32 bits. */
static bool read_number(struct span digits, uint32_t *number)
{
    uint64_t sum = 0;
    for (size_t i = 0; i < digits.length && sum <= UINT32_MAX; i++) {
        if (digits.at[i] < '0' || digits.at[i] > '9')
            return false;
        sum = 10 * sum + (uint64_t)(digits.at[i] - '0');
    }
    *number = (uint32_t)sum;
    return digits.length > 0 && sum > 0 && sum <= UINT32_MAX;
}

/* Reads the line that begins here. Returns how many words it has. */
static size_t split(struct reading *reading, const char *line)
{
    size_t count = 0;
    for (;;) {
        line += strspn(line, " \t\r");
        if (!*line || *line == '\n' || *line == '#')
            return count;
        const struct span word = { line, strcspn(line, " \t\r\n#") };
        if (count < 3)
            reading->words[count] = word;
        count++;
        line += word.length;
    }
}

static bool take_limit(struct reading *reading, size_t count)
{
    uint32_t *limit = span_is(reading->words[1], "objects")   ? &reading->objects
                      : span_is(reading->words[1], "globals") ? &reading->globals
                                                              : NULL;
    if (count != 3 || !limit)
        return refuse(reading, reading->words[0], "a limit is 'limit objects NUMBER' or 'limit globals NUMBER'");
    return read_number(reading->words[2], limit) || refuse(reading, reading->words[2], "it is no number from 1 on");
}

static bool take_allow(const struct reading *reading, nb_policy *policy)
{
    const struct span name = reading->words[1];
    uint32_t version;
    if (!read_number(reading->words[2], &version))
        return refuse(reading, reading->words[2], "it is no version");
    const nb_status status = allow(policy, name, version);
    return status == NB_OK || refuse(reading, name, reason_of(status));
}

static bool take_request(const struct reading *reading, nb_policy *policy)
{
    const struct span both = reading->words[1];
    const char *point = memchr(both.at, '.', both.length);
    if (!point)
        return refuse(reading, both, "it is no INTERFACE.REQUEST");
    const uint8_t *interface = (const uint8_t *)both.at, *request = (const uint8_t *)point + 1;
    const size_t length = (size_t)(point - both.at), rest = both.length - length - 1;
    const bool ignores = span_is(reading->words[0], "ignore");
    const nb_status status = ignores ? nb_policy_ignore(policy, interface, length, request, rest)
                                     : nb_policy_refuse(policy, interface, length, request, rest);
    if (status != NB_OK)
        return refuse(reading, both, reason_of(status));
    if (ignores) {
        all_ignored = checked(realloc(all_ignored, (ignored_count + 1) * sizeof *all_ignored));
        all_ignored[ignored_count++] = checked(strndup(both.at, both.length));
    }
    return true;
}

/* Takes a rule, whose limits were taken before if there is a policy. */
static bool take(struct reading *reading, size_t count, nb_policy *policy)
{
    const struct span verb = reading->words[0];
    if (count == 0)
        return true;
    if (span_is(verb, "limit"))
        return policy || take_limit(reading, count);
    if (span_is(verb, "allow") && count == 3)
        return !policy || take_allow(reading, policy);
    if ((span_is(verb, "refuse") || span_is(verb, "ignore")) && count == 2)
        return !policy || take_request(reading, policy);
    return refuse(reading, verb, "no rule is written so");
}

/* Takes all lines: the limits if there is no policy yet, and else the other rules. */
static bool take_all(struct reading *reading, const char *text, nb_policy *policy)
{
    reading->line = 0;
    for (const char *at = text; at; at = strchr(at, '\n')) {
        at += reading->line++ > 0;
        if (!take(reading, split(reading, at), policy))
            return false;
    }
    return true;
}

static bool start(nb_policy *policy, const nb_table *table, uint32_t objects, uint32_t globals)
{
    nb_table_fault fault = { 0, 0 };
    const nb_status status = nb_policy_start(policy, table, objects, globals, MOST_WAITING, &fault);
    if (status == NB_OK)
        return true;
    const struct span name =
        fault.interface < table->interface_count ? table_name(table, fault.interface) : (struct span) {
        "", 0
    };
    fprintf(stderr, "numbyroga-guard: the table: %.*s: %s (fault %u)\n", (int)name.length, name.at,
            nb_status_text(status), fault.fault);
    return false;
}

/* Where a policy of this name lies: one that comes with this program stands beside it, in an install or where it was
 * built. */
static const char *path_of(const char *name, char *path)
{
    static const char *const folders[] = { "../share/numbyroga/policies", "../guard/policies" };
    char program[PATH_MAX];
    const ssize_t length = strchr(name, '/') ? -1 : readlink("/proc/self/exe", program, sizeof program - 1);
    if (length < 0)
        return name;
    program[length] = 0;
    *strrchr(program, '/') = 0;
    for (size_t i = 0; i < sizeof folders / sizeof folders[0]; i++)
        if (snprintf(path, PATH_MAX, "%s/%s/%s", program, folders[i], name) < PATH_MAX && access(path, R_OK) == 0)
            return path;
    return name;
}

bool policy_read(nb_policy *policy, const nb_table *table, const char *name)
{
    char path[PATH_MAX];
    struct reading reading = { .file = path_of(name, path), .objects = 10000, .globals = 1000 };
    char *text = read_file(reading.file);
    if (!text)
        return false;
    const bool is_made = take_all(&reading, text, NULL) && start(policy, table, reading.objects, reading.globals) &&
                         take_all(&reading, text, policy);
    free(text);
    return is_made;
}

bool policy_of_all(nb_policy *policy, const nb_table *table)
{
    if (!start(policy, table, 1000000, 10000))
        return false;
    for (size_t i = 0; i < table->interface_count; i++)
        allow(policy, table_name(table, i), table->interfaces[i].version);
    return true;
}
