/* Writes the filter that libseccomp makes of a bundle, for the native machine alone: ./make PROFILE > FILTER
 * gcc -Wall -o make make.c -lseccomp -ljson-c       (Debian: gcc, libseccomp-dev, libjson-c-dev)
 * It reads `syscalls` as runc 1.1.5 does: a rule for each entry and name, with all `args` of the entry; where an entry names
 * an argument twice, a rule for each of its `args`. Names that libseccomp does not know are passed over. */
#include <err.h>
#include <json-c/json.h>
#include <seccomp.h>
#include <string.h>
#include <unistd.h>

#define GET(object, key) json_object_object_get(object, key)
#define EACH(list, at) for (size_t at = 0; at < (list ? json_object_array_length(list) : 0); at++)
static const char *const OPERATORS[] = {"", "NE", "LT", "LE", "EQ", "GE", "GT", "MASKED_EQ"}; /* as enum scmp_compare */
static const struct { const char *name; uint32_t verdict, data; } ACTIONS[] = {               /* data: 1 is EPERM */
    {"KILL", SCMP_ACT_KILL, 0}, {"KILL_PROCESS", SCMP_ACT_KILL_PROCESS, 0}, {"TRAP", SCMP_ACT_TRAP, 0}, {"LOG", SCMP_ACT_LOG, 0},
    {"ALLOW", SCMP_ACT_ALLOW, 0}, {"ERRNO", SCMP_ACT_ERRNO(0), 1}, {"TRACE", SCMP_ACT_TRACE(0), 1}, {"", 0, 0}};

static uint32_t action(json_object *of, const char *key, const char *data_key) {
    const char *name = json_object_get_string(GET(of, key));
    json_object *data = GET(of, data_key);
    for (size_t i = 0; name && *ACTIONS[i].name; i++)
        if (!strcmp(name + strlen("SCMP_ACT_"), ACTIONS[i].name))
            return ACTIONS[i].verdict | (data ? (uint32_t)json_object_get_int(data) : ACTIONS[i].data);
    errx(1, "an action is missing or not known");
}

static void add(scmp_filter_ctx filter, uint32_t verdict, int call, json_object *args) {
    struct scmp_arg_cmp all[32];
    unsigned count = 0, seen = 0, twice = 0;
    int failed = 0;
    EACH(args, at) {
        json_object *arg = json_object_array_get_idx(args, at);
        int op = SCMP_CMP_MASKED_EQ;
        while (op && strcmp(json_object_get_string(GET(arg, "op")) + strlen("SCMP_CMP_"), OPERATORS[op])) op--;
        if (count == 32) errx(1, "too many conditions");
        all[count] = (struct scmp_arg_cmp){json_object_get_int(GET(arg, "index")) & 31, op,
            json_object_get_uint64(GET(arg, "value")), json_object_get_uint64(GET(arg, "valueTwo"))};
        twice |= seen & 1u << all[count].arg;
        seen |= 1u << all[count++].arg;
    }
    for (unsigned at = 0; twice && at < count; at++) failed |= seccomp_rule_add_array(filter, verdict, call, 1, &all[at]);
    if (failed || (!twice && seccomp_rule_add_array(filter, verdict, call, count, all))) errx(1, "call %d: a rule is refused", call);
}

int main(int argc, char **argv) {
    json_object *section = argc == 2 ? GET(GET(json_object_from_file(argv[1]), "linux"), "seccomp") : NULL;
    if (!section) errx(2, "usage: make PROFILE, a file with a section linux.seccomp");
    uint32_t rest = action(section, "defaultAction", "defaultErrnoRet");
    scmp_filter_ctx filter = seccomp_init(rest);
    json_object *entries = GET(section, "syscalls");
    EACH(entries, at) {
        json_object *entry = json_object_array_get_idx(entries, at), *names = GET(entry, "names");
        uint32_t verdict = action(entry, "action", "errnoRet");
        EACH(names, place) {
            int call = seccomp_syscall_resolve_name(json_object_get_string(json_object_array_get_idx(names, place)));
            if (call != __NR_SCMP_ERROR && verdict != rest) add(filter, verdict, call, GET(entry, "args"));
        }
    }
    if (seccomp_export_bpf(filter, STDOUT_FILENO)) errx(1, "libseccomp gives no filter");
}
