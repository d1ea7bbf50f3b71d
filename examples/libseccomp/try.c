/* Loads a filter for one call and tries calls under it, on the kernel that it runs on:
 *     ./try FILTER CALL ARGUMENT,.. [ARGUMENT,..]..           as ./try unix-streams.bpf socket 2,1 1,1 1,5
 * gcc -Wall -o try try.c -lseccomp       (Debian: gcc, libseccomp-dev, of which only the names of calls are used)
 *
 * Three instructions stand in front of the filter and let every other call through, so that this program can go on: the
 * filter judges CALL alone. Each trial is a line: the call, and what the kernel answered. */
#include <err.h>
#include <errno.h>
#include <linux/filter.h>
#include <linux/seccomp.h>
#include <seccomp.h>
#include <stdio.h>
#include <stdlib.h>
#include <string.h>
#include <sys/prctl.h>
#include <sys/syscall.h>
#include <unistd.h>

static struct sock_filter program[3 + 4096] = {
    {BPF_LD | BPF_W | BPF_ABS, 0, 0, 0},                 /* the number of the call */
    {BPF_JMP | BPF_JEQ | BPF_K, 1, 0, 0},                /* CALL: to the filter */
    {BPF_RET | BPF_K, 0, 0, SECCOMP_RET_ALLOW}};

static void load(const char *name, int call) {
    FILE *file = fopen(name, "rb");
    if (!file) err(1, "%s", name);
    size_t count = fread(program + 3, sizeof *program, 4093, file);
    fclose(file);
    program[1].k = call;
    struct sock_fprog whole = {3 + count, program};
    if (prctl(PR_SET_NO_NEW_PRIVS, 1, 0, 0, 0)) err(1, "no_new_privs");
    if (syscall(SYS_seccomp, SECCOMP_SET_MODE_FILTER, 0, &whole)) err(1, "the kernel does not take %s", name);
}

int main(int argc, char **argv) {
    if (argc < 4) errx(2, "usage: try FILTER CALL ARGUMENT,.. [ARGUMENT,..]..");
    int call = seccomp_syscall_resolve_name(argv[2]);
    if (call < 0) errx(2, "no call %s on this machine", argv[2]);
    load(argv[1], call);
    for (int at = 3; at < argc; at++) {
        unsigned long args[6] = {0};
        char *rest = argv[at];
        for (int place = 0; place < 6 && *rest; place++) {
            args[place] = strtoul(rest, &rest, 0);
            rest += *rest == ',';
        }
        long answer = syscall(call, args[0], args[1], args[2], args[3], args[4], args[5]);
        if (answer < 0) printf("%s(%s): %s\n", argv[2], argv[at], strerror(errno));
        else printf("%s(%s): %ld\n", argv[2], argv[at], answer);
    }
}
