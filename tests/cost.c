/* What a loaded filter costs a call: cost TIMES FILE.., where a FILE has the instructions of a filter, or is `none`. For each file a child
 * loads it, and makes each call TIMES times. A line is the file's place, the name of a call, and the nanoseconds of one call. */
#define _GNU_SOURCE
#include <err.h>
#include <linux/filter.h>
#include <linux/sched.h>
#include <linux/seccomp.h>
#include <stdio.h>
#include <stdlib.h>
#include <string.h>
#include <sys/ioctl.h>
#include <sys/prctl.h>
#include <sys/socket.h>
#include <sys/syscall.h>
#include <sys/wait.h>
#include <time.h>
#include <unistd.h>

/* Calls that end at once, with or without a filter: each does nothing or fails. docker and podman refuse lookup_dcookie, which Linux no longer has. */
static const struct call { const char *name; long number, first, second, third; } calls[] = {
    {"getppid", SYS_getppid, 0, 0, 0},
    {"read", SYS_read, -1, 0, 0},
    {"socket", SYS_socket, AF_UNIX, 99, 0},
    {"clone", SYS_clone, CLONE_SIGHAND, 0, 0},
    {"ioctl", SYS_ioctl, -1, TIOCSTI, 0},
    {"lookup_dcookie", SYS_lookup_dcookie, 0, 0, 0},
};

static double now(void) {
    struct timespec time;
    clock_gettime(CLOCK_PROCESS_CPUTIME_ID, &time);
    return (double)time.tv_sec * 1e9 + (double)time.tv_nsec;
}

static void load(const char *path) {
    static struct sock_filter filter[BPF_MAXINSNS];
    FILE *file = strcmp(path, "none") ? fopen(path, "rb") : NULL;
    if (!file && strcmp(path, "none")) err(2, "%s", path);
    if (!file) return;
    struct sock_fprog program = {.len = (unsigned short)fread(filter, sizeof *filter, BPF_MAXINSNS, file), .filter = filter};
    fclose(file);
    if (prctl(PR_SET_NO_NEW_PRIVS, 1, 0, 0, 0) || syscall(SYS_seccomp, SECCOMP_SET_MODE_FILTER, 0, &program)) err(1, "%s", path);
}

static double took(const struct call *call, long times) {
    double start = now();
    for (long i = 0; i < times; i++) syscall(call->number, call->first, call->second, call->third, 0, 0, 0);
    return (now() - start) / (double)times;
}

static void measure(const char *path, int place, long times) {
    double taken[sizeof calls / sizeof *calls];
    load(path);
    for (size_t i = 0; i < sizeof calls / sizeof *calls; i++) taken[i] = took(&calls[i], times);
    for (size_t i = 0; i < sizeof calls / sizeof *calls; i++) printf("%d %s %.1f\n", place, calls[i].name, taken[i]);
    fflush(stdout);
}

int main(int count, char **words) {
    long times = count > 2 ? atol(words[1]) : 0;
    if (times <= 0) errx(2, "usage: cost TIMES FILE..");
    for (int i = 2; i < count; i++) {
        int status;
        pid_t child = fork();
        if (child < 0) err(1, "fork");
        if (!child) return measure(words[i], i - 2, times), 0;
        if (waitpid(child, &status, 0) != child || status) errx(1, "%s: the child ended with %#x", words[i], status);
    }
}
