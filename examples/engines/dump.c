/* Writes a filter that a process has loaded, as the kernel keeps it: ./dump PID [PLACE] > FILTER
 * Writes each of its filters into a file of the current folder, PID.0.bpf and so on: ./dump PID all
 * gcc -Wall -o dump dump.c
 *
 * PLACE counts from 0, which is the oldest filter: a process has those of the service that started it, too, and of all their answers
 * the strictest counts. The process is stopped for a moment. It wants root (CAP_SYS_ADMIN), no filter on the caller, and a kernel with
 * CONFIG_CHECKPOINT_RESTORE. What comes are the instructions as they were loaded, eight bytes each: a FILTER of ccell. */
#include <err.h>
#include <errno.h>
#include <limits.h>
#include <linux/filter.h>
#include <signal.h>
#include <stdio.h>
#include <stdlib.h>
#include <string.h>
#include <sys/ptrace.h>
#include <sys/types.h>
#include <sys/wait.h>
#include <unistd.h>

struct loaded { long length; struct sock_filter *is; };

static long get(pid_t pid, long place, void *to) {
    return ptrace(PTRACE_SECCOMP_GET_FILTER, pid, (void *)place, to);
}

/* The filter at a place, read while the process is stopped. */
static struct loaded read_filter(pid_t pid, long place) {
    struct loaded filter = {0, malloc(BPF_MAXINSNS * sizeof *filter.is)};
    if (!filter.is) err(1, "memory");
    filter.length = get(pid, place, filter.is);
    if (filter.length < 0) err(1, "the kernel does not show filter %ld", place);
    return filter;
}

static void write_filter(const struct loaded *filter, FILE *to) {
    if (fwrite(filter->is, sizeof *filter->is, filter->length, to) != (size_t)filter->length || fflush(to)) err(1, "write");
}

static void write_file(const struct loaded *filter, pid_t pid, long place) {
    char name[64];
    snprintf(name, sizeof name, "%d.%ld.bpf", pid, place);
    FILE *to = fopen(name, "wb");
    if (!to) err(1, "%s", name);
    write_filter(filter, to);
    fclose(to);
}

/* Stops a process, and returns the signal that it was about to get and gets when it goes on, or 0. One that is frozen, or that waits in the
 * kernel (state D), may never stop: five seconds are given. */
static int stop(pid_t pid) {
    int status = 0;
    pid_t seen = 0;
    if (ptrace(PTRACE_SEIZE, pid, NULL, NULL)) err(1, "process %d", pid);
    if (ptrace(PTRACE_INTERRUPT, pid, NULL, NULL)) err(1, "process %d does not stop", pid);
    for (int i = 0; i < 500 && !(seen = waitpid(pid, &status, __WALL | WNOHANG)); i++) usleep(10000);
    if (!seen) errx(1, "process %d does not stop: it is paused, or waits in the kernel", pid);
    if (seen != pid || !WIFSTOPPED(status)) errx(1, "process %d ended", pid);
    return status >> 16 ? 0 : WSTOPSIG(status);
}

/* The number that a word is, or -1. */
static long number_of(const char *word) {
    char *end;
    long is = strtol(word, &end, 10);
    return *word && !*end ? is : -1;
}

static const char *ending(long count) { return count == 1 ? "" : "s"; }

int main(int argc, char **argv) {
    long process = argc == 2 || argc == 3 ? number_of(argv[1]) : 0;
    int is_all = argc == 3 && !strcmp(argv[2], "all");
    long place = argc == 3 && !is_all ? number_of(argv[2]) : 0, count = 0;
    if (process <= 0 || process > INT_MAX || place < 0) errx(2, "usage: dump PID [PLACE | all]");
    pid_t pid = process;
    if (!is_all && isatty(STDOUT_FILENO)) errx(2, "the filter is bytes: send it to a file");

    long due = stop(pid);
    while (get(pid, count, NULL) >= 0) count++;
    if (errno != ENOENT && errno != EINVAL) err(1, "the kernel shows no filter");
    if (place >= count) errx(1, "process %d has %ld filter%s, and none at place %ld", pid, count, ending(count), place);
    long end = is_all ? count : place + 1;
    struct loaded *filters = calloc(count, sizeof *filters);
    if (!filters) err(1, "memory");
    for (long at = place; at < end; at++) filters[at] = read_filter(pid, at);
    ptrace(PTRACE_DETACH, pid, NULL, (void *)due);

    for (long at = place; at < end; at++) {
        fprintf(stderr, "process %d has %ld filter%s; filter %ld has %ld instruction%s\n", pid, count, ending(count), at,
                filters[at].length, ending(filters[at].length));
        if (is_all) write_file(&filters[at], pid, at);
        else write_filter(&filters[at], stdout);
    }
}
