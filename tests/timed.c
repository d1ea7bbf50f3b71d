/* Makes one filter by libseccomp's interface again and again: timed TIMES [FILE [LEVEL]] < RULES. A line of RULES is `default ACTION`,
 * `machine TOKEN` or `rule ACTION NAME COUNT`, with four numbers for each condition behind it. It prints how many bytes the filter has, and
 * the least milliseconds of processor that one took. The filter goes into FILE. LEVEL is libseccomp's SCMP_FLTATR_CTL_OPTIMIZE. */
#define _GNU_SOURCE
#include "../seccomp/interface.h"
#include <fcntl.h>
#include <stdio.h>
#include <stdlib.h>
#include <string.h>
#include <sys/mman.h>
#include <time.h>
#include <unistd.h>

scmp_filter_ctx seccomp_init(uint32_t action);
void seccomp_release(scmp_filter_ctx ctx);
int seccomp_arch_add(scmp_filter_ctx ctx, uint32_t token);
int seccomp_attr_set(scmp_filter_ctx ctx, int attribute, uint32_t value);
int seccomp_rule_add_array(scmp_filter_ctx ctx, uint32_t action, int number, unsigned count, const struct scmp_arg_cmp *args);
int seccomp_syscall_resolve_name(const char *name);
int seccomp_export_bpf(scmp_filter_ctx ctx, int fd);

enum { MOST_RULES = 8192, MOST_MACHINES = 5 };
static struct rule { unsigned action, count; char name[64]; struct scmp_arg_cmp args[ARGUMENTS]; } rules[MOST_RULES];
static unsigned first_action, machines[MOST_MACHINES];
static int rule_count, machine_count;

static int read_rule(void) {
    struct rule *rule = &rules[rule_count];
    if (rule_count == MOST_RULES || scanf("%u %63s %u", &rule->action, rule->name, &rule->count) != 3 || rule->count > ARGUMENTS) return -1;
    for (unsigned i = 0; i < rule->count; i++) {
        struct scmp_arg_cmp *arg = &rule->args[i];
        if (scanf("%u %d %lu %lu", &arg->arg, &arg->op, &arg->datum_a, &arg->datum_b) != 4) return -1;
    }
    rule_count++;
    return 0;
}

static int read_all(void) {
    char word[16];
    while (scanf("%15s", word) == 1) {
        if (!strcmp(word, "default") && scanf("%u", &first_action) == 1) continue;
        if (!strcmp(word, "machine") && machine_count < MOST_MACHINES && scanf("%u", &machines[machine_count++]) == 1) continue;
        if (strcmp(word, "rule") || read_rule()) return -1;
    }
    return 0;
}

static double now(void) {
    struct timespec time;
    clock_gettime(CLOCK_PROCESS_CPUTIME_ID, &time);
    return (double)time.tv_sec * 1e3 + (double)time.tv_nsec / 1e6;
}

/* Makes the filter: its length in bytes, or -1. */
static long make(int fd, unsigned level) {
    scmp_filter_ctx ctx = seccomp_init(first_action);
    int error = ctx ? 0 : -1;
    if (!error && level) error = seccomp_attr_set(ctx, OPTIMIZE, level);
    for (int i = 0; i < machine_count && !error; i++)
        if (seccomp_arch_add(ctx, machines[i]) == -22) error = -1; /* the machine itself stands there already */
    for (int i = 0; i < rule_count && !error; i++) {
        int number = seccomp_syscall_resolve_name(rules[i].name);
        if (number != NO_SUCH_CALL) error = seccomp_rule_add_array(ctx, rules[i].action, number, rules[i].count, rules[i].args);
    }
    if (!error) error = seccomp_export_bpf(ctx, fd);
    seccomp_release(ctx);
    return error ? -1 : (long)lseek(fd, 0, SEEK_END);
}

int main(int count, char **words) {
    int times = count > 1 ? atoi(words[1]) : 1;
    unsigned level = count > 3 ? (unsigned)atoi(words[3]) : 0;
    double least = 1e9;
    long bytes = 0;
    if (read_all()) return fputs("timed: wrong rules\n", stderr), 2;
    for (int i = 0; i < times; i++) {
        double start = now();
        int fd = count > 2 ? open(words[2], O_RDWR | O_CREAT | O_TRUNC | O_CLOEXEC, 0600) : memfd_create("filter", 0);
        bytes = make(fd, level);
        close(fd);
        double took = now() - start;
        if (bytes < 0) return fputs("timed: no filter\n", stderr), 1;
        if (took < least) least = took;
    }
    printf("%ld %.3f\n", bytes, least);
}
