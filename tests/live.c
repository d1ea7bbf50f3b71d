/* Loads filters through the library in libseccomp's place, from threads, in little room, and into descriptors that fail:
 * cc -o live tests/live.c -pthread FOLDER/libseccomp.so.2; ./live. A line for each thing that is not as it has to be. */
#define _GNU_SOURCE
#include "../seccomp/interface.h"
#include <errno.h>
#include <fcntl.h>
#include <pthread.h>
#include <signal.h>
#include <stdio.h>
#include <stdlib.h>
#include <string.h>
#include <sys/syscall.h>
#include <sys/wait.h>
#include <unistd.h>

scmp_filter_ctx seccomp_init(uint32_t action);
void seccomp_release(scmp_filter_ctx ctx);
int seccomp_reset(scmp_filter_ctx ctx, uint32_t action);
int seccomp_arch_add(scmp_filter_ctx ctx, uint32_t token);
int seccomp_arch_remove(scmp_filter_ctx ctx, uint32_t token);
int seccomp_attr_set(scmp_filter_ctx ctx, int attribute, uint32_t value);
int seccomp_rule_add_array(scmp_filter_ctx ctx, uint32_t action, int number, unsigned count, const struct scmp_arg_cmp *args);
int seccomp_export_bpf(const scmp_filter_ctx ctx, int fd);
int seccomp_export_bpf_mem(const scmp_filter_ctx ctx, void *buffer, size_t *length);
int seccomp_load(const scmp_filter_ctx ctx);
int seccomp_merge(scmp_filter_ctx into, scmp_filter_ctx from);

/* Machines beside the one that this runs on. */
#ifdef __aarch64__
enum { BESIDE = 0x40000028, FURTHER = BESIDE };
#else
enum { BESIDE = 0x40000003, FURTHER = 0x4000003e };
#endif

/* The malloc of this sanitizer may be taken in a child that was forked beside a thread. */
#ifdef __SANITIZE_ADDRESS__
enum { CHILDREN_HAVE_MALLOC = 0 };
#else
enum { CHILDREN_HAVE_MALLOC = 1 };
#endif

static int wrong;

static void tell(int came, int wanted, const char *what) {
    if (came == wanted) return;
    printf("%s: wanted %d, came %d\n", what, wanted, came);
    wrong++;
}

enum { NO_CALL = -2 };

/* How a child ends that sets an attribute, adds a rule, loads the filter and then makes a call. */
static int ended_with(int attribute, uint32_t value, uint32_t action, uint32_t of_rule, int call, long made) {
    int status;
    pid_t child = fork();
    if (!child) {
        scmp_filter_ctx ctx = seccomp_init(action);
        if (attribute && seccomp_attr_set(ctx, attribute, value)) syscall(SYS_exit_group, 102);
        if (call != NO_CALL && seccomp_rule_add_array(ctx, of_rule, call, 0, NULL)) syscall(SYS_exit_group, 100);
        if (seccomp_load(ctx)) syscall(SYS_exit_group, 101);
        errno = 0;
        if (made != NO_CALL) syscall(made);
        syscall(SYS_exit_group, errno);
    }
    waitpid(child, &status, 0);
    return WIFSIGNALED(status) ? -WTERMSIG(status) : WEXITSTATUS(status);
}

static int ended(uint32_t action, uint32_t of_rule, int call, long made) { return ended_with(0, 0, action, of_rule, call, made); }

static void loads(void) {
    tell(ended(KILL_PROCESS, ALLOW, SYS_exit_group, NO_CALL), 0, "a load with nothing but exit_group"); /* no call after it */
    tell(ended(ALLOW, KILL_PROCESS, SYS_getppid, SYS_getpid), 0, "a call that is allowed");
    tell(ended(ALLOW, KILL_PROCESS, SYS_getppid, SYS_getppid), -SIGSYS, "a call that is killed");
    tell(ended(ALLOW, ERRNO | 77, SYS_getppid, SYS_getppid), 77, "a call that answers 77");
    tell(ended(ALLOW, ERRNO | 77, NO_CALL, -1), ENOSYS, "call -1");
    tell(ended_with(RULES_FOR_SKIPPED, 1, ALLOW, ERRNO | 77, -1, -1), 77, "call -1, which has a rule");
    tell(ended_with(RULES_FOR_SKIPPED, 1, ALLOW, ERRNO | 77, -1, SYS_getppid), 0, "another call");
    tell(ended_with(BAD_MACHINE_ACTION, ERRNO | 77, ALLOW, ERRNO | 78, SYS_getppid, SYS_getppid), 78, "a call of this machine");
    tell(ended_with(BAD_MACHINE_ACTION, ERRNO | 77, ALLOW, ERRNO | 78, SYS_getppid, -1), ENOSYS, "call -1 of this machine");
#ifdef __x86_64__
    enum { X32_GETPID = 0x40000000 | SYS_getpid };
    tell(ended(ALLOW, 0, NO_CALL, X32_GETPID), -SIGSYS, "a call of x32");
    tell(ended_with(BAD_MACHINE_ACTION, ERRNO | 77, ALLOW, 0, NO_CALL, X32_GETPID), 77, "a call of x32 that answers 77");
    int allowed = ended_with(BAD_MACHINE_ACTION, ALLOW, KILL_PROCESS, ALLOW, SYS_exit_group, X32_GETPID);
    tell(allowed == 0 || allowed == ENOSYS, 1, "a call of x32 that is allowed"); /* the kernel may have none */
#endif
}

static void descriptors(void) {
    scmp_filter_ctx ctx = seccomp_init(ALLOW);
    int full = open("/dev/full", O_WRONLY);
    tell(seccomp_export_bpf(ctx, -1), -ECANCELED, "no descriptor");
    tell(seccomp_export_bpf(ctx, full), -ECANCELED, "a full one");
    seccomp_attr_set(ctx, ERRORS_OF_SYSTEM, 1);
    tell(seccomp_export_bpf(ctx, -1), -EBADF, "no descriptor, the system's error");
    tell(seccomp_export_bpf(ctx, full), -ENOSPC, "a full one, the system's error");
    seccomp_release(ctx);
}

static uint8_t first[8 * 4096], second[8 * 4096];

static void *adds(void *ctx) {
    for (int call = 0; call < 300; call++) seccomp_rule_add_array(ctx, ALLOW, call, 0, NULL);
    return NULL;
}

/* All machines and 300 calls, from one thread with little stack and from four at once: the same filter. */
static void threads(void) {
    pthread_t ids[4];
    size_t lengths[2] = {sizeof first, sizeof second};
    for (int round = 0; round < 2; round++) {
        scmp_filter_ctx ctx = seccomp_init(ERRNO | 1);
        seccomp_arch_add(ctx, BESIDE);
        seccomp_arch_add(ctx, FURTHER);
        for (int i = 0; i < (round ? 4 : 1); i++) pthread_create(&ids[i], NULL, adds, ctx);
        for (int i = 0; i < (round ? 4 : 1); i++) pthread_join(ids[i], NULL);
        tell(seccomp_export_bpf_mem(ctx, round ? second : first, &lengths[round]), 0, "an export of many rules");
        seccomp_release(ctx);
    }
    tell(lengths[0] == lengths[1] && !memcmp(first, second, lengths[0]), 1, "four threads add what one does");
}

/* Two threads that name two contexts, each the other way round. */
static scmp_filter_ctx merged[2];

static void *merges(void *second) {
    for (int i = 0; i < 20000; i++) seccomp_merge(merged[!second], merged[!!second]);
    return NULL;
}

static void merge(void) {
    pthread_t ids[2];
    for (int i = 0; i < 2; i++) merged[i] = seccomp_init(ALLOW);
    for (int i = 0; i < 2; i++) pthread_create(&ids[i], NULL, merges, i ? merged : NULL);
    for (int i = 0; i < 2; i++) pthread_join(ids[i], NULL);
    tell(seccomp_merge(merged[0], merged[1]), -EEXIST, "a merge of one machine with itself");
    for (int i = 0; i < 2; i++) seccomp_release(merged[i]);
}

static scmp_filter_ctx of_two(void) {
    scmp_filter_ctx one = seccomp_init(ALLOW), other = seccomp_init(ALLOW);
    seccomp_arch_add(other, BESIDE);
    seccomp_arch_remove(other, 0);
    tell(seccomp_merge(one, other), 0, "a merge");
    return one;
}

/* A thread is at work in a context and makes and gives back others, while this one forks: each child can use the context. */
static int ends;

static void *works(void *ctx) {
    for (uint64_t value = 0; !__atomic_load_n(&ends, __ATOMIC_RELAXED); value++) {
        struct scmp_arg_cmp is = {0, 4, value % 100, 0};
        size_t length = sizeof second;
        seccomp_rule_add_array(ctx, ALLOW, 1000, 1, &is);
        if (value % 8 == 0) seccomp_export_bpf_mem(ctx, second, &length);
        seccomp_release(of_two());
    }
    return NULL;
}

static int uses(scmp_filter_ctx ctx) {
    size_t length = sizeof first;
    alarm(20);
    return seccomp_rule_add_array(ctx, ALLOW, 1001, 0, NULL) || seccomp_export_bpf_mem(ctx, first, &length);
}

static void forks(void) {
    scmp_filter_ctx ctx = seccomp_init(ERRNO | 1);
    pthread_t id;
    int status, bad = 0;
    pthread_create(&id, NULL, works, ctx);
    for (int i = 0; i < 100; i++) {
        pid_t child = fork();
        if (!child) _exit(uses(ctx));
        waitpid(child, &status, 0);
        bad += status != 0;
    }
    __atomic_store_n(&ends, 1, __ATOMIC_RELAXED);
    pthread_join(id, NULL);
    seccomp_release(ctx);
    tell(bad, 0, "children of 100 forks beside a thread at work");
}

/* More rules than there may be are refused, and a context that is reset then has room again. */
static void many(void) {
    scmp_filter_ctx ctx = seccomp_init(ERRNO | 1);
    size_t length = sizeof first;
    for (uint64_t value = 0; value <= 8192; value++) {
        struct scmp_arg_cmp is = {0, 4, value, 0};
        seccomp_rule_add_array(ctx, ALLOW, 1000, 1, &is);
    }
    tell(seccomp_export_bpf_mem(ctx, first, &length), -EINVAL, "8193 rules");
    tell(seccomp_reset(ctx, ALLOW), 0, "a reset");
    tell(seccomp_export_bpf_mem(ctx, first, &length), 0, "an export after it");
    seccomp_release(ctx);
}

/* The least stack on which it was seen to work, in KiB, of docker's profile or so. */
static void *exports(void *into) {
    scmp_filter_ctx ctx = seccomp_init(ERRNO | 1);
    seccomp_arch_add(ctx, BESIDE);
    seccomp_arch_add(ctx, FURTHER);
    adds(ctx);
    struct scmp_arg_cmp is = {0, 4, 0, 0}, mask = {0, MASKED_EQUAL, 0x7e020000, 0};
    for (unsigned value = 0; value < 5; value++) is.datum_a = value, seccomp_rule_add_array(ctx, ALLOW, 135, 1, &is);
    seccomp_rule_add_array(ctx, ALLOW, 435, 1, &mask);
    size_t length = sizeof second;
    *(int *)into = seccomp_export_bpf_mem(ctx, second, &length);
    seccomp_release(ctx);
    return NULL;
}

static int works_with(size_t stack) {
    int status;
    pid_t child = fork();
    if (!child) {
        pthread_attr_t small;
        pthread_t id;
        int answer = 1;
        pthread_attr_init(&small);
        pthread_attr_setstacksize(&small, stack);
        if (pthread_create(&id, &small, exports, &answer) || pthread_join(id, NULL)) _exit(2);
        _exit(answer != 0);
    }
    waitpid(child, &status, 0);
    return WIFEXITED(status) && WEXITSTATUS(status) == 0;
}

int main(int argc, char **argv) {
    if (argc > 1 && !strcmp(argv[1], "stack")) { /* ./live stack: measures */
        for (size_t stack = 32; stack <= 512; stack += 8)
            if (works_with(stack << 10)) return printf("works with a stack of %zu KiB\n", stack), 0;
        return 1;
    }
    if (argc == 1) loads(); /* ./live rules: all but this, which wants a kernel */
    descriptors();
    threads();
    merge();
    if (CHILDREN_HAVE_MALLOC) forks();
    many();
    tell(works_with(96 << 10), 1, "a stack of 96 KiB");
    return wrong != 0;
}
