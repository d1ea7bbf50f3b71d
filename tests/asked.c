/* Makes calls of libseccomp's interface for tests/place, where the library is of another machine and runs under an emulator, or has been
 * compiled with a sanitizer: cc -o asked tests/asked.c FOLDER/libseccomp.so.2. A line of standard input is the call's name without
 * `seccomp_`, and its arguments; a condition is four numbers. The answer is a line: a number or a text, and of a call that gives out
 * bytes these as digits, too. `why` asks for the reason. */
#define _GNU_SOURCE
#include "../include/ccell_why.h"
#include "../seccomp/interface.h"
#include <stdio.h>
#include <stdlib.h>
#include <string.h>
#include <sys/mman.h>
#include <unistd.h>

#define OF_2_6 __attribute__((weak)) /* libseccomp 2.5 lacks it */

scmp_filter_ctx seccomp_init(uint32_t action);
void seccomp_release(scmp_filter_ctx ctx);
int seccomp_reset(scmp_filter_ctx ctx, uint32_t action);
int seccomp_merge(scmp_filter_ctx into, scmp_filter_ctx from);
int seccomp_arch_add(scmp_filter_ctx ctx, uint32_t token);
int seccomp_arch_remove(scmp_filter_ctx ctx, uint32_t token);
int seccomp_arch_exist(scmp_filter_ctx ctx, uint32_t token);
int seccomp_attr_set(scmp_filter_ctx ctx, int attribute, uint32_t value);
int seccomp_attr_get(scmp_filter_ctx ctx, int attribute, uint32_t *value);
int seccomp_rule_add_array(scmp_filter_ctx ctx, uint32_t action, int number, unsigned count, const struct scmp_arg_cmp *args);
int seccomp_rule_add_exact_array(scmp_filter_ctx ctx, uint32_t action, int number, unsigned count, const struct scmp_arg_cmp *args);
int seccomp_syscall_resolve_name(const char *name);
int seccomp_syscall_resolve_name_arch(uint32_t token, const char *name);
int seccomp_syscall_resolve_name_rewrite(uint32_t token, const char *name);
char *seccomp_syscall_resolve_num_arch(uint32_t token, int number);
int seccomp_syscall_priority(scmp_filter_ctx ctx, int number, uint8_t priority);
int seccomp_precompute(scmp_filter_ctx ctx) OF_2_6;
int seccomp_notify_fd(scmp_filter_ctx ctx);
int seccomp_transaction_start(scmp_filter_ctx ctx) OF_2_6;
int seccomp_transaction_commit(scmp_filter_ctx ctx) OF_2_6;
void seccomp_transaction_reject(scmp_filter_ctx ctx) OF_2_6;
int seccomp_export_bpf(scmp_filter_ctx ctx, int fd);
int seccomp_export_bpf_mem(scmp_filter_ctx ctx, void *buffer, size_t *length) OF_2_6;

enum { MOST_BYTES = 32768 };
static scmp_filter_ctx ctx, aside;
static uint8_t bytes[MOST_BYTES];

static const char *word(void) {
    const char *next = strtok(NULL, " \n");
    return next ? next : "";
}

static uint64_t number(void) { return strtoull(word(), NULL, 0); }

static void put(int answer, size_t length) {
    printf("%d ", answer);
    for (size_t i = 0; i < length; i++) printf("%02x", bytes[i]);
}

static int begin(uint32_t action) {
    if (ctx) seccomp_release(ctx);
    ctx = seccomp_init(action);
    return ctx ? 0 : 1;
}

static int end(void) {
    if (ctx) seccomp_release(ctx);
    ctx = NULL;
    return 0;
}

/* The context that stands aside: the next one is another. */
static int put_aside(void) {
    if (aside) seccomp_release(aside);
    aside = ctx;
    ctx = NULL;
    return 0;
}

/* Merges the context into the one that stands aside, which is then the only one. */
static int merge(void) {
    int error = seccomp_merge(aside, ctx);
    if (error) return error;
    ctx = aside;
    aside = NULL;
    return 0;
}

static int add(int (*to)(scmp_filter_ctx, uint32_t, int, unsigned, const struct scmp_arg_cmp *)) {
    struct scmp_arg_cmp args[16];
    uint32_t action = (uint32_t)number();
    int call = (int)number();
    unsigned count = 0;
    for (const char *first = word(); *first && count < 16; first = word()) {
        args[count].arg = (unsigned)strtoul(first, NULL, 0);
        args[count].op = (int)number();
        args[count].datum_a = number();
        args[count++].datum_b = number();
    }
    return to(ctx, action, call, count, args);
}

static int get(int attribute) {
    uint32_t value = 0;
    int error = seccomp_attr_get(ctx, attribute, &value);
    return error ? error : (int)value;
}

static void export(void) {
    int file = memfd_create("filter", 0), error = seccomp_export_bpf(ctx, file);
    ssize_t length = pread(file, bytes, sizeof bytes, 0);
    close(file);
    put(error, length < 0 ? 0 : (size_t)length);
}

static void give(size_t room) {
    size_t length = room;
    int error = seccomp_export_bpf_mem(ctx, room ? bytes : NULL, &length);
    printf("%zu ", length);
    put(error, room < length ? room : length);
}

static void name(uint32_t token, int call) {
    char *made = seccomp_syscall_resolve_num_arch(token, call);
    printf("%s", made ? made : "null");
    free(made);
}

/* The reason on one line. */
static void give_why(void) {
    for (const char *at = ccell_why(); *at; at++) putchar(*at == '\n' ? ';' : *at);
}

static int answer_call(const char *call) {
    if (!strcmp(call, "init")) return begin((uint32_t)number());
    if (!strcmp(call, "release")) return end();
    if (!strcmp(call, "put_aside")) return put_aside();
    if (!strcmp(call, "merge")) return merge();
    if (!strcmp(call, "reset")) return seccomp_reset(ctx, (uint32_t)number());
    if (!strcmp(call, "arch_add")) return seccomp_arch_add(ctx, (uint32_t)number());
    if (!strcmp(call, "arch_remove")) return seccomp_arch_remove(ctx, (uint32_t)number());
    if (!strcmp(call, "arch_exist")) return seccomp_arch_exist(ctx, (uint32_t)number());
    if (!strcmp(call, "attr_get")) return get((int)number());
    if (!strcmp(call, "rule_add_array")) return add(seccomp_rule_add_array);
    if (!strcmp(call, "rule_add_exact_array")) return add(seccomp_rule_add_exact_array);
    if (!strcmp(call, "syscall_resolve_name")) return seccomp_syscall_resolve_name(word());
    if (!strcmp(call, "precompute")) return seccomp_precompute(ctx);
    if (!strcmp(call, "notify_fd")) return seccomp_notify_fd(ctx);
    if (!strcmp(call, "transaction_start")) return seccomp_transaction_start(ctx);
    if (!strcmp(call, "transaction_commit")) return seccomp_transaction_commit(ctx);
    if (!strcmp(call, "transaction_reject")) return seccomp_transaction_reject(ctx), 0;
    uint32_t first = (uint32_t)number();
    if (!strcmp(call, "attr_set")) return seccomp_attr_set(ctx, (int)first, (uint32_t)number());
    if (!strcmp(call, "syscall_priority")) return seccomp_syscall_priority(ctx, (int)first, (uint8_t)number());
    if (!strcmp(call, "syscall_resolve_name_arch")) return seccomp_syscall_resolve_name_arch(first, word());
    if (!strcmp(call, "syscall_resolve_name_rewrite")) return seccomp_syscall_resolve_name_rewrite(first, word());
    fprintf(stderr, "asked: no call %s\n", call);
    exit(2);
}

int main(void) {
    char line[4096];
    while (fgets(line, sizeof line, stdin)) {
        const char *call = strtok(line, " \n");
        if (!call) continue;
        if (!strcmp(call, "export_bpf")) export();
        else if (!strcmp(call, "why")) give_why();
        else if (!strcmp(call, "export_bpf_mem")) give((size_t)number());
        else if (!strcmp(call, "syscall_resolve_num_arch")) {
            uint32_t token = (uint32_t)number();
            name(token, (int)number());
        } else printf("%d", answer_call(call));
        putchar('\n');
        fflush(stdout);
    }
    return 0;
}
