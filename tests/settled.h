/* For settled.c: a library and its filter, what rules say of a record, and which of two rules counts. */
#include "../seccomp/interface.h"
#include <dlfcn.h>
#include <err.h>
#include <linux/filter.h>
#include <linux/seccomp.h>
#include <stdbool.h>
#include <string.h>
#include <sys/mman.h>
#include <unistd.h>

enum { NE = 1, LT, LE, EQ, GE, GT, MASKED, USED = 3 /* arguments */ };
static bool is_narrow; /* on x86, and not on x86-64 */

struct rule { uint32_t action; unsigned count; struct scmp_arg_cmp args[USED]; };
struct library {
    scmp_filter_ctx (*init)(uint32_t);
    void (*release)(scmp_filter_ctx);
    int (*arch_add)(scmp_filter_ctx, uint32_t), (*arch_remove)(scmp_filter_ctx, uint32_t), (*export_bpf)(scmp_filter_ctx, int);
    int (*add)(scmp_filter_ctx, uint32_t, int, unsigned, const struct scmp_arg_cmp *);
    scmp_filter_ctx ctx;
    struct sock_filter filter[BPF_MAXINSNS];
    size_t count;
};

static void open_library(struct library *of, const char *path) {
    void *at = dlopen(path, RTLD_NOW | RTLD_LOCAL);
    if (!at) errx(2, "%s", dlerror());
    *(void **)&of->init = dlsym(at, "seccomp_init");
    *(void **)&of->release = dlsym(at, "seccomp_release");
    *(void **)&of->arch_add = dlsym(at, "seccomp_arch_add");
    *(void **)&of->arch_remove = dlsym(at, "seccomp_arch_remove");
    *(void **)&of->export_bpf = dlsym(at, "seccomp_export_bpf");
    *(void **)&of->add = dlsym(at, "seccomp_rule_add_array");
}

static void begin(struct library *of) {
    of->ctx = of->init(ERRNO | 1);
    if (is_narrow && (of->arch_add(of->ctx, 0x40000003) || of->arch_remove(of->ctx, 0xc000003e))) errx(2, "no x86");
}

static void export(struct library *of) {
    int fd = memfd_create("filter", 0);
    if (fd < 0 || of->export_bpf(of->ctx, fd)) err(2, "export");
    ssize_t length = pread(fd, of->filter, sizeof of->filter, 0);
    of->count = (size_t)length / sizeof *of->filter;
    close(fd);
}

static uint32_t verdict(const struct library *of, const struct seccomp_data *record) {
    uint32_t a = 0;
    for (size_t at = 0; at < of->count; at++) {
        const struct sock_filter *is = &of->filter[at];
        switch (is->code) {
        case BPF_LD | BPF_W | BPF_ABS: memcpy(&a, (const char *)record + is->k, sizeof a); break;
        case BPF_ALU | BPF_AND | BPF_K: a &= is->k; break;
        case BPF_JMP | BPF_JA: at += is->k; break;
        case BPF_JMP | BPF_JEQ | BPF_K: at += a == is->k ? is->jt : is->jf; break;
        case BPF_JMP | BPF_JGE | BPF_K: at += a >= is->k ? is->jt : is->jf; break;
        case BPF_JMP | BPF_JGT | BPF_K: at += a > is->k ? is->jt : is->jf; break;
        case BPF_JMP | BPF_JSET | BPF_K: at += a & is->k ? is->jt : is->jf; break;
        case BPF_RET | BPF_K: return is->k;
        default: errx(2, "instruction %#x", is->code);
        }
    }
    errx(2, "no return");
}

static bool holds(const struct scmp_arg_cmp *it, uint64_t is) {
    switch (it->op) {
    case NE: return is != it->datum_a;
    case LT: return is < it->datum_a;
    case LE: return is <= it->datum_a;
    case EQ: return is == it->datum_a;
    case GE: return is >= it->datum_a;
    case GT: return is > it->datum_a;
    default: return (is & it->datum_a) == it->datum_b;
    }
}

static bool matches(const struct rule *it, const struct seccomp_data *record) {
    for (unsigned k = 0; k < it->count; k++)
        if (!holds(&it->args[k], record->args[it->args[k].arg])) return false;
    return true;
}

/* The condition of a rule on an argument, or NULL. */
static const struct scmp_arg_cmp *on(const struct rule *it, unsigned argument) {
    for (unsigned k = 0; k < it->count; k++)
        if (it->args[k].arg == argument) return &it->args[k];
    return NULL;
}

/* Whether a number meets both conditions, each of which may be NULL: those near them are tried, with the bits that masks ask for. */
static bool have_common(const struct scmp_arg_cmp *a, const struct scmp_arg_cmp *b) {
    const struct scmp_arg_cmp *both[] = {a, b};
    uint64_t greatest = is_narrow ? UINT32_MAX : UINT64_MAX, near[8] = {0, greatest};
    unsigned count = 2;
    for (int i = 0; i < 2; i++)
        for (int by = -1; both[i] && by <= 1; by++) near[count++] = (both[i]->datum_a + (uint64_t)by) & greatest;
    for (unsigned i = 0; i < count; i++) {
        for (int k = 0; k < 2; k++)
            if (both[k] && both[k]->op == MASKED) near[i] = (near[i] & ~both[k]->datum_a) | both[k]->datum_b;
        if ((!a || holds(a, near[i])) && (!b || holds(b, near[i]))) return true;
    }
    return false;
}

/* Whether one call meets two rules with unlike actions. */
static bool contradict(const struct rule *one, const struct rule *other) {
    for (unsigned argument = 0; argument < USED; argument++)
        if (!have_common(on(one, argument), on(other, argument))) return false;
    return one->action != other->action;
}

/* Which of two rules counts for a call that meets both, by docs/LIBSECCOMP.md: the earlier one, 1, the later one, -1, or neither, 0. */
static int winner(const struct rule *earlier, const struct rule *later) {
    static const int RANK[] = {0, 2, 1, 1, 2, 0, 0, 2};
    unsigned at = 0;
    while (at < earlier->count && at < later->count && !memcmp(&earlier->args[at], &later->args[at], sizeof *earlier->args)) at++;
    if (at == earlier->count || at == later->count) return at == earlier->count;
    const struct scmp_arg_cmp *a = &earlier->args[at], *b = &later->args[at];
    if (a->arg != b->arg) return a->arg > b->arg ? 1 : -1;
    int one = RANK[a->op], other = RANK[b->op];
    if (earlier->count != at + 1 || later->count != at + 1) return 0;
    if (one != 2 && other != 2 && a->datum_a >> 32 != b->datum_a >> 32) return 0;
    if (one != other) return one > other ? 1 : -1;
    if (a->op == MASKED || b->op == MASKED || (a->op == NE && b->op == NE) || (one == 1 && a->datum_a >> 32) || a->datum_a == b->datum_a) return 0;
    return (a->datum_a < b->datum_a) == (one == 1) ? 1 : -1;
}

/* The action that counts for a record, where of each two rules that contradict each other and match it one counts; else 0x1. */
static uint32_t settled_action(const struct rule *rules, unsigned count, const struct seccomp_data *of) {
    uint32_t found = ERRNO | 1;
    for (unsigned i = 0; i < count; i++) {
        bool is_first = matches(&rules[i], of);
        for (unsigned k = 0; k < count && is_first; k++)
            if (rules[k].action != rules[i].action && matches(&rules[k], of))
                is_first = i < k ? winner(&rules[i], &rules[k]) > 0 : winner(&rules[k], &rules[i]) < 0;
        if (is_first) return rules[i].action;
        if (matches(&rules[i], of)) found = 1;
    }
    return found;
}
