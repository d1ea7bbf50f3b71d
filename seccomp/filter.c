/* Contexts: what a program asks for, written down. */
#include "edition.h"
#include "filter.h"
#include <errno.h>
#include <pthread.h>
#include <sched.h>
#include <stdlib.h>
#include <string.h>
#include <sys/syscall.h>
#include <linux/seccomp.h>
#include <unistd.h>

enum { MARK = 0x6c6c6563, LOWEST_FIRST = 0x40000000 /* in the token of a machine */ };
/* What is taken holds the address of something that is the thread's own, and while that thread forks one more. A thread that waits
 * yields; one that gives back makes no call of the system. */
static uintptr_t this_thread(void) {
    static _Thread_local int own;
    return (uintptr_t)&own;
}

static void hold(uintptr_t *taken, uintptr_t by) {
    uintptr_t found = 0;
    while (!__atomic_compare_exchange_n(taken, &found, by, false, __ATOMIC_ACQUIRE, __ATOMIC_RELAXED)) {
        sched_yield();
        found = 0;
    }
}

static void leave(uintptr_t *taken) { __atomic_store_n(taken, 0, __ATOMIC_RELEASE); }

/* All contexts. A fork takes each of them, so that it waits until no other thread is at work in one, and the child finds them whole and
 * free. It may come in a handler of a signal while this thread is at work: what it has taken is left alone. */
static struct filter *contexts;
static uintptr_t contexts_taken;

static bool is_taken_by(uintptr_t *taken, uintptr_t by) { return __atomic_load_n(taken, __ATOMIC_RELAXED) == by; }

static void hold_for_fork(uintptr_t *taken) {
    if (!is_taken_by(taken, this_thread())) hold(taken, this_thread() + 1);
}

static void leave_after_fork(uintptr_t *taken) {
    if (is_taken_by(taken, this_thread() + 1)) leave(taken);
}

static void hold_all(void) {
    hold_for_fork(&contexts_taken);
    for (struct filter *each = contexts; each; each = each->next) hold_for_fork(&each->taken);
}

static void leave_all(void) {
    for (struct filter *each = contexts; each; each = each->next) leave_after_fork(&each->taken);
    leave_after_fork(&contexts_taken);
}

__attribute__((constructor)) static void watch_forks(void) { pthread_atfork(hold_all, leave_all, leave_all); }

static void enlist(struct filter *filter) {
    hold(&contexts_taken, this_thread());
    filter->next = contexts;
    if (contexts) contexts->previous = filter;
    contexts = filter;
    leave(&contexts_taken);
}

/* Takes a context off the list: both are taken by this thread. */
static void delist(struct filter *filter) {
    if (filter->next) filter->next->previous = filter->previous;
    if (filter->previous) filter->previous->next = filter->next;
    else contexts = filter->next;
}

static bool is_context(const struct filter *filter) { return filter && filter->mark == MARK; }

struct filter *begun(scmp_filter_ctx ctx) {
    struct filter *filter = ctx;
    forget_why();
    if (!is_context(filter)) return NULL;
    hold(&filter->taken, this_thread());
    return filter;
}

int done(struct filter *filter, int answer) {
    leave(&filter->taken);
    return answer;
}

struct filter *take(scmp_filter_ctx ctx) {
    struct filter *filter = begun(ctx);
    if (!filter || filter->now.machines) return filter;
    done(filter, 0);
    return NULL; /* as libseccomp: one without a machine is none */
}

/* Ends the transactions from this one on: what they kept is given back. */
static void end_transactions(struct filter *filter, unsigned first) {
    while (filter->nested > first) {
        free(filter->kept[--filter->nested]);
        filter->kept[filter->nested] = NULL;
    }
}

static void start(struct filter *filter, uint32_t action) {
    drop_rules(filter, 0);
    end_transactions(filter, 0);
    filter->now = (struct state){.machines = 1u << NATIVE};
    filter->now.attributes[DEFAULT_ACTION] = action;
    filter->now.attributes[BAD_MACHINE_ACTION] = KILL_THREAD;
    filter->now.attributes[NO_NEW_PRIVS] = 1;
    filter->now.attributes[OPTIMIZE] = 1;
    filter->length = 0;
    filter->notifies = action == NOTIFY;
}

/* Whether a call with the one action is carried out, and with the other not. */
bool has_more_rights(uint32_t action, uint32_t other) {
    bool is_through = action == ALLOW || action == LOG;
    return is_through && other != ALLOW && other != LOG;
}

int judge_action(uint32_t action) {
    switch (action) {
    case KILL_PROCESS: case KILL_THREAD: case TRAP: case LOG: case ALLOW: return 0;
    case NOTIFY: return judge_notify(false);
    }
    if ((action & ACTION) == TRACE || ((action & ACTION) == ERRNO && (action & ~ACTION) < 4095)) return 0;
    return -EINVAL;
}

/* ---- versions */

API const struct scmp_version *seccomp_version(void) {
    static const struct scmp_version version = {2, 5, EDITION};
    return &version;
}

/* The flags that the kernel has to have for each level above the first. */
static const unsigned OF_LEVEL[] = {
    SECCOMP_FILTER_FLAG_TSYNC, SECCOMP_FILTER_FLAG_LOG, SECCOMP_FILTER_FLAG_SPEC_ALLOW, SECCOMP_FILTER_FLAG_NEW_LISTENER,
    SECCOMP_FILTER_FLAG_TSYNC_ESRCH, SECCOMP_FILTER_FLAG_NEW_LISTENER | SECCOMP_FILTER_FLAG_WAIT_KILLABLE_RECV};
enum { HIGHEST = 1 + sizeof OF_LEVEL / sizeof *OF_LEVEL };
static _Atomic unsigned level;

static bool kernel_has(unsigned flag) { return syscall(SYS_seccomp, SECCOMP_SET_MODE_FILTER, flag, NULL) < 0 && errno == EFAULT; }

API unsigned seccomp_api_get(void) {
    unsigned found = level;
    if (found) return found;
    for (found = 1; found < HIGHEST && kernel_has(OF_LEVEL[found - 1]);) found++;
    level = found;
    return found;
}

API int seccomp_api_set(unsigned wanted) {
    if (wanted < 1 || wanted > HIGHEST) return -EINVAL;
    level = wanted;
    return 0;
}

/* ---- contexts */

API scmp_filter_ctx seccomp_init(uint32_t action) {
    forget_why();
    if (judge_action(action)) return NULL;
    struct filter *filter = calloc(1, sizeof *filter);
    if (!filter) return NULL;
    filter->mark = MARK;
    start(filter, action);
    enlist(filter);
    return filter;
}

API int seccomp_reset(scmp_filter_ctx ctx, uint32_t action) {
    struct filter *filter = begun(ctx);
    if (!ctx) {
        level = 0;
        close_listener();
    }
    if (!filter) return ctx ? -EINVAL : 0;
    int error = judge_action(action) ? -EINVAL : 0;
    if (!error) start(filter, action);
    return done(filter, error);
}

static void give_up(struct filter *filter) {
    delist(filter);
    end_transactions(filter, 0);
    filter->mark = 0;
    free(filter->rules);
    free(filter->calls);
    free(filter->conditions);
    free(filter->numbers);
    free(filter->bytes);
    free(filter);
}

API void seccomp_release(scmp_filter_ctx ctx) {
    struct filter *filter = ctx;
    forget_why();
    if (!is_context(filter)) return;
    hold(&contexts_taken, this_thread()); /* before the context itself, as a fork does */
    hold(&filter->taken, this_thread());
    give_up(filter);
    leave(&contexts_taken);
}

/* ---- machines */

/* Whether the order of bytes is another than that of the context's machines. */
static bool has_other_order(const struct filter *filter, int machine) {
    for (int i = 0; i < MACHINES; i++)
        if (filter->now.machines >> i & 1 && (MACHINE[i].token ^ MACHINE[machine].token) & LOWEST_FIRST) return true;
    return false;
}

API int seccomp_arch_exist(const scmp_filter_ctx ctx, uint32_t token) {
    int machine = machine_with(token);
    struct filter *filter = begun(ctx);
    if (!filter) return -EINVAL;
    if (machine < 0) return done(filter, -EINVAL);
    return done(filter, filter->now.machines >> machine & 1 ? 0 : -EEXIST);
}

API int seccomp_arch_add(scmp_filter_ctx ctx, uint32_t token) {
    int machine = machine_with(token);
    struct filter *filter = begun(ctx); /* it may have no machine yet */
    if (!filter) return -EINVAL;
    if (machine < 0) return done(filter, -EINVAL);
    if (filter->now.machines >> machine & 1) return done(filter, -EEXIST);
    if (has_other_order(filter, machine)) return done(filter, -EDOM);
    filter->now.machines |= 1u << machine;
    filter->length = 0;
    return done(filter, 0);
}

/* Keeps the machines of the rules that each open transaction began with, before one is taken away: 0, or -ENOMEM. */
static int keep_machines(struct filter *filter) {
    for (unsigned i = 0; i < filter->nested; i++) {
        size_t count = filter->before[i].count;
        if (filter->kept[i] || !count) continue;
        if (!(filter->kept[i] = calloc(count, sizeof **filter->kept))) return -ENOMEM;
        for (size_t k = 0; k < count; k++) filter->kept[i][k] = filter->rules[k].machines;
    }
    return 0;
}

API int seccomp_arch_remove(scmp_filter_ctx ctx, uint32_t token) {
    int machine = machine_with(token);
    struct filter *filter = begun(ctx);
    if (!filter) return -EINVAL;
    if (machine < 0) return done(filter, -EINVAL);
    if (!(filter->now.machines >> machine & 1)) return done(filter, -EEXIST);
    if (keep_machines(filter)) return done(filter, -ENOMEM);
    for (size_t i = 0; i < filter->now.count; i++)
        if (filter->rules[i].is_open) find_lost(filter, filter->rules[i].call, filter->rules[i].number);
    filter->now.machines &= ~(1u << machine);
    for (size_t i = 0; i < filter->now.count; i++) filter->rules[i].machines &= ~(1u << machine); /* its rules go with it */
    filter->length = 0;
    return done(filter, 0);
}

/* What libseccomp wants of two contexts that become one: alike in three attributes, one order of bytes, and no machine in both. */
static int judge_merge(const struct filter *into, const struct filter *from) {
    static const int ALIKE[] = {DEFAULT_ACTION, NO_NEW_PRIVS, ALL_THREADS};
    if (!into->now.machines || !from->now.machines) return -EINVAL;
    for (unsigned i = 0; i < sizeof ALIKE / sizeof *ALIKE; i++)
        if (into->now.attributes[ALIKE[i]] != from->now.attributes[ALIKE[i]]) return -EINVAL;
    if (has_other_order(into, __builtin_ctz(from->now.machines))) return -EDOM;
    return into->now.machines & from->now.machines ? -EEXIST : 0;
}

/* The machines of the other context come with their rules. No two of these rules are for one machine, so none contradicts another. */
static int merge(struct filter *into, struct filter *from) {
    int error = judge_merge(into, from);
    if (error) return error;
    if (copy_rules(into, from)) return -ENOMEM;
    into->now.machines |= from->now.machines;
    into->notifies |= from->notifies;
    into->length = 0;
    give_up(from);
    return 0;
}

/* Two contexts are held at once only while all are, so no two threads wait for each other. */
API int seccomp_merge(scmp_filter_ctx into, scmp_filter_ctx from) {
    struct filter *one = into, *other = from;
    forget_why();
    if (!is_context(one) || !is_context(other)) return -EINVAL;
    hold(&contexts_taken, this_thread());
    hold(&one->taken, this_thread());
    if (other != one) hold(&other->taken, this_thread());
    int error = merge(one, other);
    if (error && other != one) leave(&other->taken);
    leave(&one->taken);
    leave(&contexts_taken);
    return error;
}

/* ---- attributes */

API int seccomp_attr_get(const scmp_filter_ctx ctx, int attribute, uint32_t *value) {
    struct filter *filter = take(ctx);
    if (!filter) return -EINVAL;
    if (attribute <= 0 || attribute >= ATTRIBUTES || !value) return done(filter, -EINVAL);
    *value = filter->now.attributes[attribute];
    return done(filter, 0);
}

/* 0, or why an attribute can't have the value. */
static int judge_attribute(const struct filter *filter, int attribute, uint32_t value) {
    switch (attribute) {
    case DEFAULT_ACTION: return -EACCES;
    case BAD_MACHINE_ACTION:
        if (judge_action(value)) return -EINVAL;
        return value == NOTIFY ? judge_notify(filter->now.attributes[ALL_THREADS]) : 0;
    case ALL_THREADS: return seccomp_api_get() < 2 ? -EOPNOTSUPP : value && filter->notifies ? judge_notify(true) : 0;
    case LOG_REFUSED: return seccomp_api_get() < 3 ? -EOPNOTSUPP : 0;
    case NO_SSB_MITIGATION: return seccomp_api_get() < 4 ? -EOPNOTSUPP : 0;
    case OPTIMIZE: return value == 1 || value == 2 ? 0 : -EOPNOTSUPP;
    case NO_NEW_PRIVS: case RULES_FOR_SKIPPED: case ERRORS_OF_SYSTEM: case WAIT_KILL: return 0;
    }
    return -EINVAL;
}

API int seccomp_attr_set(scmp_filter_ctx ctx, int attribute, uint32_t value) {
    struct filter *filter = take(ctx);
    if (!filter) return -EINVAL;
    int error = judge_attribute(filter, attribute, value);
    if (error) return done(filter, error);
    bool is_switch = attribute != BAD_MACHINE_ACTION && attribute != OPTIMIZE;
    filter->now.attributes[attribute] = is_switch ? !!value : value;
    if (attribute == BAD_MACHINE_ACTION || attribute == RULES_FOR_SKIPPED) filter->length = 0;
    return done(filter, 0);
}

/* ---- transactions, of libseccomp 2.6 */

API int seccomp_transaction_start(const scmp_filter_ctx ctx) {
    struct filter *filter = take(ctx);
    if (!filter) return -EINVAL;
    if (filter->nested == MOST_NESTED) return done(filter, -ENOMEM);
    filter->before[filter->nested++] = filter->now;
    return done(filter, 0);
}

/* What stood when a transaction began, with the machines that were taken away since. Attributes stay, as in libseccomp. */
static void restore(struct filter *filter, unsigned transaction) {
    struct state before = filter->before[transaction];
    drop_rules(filter, before.count);
    memcpy(before.attributes, filter->now.attributes, sizeof before.attributes);
    filter->now = before;
    for (size_t i = 0; filter->kept[transaction] && i < filter->now.count; i++)
        filter->rules[i].machines = filter->kept[transaction][i];
    filter->length = 0;
}

static int end(scmp_filter_ctx ctx, bool keeps) {
    struct filter *filter = begun(ctx);
    if (!filter) return -EINVAL;
    if (!filter->nested) return done(filter, 0);
    if (!keeps) restore(filter, filter->nested - 1);
    end_transactions(filter, filter->nested - 1);
    return done(filter, 0);
}

API int seccomp_transaction_commit(const scmp_filter_ctx ctx) { return end(ctx, true); }
API void seccomp_transaction_reject(const scmp_filter_ctx ctx) { end(ctx, false); }
