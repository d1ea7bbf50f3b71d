/* From what was asked for to a filter: rules for each machine, as ccell takes them, and what it says of them. */
#include "filter.h"
#include <errno.h>
#include <stdio.h>
#include <stdlib.h>
#include <string.h>
#include <sys/mman.h>
#include <ucontext.h>

static int push(struct list *list, const struct ccell_rule *rule, size_t of) {
    if (list->count == list->room) {
        size_t room = list->room ? 2 * list->room : 512;
        struct ccell_rule *rules = reallocarray(list->rules, room, sizeof *rules);
        if (rules) list->rules = rules;
        size_t *places = rules ? reallocarray(list->of, room, sizeof *places) : NULL;
        if (!places) return -ENOMEM;
        list->of = places;
        list->room = room;
    }
    list->rules[list->count] = *rule;
    list->of[list->count++] = of;
    return 0;
}

/* Writes a rule for one machine, if that has the call. */
static int write_for(struct list *list, const struct rule *rule, int machine, size_t of) {
    uint32_t number;
    if (!rule_has(rule, machine, &number)) return 0;
    struct ccell_rule written = {MACHINE[machine].token, number, rule->action, rule->count, {{0, 0, 0, 0}}};
    memcpy(written.conditions, rule->conditions, sizeof rule->conditions);
    return push(list, &written, of);
}

/* Writes what the rule says of socketcall or ipc on a machine, as libseccomp does, or reports that it does not count for these: where a
 * rule says what becomes of all of these, that one counts, and conditions speak of arguments that socketcall has behind a pointer. */
static int write_way(const struct filter *filter, struct list *list, const struct rule *rule, int machine, size_t of) {
    uint64_t first;
    int way = way_of(rule, machine, &first);
    if (way < 0) return 0;
    const char *on = MACHINE[machine].name;
    const struct rule *whole = whole_rule(filter, way, 0, machine);
    if (whole && whole->action == rule->action) return 0;
    if (whole)
        return refuse(0, "%s: on %s it does not count for %s, of which all get %s", rule_text(rule).is, on, call_name(way),
                      action_text(whole->action).is);
    if (rule->count)
        return refuse(0, "%s: on %s it does not count for %s, whose arguments no filter sees", rule_text(rule).is, on, call_name(way));
    struct rule other = rule_of_way(filter, rule, machine, way, first);
    return write_for(list, &other, machine, of);
}

/* Writes what is left of a rule on a machine beside the others. */
static int write_parts(const struct filter *filter, struct list *list, const struct rule *rule, int machine, size_t of) {
    struct parts parts = {NULL, 0, 0, NULL};
    bool are_alike = have_action(filter, rule->call, rule->number, rule->action);
    if (!rule->count || is_strict || are_alike) return write_for(list, rule, machine, of);
    int error = list_parts(filter, rule, machine, NULL, &parts);
    if (error == -EEXIST) error = contradicts(rule, parts.beside, machine); /* it was found when they were added */
    for (size_t i = 0; !error && i < parts.count; i++) error = write_for(list, &parts.rules[i], machine, of);
    free_parts(&parts);
    return error;
}

static int write_rule(const struct filter *filter, size_t place, struct list *list) {
    const struct rule *rule = &filter->rules[place];
    bool is_off = rule->call < 0 && rule->number == SKIPPED && !filter->now.attributes[RULES_FOR_SKIPPED]; /* as in libseccomp */
    uint32_t machines = is_off ? 0 : counting(filter, rule);
    int error = 0;
    for (int machine = 0; !error && machine < OURS; machine++) {
        if (!(machines >> machine & 1)) continue;
        error = write_way(filter, list, rule, machine, place);
        if (!error) error = write_parts(filter, list, rule, machine, place);
    }
    return error;
}

int write_rules(const struct filter *filter, struct list *list) {
    int error = 0;
    for (size_t place = 0; !error && place < filter->now.count; place++) error = write_rule(filter, place, list);
    return error;
}

void free_list(struct list *list) {
    free(list->rules);
    free(list->of);
}

/* ---- the filter */

static struct text named(const struct filter *filter, const struct list *list, size_t place) {
    return rule_text(&filter->rules[list->of[place]]);
}

/* Contradictions are found when a rule is added: none is expected here. */
static int tell(const struct filter *filter, const struct list *list, uint32_t status, const struct ccell_told *at) {
    switch (status) {
    case CCELL_DONE: return 0;
    case CCELL_NO_MEMORY: return -ENOMEM;
    case CCELL_NO_NATIVE: return refuse(-EOPNOTSUPP, "ccell knows none of the machines of the filter");
    case CCELL_OVERLAP:
        return refuse(-EEXIST, "%s contradicts %s on %s", named(filter, list, at->first).is, named(filter, list, at->second).is,
                      MACHINE[machine_with(list->rules[at->first].machine)].name);
    case CCELL_TOO_MANY: return refuse(-EINVAL, "there are more than 8192 rules");
    case CCELL_NO_ROOM: case CCELL_NO_FILTER: return refuse(-EINVAL, "the filter would be longer than a kernel takes");
    case CCELL_NO_RULE: return refuse(-EINVAL, "%s: no rule of ccell", named(filter, list, at->first).is);
    }
    return refuse(-EFAULT, "status %u of ccell", status);
}

/* ccell is called on a stack of its own, since a thread of an engine may have little. One is kept for the next filter: its pages are there. */
enum { STACK = 1 << 20 };
static void *kept_stack;

__attribute__((noinline)) static void *take_stack(void) { /* before getcontext, which may come back twice */
    void *stack = __atomic_exchange_n(&kept_stack, NULL, __ATOMIC_ACQUIRE);
    if (stack) return stack;
    stack = mmap(NULL, STACK, PROT_READ | PROT_WRITE, MAP_PRIVATE | MAP_ANONYMOUS | MAP_STACK, -1, 0);
    if (stack == MAP_FAILED) return NULL;
    if (!mprotect(stack, 4096, PROT_NONE)) return stack; /* the lowest page is a guard */
    munmap(stack, STACK);
    return NULL;
}

static void give_stack(void *stack) {
    void *none = NULL;
    bool is_kept = __atomic_compare_exchange_n(&kept_stack, &none, stack, false, __ATOMIC_RELEASE, __ATOMIC_RELAXED);
    if (!is_kept) munmap(stack, STACK);
}

__attribute__((destructor)) static void drop_stack(void) {
    if (kept_stack) munmap(kept_stack, STACK);
}

struct question {
    const struct filter *filter;
    const struct list *list;
    size_t lead; /* bytes in front of it */
    struct ccell_told at;
    uint32_t status;
};

static void answer(unsigned low, unsigned high) {
    static const struct ccell_rule none;
    struct question *of = (struct question *)((uintptr_t)low | (uintptr_t)high << 32);
    const struct state *now = &of->filter->now;
    uint32_t machines[OURS];
    size_t count = 0;
    for (int i = 0; i < OURS; i++)
        if (now->machines >> i & 1) machines[count++] = MACHINE[i].token;
    /* What a filter answers is the same whichever of its machines stands for the native one. */
    uint32_t native = now->machines >> NATIVE & 1 ? MACHINE[NATIVE].token : count ? machines[0] : 0;
    of->status = ccell_filter_for_rules(native, now->attributes[DEFAULT_ACTION], machines, count,
                                        of->list->count ? of->list->rules : &none, of->list->count, of->filter->bytes + of->lead,
                                        CCELL_MOST_BYTES - of->lead, &of->at);
}

static int ask(struct filter *filter, const struct list *list) {
    struct question of = {filter, list, write_lead(filter, filter->bytes), {0, 0, 0}, CCELL_NO_MEMORY};
    ucontext_t here, there;
    void *stack = take_stack();
    if (!stack) return -ENOMEM;
    bool is_switched = !getcontext(&there);
    if (is_switched) {
        there.uc_stack.ss_sp = stack;
        there.uc_stack.ss_size = STACK;
        there.uc_link = &here;
        makecontext(&there, (void (*)(void))answer, 2, (unsigned)(uintptr_t)&of, (unsigned)((uintptr_t)&of >> 32));
        is_switched = !swapcontext(&here, &there);
    }
    give_stack(stack);
    int error = is_switched ? tell(filter, list, of.status, &of.at) : -EFAULT;
    if (!error && of.lead) error = judge_lead(filter->bytes + of.lead);
    filter->length = error ? 0 : of.lead + of.at.count;
    return error;
}

int make(struct filter *filter) {
    struct list list = {NULL, NULL, 0, 0};
    if (filter->length) return 0;
    if (!filter->bytes && !(filter->bytes = malloc(CCELL_MOST_BYTES))) return -ENOMEM;
    int error = write_rules(filter, &list);
    if (!error) error = ask(filter, &list);
    free_list(&list);
    return error;
}
