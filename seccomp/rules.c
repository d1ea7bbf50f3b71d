/* Rules: what a program asks for of one call, written down as it came. */
#include "filter.h"
#include <errno.h>
#include <stdarg.h>
#include <stdlib.h>
#include <string.h>

/* The conditions in the order of arguments: 0, or -EINVAL where one is no condition or two are of one argument. One under an empty mask
 * holds of each number, and is left out, as in libseccomp. */
static int read_conditions(struct rule *rule, unsigned count, const struct scmp_arg_cmp *args) {
    const struct scmp_arg_cmp *by_argument[ARGUMENTS] = {NULL};
    for (unsigned i = 0; i < count; i++) {
        if (args[i].arg >= ARGUMENTS || by_argument[args[i].arg] || args[i].op < NOT_EQUAL || args[i].op > MASKED_EQUAL) return -EINVAL;
        by_argument[args[i].arg] = &args[i];
    }
    for (unsigned i = 0; i < ARGUMENTS; i++) {
        const struct scmp_arg_cmp *from = by_argument[i];
        if (!from) continue;
        bool is_masked = from->op == MASKED_EQUAL; /* "equal to the masked datum value": no bit outside of the mask counts */
        if (is_masked && !from->datum_a) continue;
        rule->conditions[rule->count++] = (struct ccell_condition){
            i, (uint32_t)from->op, from->datum_a, is_masked ? from->datum_b & from->datum_a : 0};
    }
    return 0;
}

/* ---- the list of rules, and the slots in which those of a call, and those with the same conditions, find each other */

static uint64_t mixed(uint64_t key, uint64_t with) {
    key = (key ^ with) * 0x9e3779b97f4a7c15;
    return key ^ key >> 32;
}

static uint64_t key_of(int call, int number) { return mixed(0, (uint64_t)(uint32_t)call << 32 | (uint32_t)number); }

/* The slot of a call, or the free one that it would get. There is always one that is free. */
static struct of_call *slot_of(const struct filter *filter, int call, int number) {
    for (size_t i = key_of(call, number);; i++) {
        struct of_call *slot = &filter->calls[i & (2 * filter->room - 1)];
        if (!slot->is_taken || (slot->call == call && slot->number == number)) return slot;
    }
}

static uint32_t *slot_of_conditions(const struct filter *filter, const struct rule *rule) {
    uint64_t key = key_of(rule->call, rule->number);
    for (unsigned i = 0; i < rule->count; i++) {
        const struct ccell_condition *each = &rule->conditions[i];
        key = mixed(mixed(mixed(key, (uint64_t)each->argument << 32 | each->operator_), each->value), each->datum);
    }
    return &filter->conditions[key & (filter->room - 1)];
}

/* The argument of a rule's first condition where that is `==`; ARGUMENTS where it is another one, or there is none. */
static unsigned first_equal(const struct rule *rule) {
    return rule->count && rule->conditions[0].operator_ == CCELL_EQ ? rule->conditions[0].argument : ARGUMENTS;
}

static uint32_t *slot_of_number(const struct filter *filter, const struct rule *rule) {
    uint64_t key = mixed(mixed(key_of(rule->call, rule->number), rule->conditions[0].argument), rule->conditions[0].value);
    return &filter->numbers[key & (filter->room - 1)];
}

/* Puts a rule behind the others of its call that have a `first_equal`, and behind those whose number is the same. */
static void enter_first(struct filter *filter, struct of_call *of, struct rule *rule, size_t place) {
    unsigned argument = first_equal(rule);
    rule->on_argument = of->on_argument[argument];
    of->on_argument[argument] = (uint32_t)place + 1;
    if (argument == ARGUMENTS) return;
    uint32_t *slot = slot_of_number(filter, rule);
    rule->of_number = *slot;
    *slot = (uint32_t)place + 1;
}

static void drop_first(struct filter *filter, struct of_call *of, const struct rule *rule) {
    unsigned argument = first_equal(rule);
    of->on_argument[argument] = rule->on_argument;
    if (argument != ARGUMENTS) *slot_of_number(filter, rule) = rule->of_number;
}

static void enter(struct filter *filter, size_t place) {
    struct rule *rule = &filter->rules[place];
    struct of_call *of = slot_of(filter, rule->call, rule->number);
    uint32_t *slot = slot_of_conditions(filter, rule);
    if (!of->is_taken) {
        *of = (struct of_call){.is_taken = true, .call = rule->call, .number = rule->number};
        filter->called++;
    }
    rule->before = of->last;
    rule->were_unlike = of->are_unlike;
    rule->had_whole = of->has_whole;
    rule->could_lose = of->can_lose;
    of->are_unlike |= of->last && filter->rules[of->last - 1].action != rule->action;
    of->has_whole |= !rule->count;
    of->can_lose |= is_at_risk(rule) || (of->last && filter->rules[of->last - 1].count != rule->count);
    of->last = (uint32_t)place + 1;
    rule->alike = *slot;
    *slot = (uint32_t)place + 1;
    enter_first(filter, of, rule, place);
}

size_t rule_before(const struct filter *filter, int call, int number, size_t place) {
    if (!filter->room) return 0;
    return place ? filter->rules[place - 1].before : slot_of(filter, call, number)->last;
}

size_t alike_before(const struct filter *filter, const struct rule *rule, size_t place) {
    if (!filter->room) return 0;
    return place ? filter->rules[place - 1].alike : *slot_of_conditions(filter, rule);
}

/* The first place, from one on, in a slot of `numbers` whose rule has the call of another one and begins with its `==`; 0 where there is
 * none. */
static uint32_t same_number(const struct filter *filter, const struct rule *rule, uint32_t at) {
    for (; at; at = filter->rules[at - 1].of_number) {
        const struct rule *old = &filter->rules[at - 1];
        bool is_alike = old->call == rule->call && old->number == rule->number && first_equal(old) == first_equal(rule);
        if (is_alike && old->conditions[0].value == rule->conditions[0].value) break;
    }
    return at;
}

struct walk walk_beside(const struct filter *filter, const struct rule *rule) {
    struct walk walk = {filter, rule, {0}};
    unsigned own = first_equal(rule);
    if (!filter->room) return walk;
    memcpy(walk.at, slot_of(filter, rule->call, rule->number)->on_argument, sizeof walk.at);
    if (own != ARGUMENTS) walk.at[own] = same_number(filter, rule, *slot_of_number(filter, rule));
    return walk;
}

const struct rule *next_beside(struct walk *walk) {
    unsigned own = first_equal(walk->beside), last = 0;
    for (unsigned i = 1; i <= ARGUMENTS; i++)
        if (walk->at[i] > walk->at[last]) last = i;
    if (!walk->at[last]) return NULL;
    const struct rule *found = &walk->filter->rules[walk->at[last] - 1];
    bool is_own = last == own && own != ARGUMENTS;
    walk->at[last] = is_own ? same_number(walk->filter, walk->beside, found->of_number) : found->on_argument;
    return found;
}

bool can_lose(const struct filter *filter, int call, int number) {
    return filter->room && slot_of(filter, call, number)->can_lose;
}

bool have_action(const struct filter *filter, int call, int number, uint32_t action) {
    const struct of_call *of = filter->room ? slot_of(filter, call, number) : NULL;
    return !of || !of->last || (!of->are_unlike && filter->rules[of->last - 1].action == action);
}

/* Makes room for another rule and for its call. */
static int grow(struct filter *filter) {
    size_t room = !filter->room ? 64 : filter->now.count == filter->room ? 2 * filter->room : filter->room;
    struct of_call *calls = room <= UINT32_MAX ? calloc(2 * room, sizeof *calls) : NULL;
    uint32_t *conditions = calls ? calloc(room, sizeof *conditions) : NULL;
    uint32_t *numbers = conditions ? calloc(room, sizeof *numbers) : NULL;
    struct rule *rules = numbers ? reallocarray(filter->rules, room, sizeof *rules) : NULL;
    if (!rules) {
        free(calls);
        free(conditions);
        free(numbers);
        return -ENOMEM;
    }
    free(filter->calls);
    free(filter->conditions);
    free(filter->numbers);
    filter->rules = rules;
    filter->calls = calls;
    filter->conditions = conditions;
    filter->numbers = numbers;
    filter->room = room;
    filter->called = 0;
    for (size_t place = 0; place < filter->now.count; place++) enter(filter, place);
    return 0;
}

static bool is_full(const struct filter *filter) { return filter->now.count == filter->room || filter->called == filter->room; }

void drop_rules(struct filter *filter, size_t count) {
    while (filter->now.count > count) {
        const struct rule *last = &filter->rules[--filter->now.count];
        struct of_call *of = slot_of(filter, last->call, last->number);
        of->last = last->before;
        of->are_unlike = last->were_unlike;
        of->has_whole = last->had_whole;
        of->can_lose = last->could_lose;
        drop_first(filter, of, last);
        *slot_of_conditions(filter, last) = last->alike;
    }
}

int copy_rules(struct filter *filter, const struct filter *from) {
    size_t count = filter->now.count;
    for (size_t i = 0; i < from->now.count; i++) {
        if (is_full(filter) && grow(filter)) {
            drop_rules(filter, count);
            return -ENOMEM;
        }
        filter->rules[filter->now.count] = from->rules[i];
        enter(filter, filter->now.count++);
    }
    return 0;
}

const struct rule *whole_rule(const struct filter *filter, int call, int number, int machine) {
    const struct rule *first = NULL;
    if (!filter->room || !slot_of(filter, call, number)->has_whole) return NULL;
    for (size_t at = 0; (at = rule_before(filter, call, number, at));)
        if (!filter->rules[at - 1].count && filter->rules[at - 1].machines >> machine & 1) first = &filter->rules[at - 1];
    return first;
}

uint32_t counting(const struct filter *filter, const struct rule *rule) {
    uint32_t machines = rule->machines;
    for (int machine = 0; !is_strict && machine < MACHINES; machine++) {
        const struct rule *whole = machines >> machine & 1 ? whole_rule(filter, rule->call, rule->number, machine) : NULL;
        if (!whole || whole == rule) continue;
        machines &= ~(1u << machine);
        if (whole->action != rule->action)
            refuse(0, "%s: on %s it counts for nothing beside %s", rule_text(rule).is, MACHINE[machine].name, rule_text(whole).is);
    }
    return machines;
}

static bool is_same_but_for_action(const struct rule *a, const struct rule *b) {
    return a->call == b->call && a->number == b->number && a->count == b->count && !memcmp(a->conditions, b->conditions, a->count * sizeof *a->conditions);
}

/* Whether the rule is there already, 1, or contradicts one that is the same but for its action, whatever machines have the call, as in
 * libseccomp. */
static int find_same(const struct filter *filter, const struct rule *rule) {
    int answer = 0;
    for (size_t at = 0; (at = alike_before(filter, rule, at));) {
        const struct rule *old = &filter->rules[at - 1];
        if (!(old->machines & rule->machines) || !is_same_but_for_action(old, rule)) continue;
        if (old->action != rule->action) return refuse(-EEXIST, "%s contradicts %s", rule_text(rule).is, rule_text(old).is);
        if ((old->machines & rule->machines) == rule->machines) answer = 1;
    }
    return answer;
}

/* Leaves a rule those machines on which it counts. The answer is whether it is new there, or an error. */
static int judge(const struct filter *filter, struct rule *rule) {
    uint32_t machines = rule->machines;
    rule->machines = counting(filter, rule);
    int found = rule->machines ? find_same(filter, rule) : 1;
    int error = found < 0 ? found : found ? 0 : judge_rule(filter, rule);
    if (!error) error = judge_in_ways(filter, rule, machines);
    return error ? error : !found;
}

static int append(struct filter *filter, struct rule *rule) {
    int is_new = judge(filter, rule);
    if (!is_new) return judge_again(filter, rule);
    if (is_new < 0) return is_new;
    if (is_full(filter) && grow(filter)) return -ENOMEM;
    rule->is_open = true;
    rule->settles = machines_that_settle(filter, rule);
    filter->rules[filter->now.count] = *rule;
    enter(filter, filter->now.count++);
    filter->length = 0;
    if (!have_action(filter, rule->call, rule->number, rule->action)) find_lost(filter, rule->call, rule->number);
    int error = judge_last(filter);
    if (error) drop_rules(filter, filter->now.count - 1);
    return error;
}

static bool one_has(uint32_t machines, int call) {
    uint32_t number;
    uint64_t told;
    if (machines >> OURS) return true; /* of those no calls are known */
    if (machines & WITH_WAYS && other_way(call, &told) >= 0) return true;
    for (int i = 0; i < OURS; i++)
        if (machines >> i & 1 && call_has(i, call, &number)) return true;
    return false;
}

/* Whether the number stands for no call. */
static bool is_none(const struct filter *filter, int number) {
    return number <= -1 && number >= -99 && !(number == SKIPPED && filter->now.attributes[RULES_FOR_SKIPPED]);
}

static int add(struct filter *filter, bool exact, uint32_t action, int number, unsigned count, const struct scmp_arg_cmp *args) {
    struct rule rule = {.action = action, .machines = filter->now.machines};
    if (is_none(filter, number)) return -EINVAL;
    int error = judge_action(action);
    if (!error && action == NOTIFY) error = judge_notify(filter->now.attributes[ALL_THREADS]);
    if (error) return error;
    if (action == filter->now.attributes[DEFAULT_ACTION]) return -EACCES;
    bool is_alone = !(rule.machines & (rule.machines - 1));
    if (exact && !is_alone) return -EOPNOTSUPP;
    if ((error = read_conditions(&rule, count, args))) return error;
    rule.call = call_with(NATIVE, number);
    if (rule.call < 0 && number == SKIPPED) {
        rule.number = number; /* on each machine */
    } else if (rule.call < 0) {
        rule.number = number;
        if (rule.machines != 1u << NATIVE) return -EFAULT; /* without a name it has no number elsewhere */
        if (number < 0) return exact ? -EDOM : 0;          /* a call that this machine lacks */
    } else if (!one_has(rule.machines, rule.call)) {
        return exact ? -EDOM : 0; /* no machine that is listed has the call */
    }
    uint64_t first;
    if (exact && count && rule.call >= 0 && rule.machines & WITH_WAYS && other_way(rule.call, &first) >= 0)
        return -EINVAL; /* as libseccomp: the machine has a way without these arguments */
    return append(filter, &rule);
}

static int add_to(scmp_filter_ctx ctx, bool exact, uint32_t action, int number, unsigned count, const struct scmp_arg_cmp *args) {
    struct filter *filter = take(ctx);
    if (!filter) return -EINVAL;
    bool is_bad = count > ARGUMENTS || (count && !args);
    int error = is_bad ? -EINVAL : add(filter, exact, action, number, count, args);
    if (!error && action == NOTIFY) filter->notifies = true; /* as in libseccomp, also where no machine has the call */
    return done(filter, error);
}

API int seccomp_rule_add_array(scmp_filter_ctx ctx, uint32_t action, int number, unsigned count, const struct scmp_arg_cmp *args) {
    return add_to(ctx, false, action, number, count, args);
}

API int seccomp_rule_add_exact_array(scmp_filter_ctx ctx, uint32_t action, int number, unsigned count, const struct scmp_arg_cmp *args) {
    return add_to(ctx, true, action, number, count, args);
}

static void read_listed(struct scmp_arg_cmp *args, unsigned count, va_list listed) {
    for (unsigned i = 0; i < count && i < ARGUMENTS; i++) args[i] = va_arg(listed, struct scmp_arg_cmp);
}

API int seccomp_rule_add(scmp_filter_ctx ctx, uint32_t action, int number, unsigned count, ...) {
    struct scmp_arg_cmp args[ARGUMENTS];
    va_list listed;
    va_start(listed, count);
    read_listed(args, count, listed);
    va_end(listed);
    return add_to(ctx, false, action, number, count, args);
}

API int seccomp_rule_add_exact(scmp_filter_ctx ctx, uint32_t action, int number, unsigned count, ...) {
    struct scmp_arg_cmp args[ARGUMENTS];
    va_list listed;
    va_start(listed, count);
    read_listed(args, count, listed);
    va_end(listed);
    return add_to(ctx, true, action, number, count, args);
}

API int seccomp_syscall_priority(scmp_filter_ctx ctx, int number, uint8_t priority) {
    (void)priority; /* where a call stands in the filter is ccell's to choose */
    struct filter *filter = take(ctx);
    return filter ? done(filter, is_none(filter, number) ? -EINVAL : 0) : -EINVAL;
}
