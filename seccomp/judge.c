/* What can be wrong with a rule, by itself and beside those that were added before it. */
#include "filter.h"
#include <errno.h>
#include <string.h>

/* ---- whether one call matches two rules */

static bool holds(const struct ccell_condition *condition, uint64_t argument) {
    uint64_t value = condition->value;
    switch (condition->operator_) {
    case CCELL_NE: return argument != value;
    case CCELL_LT: return argument < value;
    case CCELL_LE: return argument <= value;
    case CCELL_EQ: return argument == value;
    case CCELL_GE: return argument >= value;
    case CCELL_GT: return argument > value;
    default: return (argument & value) == condition->datum;
    }
}

static uint64_t mask_of(const struct ccell_condition *condition) {
    return condition->operator_ == CCELL_MASKED_EQ ? condition->value : 0;
}

/* One number alone meets an equation. Any other condition that holds of a
 * number holds of all below it with the same bits under the mask, or of all above it. So where some number meets both, so does the least
 * or the greatest with the bits of both, or a number that they compare with, or the one after it. */
bool have_common(const struct ccell_condition *a, const struct ccell_condition *b, uint64_t greatest) {
    uint64_t least = a->datum | b->datum, free = greatest & ~(mask_of(a) | mask_of(b));
    uint64_t near[] = {least, least | free, a->value, a->value + 1, b->value, b->value + 1};
    for (unsigned i = 0; i < sizeof near / sizeof *near; i++)
        if (near[i] <= greatest && holds(a, near[i]) && holds(b, near[i])) return true;
    return false;
}

/* Whether each condition of a rule can be met, together with that of the other rule on the same argument. */
static bool can_be_met(const struct rule *rule, const struct rule *beside, uint64_t greatest) {
    for (unsigned i = 0; i < rule->count; i++) {
        const struct ccell_condition *own = &rule->conditions[i], *other = own;
        for (unsigned k = 0; k < beside->count; k++)
            if (beside->conditions[k].argument == own->argument) other = &beside->conditions[k];
        if (!have_common(own, other, greatest)) return false;
    }
    return true;
}

/* Of the two machines with one token x86-64 has the number of a call that was skipped. */
bool rule_has(const struct rule *rule, int machine, uint32_t *number) {
    if (rule->call >= 0) return call_has(machine, rule->call, number);
    *number = (uint32_t)rule->number;
    return rule->number == SKIPPED ? machine != X32 : machine == NATIVE;
}

static bool has_call(int machine, const struct rule *rule) {
    uint32_t number;
    return rule_has(rule, machine, &number);
}

bool is_narrow(int machine) { return machine == X86 || machine == ARM; }

uint64_t greatest_of(int machine) { return is_narrow(machine) ? UINT32_MAX : UINT64_MAX; }

bool both_match(const struct rule *a, const struct rule *b, int machine) {
    uint64_t greatest = greatest_of(machine);
    return a->machines & b->machines & 1u << machine && has_call(machine, a) && can_be_met(a, b, greatest) && can_be_met(b, a, greatest);
}

/* The first machine on which one call matches both rules, or -1. */
static int machine_of_both(const struct rule *a, const struct rule *b) {
    for (int machine = 0; machine < OURS; machine++)
        if (both_match(a, b, machine)) return machine;
    return -1;
}

int contradicts(const struct rule *rule, const struct rule *other, int machine) {
    return refuse(-EEXIST, "%s contradicts %s on %s", rule_text(rule).is, rule_text(other).is, MACHINE[machine].name);
}

/* Whether a rule before this one has another action for a call that matches both, and which of the two counts is not known. It is told
 * by the rule that was asked for. */
static int judge_overlaps(const struct filter *filter, const struct rule *rule, const struct rule *asked) {
    if (have_action(filter, rule->call, rule->number, rule->action)) return 0;
    struct walk walk = walk_beside(filter, rule);
    for (const struct rule *old; (old = next_beside(&walk));) {
        if (old->action == rule->action || (!is_strict && rule == asked && winner_of(old, rule) != NEITHER)) continue;
        int machine = machine_of_both(old, rule);
        if (machine >= 0) return contradicts(asked, old, machine);
    }
    return 0;
}

/* ---- what libseccomp adds on x86 and ppc64le */

int way_of(const struct rule *rule, int machine, uint64_t *first) {
    return rule->call >= 0 && rule->machines & WITH_WAYS & 1u << machine ? other_way(rule->call, first) : -1;
}

/* Of ipc's number Linux reads 16 bits, and of socketcall's 32. A rule that is looser than the default is for the number alone, and any
 * other for each that Linux takes for it. */
static struct ccell_condition condition_of_way(bool is_looser, int machine, int way, uint64_t first) {
    bool is_ipc = way == call_named("ipc");
    if (is_looser || (!is_ipc && is_narrow(machine))) return (struct ccell_condition){0, CCELL_EQ, first, 0};
    return (struct ccell_condition){0, CCELL_MASKED_EQ, is_ipc ? 0xffff : UINT32_MAX, first};
}

struct rule rule_of_way(const struct filter *filter, const struct rule *rule, int machine, int way, uint64_t first) {
    bool is_looser = (int32_t)(rule->action & ACTION) > (int32_t)(filter->now.attributes[DEFAULT_ACTION] & ACTION);
    return (struct rule){.action = rule->action, .machines = 1u << machine, .call = way, .count = 1,
                         .conditions = {condition_of_way(is_looser, machine, way, first)}};
}

static int contradicts_way(const struct rule *rule, const struct rule *whole, int machine) {
    return refuse(-EEXIST, "%s: on %s it contradicts %s, of which all get %s", rule_text(rule).is, MACHINE[machine].name,
                  call_name(whole->call), action_text(whole->action).is);
}

/* Whether the rule can also be for socketcall or ipc. Where a rule before it says what becomes of all of these, that one counts. Conditions
 * speak of arguments that socketcall has behind a pointer: a rule that lets calls through is not added there, and any other refused. */
static int judge_way(const struct filter *filter, const struct rule *rule, int machine) {
    uint64_t first;
    int way = way_of(rule, machine, &first);
    if (way < 0) return 0;
    const struct rule *whole = whole_rule(filter, way, 0, machine);
    if (whole) return is_strict && whole->action != rule->action ? contradicts_way(rule, whole, machine) : 0;
    if (!rule->count) {
        struct rule other = rule_of_way(filter, rule, machine, way, first);
        return judge_overlaps(filter, &other, rule);
    }
    if (has_more_rights(rule->action, filter->now.attributes[DEFAULT_ACTION])) return 0;
    return refuse(-EDOM, "%s: on %s %s makes this call, too, and no filter sees its arguments", rule_text(rule).is, MACHINE[machine].name,
                  call_name(way));
}

/* Whether a rule for socketcall or ipc itself can stand beside what the rules before it say of these. */
static int judge_calls_of_way(const struct filter *filter, const struct rule *rule, int machine) {
    if (!(rule->machines >> machine & 1) || (rule->call != call_named("socketcall") && rule->call != call_named("ipc"))) return 0;
    if (!rule->count && !is_strict) return 0;
    for (size_t i = 0; i < filter->now.count; i++) {
        const struct rule *old = &filter->rules[i];
        uint64_t first;
        if (old->action == rule->action || way_of(old, machine, &first) != rule->call) continue;
        if (!rule->count) return contradicts_way(old, rule, machine);
        struct rule other = rule_of_way(filter, old, machine, rule->call, first);
        if (!old->count && machine_of_both(&other, rule) >= 0) return contradicts(rule, old, machine);
    }
    return 0;
}

static int judge_ways(const struct filter *filter, const struct rule *rule) {
    int error = 0;
    for (int machine = 0; !error && machine < OURS; machine++)
        if (WITH_WAYS >> machine & 1) error = judge_way(filter, rule, machine);
    for (int machine = 0; !error && machine < OURS; machine++)
        if (WITH_WAYS >> machine & 1) error = judge_calls_of_way(filter, rule, machine);
    return error;
}

/* ---- what libseccomp refuses there

   It makes of a rule one for socketcall or ipc, in which the number stands in place of what the rule says of argument 0. If two of them
   begin alike, and the later one goes on, that is left out. If it does not go on, and has another action, it is refused. */

/* What is said of further arguments: the conditions from the second argument on, without those that hold of each number. */
static unsigned list_further(const struct rule *rule, int machine, const struct ccell_condition *listed[ARGUMENTS]) {
    uint64_t greatest = greatest_of(machine);
    unsigned count = 0;
    for (unsigned i = 0; i < rule->count; i++) {
        const struct ccell_condition *each = &rule->conditions[i];
        bool is_empty = each->operator_ == CCELL_MASKED_EQ && !(each->value & greatest);
        if (each->argument && !is_empty) listed[count++] = each;
    }
    return count;
}

enum { APART, FIRST_GOES_ON = 1, SECOND_GOES_ON = 2, ALIKE = 3 };

/* How the two begin there: not alike, or as far as the shorter one goes. */
static int beginning(const struct rule *first, const struct rule *second, int machine) {
    const struct ccell_condition *of_first[ARGUMENTS], *of_second[ARGUMENTS];
    unsigned count = list_further(first, machine, of_first), other = list_further(second, machine, of_second);
    for (unsigned i = 0; i < count && i < other; i++)
        if (memcmp(of_first[i], of_second[i], sizeof **of_first)) return APART;
    return count > other ? FIRST_GOES_ON : count < other ? SECOND_GOES_ON : ALIKE;
}

static int judge_in_way(const struct filter *filter, struct rule *rule, int machine) {
    uint64_t first;
    int way = rule->call < 0 ? -1 : other_way(rule->call, &first);
    const struct rule *unlike = NULL;
    if (way < 0 || whole_rule(filter, way, 0, machine)) return 0; /* the rule for all of them counts alone */
    for (size_t at = 0; (at = rule_before(filter, rule->call, rule->number, at));) {
        const struct rule *old = &filter->rules[at - 1];
        if (!((old->machines & ~old->left_out) >> machine & 1)) continue;
        int how = beginning(old, rule, machine);
        if (how == SECOND_GOES_ON) {
            rule->left_out |= 1u << machine;
            return 0;
        }
        if (how != APART && old->action != rule->action) unlike = old;
    }
    if (!unlike) return 0;
    return refuse(-EEXIST, "%s contradicts %s for %s on %s, whose argument 0 is another", rule_text(rule).is, rule_text(unlike).is,
                  call_name(way), MACHINE[machine].name);
}

int judge_in_ways(const struct filter *filter, struct rule *rule, uint32_t machines) {
    int error = 0;
    for (int machine = 0; !error && machine < OURS; machine++)
        if (machines & WITH_WAYS & 1u << machine) error = judge_in_way(filter, rule, machine);
    return error;
}

/* ---- all of it */

/* x86 and ARM have arguments of 32 bits: with a larger number none is equal. -EDOM is libseccomp's "architecture specific failure"; runc
 * would say of -EINVAL that an argument is compared twice. */
static int judge_width(const struct rule *rule) {
    for (int machine = 0; machine < OURS; machine++) {
        if (!is_narrow(machine) || !(rule->machines >> machine & 1) || !has_call(machine, rule)) continue;
        for (unsigned i = 0; i < rule->count; i++) {
            uint64_t number = rule->conditions[i].value; /* under a mask the datum has no other bits */
            if (number >> 32)
                return refuse(-EDOM, "%s: argument %u of %s has 32 bits, and %#llx has more", rule_text(rule).is,
                              rule->conditions[i].argument, MACHINE[machine].name, (unsigned long long)number);
        }
    }
    return 0;
}

int judge_rule(const struct filter *filter, const struct rule *rule) {
    bool settles_all = !is_strict && !rule->count; /* of this call, on its machines */
    int error = judge_width(rule);
    if (!error && !settles_all) error = judge_overlaps(filter, rule, rule);
    return error ? error : judge_ways(filter, rule);
}
