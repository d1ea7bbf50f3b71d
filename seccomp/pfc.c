/* The listing of a filter for people, in the pseudo code of libseccomp: what ccell was given for each machine, call by call. Each rule
 * stands by itself, and no call has a priority. */
#include "filter.h"
#include <errno.h>
#include <stdio.h>
#include <stdlib.h>

/* How a condition is told by comparisons of halves: where each goes when it holds, and when not. At REST follows what is left of the
 * rule. */
enum { NOWHERE = -1, REST = -2 };
struct comparison { enum ccell_operator is; int if_so, if_not; };
static const struct { struct comparison at[3]; int last; } SHAPES[] = {
    [CCELL_NE] = {{{CCELL_EQ, 1, REST}, {CCELL_EQ, NOWHERE, REST}}, 1},
    [CCELL_LT] = {{{CCELL_GT, NOWHERE, 1}, {CCELL_EQ, 2, REST}, {CCELL_GE, NOWHERE, REST}}, 2},
    [CCELL_LE] = {{{CCELL_GT, NOWHERE, 1}, {CCELL_EQ, 2, REST}, {CCELL_GT, NOWHERE, REST}}, 2},
    [CCELL_EQ] = {{{CCELL_EQ, 1, NOWHERE}, {CCELL_EQ, REST, NOWHERE}}, 1},
    [CCELL_GE] = {{{CCELL_GT, REST, 1}, {CCELL_EQ, 2, NOWHERE}, {CCELL_GE, REST, NOWHERE}}, 2},
    [CCELL_GT] = {{{CCELL_GT, REST, 1}, {CCELL_EQ, 2, NOWHERE}, {CCELL_GT, REST, NOWHERE}}, 2},
    [CCELL_MASKED_EQ] = {{{CCELL_MASKED_EQ, 1, NOWHERE}, {CCELL_MASKED_EQ, REST, NOWHERE}}, 1},
};

static void indent(FILE *to, unsigned level) { fprintf(to, "%*s", 2 * (int)level, ""); }

static void print_action(FILE *to, unsigned level, uint32_t action) {
    indent(to, level);
    if (action == KILL_THREAD) fprintf(to, "action KILL;\n");
    else if (action == NOTIFY) fprintf(to, "action 0x%x;\n", action);
    else if ((action & ACTION) == ERRNO || (action & ACTION) == TRACE)
        fprintf(to, "action %s(%u);\n", (action & ACTION) == ERRNO ? "ERRNO" : "TRACE", action & ~ACTION);
    else fprintf(to, "action %s;\n", action_text(action).is);
}

/* A rule, told for a machine with arguments of 32 or 64 bits. */
struct told_rule { FILE *to; const struct ccell_rule *rule; bool is_narrow; };

static void print_from(const struct told_rule *told, unsigned place, unsigned level);

static void print_if(const struct told_rule *told, const struct ccell_condition *condition, enum ccell_operator is, bool is_lower) {
    unsigned shift = is_lower ? 0 : 32;
    uint32_t value = (uint32_t)(condition->value >> shift), datum = (uint32_t)(condition->datum >> shift);
    const char *half = told->is_narrow ? "" : is_lower ? ".lo32" : ".hi32";
    if (is == CCELL_MASKED_EQ) fprintf(told->to, "if ($a%u%s & 0x%.8x == %u)\n", condition->argument, half, value, datum);
    else fprintf(told->to, "if ($a%u%s %s %u)\n", condition->argument, half, is == CCELL_EQ ? "==" : is == CCELL_GT ? ">" : ">=", value);
}

/* Tells a condition from one of its comparisons on, and what follows it. */
static void print_comparison(const struct told_rule *told, unsigned place, int at, unsigned level) {
    const struct ccell_condition *condition = &told->rule->conditions[place];
    const struct comparison *comparison = &SHAPES[condition->operator_].at[at];
    int next[] = {comparison->if_so, comparison->if_not};
    indent(told->to, level);
    print_if(told, condition, comparison->is, at == SHAPES[condition->operator_].last);
    for (int i = 0; i < 2; i++) {
        if (next[i] == NOWHERE) continue;
        if (i) indent(told->to, level), fprintf(told->to, "else\n");
        if (next[i] == REST) print_from(told, place + 1, level + 1);
        else print_comparison(told, place, next[i], level + 1);
    }
}

static bool is_empty(const struct told_rule *told, unsigned place) {
    const struct ccell_condition *condition = &told->rule->conditions[place];
    uint64_t mask = told->is_narrow ? (uint32_t)condition->value : condition->value;
    return condition->operator_ == CCELL_MASKED_EQ && !mask;
}

static void print_from(const struct told_rule *told, unsigned place, unsigned level) {
    while (place < told->rule->count && is_empty(told, place)) place++;
    if (place == told->rule->count) print_action(told->to, level, told->rule->action);
    else print_comparison(told, place, told->is_narrow ? SHAPES[told->rule->conditions[place].operator_].last : 0, level);
}

/* ---- calls */

/* In the order of numbers, and of one number a rule without conditions first. The rest stays in its order. */
static int compare(const void *one, const void *other) {
    const struct ccell_rule *a = *(const struct ccell_rule *const *)one, *b = *(const struct ccell_rule *const *)other;
    if (a->number != b->number) return a->number < b->number ? -1 : 1;
    if (!a->count != !b->count) return a->count ? 1 : -1;
    return a < b ? -1 : a > b;
}

/* The rules for one call, of which there are so many: one without conditions is for all of it. */
static void print_call(FILE *to, int machine, const struct ccell_rule *const *rules, size_t count) {
    int call = call_with(machine, (int)rules[0]->number);
    fprintf(to, "  # filter for syscall \"%s\" (%u)\n  if ($syscall == %u)\n", call < 0 ? "UNKNOWN" : call_name(call), rules[0]->number,
            rules[0]->number);
    for (size_t i = 0; i < (rules[0]->count ? count : 1); i++) {
        struct told_rule told = {to, rules[i], is_narrow(machine)};
        print_from(&told, 0, 2);
    }
}

static void print_calls(FILE *to, int machine, const struct ccell_rule *const *rules, size_t count) {
    for (size_t i = 0, end; i < count; i = end) {
        for (end = i; end < count && rules[end]->number == rules[i]->number;) end++;
        print_call(to, machine, &rules[i], end - i);
    }
}

static void print_machine(FILE *to, const struct filter *filter, int machine, const struct list *list, const struct ccell_rule **rules) {
    uint32_t token = MACHINE[machine == X32 ? X86_64 : machine].token;
    size_t count = 0;
    fprintf(to, "# filter for arch %s (%u)\nif ($arch == %u)\n", MACHINE[machine].name, token, token);
    for (size_t i = 0; i < list->count; i++)
        if (list->rules[i].machine == MACHINE[machine].token) rules[count++] = &list->rules[i];
    qsort(rules, count, sizeof *rules, compare);
    print_calls(to, machine, rules, count);
    fprintf(to, machine < OURS ? "  # default action\n" : "  # ccell does not know the calls of this machine\n");
    print_action(to, 1, machine < OURS ? filter->now.attributes[DEFAULT_ACTION] : KILL_THREAD);
}

int print_filter(FILE *to, const struct filter *filter) {
    struct list list = {NULL, NULL, 0, 0};
    int error = write_rules(filter, &list);
    const struct ccell_rule **rules = error ? NULL : calloc(list.count + 1, sizeof *rules);
    if (!error && !rules) error = -ENOMEM;
    fprintf(to, "#\n# pseudo filter code start\n#\n");
    for (int machine = 0; !error && machine < MACHINES; machine++)
        if (filter->now.machines >> machine & 1) print_machine(to, filter, machine, &list, rules);
    fprintf(to, "# invalid architecture action\n");
    print_action(to, 0, filter->now.attributes[BAD_MACHINE_ACTION]);
    fprintf(to, "#\n# pseudo filter code end\n#\n");
    free(rules);
    free_list(&list);
    return error;
}
