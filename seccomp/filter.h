/* What the parts of the library share: machines, calls, rules, and what a context of libseccomp holds. */
#ifndef FILTER_H
#define FILTER_H
#include "../include/ccell.h"
#include "interface.h"
#include <stdbool.h>
#include <stdio.h>

#define API __attribute__((visibility("default")))
enum { OURS = 8, MACHINES = 23, MOST_NESTED = 16 };

/* Machines, those first for which ccell makes filters. A set of machines is a mask of bits. */
struct machine { const char *name; uint32_t token; };
extern const struct machine MACHINE[MACHINES];
enum { X86_64, X32, X86, AARCH64, ARM, RISCV64, PPC64LE, LOONGARCH64 }; /* in this order ccell takes the rules of a bundle */

#if defined __x86_64__ && !defined __ILP32__
enum { NATIVE = X86_64 };
#elif defined __aarch64__
enum { NATIVE = AARCH64 };
#elif defined __riscv && __riscv_xlen == 64
enum { NATIVE = RISCV64 };
#elif defined __powerpc64__ && __BYTE_ORDER__ == __ORDER_LITTLE_ENDIAN__
enum { NATIVE = PPC64LE };
#elif defined __loongarch__ && __loongarch_grlen == 64
enum { NATIVE = LOONGARCH64 };
#else
#error ccell makes no filters for this machine
#endif

int machine_with(uint32_t token); /* its place, or -1 */

/* Calls by their place in the list of names; -1 is none. */
enum { NAME_SIZE = 64 };
int call_named(const char *name);
int call_with(int machine, int number);
const char *call_name(int call);
int call_number(int machine, int call);        /* as libseccomp tells it */
bool call_has(int machine, int call, uint32_t *number); /* the machine's own number */

/* Machines on which socketcall and ipc make some calls, too. Of such a call: which of the two, or -1, and by which number it is told. */
enum { WITH_WAYS = 1u << X86 | 1u << PPC64LE };
int other_way(int call, uint64_t *number);

struct rule {
    uint32_t action, machines;
    int call, number; /* number: where the call has no name, as SKIPPED */
    unsigned count;
    struct ccell_condition conditions[ARGUMENTS]; /* in the order of arguments */
    uint32_t left_out; /* machines on which libseccomp leaves it out of socketcall or ipc: `judge_in_ways` */
    uint32_t lost, settles; /* machines of `machines_that_lose` and of `machines_that_settle` */
    bool is_open;           /* `lost` is not known yet: all rules of the call had one action, or none of them could be lost */
    bool were_unlike, had_whole, could_lose; /* what its call had before it: `struct of_call` */
    /* Places of rules before it, counted from 1, or 0: the last one of its call, the last one in its slot of `conditions`, the last one of
     * its call with its `first_equal`, and the last one in its slot of `numbers`. */
    uint32_t before, alike, on_argument, of_number;
};

/* The rules of a call: whether they have several actions; whether one has no conditions; whether libseccomp may lose one beside another: it
 * may not where all have equally many conditions, and none is `is_at_risk`; and the places, counted from 1, or 0, of the last one and of
 * the last one with each `first_equal`. */
struct of_call { bool is_taken, are_unlike, has_whole, can_lose; int call, number; uint32_t last, on_argument[ARGUMENTS + 1]; };

struct state { uint32_t attributes[ATTRIBUTES], machines; size_t count; };

struct filter {
    uint32_t mark;
    uintptr_t taken; /* by a thread, or 0 */
    struct filter *previous, *next;
    struct state now, before[MOST_NESTED];
    unsigned nested;
    uint32_t *kept[MOST_NESTED]; /* of a transaction: the machines of each rule before it, if one was taken away since */
    struct rule *rules;
    size_t room; /* for rules, and for calls that have or had one: 0 or a power of two */
    struct of_call *calls; /* twice as many slots, each taken by a call or free */
    size_t called;         /* how many are taken */
    uint32_t *conditions;  /* of each slot the place of its last rule with the same conditions, counted from 1 */
    uint32_t *numbers;     /* of each slot the place of its last rule whose first condition is `==`, counted from 1 */
    uint8_t *bytes; /* CCELL_MOST_BYTES, once a filter was made */
    size_t length;  /* 0: none is made of what stands here now */
    bool notifies;  /* SCMP_ACT_NOTIFY was its default or a rule's, so that it is loaded with a listener */
};

/* The context, taken for this thread, or NULL where it is none: give it back by `done`. */
struct filter *take(scmp_filter_ctx ctx);
int done(struct filter *filter, int answer);
struct filter *begun(scmp_filter_ctx ctx); /* the same for one that may have no machine yet */

int judge_action(uint32_t action);
bool has_more_rights(uint32_t action, uint32_t other);
API unsigned seccomp_api_get(void);

/* Whether SCMP_ACT_NOTIFY can be used here, in a filter for all threads or for one: 0, or an error. */
int judge_notify(bool is_for_all_threads);
/* With which flags a filter is loaded so that it has a listener, or 0 where it wants none or the process has one already. What comes of
 * that load, a descriptor or less than 0, is to be kept. */
unsigned claim_listener(const struct filter *filter);
void keep_listener(long loaded);
void close_listener(void);

/* Drops the rules from this place on. */
void drop_rules(struct filter *filter, size_t count);
/* Copies the rules of another context behind those of this one: 0, or -ENOMEM. */
int copy_rules(struct filter *filter, const struct filter *from);
/* The place, counted from 1, of the last rule for a call before a place that is counted so, or of its last one of all where that is 0;
 * 0 where there is none. */
size_t rule_before(const struct filter *filter, int call, int number, size_t place);
/* The place, counted from 1, of the last rule before another one, or before one that is to come where that is 0, that may have the call and
 * the conditions of a rule; 0 where there is none. */
size_t alike_before(const struct filter *filter, const struct rule *rule, size_t place);
/* A walk over the rules that may match a call of a given rule, the last one first: all rules of that call, but where its first condition is
 * `==` not those whose first condition is `==` on that argument with another number. No rule may be added or dropped meanwhile. */
struct walk { const struct filter *filter; const struct rule *beside; uint32_t at[ARGUMENTS + 1]; };
struct walk walk_beside(const struct filter *filter, const struct rule *rule);
const struct rule *next_beside(struct walk *walk); /* NULL behind the first rule */
/* Whether libseccomp may lose a rule of a call beside another. */
bool can_lose(const struct filter *filter, int call, int number);
/* Whether all rules of a call have an action, so that none of them contradicts or settles one that has it. */
bool have_action(const struct filter *filter, int call, int number, uint32_t action);
/* The first rule without conditions for a call on a machine, or NULL. */
const struct rule *whole_rule(const struct filter *filter, int call, int number, int machine);
/* The machines on which a rule counts beside the others. */
uint32_t counting(const struct filter *filter, const struct rule *rule);

/* Whether arguments have 32 bits. */
bool is_narrow(int machine);
/* Whether a machine has the call of a rule, and its number there. */
bool rule_has(const struct rule *rule, int machine, uint32_t *number);

uint64_t greatest_of(int machine); /* the greatest number that an argument is */
/* Whether a number up to the greatest meets both conditions. */
bool have_common(const struct ccell_condition *a, const struct ccell_condition *b, uint64_t greatest);
/* Whether one call of a machine matches both rules, which are for the same call. */
bool both_match(const struct rule *a, const struct rule *b, int machine);
/* Refuses the one rule for the other. */
int contradicts(const struct rule *rule, const struct rule *other, int machine);

/* Of two rules that one call matches, and whose conditions differ: the one that counts for it in libseccomp. */
enum winner { NEITHER, THE_EARLIER, THE_LATER };
enum winner winner_of(const struct rule *earlier, const struct rule *later);
/* What is left of one of the filter's rules on a machine, without the calls for which another counts: rules of its call and action. 0, -ENOMEM, or
 * -EEXIST where that can't be said beside one of them. With the last rule it reports only what is new by that. */
struct parts { struct rule *rules; size_t count, room; const struct rule *beside; };
int list_parts(const struct filter *filter, const struct rule *rule, int machine, const struct rule *last, struct parts *parts);
void free_parts(struct parts *parts);
/* Whether a rule, beside others with as many conditions, may be lost in libseccomp, or lose one of them. */
bool is_at_risk(const struct rule *rule);
/* Finds out for the rules of a call on which machines libseccomp may lose one, or another one by it. It has to be known before machines are
 * taken away, and where rules settle each other. */
void find_lost(struct filter *filter, int call, int number);
/* The machines on which one call meets a rule that is added and an unlike one before it. */
uint32_t machines_that_settle(const struct filter *filter, const struct rule *rule);
/* Whether the last rule, and those of which it leaves less, can be given to ccell: 0, or an error. */
int judge_last(const struct filter *filter);
/* Whether a rule that is there already can be added once more: libseccomp's order may be another one then. 0, or an error. */
int judge_again(const struct filter *filter, const struct rule *rule);

/* Whether a rule can stand beside those that were added before it: 0, or an error. */
int judge_rule(const struct filter *filter, const struct rule *rule);
/* Whether libseccomp, on these machines, takes what it makes of the rule for socketcall and ipc: 0, or an error. */
int judge_in_ways(const struct filter *filter, struct rule *rule, uint32_t machines);
/* The call, socketcall or ipc, that makes the call of a rule on a machine, too, with the number that its first argument then is; or -1. */
int way_of(const struct rule *rule, int machine, uint64_t *first);
/* What a rule without conditions says of that call there. */
struct rule rule_of_way(const struct filter *filter, const struct rule *rule, int machine, int way, uint64_t first);

/* Whether what contradicts is refused. Otherwise rules settle each other as in libseccomp: of a call's rules on a machine the first one
 * without conditions counts alone, and of two with conditions `winner_of`. */
extern bool is_strict;
/* Whether reasons are written to standard error. */
extern bool writes_messages;

/* Keeps a reason: of a refusal, which `error` is, or with 0 of what counts for less than was asked. Returns `error`. */
int refuse(int error, const char *form, ...) __attribute__((format(printf, 2, 3)));
void forget_why(void); /* at the begin of each call of the interface */

struct text { char is[512]; };
struct text action_text(uint32_t action);
struct text rule_text(const struct rule *rule);

/* Writes what stands in front of ccell's filter, where calls of other machines get another action than KILL_THREAD: how many bytes. */
size_t write_lead(const struct filter *filter, uint8_t *to);
/* Whether ccell's filter means the same behind that as alone: its first instruction is for what the registers held. 0, or an error. */
int judge_lead(const uint8_t *filter);

/* Rules as ccell takes them, and of which one that was added each is: 0, or -ENOMEM. */
struct list { struct ccell_rule *rules; size_t *of, count, room; };
int write_rules(const struct filter *filter, struct list *list);
void free_list(struct list *list);
/* Prints them for people: 0, or -ENOMEM. */
int print_filter(FILE *to, const struct filter *filter);

/* Makes the filter of what was asked for: 0, or an error of libseccomp. */
int make(struct filter *filter);
#endif
