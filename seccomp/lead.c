/* What becomes of calls of other machines. ccell's filter answers KILL_THREAD to them, and that is proved. Another action is answered by
 * instructions in front of it, which lead the calls of the context's machines to its first instruction; it follows as it was made. */
#include "filter.h"
#include <errno.h>
#include <linux/filter.h>
#include <linux/seccomp.h>
#include <string.h>

enum { LOAD = BPF_LD | BPF_W | BPF_ABS, EQUALS = BPF_JMP | BPF_JEQ | BPF_K, IS_FROM = BPF_JMP | BPF_JGE | BPF_K, RETURN = BPF_RET | BPF_K };
enum { NUMBER = 0, TOKEN = 4 }; /* where they stand in struct seccomp_data */
enum { X32_BIT = 0x40000000 };

/* How far a jump goes, until it is known where the filter begins. */
enum { ON = 0, PAST_NUMBERS = 3, TO_RETURN = 254, TO_FILTER = 255 };

/* The token, what tells x32 and x86-64 apart, each machine, and the return. */
struct lead { struct sock_filter is[MACHINES + 6]; unsigned count; };
_Static_assert(MACHINES + 6 < TO_RETURN, "no jump that is known goes so far");

static void put(struct lead *lead, uint16_t code, uint8_t yes, uint8_t no, uint32_t k) {
    lead->is[lead->count++] = (struct sock_filter){code, yes, no, k};
}

/* x32 has the token of x86-64, and the numbers from its bit on but the last one, which stands for a call that was skipped. */
static void tell_apart(struct lead *lead, bool is_x32) {
    put(lead, EQUALS, ON, PAST_NUMBERS, MACHINE[X86_64].token);
    put(lead, LOAD, 0, 0, NUMBER);
    put(lead, IS_FROM, ON, is_x32 ? TO_RETURN : TO_FILTER, X32_BIT);
    put(lead, EQUALS, is_x32 ? TO_RETURN : TO_FILTER, is_x32 ? TO_FILTER : TO_RETURN, (uint32_t)SKIPPED);
}

static uint8_t resolved(uint8_t jump, unsigned from, unsigned count) {
    return (uint8_t)(jump == TO_FILTER ? count - from - 1 : jump == TO_RETURN ? count - from - 2 : jump);
}

size_t write_lead(const struct filter *filter, uint8_t *to) {
    uint32_t machines = filter->now.machines, of_token = machines & (1u << X86_64 | 1u << X32);
    bool is_split = of_token && of_token != (1u << X86_64 | 1u << X32);
    struct lead lead = {.count = 0};
    if (filter->now.attributes[BAD_MACHINE_ACTION] == KILL_THREAD) return 0;
    put(&lead, LOAD, 0, 0, TOKEN);
    if (is_split) tell_apart(&lead, machines >> X32 & 1);
    for (int i = 0; i < MACHINES; i++)
        if (machines >> i & 1 && i != X32 && !(is_split && i == X86_64)) put(&lead, EQUALS, TO_FILTER, ON, MACHINE[i].token);
    put(&lead, RETURN, 0, 0, filter->now.attributes[BAD_MACHINE_ACTION]);
    for (unsigned i = 0; i < lead.count; i++) {
        lead.is[i].jt = resolved(lead.is[i].jt, i, lead.count);
        lead.is[i].jf = resolved(lead.is[i].jf, i, lead.count);
    }
    memcpy(to, lead.is, lead.count * sizeof *lead.is);
    return lead.count * sizeof *lead.is;
}

int judge_lead(const uint8_t *filter) {
    struct sock_filter first;
    memcpy(&first, filter, sizeof first);
    return first.code == LOAD || first.code == RETURN ? 0 : refuse(-EFAULT, "ccell's filter begins with instruction %#x", first.code);
}
