/*
 * second MACHINE PROFILE FILTER CERTIFICATE checks that a seccomp filter does what a profile says. It prints the line of `ccell check`,
 * with its status, and shares nothing with it. PROFILE is the text of a profile (docs/PROFILES.md).
 *
 * This file was written from docs/CERTIFICATES.md, FILTERS.md, PROFILES.md and PROGRAM.md alone, by someone who had read neither the
 * sources nor the proofs of ccell's checker. Keep it so: where the two differ, the page decides, and a change here is made by the page.
 * It uses libc alone, does not allocate, and no function calls itself. Every array has the bound that the format sets.
 */
#include <stdbool.h>
#include <stdint.h>
#include <stdio.h>
#include <stdlib.h>
#include <string.h>
#define ALL 0xffffffffu
enum { MOST_BYTES = 4194304, MOST_INSTRUCTIONS = 4096, MOST_NODES = 16384, MOST_ENTRIES = 65536, MOST_HELD = 512, MOST_RULES = 8192 };
enum { MOST_WORK = 6291456 };         /* for the machines of linux-.. */
enum { FORM_1_ENTRIES = MOST_BYTES / 10 }; /* a literal of form 1 has ten bytes */

/* ---- Files and answers ---- */
static char bytes[MOST_BYTES + 2]; /* of the file that is read: one too many, and a zero */
static uint64_t byte_count, cursor;

static _Noreturn void fault(int status, const char *what, const char *name) {
    fprintf(stderr, "second: %s%s\n", what, name);
    exit(status);
}
/* Prints a line, with a place behind it unless that is negative, and ends. Only yes has status 0. */
static _Noreturn void answer(const char *words, int place) {
    printf(place < 0 ? "%s\n" : "%s %d\n", words, place);
    if (fflush(stdout) != 0 || ferror(stdout)) fault(3, "write failed", "");
    exit(strcmp(words, "yes") != 0);
}
/* Reads a file. What is beyond the room is counted, but not kept. */
static void read_file(const char *name) {
    FILE *file = fopen(name, "rb");
    for (cursor = 0, byte_count = file ? fread(bytes, 1, MOST_BYTES + 1, file) : 0; file && getc(file) != EOF;) byte_count++;
    if (!file || ferror(file)) fault(3, "cannot read ", name);
    fclose(file);
}

/* ---- The profile ---- */
enum { MACHINES = 12, X86_64 = 2, X32 = 3, OPERATORS = 7, LT = 0, LE, GE, GT, EQ, NE, MASKED_EQ };
static const char *const machine_names[] = {"x86-64", "aarch64", "linux-x86-64", "linux-x32", "linux-x86", "linux-aarch64", "linux-arm",
                                            "linux-riscv64", "linux-ppc64le", "linux-loongarch64", "linux-s390x", "linux-s390"};
static const char *const argument_names[] = {"arg0", "arg1", "arg2", "arg3", "arg4", "arg5"};
static const char *const operator_names[] = {"LT", "LE", "GE", "GT", "EQ", "NE", "MASKED_EQ"};
static struct machine {
    uint32_t token;
    bool is_linux, has_half_arguments, is_listed;
    struct ranges { unsigned count; uint32_t low[2], high[2]; } own, foreign;
} machines[MACHINES] = {
    {0xc000003e, false, false, false, {1, {0}, {0x3fffffff}}, {1, {0x40000000}, {ALL}}},
    {0xc00000b7, false, false, false, {1, {0}, {ALL}}, {0}},
    {0xc000003e, true, false, false, {2, {0, ALL}, {0x3fffffff, ALL}}, {1, {0x40000000}, {0xfffffffe}}},
    {0xc000003e, true, false, false, {1, {0x40000000}, {0xfffffffe}}, {2, {0, ALL}, {0x3fffffff, ALL}}},
    {0x40000003, true, true, false, {1, {0}, {ALL}}, {0}},
    {0xc00000b7, true, false, false, {1, {0}, {ALL}}, {0}},
    {0x40000028, true, true, false, {1, {0}, {ALL}}, {0}},
    {0xc00000f3, true, false, false, {1, {0}, {ALL}}, {0}},
    {0xc0000015, true, false, false, {1, {0}, {ALL}}, {0}},
    {0xc0000102, true, false, false, {1, {0}, {ALL}}, {0}},
    {0x80000016, true, false, false, {1, {0}, {ALL}}, {0}},
    {0x16, true, true, false, {1, {0}, {ALL}}, {0}},
};
/* An argument is in a range and has data under a mask; or, by NE, it is not the data. */
struct condition { unsigned argument; bool is_order, is_not; uint64_t low, high, mask, data; };
static struct rule { unsigned machine, conditions; uint32_t number, verdict; struct condition condition[6]; } rules[MOST_RULES];
static unsigned rule_count, default_verdict, line = 1;
static uint16_t sorted[MOST_RULES]; /* the places of the rules, by token and number */
static uint64_t begin[MOST_RULES + 1]; /* where the line of a rule begins */
static char end;                    /* what stood behind the last field */

static void need(bool is_so) {
    if (!is_so) fprintf(stderr, "second: no profile: line %u\n", line), exit(3);
}
/* The next field of the line, and whether what has to stand behind it does: a space, a line feed, or either for 0. */
static char *take_field(char wanted) {
    char *field = bytes + cursor;
    line += end == '\n';
    cursor += strcspn(field, " \n");
    end = bytes[cursor];
    need(wanted == 0 ? end != 0 : end == wanted);
    bytes[cursor++] = 0;
    return field;
}

static uint64_t take_number(int base, uint64_t most, char wanted) {
    char *field = take_field(wanted), *digits = base == 10 ? field : field + 2;
    uint64_t number = strtoull(field, NULL, base);
    need(strlen(field) <= 18 && number <= most && (base == 10 || strncmp(field, "0x", 2) == 0));
    need(*digits != 0 && digits[strspn(digits, base == 10 ? "0123456789" : "0123456789abcdef")] == 0 && (*digits != '0' || digits[1] == 0));
    return number;
}

static unsigned take_name(const char *const *names, unsigned count, char wanted) {
    const char *field = take_field(wanted);
    unsigned place = 0;
    while (place < count && strcmp(field, names[place]) != 0) place++;
    need(place < count);
    return place;
}

static void take_condition(struct condition *condition) {
    condition->argument = take_name(argument_names, 6, ' ');
    unsigned operator = take_name(operator_names, OPERATORS, ' ');
    uint64_t value = take_number(16, UINT64_MAX, operator == MASKED_EQ ? ' ' : 0);
    bool is_empty = (operator == LT && value == 0) || (operator == GT && value == UINT64_MAX);
    condition->is_order = operator <= GT;
    condition->is_not = operator == NE;
    condition->low = is_empty ? 1 : operator == GE ? value : operator == GT ? value + 1 : 0;
    condition->high = is_empty ? 0 : operator == LE ? value : operator == LT ? value - 1 : UINT64_MAX;
    condition->mask = operator == MASKED_EQ ? value : operator == EQ ? UINT64_MAX : 0;
    condition->data = operator == MASKED_EQ ? take_number(16, UINT64_MAX, 0) : value;
    need(operator != MASKED_EQ || (condition->data & ~value) == 0);
}

static uint32_t weight_of(unsigned rule) { return 1 + rules[rule].conditions; }
static uint64_t key_of(unsigned rule) { return (uint64_t)machines[rules[rule].machine].token << 32 | rules[rule].number; }
/* Whether the lines of two rules are the same. */
static bool is_same_rule(unsigned one, unsigned two) {
    uint64_t length = begin[one + 1] - begin[one];
    return length == begin[two + 1] - begin[two] && memcmp(bytes + begin[one], bytes + begin[two], length) == 0;
}

static bool is_in(const struct ranges *ranges, uint32_t number) {
    for (unsigned i = 0; i < ranges->count; i++) if (ranges->low[i] <= number && number <= ranges->high[i]) return true;
    return false;
}

static void take_rule(unsigned place) {
    struct rule *rule = &rules[place];
    begin[place] = cursor;
    rule->machine = take_name(machine_names, MACHINES, ' ');
    rule->number = (uint32_t)take_number(10, ALL, ' ');
    rule->verdict = (uint32_t)take_number(16, ALL, 0);
    need(machines[rule->machine].is_listed && is_in(&machines[rule->machine].own, rule->number));
    for (unsigned arguments = 0; end == ' '; rule->conditions++) {
        need(rule->conditions < 6);
        take_condition(&rule->condition[rule->conditions]);
        need((arguments >> rule->condition[rule->conditions].argument & 1) == 0);
        arguments |= 1u << rule->condition[rule->conditions].argument;
    }
    begin[place + 1] = cursor;
    unsigned before = place;
    for (; before > 0 && key_of(sorted[before - 1]) > key_of(place); before--) sorted[before] = sorted[before - 1];
    for (unsigned i = before; i > 0 && key_of(sorted[i - 1]) == key_of(place); i--) need(!is_same_rule(sorted[i - 1], place));
    sorted[before] = (uint16_t)place;
}
/* The first place in `sorted` with at least this token and number. */
static unsigned first_from(uint64_t key) {
    unsigned low = 0, high = rule_count;
    while (low < high)
        if (key_of(sorted[(low + high) / 2]) < key) low = (low + high) / 2 + 1; else high = (low + high) / 2;
    return low;
}
/* Whether a number from `low` on has these data under the mask, and the least such number. */
static bool least_from(uint64_t low, uint64_t mask, uint64_t data, uint64_t *least) {
    uint64_t wanted = (low & ~mask) | data, below = wanted ^ low; /* below: the highest bit that differs, and all under it */
    for (unsigned shift = 1; shift < 64; shift *= 2) below |= below >> shift;
    uint64_t free = ~(low | mask | below), raised = wanted >= low ? 0 : free & (0 - free);
    *least = (low & ~mask & ~(wanted >= low ? below : raised - 1)) | raised | data;
    return wanted >= low || raised != 0;
}
/* Whether an argument up to `high` can meet both conditions. */
static bool can_meet(const struct condition *one, const struct condition *two, uint64_t high) {
    uint64_t low = one->low > two->low ? one->low : two->low, data = (one->data & one->mask) | (two->data & two->mask), found;
    if (one->high < high) high = one->high;
    if (two->high < high) high = two->high;
    if ((one->mask & two->mask & (one->data ^ two->data)) != 0) return false;
    for (; least_from(low, one->mask | two->mask, data, &found) && found <= high; low = found + 1) {
        bool is_excluded = (one->is_not && one->data == found) || (two->is_not && two->data == found);
        if (!is_excluded || found == high) return !is_excluded;
    }
    return false;
}
/* Whether a record can match both rules, which are for the same token and number. */
static bool overlap(const struct rule *rule, const struct rule *other) {
    static const struct condition any = {.high = UINT64_MAX};
    for (unsigned argument = 0; argument < 6; argument++) {
        const struct condition *one = &any, *two = &any;
        for (unsigned i = 0; i < rule->conditions; i++) if (rule->condition[i].argument == argument) one = &rule->condition[i];
        for (unsigned i = 0; i < other->conditions; i++) if (other->condition[i].argument == argument) two = &other->condition[i];
        if (!can_meet(one, two, machines[rule->machine].has_half_arguments ? ALL : UINT64_MAX)) return false;
    }
    return true;
}

static void need_field(const char *field, char wanted) { need(strcmp(take_field(wanted), field) == 0); }
static void read_profile(const char *name, const char *native) {
    bool is_listed = false, is_linux = strncmp(native, "linux-", 6) == 0;
    unsigned next = 0; /* machines stand in the order of their names here */
    read_file(name);
    need(byte_count <= MOST_BYTES);
    need_field("ccell-profile", ' ');
    need_field("1", '\n');
    need_field("native", ' ');
    need_field(native, '\n');
    need_field("machines", ' ');
    for (end = ' '; end == ' ';) {
        unsigned machine = take_name(machine_names, MACHINES, 0);
        need(machines[machine].is_linux == is_linux && machine >= next);
        machines[machine].is_listed = true;
        next = machine + 1;
        bool is_native = machine != X32 && !machines[machine].has_half_arguments;
        is_listed |= is_native && strcmp(machine_names[machine], native) == 0;
    }
    need(is_listed);
    if (machines[X86_64].is_listed && machines[X32].is_listed) machines[X86_64].foreign.count = machines[X32].foreign.count = 0;
    need_field("default", ' ');
    default_verdict = (unsigned)take_number(16, ALL, '\n');
    need_field("rules", ' ');
    unsigned count = (unsigned)take_number(10, MOST_RULES, '\n');
    for (; rule_count < count; rule_count++) take_rule(rule_count);
    line += cursor != byte_count;
    need(cursor == byte_count && end == '\n');
    for (unsigned i = 0; i < rule_count; i++)
        for (unsigned j = i + 1; j < rule_count && key_of(sorted[j]) == key_of(sorted[i]); j++)
            if (rules[sorted[i]].verdict != rules[sorted[j]].verdict && overlap(&rules[sorted[i]], &rules[sorted[j]]))
                fault(3, "no profile: one record can match two rules with different verdicts", "");
}

/* ---- The filter, and the kernel's check ---- */
static struct instruction { uint16_t code; uint8_t taken, not_taken; uint32_t k; } filter[MOST_INSTRUCTIONS];
static unsigned filter_length;
/* What is wrong with the filter, and where. It is told when the certificate was read, since the work of that comes first. */
static const char *filter_fault;
static int filter_place = -1;
/* The three lowest bits of a code are its class. A jump or arithmetic has an operand, X or `k`, and an operation. */
enum { ALU = 4, JUMP = 5, RET = 6, OPERAND_X = 8, OPERATION = 0xf0, AND = 0x50, JA = 0x05, JEQ = 0x10, JGT = 0x20, JGE = 0x30 };
enum { LOAD = 0x20, LOAD_A = 0x60, LOAD_X = 0x61, STORE_A = 0x02, STORE_X = 0x03, RET_K = 0x06 };
static unsigned class_of(struct instruction i) { return i.code & 7u; }
static bool is_test(struct instruction i) { return class_of(i) == JUMP && i.code != JA; }
/* The position to which an instruction leads by an edge, 0 or 1. Only at a test they differ. */
static uint64_t target_of(unsigned pc, unsigned edge) {
    struct instruction i = filter[pc];
    return pc + UINT64_C(1) + (i.code == JA ? i.k : !is_test(i) ? 0 : edge == 0 ? i.taken : i.not_taken);
}
/* The least of the causes 1 to 5 at a position, or null. */
static const char *cause_at(unsigned pc) {
    static const uint8_t listed[] = {0x20, 0x00, 0x01, 0x60, 0x61, 0x02, 0x03, 0x06, 0x16, 0x05, 0x15, 0x1d, 0x25, 0x2d, 0x35, 0x3d, 0x45,
                                     0x4d, 0x04, 0x0c, 0x14, 0x1c, 0x44, 0x4c, 0x54, 0x5c, 0xa4, 0xac, 0x64, 0x74, 0x84, 0x07, 0x87};
    struct instruction i = filter[pc];
    bool is_scratch = i.code == LOAD_A || i.code == LOAD_X || i.code == STORE_A || i.code == STORE_X;
    if (i.code > 255 || !memchr(listed, i.code, sizeof listed)) return "no 2 Kernel 1 Code pc";
    if ((i.code == LOAD && (i.k > 63 || i.k % 4 != 0)) || (is_scratch && i.k > 15)) return "no 2 Kernel 2 Load pc";
    if ((i.code == 0x64 || i.code == 0x74) && i.k > 31) return "no 2 Kernel 3 Shift pc";
    if (class_of(i) == JUMP && (target_of(pc, 0) >= filter_length || target_of(pc, 1) >= filter_length)) return "no 2 Kernel 4 Target pc";
    return pc == filter_length - 1 && class_of(i) != RET ? "no 2 Kernel 5 End pc" : NULL;
}

static const char *kernel_fault(int *place) {
    static uint16_t unwritten[MOST_INSTRUCTIONS] = {0xffff}; /* the scratch words that some path to a position did not write */
    for (*place = 0; *place < (int)filter_length; ++*place) if (cause_at((unsigned)*place)) return cause_at((unsigned)*place);
    for (*place = 0; *place < (int)filter_length; ++*place) {
        unsigned pc = (unsigned)*place;
        struct instruction i = filter[pc];
        if ((i.code == LOAD_A || i.code == LOAD_X) && (unwritten[pc] >> i.k & 1) != 0) return "no 2 Kernel 6 Scratch pc";
        unsigned written = i.code == STORE_A || i.code == STORE_X ? 1u << i.k : 0;
        for (unsigned edge = 0; class_of(i) != RET && edge < 2; edge++)
            unwritten[target_of(pc, edge)] |= (uint16_t)(unwritten[pc] & ~written);
    }
    return NULL;
}

/* A number of a few bytes, the lowest or the highest first. */
static uint32_t number_at(const unsigned char *at, unsigned size, bool is_big_endian) {
    uint32_t number = 0;
    for (unsigned i = 0; i < size; i++) number |= (uint32_t)at[is_big_endian ? size - 1 - i : i] << 8 * i;
    return number;
}
/* A filter of a big-endian machine stands in its file as its kernel has it. Where it reads a half of a number, it reads here the other. */
static void read_filter(const char *name, bool is_big_endian) {
    read_file(name);
    filter_fault = byte_count % 8 != 0 ? "no 1 View 1 NotMultipleOf8" : byte_count == 0 ? "no 1 View 2 Empty" : NULL;
    if (!filter_fault && byte_count > 8 * MOST_INSTRUCTIONS) filter_fault = "no 1 View 3 TooLong";
    for (; !filter_fault && filter_length < byte_count / 8; filter_length++) {
        const unsigned char *at = (unsigned char *)bytes + 8 * filter_length;
        struct instruction i = {(uint16_t)number_at(at, 2, is_big_endian), at[2], at[3], number_at(at + 4, 4, is_big_endian)};
        if (is_big_endian && i.code == LOAD && i.k >= 8 && i.k < 64 && i.k % 4 == 0) i.k ^= 4;
        filter[filter_length] = i;
    }
    if (!filter_fault) filter_fault = kernel_fault(&filter_place);
}

/* ---- The certificate's bytes ---- */
enum { NONE, IN, BITS, NOT_BITS, OUT, MET };
enum { UNKNOWN, CONST, MASKED };
enum { STEP, SPLIT, RETURN, DEAD, A = 0, X, SCRATCH, VALUES = SCRATCH + 16 };
/* A literal has a word and two numbers. A claim OUT has the place of a rule, and MET that of a rule and of its condition. */
struct literal { uint8_t tag, word; uint32_t first, second; };
struct value { uint8_t tag, word; uint32_t number; };
/* The entries of chains, from 1 on. In form 1 the literals of each node are a chain of their own. Of the chain that ends with it an entry
 * has the number of entries, that of literals, and the work of asking for all at a successor. */
static struct entry { uint32_t parent, depth, literals, asked; bool is_wrong; struct literal literal; } entries[FORM_1_ENTRIES + 1];
static uint32_t entry_count, node_count, form;
static struct node { uint32_t kind, pc, chain, successor[2]; struct value value[VALUES]; struct literal split[2]; } nodes[MOST_NODES];
static const char bad_node[] = "no 3 Form 4 BadNode", bad_count[] = "no 3 Form 5 BadCount", bad_version[] = "no 3 Form 2 BadVersion";
/* Answers what is wrong with the certificate, or what comes before that. */
static _Noreturn void no_certificate(const char *words) { answer(filter_fault ? filter_fault : words, filter_fault ? filter_place : -1); }
/* Reads a field of so many bytes. If it is above `most`, the answer is `above`. */
static uint32_t take(unsigned size, uint32_t most, const char *above) {
    uint32_t number = 0;
    if (byte_count - cursor < size) no_certificate("no 3 Form 3 Truncated");
    for (unsigned i = 0; i < size; i++) number |= (uint32_t)(unsigned char)bytes[cursor++] << 8 * i;
    if (number > most) no_certificate(above);
    return number;
}

static struct value take_value(bool is_stated) {
    uint8_t tag = (uint8_t)take(1, MASKED, bad_node);
    if (is_stated && tag == UNKNOWN) no_certificate(bad_node);
    uint8_t word = (uint8_t)take(1, tag == MASKED ? 15 : 0, bad_node);
    return (struct value){tag, word, take(4, tag == UNKNOWN ? 0 : ALL, bad_node)};
}

static struct literal take_literal(uint32_t most) {
    uint8_t tag = (uint8_t)take(1, most, bad_node);
    if (tag == NONE) no_certificate(bad_node);
    uint8_t word = (uint8_t)take(1, tag <= NOT_BITS ? 15 : 0, bad_node);
    uint32_t first = take(4, ALL, bad_node), second = take(4, tag == OUT ? 0 : ALL, bad_node);
    if ((tag == BITS || tag == NOT_BITS) && (second & ~first) != 0) no_certificate(bad_node);
    return (struct literal){tag, word, first, second};
}
/* Reads an entry. A claim of a rule or condition that the profile has not becomes nothing, and makes all chains with it wrong. */
static void take_entry(uint32_t parent, uint32_t most) {
    struct literal literal = take_literal(most);
    bool is_wrong = literal.tag >= OUT && literal.first >= rule_count;
    is_wrong |= literal.tag == MET && !is_wrong && literal.second >= rules[literal.first].conditions;
    uint32_t literals = entries[parent].literals + (literal.tag <= NOT_BITS), asked = entries[parent].asked;
    asked += literal.tag != OUT ? 2 : is_wrong ? 1 : weight_of(literal.first);
    if (is_wrong) literal.tag = NONE;
    is_wrong |= entries[parent].is_wrong;
    entries[++entry_count] = (struct entry){parent, entries[parent].depth + 1, literals, asked, is_wrong, literal};
}

static void take_node(struct node *node) {
    node->kind = take(1, DEAD, bad_node);
    if (form > 1) take(1, 0, bad_node);
    node->pc = take(2, ALL, bad_node);
    uint32_t literals = form == 1 ? take(2, MOST_HELD, bad_count) : 0;
    for (unsigned i = A; i <= X; i++) node->value[i] = take_value(false);
    uint32_t stated = form > 2 ? take(2, ALL, bad_node) : 0;
    for (unsigned i = 0; i < 16; i++) if (stated >> i & 1) node->value[SCRATCH + i] = take_value(true);
    for (; literals > 0; literals--, node->chain = entry_count) take_entry(node->chain, NOT_BITS);
    if (form > 1) node->chain = take(4, entry_count, bad_node);
    if (entries[node->chain].depth > MOST_HELD) no_certificate(bad_node);
    for (unsigned i = 0; node->kind == SPLIT && i < 2; i++) node->split[i] = take_literal(NOT_BITS);
    for (unsigned i = 0; node->kind <= SPLIT && i < 2; i++) node->successor[i] = take(4, ALL, bad_node);
}

static void read_certificate(const char *name) {
    static uint32_t offset[MOST_NODES];
    read_file(name);
    if (byte_count > MOST_BYTES) no_certificate(bad_count);
    if (byte_count < 4 || memcmp(bytes, "CCRT", 4) != 0) no_certificate("no 3 Form 1 BadMagic");
    cursor = 4;
    if ((form = take(4, 4, bad_version)) == 0) no_certificate(bad_version);
    if ((node_count = take(4, MOST_NODES, bad_count)) == 0) no_certificate(bad_count);
    uint32_t chained = form > 1 ? take(4, MOST_ENTRIES, bad_count) : 0;
    while (entry_count < chained) take_entry(take(4, entry_count, bad_node), form == 4 ? MET : NOT_BITS);
    for (unsigned n = 0; form > 1 && n < node_count; n++) offset[n] = take(4, ALL, bad_node);
    for (unsigned n = 0; n < node_count; n++) {
        if (form > 1 && offset[n] != cursor) no_certificate(bad_node);
        take_node(&nodes[n]);
    }
    if (cursor != byte_count) no_certificate("no 3 Form 6 Trailing");
}

/* ---- The work of a check ---- */
/* The weight of all rules whose numbers are in a range: for each token, that of those up to its end less that of those before it. */
static uint64_t weight_between(uint64_t least, uint64_t greatest) {
    static uint32_t weight_before[MOST_RULES + 1]; /* of the rules in front of a place in `sorted` */
    for (unsigned i = 0; weight_before[rule_count] == 0 && i < rule_count; i++)
        weight_before[i + 1] = weight_before[i] + weight_of(sorted[i]);
    uint64_t weight = 0, after;
    for (unsigned i = 0; i < rule_count; i = first_from(after)) {
        uint64_t token = key_of(sorted[i]) >> 32 << 32;
        after = token + ALL + 1;
        weight += weight_before[first_from(token + greatest + 1)] - weight_before[first_from(token + least)];
    }
    return weight;
}
/* Whether word 0 has a point in a chain whose In and whole Bits leave it a range, which then becomes that of the points. Each number that
 * a NotBits excludes is marked by how far it is from both ends. No more than MOST_HELD are. */
static bool points_of(uint32_t chain, uint64_t *least, uint64_t *greatest) {
    bool from_least[MOST_HELD + 1] = {false}, from_greatest[MOST_HELD + 1] = {false};
    for (uint32_t i = chain; i != 0; i = entries[i].parent) {
        struct literal literal = entries[i].literal;
        if (literal.tag != NOT_BITS || literal.word != 0 || literal.first != ALL) continue;
        if (literal.second >= *least && literal.second - *least <= MOST_HELD) from_least[literal.second - *least] = true;
        if (literal.second <= *greatest && *greatest - literal.second <= MOST_HELD) from_greatest[*greatest - literal.second] = true;
    }
    uint64_t first = *least, last = *greatest;
    while (first <= last && from_least[first - *least]) first++;
    while (first < last && from_greatest[*greatest - last]) last--;
    *least = first, *greatest = last;
    return first <= last;
}
/* The work of a Return: the weight of the rules that word 0 leaves. */
static uint64_t work_of_return(uint32_t chain) {
    uint64_t least = 0, greatest = ALL;
    uint32_t mask = 0, data = 0;
    for (uint32_t i = chain; i != 0; i = entries[i].parent) {
        struct literal literal = entries[i].literal;
        if ((literal.tag != IN && literal.tag != BITS) || literal.word != 0) continue;
        if (literal.tag == BITS) mask |= literal.first, data |= literal.second;
        if (literal.tag == BITS && literal.first == ALL) literal.first = literal.second;
        else if (literal.tag == BITS) continue;
        if (literal.first > least) least = literal.first;
        if (literal.second < greatest) greatest = literal.second;
    }
    bool has_least = least <= greatest && points_of(chain, &least, &greatest) && (mask & (data ^ least)) == 0;
    for (uint32_t i = chain; i != 0 && has_least; i = entries[i].parent) {
        struct literal literal = entries[i].literal;
        has_least = literal.tag != NOT_BITS || literal.word != 0 || (least & literal.first) != literal.second;
    }
    return has_least ? weight_between(least, greatest) : weight_between(0, ALL);
}

static bool is_too_large(void) {
    uint64_t work = 0;
    for (const struct node *node = nodes; node < nodes + node_count; node++) {
        work += entries[node->chain].literals;
        for (unsigned edge = 0; node->kind <= SPLIT && edge < 2; edge++)
            if (node->successor[edge] < node_count) work += entries[nodes[node->successor[edge]].chain].asked;
    }
    for (const struct node *node = nodes; node < nodes + node_count && work <= MOST_WORK; node++)
        if (node->kind == RETURN) work += work_of_return(node->chain);
    return work > MOST_WORK;
}

/* ---- What is known: a stack of a node's literals and claims, and on top of them the fact of an edge ---- */
/* A word more is 0: the high half of an argument of x86 and ARM. */
enum { HIGH_HALF_ZERO = 16, WORDS, SLOTS = 2048, UNASKED = 0, POINT, NO_POINT };
static struct word {
    uint32_t low, high, mask, data; /* by In and by Bits of all bits; by all Bits */
    unsigned excluded, points, least, greatest; /* how many NotBits of not all bits; whether there is a point, and the range if so */
    bool has_conflict; /* two Bits differ on a bit of both masks */
} words[WORDS];
static uint32_t excluded_mask[16][MOST_HELD + 1], excluded_data[16][MOST_HELD + 1];
static struct held { struct literal literal; uint32_t entry, slot; struct word before; } held[MOST_HELD + 1];
static uint32_t held_count, place_of[FORM_1_ENTRIES + 1]; /* where in `held` an entry was put last */
static uint16_t slots[SLOTS];                             /* literals by their contents: a place in `held` and 1 */
static uint16_t is_out[MOST_RULES], is_met[MOST_RULES][6]; /* how often each is held */
/* The slot of a literal: one that has it, unless a new one is wanted, or the empty one where it is missing. */
static uint32_t slot_of(uint32_t tag, unsigned word, uint32_t first, uint32_t second, bool is_new) {
    uint32_t slot = (first * 0x9e3779b1u ^ second * 0x85ebca6bu ^ (tag * 16 + word) * 0xc2b2ae35u) >> 21;
    for (; slots[slot] != 0; slot = (slot + 1) % SLOTS) {
        const struct literal *other = &held[slots[slot] - 1].literal;
        if (!is_new && other->first == first && other->second == second && other->tag == tag && other->word == word) break;
    }
    return slot;
}

static bool holds(uint32_t tag, unsigned word, uint32_t first, uint32_t second) { return slots[slot_of(tag, word, first, second, false)]; }
static uint16_t *claim_of(struct literal claim) { return claim.tag == OUT ? &is_out[claim.first] : &is_met[claim.first][claim.second]; }
static void push(struct literal literal, uint32_t entry) {
    struct held *top = &held[held_count];
    struct word *word = &words[literal.word];
    *top = (struct held){literal, entry, 0, *word};
    place_of[entry] = held_count++;
    if (literal.tag >= OUT) ++*claim_of(literal);
    if (literal.tag >= OUT || literal.tag == NONE) return;
    top->slot = slot_of(literal.tag, literal.word, literal.first, literal.second, true);
    slots[top->slot] = (uint16_t)held_count;
    word->points = UNASKED;
    bool is_range = literal.tag == IN || (literal.tag == BITS && literal.first == ALL);
    uint32_t low = literal.tag == IN ? literal.first : literal.second;
    if (is_range && low > word->low) word->low = low;
    if (is_range && literal.second < word->high) word->high = literal.second;
    if (literal.tag == BITS) {
        word->has_conflict |= (word->mask & literal.first & (word->data ^ literal.second)) != 0;
        word->mask |= literal.first;
        word->data |= literal.second;
    } else if (literal.tag == NOT_BITS && literal.first != ALL) {
        excluded_mask[literal.word][word->excluded] = literal.first;
        excluded_data[literal.word][word->excluded++] = literal.second;
    }
}

static void pop(void) {
    const struct held *top = &held[--held_count];
    if (top->literal.tag >= OUT) --*claim_of(top->literal);
    if (top->literal.tag >= OUT || top->literal.tag == NONE) return;
    slots[top->slot] = 0;
    words[top->literal.word] = top->before;
}
/* Whether an entry belongs to what is known. */
static bool is_held(uint32_t entry) { return place_of[entry] < held_count && held[place_of[entry]].entry == entry; }
/* Makes what is known the chain of a node. What it shares with the one before stays. */
static void know(uint32_t chain) {
    uint32_t path[MOST_HELD], length = 0;
    for (; chain != 0 && !is_held(chain); chain = entries[chain].parent) path[length++] = chain;
    while (held_count > (chain == 0 ? 0 : place_of[chain] + 1)) pop();
    for (; length > 0; length--) push(entries[path[length - 1]].literal, path[length - 1]);
}
/* Whether a word has a point. If so, its range is known from now on. */
static bool has_point(unsigned w) {
    struct word *word = &words[w];
    if (word->points != UNASKED) return word->points == POINT;
    uint64_t least = word->low, greatest = word->high;
    while (least <= greatest && holds(NOT_BITS, w, ALL, (uint32_t)least)) least++;
    while (least < greatest && holds(NOT_BITS, w, ALL, (uint32_t)greatest)) greatest--;
    word->points = least <= greatest ? POINT : NO_POINT;
    word->least = (unsigned)least;
    word->greatest = (unsigned)greatest;
    return least <= greatest;
}
/* Whether what is known entails a literal of each kind. */
static bool entails_in(unsigned w, uint32_t low, uint32_t high) {
    return (has_point(w) && low <= words[w].least && words[w].greatest <= high) || holds(IN, w, low, high);
}
static bool entails_bits(unsigned w, uint32_t mask, uint32_t data) {
    if ((mask & ~words[w].mask) == 0 && (words[w].data & mask) == data) return true;
    if (words[w].has_conflict && holds(BITS, w, mask, data)) return true; /* else what stands before finds an own one */
    return has_point(w) && words[w].least == words[w].greatest && (words[w].least & mask) == data;
}
static bool entails_not_bits(unsigned w, uint32_t mask, uint32_t data) {
    uint64_t found;
    if ((words[w].mask & mask & (words[w].data ^ data)) != 0) return true;
    if (has_point(w) && !(least_from(words[w].least, mask, data, &found) && found <= words[w].greatest)) return true;
    if (mask == ALL && holds(NOT_BITS, w, ALL, data)) return true;
    for (unsigned i = 0; i < words[w].excluded; i++)
        if ((excluded_mask[w][i] & ~mask) == 0 && (data & excluded_mask[w][i]) == excluded_data[w][i]) return true;
    return false;
}
static bool entails(struct literal literal) {
    if (literal.tag == BITS) return entails_bits(literal.word, literal.first, literal.second);
    if (literal.tag == NOT_BITS) return entails_not_bits(literal.word, literal.first, literal.second);
    return entails_in(literal.word, literal.first, literal.second);
}

/* ---- Conditions and rules ---- */
enum { NO, OPEN, YES };
static int answer_of(const struct rule *rule, const struct condition *c) {
    unsigned low = 4 + 2 * c->argument, high = machines[rule->machine].has_half_arguments ? HIGH_HALF_ZERO : low + 1;
    if (c->is_order) {
        if (!has_point(low) || !has_point(high)) return OPEN;
        uint64_t least = (uint64_t)words[high].least << 32 | words[low].least;
        uint64_t greatest = (uint64_t)words[high].greatest << 32 | words[low].greatest;
        bool holds_first = c->low <= least && least <= c->high, holds_last = c->low <= greatest && greatest <= c->high;
        return holds_first != holds_last ? OPEN : holds_first ? YES : NO;
    }
    uint64_t mask = c->is_not ? UINT64_MAX : c->mask, data = c->data;
    bool has_data = entails_bits(low, mask & ALL, data & ALL) && entails_bits(high, (uint32_t)(mask >> 32), (uint32_t)(data >> 32));
    if (has_data && !c->is_not) return YES;
    if (entails_not_bits(low, mask & ALL, data & ALL) || entails_not_bits(high, (uint32_t)(mask >> 32), (uint32_t)(data >> 32)))
        return c->is_not ? YES : NO;
    return has_data ? NO : OPEN;
}
/* Whether a condition of a rule is *no*, but for those that are met if these count. The one that was so last time is asked first. */
static bool is_refuted(unsigned place, bool met_counts) {
    static uint8_t last[MOST_RULES];
    const struct rule *rule = &rules[place];
    for (unsigned i = 0; i < rule->conditions; i++) {
        unsigned j = (last[place] + i) % rule->conditions;
        if ((met_counts && is_met[place][j]) || answer_of(rule, &rule->condition[j]) != NO) continue;
        last[place] = (uint8_t)j;
        return true;
    }
    return false;
}

static int answer_of_rule(unsigned place) {
    const struct rule *rule = &rules[place];
    bool has_number = entails_bits(0, ALL, rule->number), is_yes = has_number;
    if ((!has_number && entails_not_bits(0, ALL, rule->number)) || is_refuted(place, true)) return NO;
    for (unsigned i = 0; i < rule->conditions && is_yes; i++)
        is_yes = is_met[place][i] || answer_of(rule, &rule->condition[i]) == YES;
    return is_yes ? YES : has_number && entails_not_bits(0, ALL, rule->number) ? NO : OPEN;
}
/* Whether the rules of a token agree with a verdict. If it is the default, and all rules of others are *no*, its own rules need not be
 * asked. Unless the Bits of the number contradict each other, only rules of a number in its range are not *no*. */
static bool rules_agree(uint32_t token, uint32_t verdict) {
    bool is_narrow = has_point(0) && !words[0].has_conflict, is_default = verdict == default_verdict;
    unsigned from = first_from((uint64_t)token << 32 | (is_narrow ? words[0].least : 0));
    unsigned to = first_from(((uint64_t)token << 32 | (is_narrow ? words[0].greatest : ALL)) + 1);
    for (unsigned i = from; i < to && is_default; i++)
        is_default = is_out[sorted[i]] || rules[sorted[i]].verdict == verdict || answer_of_rule(sorted[i]) == NO;
    for (unsigned i = from; i < to && !is_default; i++)
        if (!is_out[sorted[i]] && rules[sorted[i]].verdict == verdict && answer_of_rule(sorted[i]) == YES) return true;
    return is_default;
}

static bool entails_one_of(struct ranges of) {
    return (of.count > 0 && entails_in(0, of.low[0], of.high[0])) || (of.count > 1 && entails_in(0, of.low[1], of.high[1]));
}
/* Whether each number of word 0's range has a rule of this token and verdict without conditions. */
static bool all_have_rules(uint32_t token, uint32_t verdict) {
    uint64_t wanted = (uint64_t)token << 32 | words[0].least, greatest = (uint64_t)token << 32 | words[0].greatest;
    for (unsigned i = first_from(wanted); i < rule_count && wanted <= greatest && key_of(sorted[i]) <= wanted; i++)
        if (key_of(sorted[i]) == wanted && rules[sorted[i]].verdict == verdict && rules[sorted[i]].conditions == 0) wanted++;
    return wanted > greatest;
}

static bool keeps_return(const struct node *node) {
    struct instruction i = filter[node->pc];
    uint32_t verdict = i.code == RET_K ? i.k : node->value[A].number;
    if (class_of(i) != RET || (i.code != RET_K && node->value[A].tag != CONST)) return false;
    static uint32_t last_chain = ALL, last_verdict; /* of a return that kept the rule: it is the same for the next one with both */
    if (node->chain == last_chain && verdict == last_verdict) return true;
    bool is_known = verdict == 0, is_kept = true;
    for (const struct machine *machine = machines; machine < machines + MACHINES; machine++) {
        if (!machine->is_listed) continue;
        bool is_token = entails_bits(1, ALL, machine->token);
        bool is_own = machine->foreign.count == 0 || verdict == 0 || entails_one_of(machine->own);
        if (form == 4 && is_token && is_own && has_point(0) && all_have_rules(machine->token, verdict)) return true;
        is_known |= is_token;
        if (is_kept && !entails_not_bits(1, ALL, machine->token))
            is_kept = is_own && (entails_one_of(machine->foreign) || rules_agree(machine->token, verdict));
    }
    last_chain = node->chain, last_verdict = verdict;
    return is_known && is_kept;
}

/* ---- Edges ---- */
static uint32_t computed(uint32_t operation, uint32_t a, uint32_t operand) {
    uint32_t by = operand & 31, sum = operation == 0x00 ? a + operand : operation == 0x10 ? a - operand : 0 - a;
    uint32_t bits = operation == 0x40 ? a | operand : operation == AND ? a & operand : a ^ operand;
    return operation == 0x60 ? a << by : operation == 0x70 ? a >> by : operation < 0x40 || operation == 0x80 ? sum : bits;
}

static struct value operand_of(struct instruction i, struct value x) { return i.code & OPERAND_X ? x : (struct value){CONST, 0, i.k}; }
/* Changes the values as an instruction does. */
static void transfer(struct instruction i, struct value *values) {
    struct value operand = operand_of(i, values[X]), *a = &values[A];
    switch (class_of(i) == ALU ? ALU : i.code) {
    case LOAD: *a = (struct value){MASKED, (uint8_t)(i.k / 4), ALL}; break;
    case 0x00: case 0x01: values[i.code] = (struct value){CONST, 0, i.k}; break;
    case LOAD_A: case LOAD_X: values[i.code - LOAD_A] = values[SCRATCH + i.k]; break;
    case STORE_A: case STORE_X: values[SCRATCH + i.k] = values[i.code - STORE_A]; break;
    case 0x07: values[X] = *a; break;
    case 0x87: *a = values[X]; break;
    case ALU:
        if (operand.tag == CONST && a->tag == CONST) a->number = computed(i.code & OPERATION, a->number, operand.number);
        else if (operand.tag == CONST && a->tag == MASKED && (i.code & OPERATION) == AND) a->number &= operand.number;
        else *a = (struct value){UNKNOWN, 0, 0};
    }
}

static const struct literal none = {NONE, 0, 0, 0}, is_false = {IN, 0, 1, 0};
/* The fact that some of these bits of a word are set, or that none is. */
static struct literal fact_of_bits(uint8_t w, uint32_t bits, bool is_taken) {
    bool is_sharp = is_taken && form == 4 && bits != 0 && (bits & (bits - 1)) == 0;
    return (struct literal){is_taken && !is_sharp ? NOT_BITS : BITS, w, bits, is_sharp ? bits : 0};
}
/* The fact that a word is greater than `c`, or that it is not. */
static struct literal fact_of_order(uint8_t w, uint32_t c, bool is_taken) {
    return !is_taken ? (struct literal){IN, w, 0, c} : c == ALL ? is_false : (struct literal){IN, w, c + 1, ALL};
}
/* The sharp fact of the same, of a word under a mask. Of a whole word it is the one that is not sharp. */
static struct literal fact_of_masked_order(uint8_t w, uint32_t mask, uint32_t c, bool is_taken) {
    uint32_t lowest = mask & (0 - mask), rest = words[w].data & ~mask;
    if ((mask | (lowest - 1)) == ALL) return fact_of_order(w, c | ~mask, is_taken);
    if (c >= mask && is_taken) return is_false;
    if ((words[w].mask | mask) == ALL) return fact_of_order(w, c > ALL - rest ? ALL : c + rest, is_taken);
    if (c < lowest) return fact_of_bits(w, mask, is_taken);
    return is_taken ? fact_of_order(w, c, true) : none;
}

static struct literal fact_of(struct instruction i, const struct value *values, bool is_taken) {
    struct value a = values[A], operand = operand_of(i, values[X]);
    uint32_t test = i.code & OPERATION, c = operand.number, mask = a.number;
    if (!is_test(i) || operand.tag != CONST || a.tag == UNKNOWN) return none;
    if (a.tag == CONST) {
        bool is_so = test == JEQ ? mask == c : test == JGT ? mask > c : test == JGE ? mask >= c : (mask & c) != 0;
        return is_so == is_taken ? none : is_false;
    }
    if (test == JEQ && (c & ~mask) != 0) return is_taken ? is_false : none;
    if (test == JEQ) return (struct literal){is_taken ? BITS : NOT_BITS, a.word, mask, c};
    if (test != JGT && test != JGE) return fact_of_bits(a.word, mask & c, is_taken);
    if (form < 4 && mask != ALL) return none;
    if (test == JGE && c == 0) return is_taken ? (struct literal){IN, a.word, 0, ALL} : is_false;
    return fact_of_masked_order(a.word, mask, test == JGE ? c - 1 : c, is_taken);
}

/* ---- The rules ---- */
static bool keeps_edge(uint32_t n) {
    const struct node *node = &nodes[n];
    if (node->pc >= filter_length || (node->kind == STEP && class_of(filter[node->pc]) == RET)) return false;
    unsigned edges = node->kind > SPLIT ? 0 : node->kind == STEP && !is_test(filter[node->pc]) ? 1 : 2;
    if (edges == 1 && node->successor[1] != ALL) return false;
    for (unsigned edge = 0; edge < edges; edge++) {
        uint32_t successor = node->successor[edge];
        if (successor <= n || successor >= node_count) return false;
        if (nodes[successor].pc != (node->kind == SPLIT ? node->pc : target_of(node->pc, edge))) return false;
    }
    return true;
}

static bool keeps_split(const struct literal pair[2]) {
    for (unsigned i = 0; i < 2; i++) {
        struct literal one = pair[i], two = pair[1 - i];
        uint32_t lowest = one.first & (0 - one.first);
        bool is_zero = form == 4 && one.tag == BITS && one.first != 0 && one.second == 0;
        bool is_range = one.tag == IN && two.tag == IN && one.first == 0 && one.second != ALL && two.first == one.second + 1;
        bool is_not = one.tag == BITS && two.tag == NOT_BITS && one.first == two.first && one.second == two.second;
        bool is_bit = is_zero && two.tag == BITS && one.first == lowest && two.first == lowest && two.second == lowest;
        bool is_from = (is_range || (is_zero && two.tag == IN && two.first == lowest)) && two.second == ALL;
        if (one.word == two.word && (is_from || is_not || is_bit)) return true;
    }
    return false;
}

static bool entails_claim(struct literal claim) {
    const struct rule *rule = &rules[claim.first];
    if (*claim_of(claim)) return true;
    if (claim.tag == MET) return answer_of(rule, &rule->condition[claim.second]) == YES;
    if (entails_not_bits(1, ALL, machines[rule->machine].token) || entails_not_bits(0, ALL, rule->number)) return true;
    return is_refuted(claim.first, false);
}

static bool entails_node(const struct node *successor, const struct value *values) {
    for (unsigned i = 0; i < VALUES; i++) {
        struct value a = successor->value[i], b = values[i];
        if (a.tag != UNKNOWN && (a.tag != b.tag || a.word != b.word || a.number != b.number)) return false;
    }
    for (uint32_t entry = successor->chain; entry != 0 && !is_held(entry); entry = entries[entry].parent) {
        struct literal literal = entries[entry].literal;
        if (literal.tag >= OUT ? !entails_claim(literal) : literal.tag != NONE && !entails(literal)) return false;
    }
    return !entries[successor->chain].is_wrong;
}

static bool keeps_entail(const struct node *node) {
    struct value values[VALUES];
    memcpy(values, node->value, sizeof values);
    if (node->kind == STEP) transfer(filter[node->pc], values);
    bool is_kept = node->kind != DEAD;
    for (unsigned w = 0; node->kind == DEAD && w < 16; w++) /* what a NotBits of the data of all Bits asks is left of *dead* */
        is_kept |= !has_point(w) || words[w].has_conflict || entails_not_bits(w, words[w].mask, words[w].data);
    for (unsigned edge = 0; is_kept && node->kind <= SPLIT && edge < 2; edge++) {
        if (node->successor[edge] == ALL) continue;
        push(node->kind == SPLIT ? node->split[edge] : fact_of(filter[node->pc], node->value, edge == 0), 0);
        is_kept = entails_node(&nodes[node->successor[edge]], values);
        pop();
    }
    return is_kept;
}

int main(int count, char **names) {
    if (count != 5 || names[2][0] == '-' || names[3][0] == '-' || names[4][0] == '-') fault(2, "usage: second MACHINE PROFILE FILTER CERTIFICATE", "");
    read_profile(names[2], names[1]);
    read_filter(names[3], strcmp(names[1], "linux-s390x") == 0);
    read_certificate(names[4]);
    if (strncmp(names[1], "linux-", 6) == 0 && is_too_large()) answer("refused check 1 TooLarge", -1);
    if (filter_fault) answer(filter_fault, filter_place);
    bool is_root = nodes[0].pc == 0 && nodes[0].chain == 0;
    for (unsigned i = 0; i < VALUES; i++) is_root &= nodes[0].value[i].tag == (i <= X ? CONST : UNKNOWN) && nodes[0].value[i].number == 0;
    if (!is_root) answer("no 4 Root", -1);
    for (unsigned w = 0; w < HIGH_HALF_ZERO; w++) words[w].high = ALL;
    words[HIGH_HALF_ZERO].mask = ALL;
    for (uint32_t n = 0; n < node_count; n++) {
        const struct node *node = &nodes[n];
        if (!keeps_edge(n)) answer("no 5 Edge node", (int)n);
        if (node->kind == SPLIT && !keeps_split(node->split)) answer("no 8 Split node", (int)n);
        know(node->chain);
        if (!keeps_entail(node)) answer("no 6 Entail node", (int)n);
        if (node->kind == RETURN && !keeps_return(node)) answer("no 7 Return node", (int)n);
    }
    answer("yes", -1);
}
