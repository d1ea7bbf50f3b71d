/* ccell.h - checked seccomp filters, made in your own process.
 *
 * NAME
 *     ccell_filter_for_rules, ccell_filter_for_bundle   a filter that is shown to be right
 *     ccell_verdict                                     the verdict of a filter on a call record
 *     ccell_check, ccell_certify                        whether a certificate shows a filter right; a certificate for a filter
 *     ccell_call_number, ccell_call_name                numbers and names of calls
 *
 * SYNOPSIS
 *     #include <ccell.h>
 *     cc program.c libccell.a
 *
 * DESCRIPTION
 *     These functions do what the commands `export`, `verdict`, `check` and `certify` of the program ccell do, on bytes in memory.
 *     Each is proved: what it answers stands in the contract of the function of this name in crates/filter_c/src.
 *
 *     Bytes that go in are a pointer and a length; the pointer may be any non-null one where the length is 0. They are yours: they
 *     are read during the call and not kept. Bytes that come out go into `out`, which has room for `room` bytes and overlaps
 *     nothing else that is passed. No pointer may be null.
 *
 *     A filter is 1 to 4096 instructions of 8 bytes, `struct sock_filter` of <linux/filter.h>: CCELL_MOST_BYTES are always room
 *     enough. A certificate may be larger: call again where CCELL_NO_ROOM comes, with room for as many bytes as are told.
 *     A line is text of at most some hundred bytes, with a line feed at its end, and no null byte behind it.
 *
 *     Machines are told by the numbers that libseccomp has for them, SCMP_ARCH_X86_64 and so on: CCELL_X86_64 and so on below.
 *     They stand for all calls of Linux 7.3. The native machine is the one whose kernel the filter is for.
 *
 * RETURN VALUE
 *     Each function returns one of `enum ccell_status`, and only those that are named with it. CCELL_DONE is 0. On any other
 *     status there is no filter: CCELL_REFUSED writes a line into `out`, and all others leave `out` as it was. With
 *     CCELL_NO_ROOM the count is exactly how many bytes that answer has.
 *
 * THREADS
 *     Nothing is kept between calls, so threads may call side by side. No thread, process or file is opened, nothing is read from
 *     the environment, and no signal is handled. Memory comes from malloc, realloc and free, and is given back before the call
 *     returns. Not to be called from a signal handler.
 *
 * STACK
 *     ccell_filter_for_rules was seen to work with 112 KiB for the default profile of docker. docs/LIBRARY.md has what was measured.
 */
#ifndef CCELL_H
#define CCELL_H
#include <stddef.h>
#include <stdint.h>

#ifdef __cplusplus
extern "C" {
#endif

#define CCELL_MOST_BYTES 32768u

/* Machines. x32 has a number of its own here; records of its calls carry the token of x86-64. */
#define CCELL_X86_64 0xc000003eu
#define CCELL_X86 0x40000003u
#define CCELL_X32 0x4000003eu
#define CCELL_AARCH64 0xc00000b7u
#define CCELL_ARM 0x40000028u
#define CCELL_RISCV64 0xc00000f3u
#define CCELL_PPC64LE 0xc0000015u
#define CCELL_LOONGARCH64 0xc0000102u

enum ccell_status {
    CCELL_DONE = 0,
    CCELL_REFUSED = 1,         /* refused: the line in `out` says why, in the words of the command */
    CCELL_NO_ROOM = 2,         /* `out` is too small: the count says how many bytes are wanted */
    CCELL_NO_MEMORY = 3,       /* malloc or realloc gave none */
    CCELL_NO_NATIVE = 4,       /* no machine has the number of the native one */
    CCELL_NO_MACHINE = 5,      /* no machine has the number at place `first` of the machines */
    CCELL_NO_RULE = 6,         /* at place `first` stands no rule; see struct ccell_rule */
    CCELL_NATIVE_MISSING = 7,  /* the native machine is not among the machines */
    CCELL_FOREIGN_RULE = 8,    /* the rule at place `first` is for a machine that is not among them */
    CCELL_TOO_MANY = 9,        /* there are more than 8192 different rules */
    CCELL_OVERLAP = 10,        /* the rules at places `first` and `second` have unlike actions, and one call matches both */
    CCELL_NO_FILTER = 11,      /* the filter would be longer than a kernel takes, or what shows it right larger than it may be */
    CCELL_NO_RECORD = 12,      /* the call record does not have 64 bytes */
    CCELL_NO_PROGRAM = 13,     /* the filter's bytes are no program of 1 to 4096 instructions */
    CCELL_KERNEL_REFUSES = 14, /* the kernel would refuse the filter */
    CCELL_NO_CALL = 15,        /* the machine has no such call */
    CCELL_NO_TEXT = 16         /* the name of a call is no UTF-8 */
};

/* How an argument is compared, as an unsigned number of 64 bits: enum scmp_compare of libseccomp. */
enum ccell_operator {
    CCELL_NE = 1,
    CCELL_LT = 2,
    CCELL_LE = 3,
    CCELL_EQ = 4,
    CCELL_GE = 5,
    CCELL_GT = 6,
    CCELL_MASKED_EQ = 7
};

/* A condition on an argument of 0 to 5. CCELL_MASKED_EQ: the bits of the argument under the mask `value` are those of `datum`,
 * which has no others. Any other operator: the argument is compared with `value`, and `datum` is 0. Of calls of x86 and ARM the
 * lower 32 bits of an argument are compared. */
struct ccell_condition {
    uint32_t argument;
    uint32_t operator_; /* enum ccell_operator */
    uint64_t value;
    uint64_t datum;
};

/* A rule for one call of one machine: `action` is what the filter answers to a call that meets the first `count` of the
 * conditions, as SECCOMP_RET_ALLOW or SECCOMP_RET_ERRNO | EPERM of <linux/seccomp.h>. There are at most six, each on an argument
 * of its own. Numbers of x32 carry the bit 0x40000000. */
struct ccell_rule {
    uint32_t machine;
    uint32_t number;
    uint32_t action;
    uint32_t count;
    struct ccell_condition conditions[6];
};

/* How many bytes are written, or would be, and the places that a refusal names, from 0. */
struct ccell_told {
    size_t count;
    size_t first;
    size_t second;
};

/* A filter for rules. On each call record it answers what the rules say: the action of each rule that matches it;
 * `default_action` if none does; SECCOMP_RET_KILL_THREAD if the record is a call of none of the machines. The order of rules
 * means nothing, and the same rule may come again. Statuses: 0, 2 to 11. */
uint32_t ccell_filter_for_rules(uint32_t native, uint32_t default_action, const uint32_t *machines, size_t machines_count,
                                const struct ccell_rule *rules, size_t rules_count, uint8_t *out, size_t room,
                                struct ccell_told *told);

/* A filter for a bundle, the text of a config.json of the OCI Runtime Specification: `ccell export`. Statuses: 0 to 4. */
uint32_t ccell_filter_for_bundle(uint32_t native, const uint8_t *bundle, size_t bundle_length, uint8_t *out, size_t room,
                                 size_t *count);

/* The verdict of a filter on a call record, `struct seccomp_data` of <linux/seccomp.h>: `ccell verdict`.
 * Statuses: 0, 12, 13, 14. */
uint32_t ccell_verdict(const uint8_t *filter, size_t filter_length, const uint8_t *record, size_t record_length,
                       uint32_t *verdict);

/* Whether a certificate shows that a filter answers on each call record what a bundle says: `ccell check`. 0 is a yes: nothing
 * is written, and the count is 0. 1: the line says what is wrong. Statuses: 0 to 4. */
uint32_t ccell_check(uint32_t native, const uint8_t *bundle, size_t bundle_length, const uint8_t *filter, size_t filter_length,
                     const uint8_t *certificate, size_t certificate_length, uint8_t *out, size_t room, size_t *count);

/* A certificate that a filter, whoever made it, answers what a bundle says: `ccell certify`. 1: the line tells a call record on
 * which it does not, or why neither is found. Statuses: 0 to 4. */
uint32_t ccell_certify(uint32_t native, const uint8_t *bundle, size_t bundle_length, const uint8_t *filter, size_t filter_length,
                       uint8_t *out, size_t room, size_t *count);

/* The number of a machine's call, by its name. Statuses: 0, 4, 15, 16. */
uint32_t ccell_call_number(uint32_t machine, const uint8_t *name, size_t name_length, uint32_t *number);

/* The name of a machine's call, by its number; no null byte is written. Statuses: 0, 2, 4, 15. */
uint32_t ccell_call_name(uint32_t machine, uint32_t number, uint8_t *out, size_t room, size_t *count);

#ifdef __cplusplus
}
#endif
#endif
