/* Names and numbers of machines and calls, as libseccomp tells them. The numbers are those of ccell's tables. */
#include "filter.h"
#include <stdatomic.h>
#include <stdlib.h>
#include <string.h>

const struct machine MACHINE[MACHINES] = {
    {"x86_64", CCELL_X86_64}, {"x32", CCELL_X32}, {"x86", CCELL_X86}, {"aarch64", CCELL_AARCH64}, {"arm", CCELL_ARM},
    {"riscv64", CCELL_RISCV64}, {"ppc64le", CCELL_PPC64LE}, {"loongarch64", CCELL_LOONGARCH64},
    {"mips", 0x00000008}, {"mipsel", 0x40000008}, {"mips64", 0x80000008}, {"mipsel64", 0xc0000008},
    {"mips64n32", 0xa0000008}, {"mipsel64n32", 0xe0000008}, {"parisc", 0x0000000f}, {"parisc64", 0x8000000f},
    {"ppc", 0x00000014}, {"ppc64", 0x80000015}, {"s390", 0x00000016}, {"s390x", 0x80000016},
    {"m68k", 0x00000004}, {"sh", 0x4000002a}, {"sheb", 0x0000002a}};

static const struct { const char *name; int pseudo; } CALLS[] = {
#include "pseudo.h"
};
enum { CALL_COUNT = sizeof CALLS / sizeof *CALLS, X32_BIT = 0x40000000 };

int machine_with(uint32_t token) {
    for (int i = 0; i < MACHINES; i++)
        if (MACHINE[i].token == (token ? token : MACHINE[NATIVE].token)) return i;
    return -1;
}

static int compare(const void *name, const void *call) {
    return strcmp(name, *(const char *const *)call);
}

int call_named(const char *name) {
    const void *found = name ? bsearch(name, CALLS, CALL_COUNT, sizeof *CALLS, compare) : NULL;
    return found ? (int)(((const char *)found - (const char *)CALLS) / (ptrdiff_t)sizeof *CALLS) : -1;
}

const char *call_name(int call) { return CALLS[call].name; }

/* What ccell answered before of a machine and a call: the number and KNOWN, or ABSENT; and of the machine itself the call of a number,
 * counted from 1. Threads may ask at once: they store the same. */
static _Atomic uint64_t ANSWERS[OURS][CALL_COUNT];
static const uint64_t KNOWN = 1ull << 32, ABSENT = 1ull << 33;
enum { NUMBERS = 512 };
static _Atomic int NATIVE_CALLS[NUMBERS];

static uint64_t ask_number(int machine, int call) {
    const char *name = CALLS[call].name;
    uint32_t number;
    if (ccell_call_number(MACHINE[machine].token, (const uint8_t *)name, strlen(name), &number) != CCELL_DONE) return ABSENT;
    return KNOWN | number;
}

bool call_has(int machine, int call, uint32_t *number) {
    if (machine >= OURS) return false;
    uint64_t answer = atomic_load_explicit(&ANSWERS[machine][call], memory_order_relaxed);
    if (!answer) {
        answer = ask_number(machine, call);
        atomic_store_explicit(&ANSWERS[machine][call], answer, memory_order_relaxed);
    }
    if (answer == ABSENT) return false;
    *number = (uint32_t)answer;
    if (machine == NATIVE && *number < NUMBERS) atomic_store_explicit(&NATIVE_CALLS[*number], call + 1, memory_order_relaxed);
    return true;
}

/* Where socketcall and ipc make a call, too, libseccomp tells it by the number of the header. */
static bool has_two_ways(int machine, int call) { return WITH_WAYS >> machine & 1 && CALLS[call].pseudo > -1000; }

int call_number(int machine, int call) {
    uint32_t number;
    return !has_two_ways(machine, call) && call_has(machine, call, &number) ? (int)number : CALLS[call].pseudo;
}

/* By the numbers of the header -101 is call 1 of socketcall, and -201 call 1 of ipc. */
int other_way(int call, uint64_t *number) {
    int pseudo = CALLS[call].pseudo;
    *number = (uint64_t)(-pseudo % 100);
    return pseudo > -100 || pseudo <= -300 ? -1 : call_named(pseudo > -200 ? "socketcall" : "ipc");
}

int call_with(int machine, int number) {
    uint8_t name[NAME_SIZE];
    size_t length = 0;
    if (machine == X32 && number >= 0) number |= X32_BIT; /* libseccomp takes it with and without its bit */
    if (number < 0 || machine >= OURS) {
        for (int i = 0; i < CALL_COUNT; i++)
            if (CALLS[i].pseudo == number && number < -99) return call_number(machine, i) == number ? i : -1;
        return -1;
    }
    int call = machine == NATIVE && number < NUMBERS ? atomic_load_explicit(&NATIVE_CALLS[number], memory_order_relaxed) : 0;
    if (call) return call - 1;
    if (ccell_call_name(MACHINE[machine].token, (uint32_t)number, name, sizeof name - 1, &length) != CCELL_DONE) return -1;
    name[length] = 0;
    return call_named((const char *)name);
}

API uint32_t seccomp_arch_native(void) { return MACHINE[NATIVE].token; }

API uint32_t seccomp_arch_resolve_name(const char *name) {
    for (int i = 0; i < MACHINES && name; i++)
        if (!strcmp(MACHINE[i].name, name)) return MACHINE[i].token;
    return 0;
}

API int seccomp_syscall_resolve_name_arch(uint32_t token, const char *name) {
    int machine = machine_with(token), call = call_named(name);
    return machine < 0 || call < 0 ? NO_SUCH_CALL : call_number(machine, call);
}

API int seccomp_syscall_resolve_name(const char *name) { return seccomp_syscall_resolve_name_arch(0, name); }

API int seccomp_syscall_resolve_name_rewrite(uint32_t token, const char *name) {
    int number = seccomp_syscall_resolve_name_arch(token, name), machine = machine_with(token);
    bool has_another = machine >= 0 && WITH_WAYS >> machine & 1 && number < -99 && number > -300;
    return has_another ? seccomp_syscall_resolve_name_arch(token, number > -200 ? "socketcall" : "ipc") : number;
}

API char *seccomp_syscall_resolve_num_arch(uint32_t token, int number) {
    int machine = machine_with(token), call = machine < 0 ? -1 : call_with(machine, number);
    return call < 0 ? NULL : strdup(CALLS[call].name);
}
