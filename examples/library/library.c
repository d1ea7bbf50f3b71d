/* A filter for two rules, its verdicts, a filter for a bundle, and a certificate, in a program's own process.
 * cc -I../../include -o library library.c libccell.a */
#include <ccell.h>
#include <linux/seccomp.h>
#include <stdio.h>
#include <string.h>

static uint8_t filter[CCELL_MOST_BYTES], certificate[1 << 20];

static const char BUNDLE[] = "{\"ociVersion\":\"1.0.2\",\"linux\":{\"seccomp\":{\"defaultAction\":\"SCMP_ACT_ERRNO\","
                             "\"syscalls\":[{\"names\":[\"read\"],\"action\":\"SCMP_ACT_ALLOW\"}]}}}";

static uint32_t number(const char *name) {
    uint32_t found = 0;
    ccell_call_number(CCELL_X86_64, (const uint8_t *)name, strlen(name), &found);
    return found;
}

static void tell(uint32_t call, uint64_t argument, size_t length) {
    struct seccomp_data record = {(int)call, CCELL_X86_64, 0, {argument}};
    uint32_t verdict = 0, status = ccell_verdict(filter, length, (const uint8_t *)&record, sizeof record, &verdict);
    printf("call %u of %llu: status %u, verdict %#x\n", call, (unsigned long long)argument, status, verdict);
}

int main(void) {
    /* write is allowed on descriptors 1 and 2, exit_group always, and each other call of x86-64 answers EPERM */
    struct ccell_rule rules[] = {
        {CCELL_X86_64, number("write"), SECCOMP_RET_ALLOW, 1, {{0, CCELL_EQ, 1, 0}}},
        {CCELL_X86_64, number("write"), SECCOMP_RET_ALLOW, 1, {{0, CCELL_EQ, 2, 0}}},
        {CCELL_X86_64, number("exit_group"), SECCOMP_RET_ALLOW, 0, {{0, 0, 0, 0}}},
    };
    uint32_t machines[] = {CCELL_X86_64};
    struct ccell_told told = {0, 0, 0};
    uint32_t status = ccell_filter_for_rules(CCELL_X86_64, SECCOMP_RET_ERRNO | 1, machines, 1, rules, 3, filter, sizeof filter, &told);
    printf("rules: status %u, a filter: %d\n", status, told.count > 0 && told.count % 8 == 0);
    tell(number("write"), 1, told.count);
    tell(number("write"), 3, told.count);
    tell(number("exit_group"), 0, told.count);

    rules[1].conditions[0] = rules[0].conditions[0]; /* the same call twice, once allowed and once killed */
    rules[1].action = SECCOMP_RET_KILL_PROCESS;
    status = ccell_filter_for_rules(CCELL_X86_64, SECCOMP_RET_ERRNO | 1, machines, 1, rules, 3, filter, sizeof filter, &told);
    printf("a contradiction: status %u, rules %zu and %zu\n", status, told.first, told.second);

    size_t length = 0, size = 0;
    status = ccell_filter_for_bundle(CCELL_X86_64, (const uint8_t *)BUNDLE, strlen(BUNDLE), filter, sizeof filter, &length);
    printf("bundle: status %u\n", status);
    tell(number("read"), 0, length);
    status = ccell_certify(CCELL_X86_64, (const uint8_t *)BUNDLE, strlen(BUNDLE), filter, length, certificate, sizeof certificate, &size);
    printf("certify: status %u\n", status);
    uint8_t line[512];
    size_t count = 0;
    status = ccell_check(CCELL_X86_64, (const uint8_t *)BUNDLE, strlen(BUNDLE), filter, length, certificate, size, line, sizeof line, &count);
    printf("check: status %u\n", status);
    filter[length - 4] ^= 1; /* another verdict at the end */
    status = ccell_check(CCELL_X86_64, (const uint8_t *)BUNDLE, strlen(BUNDLE), filter, length, certificate, size, line, sizeof line, &count);
    printf("check of another filter: status %u\n", status);
    status = ccell_filter_for_bundle(CCELL_X86_64, (const uint8_t *)"{}", 2, line, sizeof line, &count);
    printf("no bundle: status %u, %.*s", status, (int)count, (const char *)line);
    status = ccell_call_name(CCELL_X86, 3, line, sizeof line, &count);
    printf("call 3 of x86: status %u, %.*s\n", status, (int)count, (const char *)line);
    status = ccell_call_name(CCELL_X86, 3, line, 3, &count);
    printf("without room: status %u, %zu bytes\n", status, count);
    return 0;
}
