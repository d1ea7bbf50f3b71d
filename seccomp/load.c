/* Filters, loaded and given out. */
#include "filter.h"
#include <errno.h>
#include <linux/filter.h>
#include <linux/seccomp.h>
#include <stdio.h>
#include <stdlib.h>
#include <string.h>
#include <sys/prctl.h>
#include <sys/syscall.h>
#include <unistd.h>

static int failed(const struct filter *filter) { return filter->now.attributes[ERRORS_OF_SYSTEM] ? -errno : -ECANCELED; }

static int write_all(bool tells_system, int fd, const void *bytes, size_t count) {
    for (size_t written = 0; written < count;) {
        ssize_t put = write(fd, (const char *)bytes + written, count - written);
        if (put > 0) written += (size_t)put;
        else if (put == 0 || errno != EINTR) return !tells_system ? -ECANCELED : put ? -errno : -EIO;
    }
    return 0;
}

/* Gives the context back and writes a copy of bytes: who reads them may keep this thread waiting, but no other. */
static int write_copy(struct filter *filter, int fd, const void *bytes, size_t count) {
    bool tells_system = filter->now.attributes[ERRORS_OF_SYSTEM];
    void *copy = malloc(count);
    if (copy) memcpy(copy, bytes, count);
    done(filter, 0);
    int error = copy ? write_all(tells_system, fd, copy, count) : -ENOMEM;
    free(copy);
    return error;
}

API int seccomp_export_bpf(const scmp_filter_ctx ctx, int fd) {
    struct filter *filter = take(ctx);
    if (!filter) return -EINVAL;
    int error = make(filter);
    return error ? done(filter, error) : write_copy(filter, fd, filter->bytes, filter->length);
}

API int seccomp_export_bpf_mem(const scmp_filter_ctx ctx, void *buffer, size_t *length) {
    struct filter *filter = take(ctx);
    if (!filter) return -EINVAL;
    int error = length ? make(filter) : -EINVAL;
    if (error) return done(filter, error);
    if (buffer && *length < filter->length) error = -ERANGE;
    else if (buffer) memcpy(buffer, filter->bytes, filter->length);
    *length = filter->length;
    return done(filter, error);
}

API int seccomp_precompute(const scmp_filter_ctx ctx) {
    struct filter *filter = take(ctx);
    return filter ? done(filter, make(filter)) : -EINVAL;
}

API int seccomp_export_pfc(const scmp_filter_ctx ctx, int fd) {
    struct filter *filter = take(ctx);
    char *text = NULL;
    size_t length = 0;
    if (!filter) return -EINVAL;
    FILE *to = open_memstream(&text, &length);
    if (!to) return done(filter, -ENOMEM);
    bool is_whole = !print_filter(to, filter) && !ferror(to);
    is_whole = !fclose(to) && is_whole;
    int error = is_whole ? write_copy(filter, fd, text, length) : done(filter, -ENOMEM);
    free(text);
    return error;
}

/* Once the filter is in the kernel, this makes no further call of the system: the filter may refuse it. */
API int seccomp_load(const scmp_filter_ctx ctx) {
    struct filter *filter = take(ctx);
    if (!filter) return -EINVAL;
    int error = make(filter);
    if (error) return done(filter, error);
    struct sock_fprog whole = {(unsigned short)(filter->length / sizeof *whole.filter), (struct sock_filter *)(void *)filter->bytes};
    const uint32_t *is_on = filter->now.attributes;
    unsigned flags = (is_on[ALL_THREADS] ? SECCOMP_FILTER_FLAG_TSYNC : 0) | (is_on[LOG_REFUSED] ? SECCOMP_FILTER_FLAG_LOG : 0) |
                     (is_on[NO_SSB_MITIGATION] ? SECCOMP_FILTER_FLAG_SPEC_ALLOW : 0);
    if (is_on[NO_NEW_PRIVS] && prctl(PR_SET_NO_NEW_PRIVS, 1, 0, 0, 0)) return done(filter, failed(filter));
    unsigned listening = claim_listener(filter);
    long answer = syscall(SYS_seccomp, SECCOMP_SET_MODE_FILTER, flags | listening, &whole);
    if (listening) keep_listener(answer);
    bool lacks_thread = answer < 0 ? errno == ESRCH : answer > 0 && !listening; /* one that did not take the filter */
    return done(filter, lacks_thread ? -ESRCH : answer < 0 ? failed(filter) : 0);
}
