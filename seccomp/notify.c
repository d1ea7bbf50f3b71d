/* SCMP_ACT_NOTIFY: whether the kernel has it, the listener that a load gave, and what goes over a listener. */
#include "filter.h"
#include <errno.h>
#include <linux/seccomp.h>
#include <stdatomic.h>
#include <stdlib.h>
#include <sys/ioctl.h>
#include <sys/syscall.h>
#include <unistd.h>

/* ---- whether there are listeners */

enum { LISTENERS = 5, LISTENERS_OF_ALL_THREADS }; /* levels of seccomp_api_get(3) */

static int refuse_listeners(int error) {
    return refuse(error, "SCMP_ACT_NOTIFY: there are no listeners at API level %u", seccomp_api_get());
}

int judge_notify(bool is_for_all_threads) {
    unsigned level = seccomp_api_get();
    if (level < LISTENERS) return refuse_listeners(-EINVAL);
    if (!is_for_all_threads || level >= LISTENERS_OF_ALL_THREADS) return 0;
    return refuse(-EINVAL, "SCMP_ACT_NOTIFY: there is no SCMP_FLTATR_CTL_TSYNC beside it at API level %u", level);
}

/* ---- the listener of this process: one for all contexts, as in libseccomp */

enum { NO_LISTENER = -1, CLAIMED = -2 /* by a thread that loads a filter; a fork waits for it */ };
static _Atomic int listener = NO_LISTENER;

unsigned claim_listener(const struct filter *filter) {
    const uint32_t *is_on = filter->now.attributes;
    int none = NO_LISTENER;
    if (!filter->notifies || !atomic_compare_exchange_strong(&listener, &none, CLAIMED)) return 0;
    return SECCOMP_FILTER_FLAG_NEW_LISTENER | (is_on[ALL_THREADS] ? SECCOMP_FILTER_FLAG_TSYNC_ESRCH : 0) |
           (is_on[WAIT_KILL] ? SECCOMP_FILTER_FLAG_WAIT_KILLABLE_RECV : 0);
}

void keep_listener(long loaded) { atomic_store(&listener, loaded < 0 ? NO_LISTENER : (int)loaded); }

void close_listener(void) {
    int fd = atomic_load(&listener);
    if (fd >= 0 && atomic_compare_exchange_strong(&listener, &fd, NO_LISTENER)) close(fd);
}

API int seccomp_notify_fd(const scmp_filter_ctx ctx) {
    struct filter *filter = take(ctx);
    int fd = atomic_load(&listener);
    return filter ? done(filter, fd < 0 ? NO_LISTENER : fd) : -EINVAL;
}

/* ---- requests and responses */

/* How large they are in this kernel. They are asked for once: a filter that is loaded later may refuse the question. */
static _Atomic size_t request_size, response_size;

static int ask_sizes(void) {
    struct seccomp_notif_sizes sizes;
    if (atomic_load(&response_size)) return 0;
    if (syscall(SYS_seccomp, SECCOMP_GET_NOTIF_SIZES, 0, &sizes) < 0) return -ECANCELED;
    atomic_store(&request_size, sizes.seccomp_notif);
    atomic_store(&response_size, sizes.seccomp_notif_resp);
    return 0;
}

API void seccomp_notify_free(struct seccomp_notif *request, struct seccomp_notif_resp *response) {
    free(request);
    free(response);
}

API int seccomp_notify_alloc(struct seccomp_notif **request, struct seccomp_notif_resp **response) {
    forget_why();
    if (seccomp_api_get() < 2) return refuse_listeners(-EOPNOTSUPP); /* there is no call seccomp */
    int error = ask_sizes();
    if (error) return error;
    struct seccomp_notif *asked = request ? calloc(1, request_size) : NULL;
    struct seccomp_notif_resp *answer = response ? calloc(1, response_size) : NULL;
    if ((request && !asked) || (response && !answer)) {
        seccomp_notify_free(asked, answer);
        return -ENOMEM;
    }
    if (request) *request = asked;
    if (response) *response = answer;
    return 0;
}

/* What is wrong is in errno. */
static int use(int fd, unsigned long what, void *about) {
    forget_why();
    if (seccomp_api_get() < LISTENERS) return refuse_listeners(-EOPNOTSUPP);
    return ioctl(fd, what, about) < 0 ? -ECANCELED : 0;
}

API int seccomp_notify_receive(int fd, struct seccomp_notif *request) { return use(fd, SECCOMP_IOCTL_NOTIF_RECV, request); }

API int seccomp_notify_respond(int fd, struct seccomp_notif_resp *response) { return use(fd, SECCOMP_IOCTL_NOTIF_SEND, response); }

/* Before Linux 5.8 the question had the number of one that reads. */
API int seccomp_notify_id_valid(int fd, uint64_t id) {
    int error = use(fd, SECCOMP_IOCTL_NOTIF_ID_VALID, &id);
    if (error == -ECANCELED && errno == EINVAL) error = use(fd, SECCOMP_IOR(2, __u64), &id);
    return error == -ECANCELED ? -ENOENT : error;
}
