/* Loads filters with SCMP_ACT_NOTIFY through the library in libseccomp's place, and answers what they ask:
 * cc -o listener tests/listener.c -pthread FOLDER/libseccomp.so.2; ./listener. A line for each thing that is not as it has to be, by
 * seccomp_notify_alloc(3), seccomp_load(3) and seccomp_unotify(2). `./listener libseccomp` is for libseccomp 2.5.4 itself. */
#define _GNU_SOURCE
#include "../seccomp/interface.h"
#include <errno.h>
#include <linux/seccomp.h>
#include <pthread.h>
#include <signal.h>
#include <stdio.h>
#include <stdlib.h>
#include <string.h>
#include <sys/socket.h>
#include <sys/syscall.h>
#include <sys/wait.h>
#include <unistd.h>

scmp_filter_ctx seccomp_init(uint32_t action);
void seccomp_release(scmp_filter_ctx ctx);
int seccomp_reset(scmp_filter_ctx ctx, uint32_t action);
int seccomp_attr_set(scmp_filter_ctx ctx, int attribute, uint32_t value);
int seccomp_rule_add_array(scmp_filter_ctx ctx, uint32_t action, int number, unsigned count, const struct scmp_arg_cmp *args);
int seccomp_load(const scmp_filter_ctx ctx);
unsigned seccomp_api_get(void);
int seccomp_api_set(unsigned level);
int seccomp_notify_alloc(struct seccomp_notif **request, struct seccomp_notif_resp **response);
void seccomp_notify_free(struct seccomp_notif *request, struct seccomp_notif_resp *response);
int seccomp_notify_receive(int fd, struct seccomp_notif *request);
int seccomp_notify_respond(int fd, struct seccomp_notif_resp *response);
int seccomp_notify_id_valid(int fd, uint64_t id);
int seccomp_notify_fd(const scmp_filter_ctx ctx);

/* Whether this is libseccomp itself, and where it does otherwise than its pages say. */
static int is_theirs;
#define OURS_OR_THEIRS(ours, theirs) (is_theirs ? (theirs) : (ours))

static int wrong;

static void tell(long came, long wanted, const char *what) {
    if (came == wanted) return;
    printf("%s: wanted %ld, came %ld\n", what, wanted, came);
    fflush(stdout);
    wrong++;
}

static void tell_error(int came, int wanted, int error, const char *what) {
    int is = errno;
    tell(came, wanted, what);
    tell(is, error, what);
}

/* Each trial has a process of its own, since what is loaded stays, and so does the listener. */
static void try(void (*trial)(void), const char *name) {
    int status;
    fflush(stdout);
    pid_t child = fork();
    if (!child) {
        wrong = 0;
        alarm(20);
        trial();
        fflush(stdout);
        _exit(wrong != 0);
    }
    waitpid(child, &status, 0);
    tell(status, 0, name);
}

static struct seccomp_notif *request;
static struct seccomp_notif_resp *response;

static void make_room(void) { tell(seccomp_notify_alloc(&request, &response), 0, "seccomp_notify_alloc"); }

/* A context that notifies of one call and allows all others. */
static scmp_filter_ctx notifying(int call) {
    scmp_filter_ctx ctx = seccomp_init(ALLOW);
    tell(seccomp_rule_add_array(ctx, NOTIFY, call, 0, NULL), 0, "a rule");
    return ctx;
}

static int load(scmp_filter_ctx ctx) {
    make_room();
    tell(seccomp_load(ctx), 0, "a load");
    int fd = seccomp_notify_fd(ctx);
    tell(fd >= 0, 1, "the listener of a load");
    return fd;
}

/* A child that makes a call and ends with what it answers, or with 100 and its error. */
static void ignore(int number) { (void)number; }

static pid_t calling(int call) {
    pid_t child = fork();
    if (child) return child;
    struct sigaction one = {.sa_handler = ignore};
    sigaction(SIGUSR1, &one, NULL);
    long answer = syscall(call);
    _exit(answer >= 0 ? (int)answer : 100 + errno);
}

static int end_of(pid_t child) {
    int status;
    waitpid(child, &status, 0);
    return WIFSIGNALED(status) ? -WTERMSIG(status) : WEXITSTATUS(status);
}

static int receive(int fd) {
    memset(request, 0, sizeof *request); /* the kernel wants it */
    return seccomp_notify_receive(fd, request);
}

static int respond(int fd, long value, int error, unsigned flags) {
    *response = (struct seccomp_notif_resp){.id = request->id, .val = value, .error = error, .flags = flags};
    return seccomp_notify_respond(fd, response);
}

/* ---- before anything is loaded */

static void levels(void) {
    scmp_filter_ctx ctx = seccomp_init(ALLOW);
    tell(seccomp_notify_fd(ctx), OURS_OR_THEIRS(-1, -EFAULT), "the listener before a load");
    tell(seccomp_notify_fd(NULL), -EINVAL, "the listener of no context");
    tell(seccomp_api_set(0), -EINVAL, "level 0");
    tell(seccomp_api_set(8), -EINVAL, "level 8");
    tell(seccomp_attr_set(ctx, WAIT_KILL, 1), OURS_OR_THEIRS(0, -EINVAL), "SCMP_FLTATR_CTL_WAITKILL, of 2.6");
    tell(seccomp_api_set(4), 0, "level 4");
    tell(seccomp_init(NOTIFY) == NULL, 1, "a default at level 4");
    tell(seccomp_rule_add_array(ctx, NOTIFY, SYS_getppid, 0, NULL), -EINVAL, "a rule at level 4");
    tell(seccomp_notify_receive(-1, NULL), -EOPNOTSUPP, "receive at level 4");
    tell(seccomp_notify_respond(-1, NULL), -EOPNOTSUPP, "respond at level 4");
    tell(seccomp_notify_id_valid(-1, 0), -EOPNOTSUPP, "id_valid at level 4");
    tell(seccomp_api_set(1), 0, "level 1");
    tell(seccomp_notify_alloc(&request, &response), -EOPNOTSUPP, "alloc at level 1");
    tell(seccomp_api_set(5), 0, "level 5");
    tell(seccomp_attr_set(ctx, ALL_THREADS, 1), 0, "all threads");
    tell(seccomp_rule_add_array(ctx, NOTIFY, SYS_getppid, 0, NULL), -EINVAL, "a rule for all threads at level 5");
    tell(seccomp_attr_set(ctx, ALL_THREADS, 0), 0, "one thread");
    tell(seccomp_rule_add_array(ctx, NOTIFY, SYS_getppid, 0, NULL), 0, "a rule at level 5");
    tell(seccomp_attr_set(ctx, ALL_THREADS, 1), -EINVAL, "all threads beside a rule at level 5");
    tell(seccomp_api_set(6), 0, "level 6");
    tell(seccomp_attr_set(ctx, ALL_THREADS, 1), 0, "all threads beside a rule at level 6");
    seccomp_release(ctx);
}

static void descriptors(void) {
    make_room();
    int fd = dup(0);
    close(fd);
    tell_error(receive(fd), -ECANCELED, EBADF, "receive from a closed descriptor");
    tell_error(respond(fd, 0, 0, 0), -ECANCELED, EBADF, "respond to a closed descriptor");
    tell(seccomp_notify_id_valid(fd, 1), -ENOENT, "id_valid of a closed descriptor");
    tell(seccomp_notify_alloc(NULL, NULL), 0, "alloc of nothing");
    seccomp_notify_free(NULL, NULL);
    seccomp_notify_free(request, response);
}

/* ---- answers */

static void answers(void) {
    scmp_filter_ctx ctx = notifying(SYS_getppid);
    int fd = load(ctx);
    pid_t child = calling(SYS_getppid);
    tell(receive(fd), 0, "receive");
    tell(request->data.nr, SYS_getppid, "the call");
    tell(request->pid, child, "the process");
    tell(seccomp_notify_id_valid(fd, request->id), 0, "a request that waits");
    tell(seccomp_notify_id_valid(fd, request->id + 1), -ENOENT, "a request that is none");
    tell(respond(fd, 42, 0, 0), 0, "respond with a value");
    tell(end_of(child), 42, "a call that got 42");
    tell_error(respond(fd, 42, 0, 0), -ECANCELED, ENOENT, "respond once more");
    child = calling(SYS_getppid);
    tell_error(seccomp_notify_receive(fd, request), -ECANCELED, EINVAL, "receive where something stands");
    tell(receive(fd), 0, "receive once more");
    tell(respond(fd, 0, -EPERM, 0), 0, "respond with an error");
    tell(end_of(child), 100 + EPERM, "a call that got EPERM");
    child = calling(SYS_getppid);
    tell(receive(fd), 0, "receive a third time");
    tell_error(respond(fd, 7, 0, SECCOMP_USER_NOTIF_FLAG_CONTINUE), -ECANCELED, EINVAL, "go on with a value");
    tell(respond(fd, 0, 0, SECCOMP_USER_NOTIF_FLAG_CONTINUE), 0, "go on");
    tell(end_of(child), getpid() & 0xff, "a call that the kernel answered");
    seccomp_release(ctx);
    child = calling(SYS_getppid);
    tell(receive(fd), 0, "receive after the release");
    kill(child, SIGKILL);
    tell(end_of(child), -SIGKILL, "a process that was killed");
    tell(seccomp_notify_id_valid(fd, request->id), -ENOENT, "a request of a dead process");
    tell_error(respond(fd, 42, 0, 0), -ECANCELED, ENOENT, "respond to a dead process");
}

/* ---- one listener for a process */

static void second(void) {
    int fd = load(notifying(SYS_getppid));
    scmp_filter_ctx ctx = notifying(SYS_getuid);
    tell(seccomp_load(ctx), 0, "a second load");
    tell(seccomp_notify_fd(ctx), fd, "the listener of a second load");
    tell(end_of(calling(SYS_getuid)), 100 + ENOSYS, "a call of which no listener is told");
    int kept = dup(fd);
    tell(seccomp_reset(NULL, 0), 0, "the listener is closed and forgotten");
    tell(seccomp_notify_fd(ctx), OURS_OR_THEIRS(-1, -EFAULT), "no listener");
    ctx = notifying(SYS_getuid);
    tell_error(receive(fd), -ECANCELED, EBADF, "receive from what was closed");
    tell(seccomp_load(ctx), -ECANCELED, "a second listener");
    tell(seccomp_attr_set(ctx, ERRORS_OF_SYSTEM, 1), 0, "the system's errors");
    tell(seccomp_load(ctx), OURS_OR_THEIRS(-EBUSY, -EFAULT), "a second listener, the system's error");
    tell(seccomp_notify_fd(ctx), OURS_OR_THEIRS(-1, -EFAULT), "no listener after that");
    close(kept);
    tell(seccomp_load(ctx), 0, "another listener, without the first");
    pid_t child = calling(SYS_getuid);
    tell(receive(seccomp_notify_fd(ctx)), 0, "receive from another listener");
    tell(respond(seccomp_notify_fd(ctx), 9, 0, 0), 0, "respond to another listener");
    tell(end_of(child), 9, "a call that got 9");
}

/* The default: all but what sends the listener to its parent. */
static void send_listener(int to, int fd) {
    char room[CMSG_SPACE(sizeof fd)] = {0}, byte = 0;
    struct iovec one = {&byte, 1};
    struct msghdr message = {.msg_iov = &one, .msg_iovlen = 1, .msg_control = room, .msg_controllen = sizeof room};
    struct cmsghdr *held = CMSG_FIRSTHDR(&message);
    *held = (struct cmsghdr){CMSG_LEN(sizeof fd), SOL_SOCKET, SCM_RIGHTS};
    memcpy(CMSG_DATA(held), &fd, sizeof fd);
    syscall(SYS_sendmsg, to, &message, 0);
}

static int receive_listener(int from) {
    char room[CMSG_SPACE(sizeof(int))], byte;
    struct iovec one = {&byte, 1};
    struct msghdr message = {.msg_iov = &one, .msg_iovlen = 1, .msg_control = room, .msg_controllen = sizeof room};
    int fd = -1;
    if (recvmsg(from, &message, 0) == 1 && CMSG_FIRSTHDR(&message)) memcpy(&fd, CMSG_DATA(CMSG_FIRSTHDR(&message)), sizeof fd);
    return fd;
}

static void by_default(void) {
    int ends[2];
    make_room();
    socketpair(AF_UNIX, SOCK_STREAM, 0, ends);
    pid_t child = fork();
    if (!child) {
        scmp_filter_ctx ctx = seccomp_init(NOTIFY);
        seccomp_rule_add_array(ctx, ALLOW, SYS_sendmsg, 0, NULL);
        seccomp_rule_add_array(ctx, ALLOW, SYS_exit_group, 0, NULL);
        if (seccomp_rule_add_array(ctx, NOTIFY, SYS_read, 0, NULL) != -EACCES || seccomp_load(ctx)) syscall(SYS_exit_group, 1);
        send_listener(ends[1], seccomp_notify_fd(ctx)); /* neither makes another call */
        syscall(SYS_exit_group, syscall(SYS_getppid));
    }
    int fd = receive_listener(ends[0]);
    tell(receive(fd), 0, "receive from another process's listener");
    tell(request->data.nr, SYS_getppid, "a call by the default");
    tell(respond(fd, 55, 0, 0), 0, "respond to another process's listener");
    tell(end_of(child), 55, "a call that got 55");
}

/* ---- threads */

static int goes;

static void *waits(void *is_filtered) {
    if (is_filtered) {
        scmp_filter_ctx ctx = seccomp_init(ALLOW);
        tell(seccomp_load(ctx), 0, "the load of another thread");
        seccomp_release(ctx);
    }
    __atomic_store_n(&goes, 1, __ATOMIC_RELEASE);
    while (__atomic_load_n(&goes, __ATOMIC_ACQUIRE) == 1) usleep(100);
    return (void *)syscall(SYS_getppid);
}

static pthread_t start(void *is_filtered) {
    pthread_t id;
    pthread_create(&id, NULL, waits, is_filtered);
    while (!__atomic_load_n(&goes, __ATOMIC_ACQUIRE)) usleep(100);
    return id;
}

static void all_threads(void) {
    scmp_filter_ctx ctx = notifying(SYS_getppid);
    pthread_t id = start(NULL);
    void *answer;
    tell(seccomp_attr_set(ctx, ALL_THREADS, 1), 0, "all threads");
    int fd = load(ctx);
    __atomic_store_n(&goes, 2, __ATOMIC_RELEASE);
    tell(receive(fd), 0, "receive from a thread");
    tell(respond(fd, 43, 0, 0), 0, "respond to a thread");
    pthread_join(id, &answer);
    tell((long)answer, 43, "a thread's call that got 43");
}

static void unlike_thread(void) {
    scmp_filter_ctx ctx = notifying(SYS_getppid);
    pthread_t id = start(ctx);
    tell(seccomp_attr_set(ctx, ALL_THREADS, 1), 0, "all threads");
    tell(seccomp_load(ctx), OURS_OR_THEIRS(-ESRCH, -ECANCELED), "a thread with a filter of its own");
    tell(seccomp_notify_fd(ctx), OURS_OR_THEIRS(-1, -EFAULT), "no listener where a thread does not take the filter");
    __atomic_store_n(&goes, 2, __ATOMIC_RELEASE);
    pthread_join(id, NULL);
}

/* Several threads load at once, each for itself: one gets the listener. */
enum { THREADS = 8, ROUNDS = 50 };
static pthread_barrier_t all_are_there;

static void *loads(void *errors) {
    scmp_filter_ctx ctx = notifying(SYS_getppid);
    pthread_barrier_wait(&all_are_there);
    if (seccomp_load(ctx)) __atomic_fetch_add((int *)errors, 1, __ATOMIC_RELAXED);
    seccomp_release(ctx);
    return NULL;
}

static int next_descriptor(void) {
    int next = dup(0);
    close(next);
    return next;
}

static void at_once(void) {
    pthread_t ids[THREADS];
    int errors = 0, next = next_descriptor();
    pthread_barrier_init(&all_are_there, NULL, THREADS);
    for (int round = 0; round < ROUNDS && !wrong; round++) {
        for (int i = 0; i < THREADS; i++) pthread_create(&ids[i], NULL, loads, &errors);
        for (int i = 0; i < THREADS; i++) pthread_join(ids[i], NULL);
        tell(errors, 0, "loads at once");
        tell(next_descriptor(), next + 1, "listeners of loads at once");
        seccomp_reset(NULL, 0);
    }
    pthread_barrier_destroy(&all_are_there);
}

/* ---- SCMP_FLTATR_CTL_WAITKILL: a signal does not end a request that was received */

static int waits_through_signal(uint32_t waits) {
    scmp_filter_ctx ctx = notifying(SYS_getppid);
    tell(seccomp_attr_set(ctx, WAIT_KILL, waits), 0, "SCMP_FLTATR_CTL_WAITKILL");
    int fd = load(ctx);
    pid_t child = calling(SYS_getppid);
    tell(receive(fd), 0, "receive");
    kill(child, SIGUSR1);
    int error = 0;
    for (int i = 0; i < 100 && !error; i++) usleep(2000), error = seccomp_notify_id_valid(fd, request->id);
    if (!error) respond(fd, 1, 0, 0);
    kill(child, SIGKILL);
    end_of(child);
    return error;
}

static void killable(void) { tell(waits_through_signal(1), 0, "a signal while a request waits, with the attribute"); }
static void interruptible(void) { tell(waits_through_signal(0), -ENOENT, "a signal while a request waits"); }

int main(int argc, char **argv) {
    (void)argv;
    is_theirs = argc > 1;
    try(levels, "levels");
    try(descriptors, "descriptors");
    try(answers, "answers");
    try(second, "a second listener");
    try(by_default, "the default");
    try(all_threads, "all threads");
    try(unlike_thread, "a thread with a filter of its own");
    if (is_theirs) return wrong != 0;
    try(at_once, "loads at once");
    try(interruptible, "a signal");
    if (seccomp_api_get() >= 7) try(killable, "a signal with the attribute");
    return wrong != 0;
}
