/* Makes folders for containers that may not: ./listener SOCKET
 * cc -Wall -o listener listener.c -lseccomp
 *
 * A container's seccomp section names the socket as `listenerPath`, and gives `mkdir` and `mkdirat` the action SCMP_ACT_NOTIFY. runc or
 * crun then sends the container's state and a descriptor, over which the kernel tells of each such call while the process waits. A folder
 * under /tmp of the container is made here, with the rights of the user who asks, and the call answers 0. Any other call gets EPERM.
 * It is not told to go on: the kernel would read the path again, and another thread may have changed it. Wants root. */
#define _GNU_SOURCE
#include <err.h>
#include <errno.h>
#include <fcntl.h>
#include <grp.h>
#include <linux/openat2.h>
#include <poll.h>
#include <seccomp.h>
#include <signal.h>
#include <stdio.h>
#include <string.h>
#include <sys/fsuid.h>
#include <sys/socket.h>
#include <sys/stat.h>
#include <sys/syscall.h>
#include <sys/un.h>
#include <unistd.h>

/* What a call asks for, and of whom: the root folder, mask and user of the process. */
struct asked { char path[4096]; mode_t mode, mask; int root; uid_t user; gid_t group; };

static int open_of(pid_t pid, const char *what, int flags) {
    char path[64];
    snprintf(path, sizeof path, "/proc/%d/%s", pid, what);
    return open(path, flags | O_CLOEXEC);
}

/* Whether all three were found. */
static int read_user(pid_t pid, struct asked *asked) {
    char line[256];
    int found = 0, fd = open_of(pid, "status", O_RDONLY);
    FILE *status = fd < 0 ? NULL : fdopen(fd, "r");
    while (status && fgets(line, sizeof line, status))
        found += sscanf(line, "Umask: %o", &asked->mask) == 1 || sscanf(line, "Uid: %*u %*u %*u %u", &asked->user) == 1 ||
                 sscanf(line, "Gid: %*u %*u %*u %u", &asked->group) == 1;
    if (status) fclose(status);
    return found == 3;
}

/* Whether this is a call that is served here. The number of a process may have gone to another one, and what its memory held may be gone:
 * what was opened and read counts only if the request is waiting still. */
static int read_call(int listener, const struct seccomp_notif *request, struct asked *asked) {
    int is_at = request->data.nr == SYS_mkdirat, is_mkdir = is_at;
#ifdef SYS_mkdir
    is_mkdir |= request->data.nr == SYS_mkdir;
#endif
    if (request->data.arch != seccomp_arch_native() || !is_mkdir) return 0;
    int memory = open_of(request->pid, "mem", O_RDONLY);
    ssize_t length = pread(memory, asked->path, sizeof asked->path, (off_t)request->data.args[is_at]);
    int is_whole = length > 0 && memchr(asked->path, 0, (size_t)length) && read_user(request->pid, asked);
    asked->mode = request->data.args[is_at + 1] & 0777 & ~asked->mask;
    asked->root = open_of(request->pid, "root", O_PATH);
    close(memory);
    return is_whole && asked->root >= 0 && !seccomp_notify_id_valid(listener, request->id);
}

/* A folder below another one, from which neither a link nor `..` leads away. */
static int open_below(int folder, const char *path) {
    struct open_how how = {.flags = O_PATH | O_DIRECTORY | O_CLOEXEC, .resolve = RESOLVE_BENEATH | RESOLVE_NO_SYMLINKS};
    return (int)syscall(SYS_openat2, folder, *path ? path : ".", &how, sizeof how);
}

/* 0, or less than 0: an error. */
static int make_folder(struct asked *asked) {
    if (strncmp(asked->path, "/tmp/", 5)) return -EPERM;
    char *within = asked->path + 5, *end = within + strlen(within);
    while (end > within && end[-1] == '/') *--end = 0;
    char *slash = strrchr(within, '/'), *name = slash ? slash + 1 : within;
    if (slash) *slash = 0;
    while (*within == '/') within++;
    int top = open_below(asked->root, "tmp"), folder = open_below(top, slash ? within : ""), error = folder < 0 ? -errno : 0;
    setfsgid(asked->group);
    setfsuid(asked->user);
    if (!error && mkdirat(folder, name, asked->mode)) error = -errno;
    setfsuid(0);
    setfsgid(0);
    close(folder);
    close(top);
    return error;
}

/* Answers the calls of a container until it has ended. */
static void serve(int listener) {
    struct seccomp_notif *request;
    struct seccomp_notif_resp *response;
    struct seccomp_notif_sizes sizes;
    struct pollfd one = {listener, POLLIN, 0};
    if (seccomp_notify_alloc(&request, &response) || syscall(SYS_seccomp, SECCOMP_GET_NOTIF_SIZES, 0, &sizes)) errx(1, "no listeners here");
    while (poll(&one, 1, -1) > 0 && !(one.revents & (POLLHUP | POLLERR | POLLNVAL))) {
        struct asked asked = {.root = -1};
        memset(request, 0, sizes.seccomp_notif); /* the kernel wants it */
        if (seccomp_notify_receive(listener, request)) continue; /* the process has gone on, by a signal or to its end */
        int is_ours = read_call(listener, request, &asked), error = is_ours ? make_folder(&asked) : -EPERM;
        memset(response, 0, sizes.seccomp_notif_resp);
        response->id = request->id;
        response->error = error;
        if (!seccomp_notify_respond(listener, response))
            printf("process %d: call %d: %s\n", request->pid, request->data.nr, strerror(-error));
        if (asked.root >= 0) close(asked.root);
    }
    seccomp_notify_free(request, response);
}

/* The descriptor that comes with a container's state, or -1. */
static int receive(int from) {
    char state[65536], room[CMSG_SPACE(sizeof(int))];
    struct iovec into = {state, sizeof state - 1};
    struct msghdr message = {.msg_iov = &into, .msg_iovlen = 1, .msg_control = room, .msg_controllen = sizeof room};
    ssize_t length = recvmsg(from, &message, MSG_CMSG_CLOEXEC);
    struct cmsghdr *held = length > 0 && !(message.msg_flags & MSG_CTRUNC) ? CMSG_FIRSTHDR(&message) : NULL;
    int fd = -1;
    state[length > 0 ? length : 0] = 0;
    if (held && held->cmsg_type == SCM_RIGHTS && held->cmsg_len == CMSG_LEN(sizeof fd)) memcpy(&fd, CMSG_DATA(held), sizeof fd);
    printf("%s: %s\n", fd < 0 ? "no descriptor" : "a container", state);
    return fd;
}

int main(int argc, char **argv) {
    struct sockaddr_un name = {.sun_family = AF_UNIX};
    if (argc != 2 || strlen(argv[1]) >= sizeof name.sun_path) errx(2, "usage: listener SOCKET");
    strcpy(name.sun_path, argv[1]);
    setvbuf(stdout, NULL, _IOLBF, 0);
    signal(SIGCHLD, SIG_IGN);
    unlink(argv[1]);
    umask(077);
    int at = socket(AF_UNIX, SOCK_STREAM | SOCK_CLOEXEC, 0);
    if (at < 0 || bind(at, (struct sockaddr *)&name, sizeof name) || listen(at, 16)) err(1, "%s", argv[1]);
    umask(0);
    if (setgroups(0, NULL)) err(1, "setgroups"); /* folders are made with the user and the group of who asks, and no other groups */
    for (int from; (from = accept4(at, NULL, NULL, SOCK_CLOEXEC)) >= 0; close(from)) {
        int listener = receive(from);
        if (listener >= 0 && !fork()) {
            close(at);
            serve(listener);
            return 0;
        }
        if (listener >= 0) close(listener);
    }
    err(1, "accept");
}
