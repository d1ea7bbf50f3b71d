/* Tries what the library in libseccomp's place does with standard error: cc -o messages tests/messages.c FOLDER/libseccomp.so.2;
 * ./messages. Nothing is written unless somebody asks for it by CCELL_MESSAGES; then it neither waits nor raises a signal. The reason is
 * always there to ask for. A line for each thing that is not as it has to be. */
#define _GNU_SOURCE
#include "../include/ccell_why.h"
#include "../seccomp/interface.h"
#include <errno.h>
#include <fcntl.h>
#include <signal.h>
#include <stdbool.h>
#include <stdio.h>
#include <stdlib.h>
#include <string.h>
#include <sys/mman.h>
#include <sys/socket.h>
#include <sys/syscall.h>
#include <sys/wait.h>
#include <termios.h>
#include <unistd.h>

scmp_filter_ctx seccomp_init(uint32_t action);
void seccomp_release(scmp_filter_ctx ctx);
int seccomp_rule_add_array(scmp_filter_ctx ctx, uint32_t action, int number, unsigned count, const struct scmp_arg_cmp *args);

enum { REFUSALS = 2000 };
static int wrong;
static const char *self;

static void tell(int came, int wanted, const char *what) {
    if (came == wanted) return;
    printf("%s: wanted %d, came %d\n", what, wanted, came);
    wrong++;
}

#define REASON "mkdirat (ERRNO 13 where arg0 != 0x5) contradicts mkdirat (ERRNO 1 where arg0 != 0x5)"

/* Refuses a rule that contradicts another, so many times. 0 if each reason is there to ask for, and goes with the next call. */
static int refuse_rules(int times) {
    static const struct scmp_arg_cmp is = {0, NOT_EQUAL, 5, 0};
    scmp_filter_ctx ctx = seccomp_init(ALLOW);
    int bad = seccomp_rule_add_array(ctx, ERRNO | 1, SYS_mkdirat, 1, &is) != 0 || *ccell_why();
    for (int i = 0; i < times; i++) {
        bad |= seccomp_rule_add_array(ctx, ERRNO | 13, SYS_mkdirat, 1, &is) != -EEXIST;
        bad |= strcmp(ccell_why(), REASON) != 0;
    }
    bad |= seccomp_rule_add_array(ctx, ERRNO | 1, SYS_mkdirat, 1, &is) != 0 || *ccell_why();
    seccomp_release(ctx);
    return bad;
}

/* How a child ends that refuses rules with this as standard error; -signal. It is this program once more: settings are read at the
 * start of one. */
static int ended(int standard_error, int times, bool asks) {
    char count[16];
    int status;
    pid_t child = fork();
    if (!child) {
        snprintf(count, sizeof count, "%d", times);
        if (asks) setenv("CCELL_MESSAGES", "1", 1);
        else unsetenv("CCELL_MESSAGES");
        signal(SIGPIPE, SIG_DFL);
        alarm(20);
        if (standard_error < 0) close(STDERR_FILENO);
        else dup2(standard_error, STDERR_FILENO);
        execl(self, self, count, NULL);
        _exit(99);
    }
    waitpid(child, &status, 0);
    return WIFSIGNALED(status) ? -WTERMSIG(status) : WEXITSTATUS(status);
}

/* How many lines came: -1 if one is not as it has to be. */
static int lines_in(int from) {
    static const char line[] = "libseccomp of ccell: " REASON "\n";
    char held[sizeof line];
    int count = 0;
    for (ssize_t got; (got = read(from, held, sizeof line - 1)) > 0; count++)
        if (got != sizeof line - 1 || memcmp(held, line, sizeof line - 1)) return -1;
    return count;
}

static void files(void) {
    for (int asks = 0; asks <= 1; asks++) {
        int file = memfd_create("standard error", 0);
        tell(ended(file, 3, asks), 0, "standard error is a file");
        lseek(file, 0, SEEK_SET);
        tell(lines_in(file), asks ? 3 : 0, asks ? "lines in a file that were asked for" : "lines in a file");
        close(file);
        tell(ended(-1, 3, asks), 0, "no standard error");
    }
}

/* A pipe and the like, read at its end, full, and without a reader. */
static void ways(int (*open_ends)(int ends[2]), const char *what) {
    for (int asks = 0; asks <= 1; asks++) {
        int ends[2];
        tell(open_ends(ends), 0, what);
        tell(ended(ends[1], 3, asks), 0, what);
        fcntl(ends[0], F_SETFL, O_NONBLOCK);
        tell(lines_in(ends[0]), asks ? 3 : 0, what);
        tell(ended(ends[1], REFUSALS, asks), 0, what); /* nobody reads */
        close(ends[0]);
        tell(ended(ends[1], 3, asks), 0, what); /* nobody can */
        close(ends[1]);
    }
}

/* A terminal that passes bytes on as they are. */
static int open_terminal(int ends[2]) {
    struct termios plain;
    ends[0] = posix_openpt(O_RDWR | O_NOCTTY);
    if (ends[0] < 0 || grantpt(ends[0]) || unlockpt(ends[0])) return -1;
    ends[1] = open(ptsname(ends[0]), O_RDWR | O_NOCTTY);
    if (ends[1] < 0 || tcgetattr(ends[1], &plain)) return -1;
    cfmakeraw(&plain);
    return tcsetattr(ends[1], TCSANOW, &plain);
}

static int open_sockets(int ends[2]) { return socketpair(AF_UNIX, SOCK_STREAM, 0, ends); }

int main(int argc, char **argv) {
    if (argc > 1) return refuse_rules(atoi(argv[1]));
    self = argv[0];
    tell(refuse_rules(1), 0, "the reason of a refusal");
    files();
    ways(pipe, "standard error is a pipe");
    ways(open_sockets, "standard error is a socket");
    ways(open_terminal, "standard error is a terminal");
    return wrong != 0;
}
