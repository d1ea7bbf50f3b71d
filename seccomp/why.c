/* Why something was refused, or counts for less than was asked: kept for the caller, and written to standard error where that is set. */
#define _GNU_SOURCE
#include "filter.h"
#include "../include/ccell_why.h"
#include <errno.h>
#include <fcntl.h>
#include <signal.h>
#include <stdarg.h>
#include <stdio.h>
#include <string.h>
#include <sys/socket.h>
#include <sys/stat.h>
#include <sys/uio.h>
#include <time.h>
#include <unistd.h>

/* ---- what is kept */

static _Thread_local char why[1024];

API const char *ccell_why(void) { return why; }

void forget_why(void) { why[0] = 0; }

/* ---- what is written */

/* Writes by an open file of its own, of which no other process has the flags. */
static void write_opened(const struct iovec *line) {
    int file = open("/proc/self/fd/2", O_WRONLY | O_NONBLOCK | O_NOCTTY | O_CLOEXEC);
    if (file < 0) return;
    ssize_t written = writev(file, line, 1);
    (void)written;
    close(file);
}

/* One write that does not wait: what would have to wait is left out. */
static void write_at_once(struct iovec *line) {
    struct stat is;
    if (fstat(STDERR_FILENO, &is)) return;
    if (S_ISSOCK(is.st_mode)) {
        send(STDERR_FILENO, line->iov_base, line->iov_len, MSG_DONTWAIT | MSG_NOSIGNAL);
    } else if (S_ISREG(is.st_mode)) {
        ssize_t written = writev(STDERR_FILENO, line, 1); /* a file never waits for a reader */
        (void)written;
    } else if (pwritev2(STDERR_FILENO, line, 1, -1, RWF_NOWAIT) < 0 && errno == EOPNOTSUPP) {
        write_opened(line);
    }
}

/* The signals that a write may raise are held back, and those that it did raise are taken off again. */
static void write_line(char *text, size_t length) {
    static const struct timespec at_once;
    struct iovec line = {text, length};
    sigset_t raised, before, waiting;
    int error = errno;
    sigemptyset(&raised);
    sigaddset(&raised, SIGPIPE);
    sigaddset(&raised, SIGXFSZ);
    sigpending(&waiting);
    for (int i = 1; i < NSIG; i++)
        if (sigismember(&waiting, i) == 1) sigdelset(&raised, i); /* it was raised by another */
    sigset_t held = raised;
    sigaddset(&held, SIGTTOU);
    if (!pthread_sigmask(SIG_BLOCK, &held, &before)) {
        write_at_once(&line);
        while (sigtimedwait(&raised, NULL, &at_once) > 0) {}
        pthread_sigmask(SIG_SETMASK, &before, NULL);
    }
    errno = error;
}

/* A refusal stands alone; of what counts for less each has a line. */
int refuse(int error, const char *form, ...) {
    char reason[768], line[sizeof reason + 32];
    va_list rest;
    va_start(rest, form);
    vsnprintf(reason, sizeof reason, form, rest);
    va_end(rest);
    size_t held = error ? 0 : strlen(why);
    snprintf(why + held, sizeof why - held, "%s%s", held ? "\n" : "", reason);
    int length = snprintf(line, sizeof line, "libseccomp of ccell: %s\n", reason);
    if (writes_messages) write_line(line, (size_t)length);
    return error;
}

/* ---- how actions and rules are named */

struct text action_text(uint32_t action) {
    struct text text;
    const char *name = action == ALLOW ? "ALLOW" : action == LOG ? "LOG" : action == TRAP ? "TRAP" : action == KILL_THREAD ? "KILL_THREAD"
        : action == KILL_PROCESS ? "KILL_PROCESS" : action == NOTIFY ? "NOTIFY" : NULL;
    if (name) snprintf(text.is, sizeof text.is, "%s", name);
    else snprintf(text.is, sizeof text.is, "%s %u", (action & ACTION) == ERRNO ? "ERRNO" : "TRACE", action & ~ACTION);
    return text;
}

static size_t add_condition(char *to, size_t room, const struct ccell_condition *condition) {
    static const char *const SIGNS[] = {"", "!=", "<", "<=", "==", ">=", ">"};
    unsigned long long value = condition->value, datum = condition->datum;
    int length = condition->operator_ == CCELL_MASKED_EQ
        ? snprintf(to, room, "arg%u & %#llx == %#llx", condition->argument, value, datum)
        : snprintf(to, room, "arg%u %s %#llx", condition->argument, SIGNS[condition->operator_], value);
    return (size_t)length;
}

/* As `socket (ERRNO 1 where arg0 == 0x28)`. */
struct text rule_text(const struct rule *rule) {
    struct text text;
    char number[16];
    snprintf(number, sizeof number, "call %d", rule->number);
    const char *name = rule->call < 0 ? number : call_name(rule->call);
    size_t length = (size_t)snprintf(text.is, sizeof text.is, "%s (%s", name, action_text(rule->action).is);
    for (unsigned i = 0; i < rule->count; i++) {
        length += (size_t)snprintf(text.is + length, sizeof text.is - length, "%s", i ? " and " : " where ");
        length += add_condition(text.is + length, sizeof text.is - length, &rule->conditions[i]);
    }
    snprintf(text.is + length, sizeof text.is - length, ")");
    return text;
}
