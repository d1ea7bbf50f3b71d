/* Single sentences of docs/KERNEL.md on what a real kernel does, where the model does otherwise or more. `told NAME` has one of them
 * tried in a child of its own, and is answered by the numbers that came. */
#define _GNU_SOURCE
#include "side.h"

#include <fcntl.h>
#include <linux/seccomp.h>
#include <sched.h>
#include <signal.h>
#include <stdio.h>
#include <stdlib.h>
#include <string.h>
#include <sys/ioctl.h>
#include <sys/prctl.h>
#include <sys/ptrace.h>
#include <sys/syscall.h>
#include <sys/wait.h>
#include <unistd.h>

enum { NOBODY = 65534, ANSWER = 77 };

/* Allows all, and answers getpid otherwise. */
static const struct sock_filter all[] = { BPF_STMT(BPF_RET | BPF_K, SECCOMP_RET_ALLOW) };

static long load_for_getpid(unsigned int verdict, unsigned long flags)
{
	struct sock_filter insns[] = {
		BPF_STMT(BPF_LD | BPF_W | BPF_ABS, 0),
		BPF_JUMP(BPF_JMP | BPF_JEQ | BPF_K, SYS_getpid, 0, 1),
		BPF_STMT(BPF_RET | BPF_K, verdict),
		BPF_STMT(BPF_RET | BPF_K, SECCOMP_RET_ALLOW),
	};
	struct sock_fprog program = { 4, insns };

	give_up_privileges();
	return enter(SYS_seccomp, SECCOMP_SET_MODE_FILTER, flags, (unsigned long)&program, 0);
}

static long ask_getpid(void)
{
	return enter(SYS_getpid, 0, 0, 0, 0);
}

/* What a load answers to a task that has privileges it may still gain. */
static void without_no_new_privs(void)
{
	if (geteuid() == 0 && setresuid(NOBODY, NOBODY, NOBODY))
		return;
	printf("%ld", load(all, 1));
}

static volatile sig_atomic_t handled, data;

static void on_signal(int number, siginfo_t *info, void *context)
{
	(void)context;
	handled = number;
	data = info->si_errno;
}

static void handle(int number)
{
	struct sigaction action = { .sa_sigaction = on_signal, .sa_flags = SA_SIGINFO };

	sigaction(number, &action, NULL);
}

/* A handler for SIGSYS, and its data. */
static void trap_handled(void)
{
	handle(SIGSYS);
	load_for_getpid(SECCOMP_RET_TRAP | ANSWER, 0);
	ask_getpid();
	printf("%d %d", (int)handled, (int)data);
}

static void term_handled(void)
{
	handle(SIGTERM);
	kill(getpid(), SIGTERM);
	printf("%d", (int)handled);
}

/* kill of a task that has ended, before and after it was waited for. */
static void kill_of_ended(void)
{
	pid_t child = fork();
	siginfo_t info;
	int before;

	if (child == 0)
		leave();
	waitid(P_PID, child, &info, WEXITED | WNOWAIT);
	before = kill(child, 0);
	waitpid(child, NULL, 0);
	printf("%d %ld", before, enter(SYS_kill, child, 0, 0, 0));
}

/* The ends that are seen of exit and of exit_group: of their numbers the low byte. */
static void exit_status(void)
{
	const unsigned long calls[] = { SYS_exit, SYS_exit_group };
	int i, status = 0;

	for (i = 0; i < 2; i++) {
		pid_t child = fork();

		if (child == 0)
			enter(calls[i], 0x1234 + i, 0, 0, 0);
		waitpid(child, &status, 0);
		printf("%s%d", i ? " " : "", WIFEXITED(status) ? WEXITSTATUS(status) : -1);
	}
}

/* In a PID namespace: whether the number of a task that was waited for is given again, once the count is put back. */
static void number_again(void)
{
	pid_t first = enter_clone(CLONE_NEWPID | SIGCHLD), child, again;
	int file;

	if (first != 0) {
		if (first < 0)
			printf("no namespace");
		else
			waitpid(first, NULL, 0);
		return;
	}
	child = fork();
	if (child == 0)
		leave();
	waitpid(child, NULL, 0);
	file = open("/proc/sys/kernel/ns_last_pid", O_WRONLY);
	if (file < 0 || write(file, "1", 1) != 1)
		printf("no count");
	else {
		again = fork();
		if (again == 0)
			leave();
		waitpid(again, NULL, 0);
		printf("%d %d", child, again);
	}
	fflush(stdout);
	leave();
}

/* The first process of a PID namespace, without handlers, is sent SIGTERM and then SIGKILL from outside: whether it lives on behind
 * the first, and by which signal it ends. */
static void first_from_outside(void)
{
	pid_t first = enter_clone(CLONE_NEWPID | SIGCHLD);
	int status = 0, lives_on;

	if (first == 0)
		for (;;)
			pause();
	if (first < 0) {
		printf("no namespace");
		return;
	}
	kill(first, SIGTERM);
	usleep(50000);
	lives_on = waitpid(first, &status, WNOHANG) == 0;
	if (lives_on) {
		kill(first, SIGKILL);
		waitpid(first, &status, 0);
	}
	printf("%d %d", lives_on, WIFSIGNALED(status) ? WTERMSIG(status) : 0);
}

/* vfork: its child has the filter, and its maker goes on behind it. */
static void vfork_hands_on(void)
{
	volatile long seen = 0;
	pid_t child;

	load_for_getpid(SECCOMP_RET_ERRNO | ANSWER, 0);
	child = vfork();
	if (child == 0) {
		seen = ask_getpid();
		_exit(0);
	}
	waitpid(child, NULL, 0);
	printf("%ld", seen);
}

/* A listener answers a call that the verdict USER_NOTIF stops. */
static void listener_answers(void)
{
	long listener = load_for_getpid(SECCOMP_RET_USER_NOTIF, SECCOMP_FILTER_FLAG_NEW_LISTENER);
	pid_t helper = fork();

	if (helper == 0) {
		struct seccomp_notif asked;
		struct seccomp_notif_resp answer;

		memset(&asked, 0, sizeof(asked));
		memset(&answer, 0, sizeof(answer));
		if (ioctl(listener, SECCOMP_IOCTL_NOTIF_RECV, &asked) == 0) {
			answer.id = asked.id;
			answer.val = ANSWER;
			ioctl(listener, SECCOMP_IOCTL_NOTIF_SEND, &answer);
		}
		leave();
	}
	printf("%ld", ask_getpid());
	waitpid(helper, NULL, 0);
}

/* A tracer lets a call be carried out that the verdict TRACE stops: the result is the caller's own number. */
static void tracer_answers(void)
{
	pid_t child = fork();
	int status = 0;

	if (child == 0) {
		ptrace(PTRACE_TRACEME, 0, NULL, NULL);
		raise(SIGSTOP);
		load_for_getpid(SECCOMP_RET_TRACE | ANSWER, 0);
		enter(SYS_exit_group, ask_getpid() > 0, 0, 0, 0);
	}
	waitpid(child, &status, 0);
	ptrace(PTRACE_SETOPTIONS, child, NULL, (void *)(long)(PTRACE_O_TRACESECCOMP | PTRACE_O_EXITKILL));
	ptrace(PTRACE_CONT, child, NULL, NULL);
	waitpid(child, &status, 0);
	if (status >> 8 == (SIGTRAP | PTRACE_EVENT_SECCOMP << 8)) {
		ptrace(PTRACE_CONT, child, NULL, NULL);
		waitpid(child, &status, 0);
	}
	printf("%d", WIFEXITED(status) ? WEXITSTATUS(status) : -1);
}

/* How many filters of one instruction a task may have, and which error comes of the next. */
static void load_limit(void)
{
	long count = 0, came;

	give_up_privileges();
	while ((came = load(all, 1)) == 0 && count < 10000)
		count++;
	printf("%ld %ld", count, came);
}

static const struct {
	const char *name;
	void (*try)(void);
} sentences[] = {
	{ "without_no_new_privs", without_no_new_privs },
	{ "trap_handled", trap_handled },
	{ "term_handled", term_handled },
	{ "kill_of_ended", kill_of_ended },
	{ "exit_status", exit_status },
	{ "number_again", number_again },
	{ "first_from_outside", first_from_outside },
	{ "vfork_hands_on", vfork_hands_on },
	{ "listener_answers", listener_answers },
	{ "tracer_answers", tracer_answers },
	{ "load_limit", load_limit },
};

void on_told(const char *line)
{
	size_t i, count = sizeof(sentences) / sizeof(sentences[0]);
	pid_t child;

	for (i = 0; i < count && strcmp(line, sentences[i].name); i++)
		;
	if (i == count) {
		puts("unread");
		return;
	}
	child = fork();
	if (child == 0) {
		limit_child(sentences[i].try == load_limit ? MANY_SECONDS : FEW_SECONDS);
		sentences[i].try();
		fflush(stdout);
		leave();
	}
	waitpid(child, NULL, 0);
	putchar('\n');
}
