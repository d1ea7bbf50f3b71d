/* Listeners: `listen STEP STEP ..` is carried out by the two threads of a child. A step is `l:TASK:FLAGS:WORD`, which loads a filter
 * with this verdict on getppid, or `c:TASK:KIND:NUMBER`, by which a thread calls getppid while a listener that is told of it responds:
 * `v` a value, `e` an error, `c` that the call goes on. Each has an answer: a result, `L` for a listener, `t` and the number of the
 * thread that stood in the way, or `p` for the parent's number. What listens is a process that shares the child's files. */
#define _GNU_SOURCE
#include "side.h"

#include <linux/seccomp.h>
#include <poll.h>
#include <pthread.h>
#include <sched.h>
#include <signal.h>
#include <stdatomic.h>
#include <stdio.h>
#include <stdlib.h>
#include <string.h>
#include <sys/ioctl.h>
#include <sys/mman.h>
#include <sys/syscall.h>
#include <sys/wait.h>
#include <unistd.h>

enum { MOST_LISTENERS = 64, TASKS = 2 };

struct step {
	char kind, response;
	unsigned long task, first, second;
};

/* What the threads and the process that listens share. */
static struct {
	atomic_int count, armed;
	int listeners[MOST_LISTENERS];
	struct step step;
} *shared;

/* What the second thread is told to do, and its answer. */
static struct {
	atomic_int is_asked;
	struct step step;
	long result;
} second;
static atomic_long numbers[TASKS];
static pid_t parent;

static void respond(int listener)
{
	struct seccomp_notif asked;
	struct seccomp_notif_resp answer;
	struct step *step = &shared->step;

	memset(&asked, 0, sizeof(asked));
	memset(&answer, 0, sizeof(answer));
	if (ioctl(listener, SECCOMP_IOCTL_NOTIF_RECV, &asked))
		return;
	answer.id = asked.id;
	if (step->response == 'v')
		answer.val = step->second;
	else if (step->response == 'e')
		answer.error = -(int)step->second;
	else
		answer.flags = SECCOMP_USER_NOTIF_FLAG_CONTINUE;
	ioctl(listener, SECCOMP_IOCTL_NOTIF_SEND, &answer);
}

/* Listens to all, until the child is gone. */
static _Noreturn void listen_to_all(void)
{
	struct pollfd files[MOST_LISTENERS];

	for (;;) {
		int i, count = atomic_load(&shared->count);

		for (i = 0; i < count; i++)
			files[i] = (struct pollfd){ shared->listeners[i], POLLIN, 0 };
		if (!atomic_load(&shared->armed) || poll(files, count, 1) <= 0) {
			sched_yield();
			continue;
		}
		for (i = 0; i < count; i++)
			if (files[i].revents & POLLIN)
				respond(shared->listeners[i]);
	}
}

static long load_for_getppid(unsigned int word, unsigned long flags)
{
	struct sock_filter insns[] = {
		BPF_STMT(BPF_LD | BPF_W | BPF_ABS, 0),
		BPF_JUMP(BPF_JMP | BPF_JEQ | BPF_K, SYS_getppid, 0, 1),
		BPF_STMT(BPF_RET | BPF_K, word),
		BPF_STMT(BPF_RET | BPF_K, SECCOMP_RET_ALLOW),
	};
	struct sock_fprog program = { 4, insns };

	return enter(SYS_seccomp, SECCOMP_SET_MODE_FILTER, flags, (unsigned long)&program, 0);
}

static long do_step(const struct step *step)
{
	return step->kind == 'l' ? load_for_getppid(step->second, step->first) : enter(SYS_getppid, 0, 0, 0, 0);
}

/* The second thread does what it is asked for. */
static void *serve(void *unused)
{
	(void)unused;
	atomic_store(&numbers[1], enter(SYS_gettid, 0, 0, 0, 0));
	for (;;) {
		while (!atomic_load(&second.is_asked))
			sched_yield();
		second.result = do_step(&second.step);
		atomic_store(&second.is_asked, 0);
	}
	return NULL;
}

static long result_of(const struct step *step)
{
	long result;

	shared->step = *step;
	atomic_store(&shared->armed, step->kind == 'c');
	if (step->task == 1)
		result = do_step(step);
	else {
		second.step = *step;
		atomic_store(&second.is_asked, 1);
		while (atomic_load(&second.is_asked))
			sched_yield();
		result = second.result;
	}
	atomic_store(&shared->armed, 0);
	return result;
}

static void tell_result(const struct step *step, long result)
{
	int i;

	for (i = 0; i < TASKS && result != atomic_load(&numbers[i]); i++)
		;
	if (step->kind == 'c' && result == parent)
		printf("p");
	else if (step->kind == 'c' || result <= 0)
		printf("%ld", result);
	else if (i < TASKS)
		printf("t%d", i + 1);
	else {
		shared->listeners[atomic_load(&shared->count)] = (int)result;
		atomic_fetch_add(&shared->count, 1);
		printf("L");
	}
}

static int read_step(const char **at, struct step *step)
{
	if (!**at || (*at)[1] != ':')
		return 0;
	memset(step, 0, sizeof(*step));
	step->kind = **at;
	*at += 2;
	step->task = read_number(at);
	++*at;
	if (step->kind == 'l')
		step->first = read_number(at);
	else
		step->response = *(*at)++;
	++*at;
	step->second = read_number(at);
	if (**at == ' ')
		++*at;
	return 1 <= step->task && step->task <= TASKS;
}

static void carry_out(const char *line)
{
	pid_t listening;
	pthread_t thread;
	struct step step;
	int first = 1;

	shared = mmap(NULL, sizeof(*shared), PROT_READ | PROT_WRITE, MAP_SHARED | MAP_ANONYMOUS, -1, 0);
	listening = enter_clone(CLONE_FILES | SIGCHLD);
	if (listening == 0)
		listen_to_all();
	give_up_privileges();
	atomic_store(&numbers[0], getpid());
	pthread_create(&thread, NULL, serve, NULL);
	while (!atomic_load(&numbers[1]))
		sched_yield();
	for (; read_step(&line, &step); first = 0) {
		long result = result_of(&step);

		printf("%s", first ? "" : " ");
		tell_result(&step, result);
	}
	kill(listening, SIGKILL);
	waitpid(listening, NULL, 0);
}

void on_listen(const char *line)
{
	pid_t child;

	parent = getpid();
	child = fork();
	if (child == 0) {
		limit_child(FEW_SECONDS);
		carry_out(line);
		fflush(stdout);
		leave();
	}
	waitpid(child, NULL, 0);
	putchar('\n');
}
