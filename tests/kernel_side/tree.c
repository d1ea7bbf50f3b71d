/* A tree of tasks in a PID namespace of its own: what `ccell run` models, carried out by real tasks.
 *
 * The line is FILTER and then COMMANDS with semicolons between. The first task loads FILTER and runs this program anew by execve(2).
 * A command is TASK:NUMBER:A:B:C:D:E:F:BYTES, all hexadecimal: the task of that number makes this call; where BYTES are there, they are
 * a filter program, whose address stands in the place of the third argument. Each command is answered by what came of it, a number,
 * `ended` where the task ended in its call, or `none` where there is no such task, and then by the numbers of all live tasks.
 *
 * Tasks wait for commands in shared memory. Whoever gives them stands outside of the namespace, and sees by /proc who lives. */
#define _GNU_SOURCE
#include "tree.h"

#include <fcntl.h>
#include <sched.h>
#include <signal.h>
#include <stdio.h>
#include <stdlib.h>
#include <string.h>
#include <sys/mman.h>
#include <sys/prctl.h>
#include <sys/syscall.h>
#include <sys/wait.h>
#include <unistd.h>

static int is_live(const struct slot *slot)
{
	char path[96], text[512], *behind;
	ssize_t length;
	int file;

	if (!atomic_load(&slot->images) || !slot->who[0])
		return 0;
	snprintf(path, sizeof(path), "/proc/%s/stat", slot->who);
	file = open(path, O_RDONLY | O_CLOEXEC);
	if (file < 0)
		return 0;
	length = read(file, text, sizeof(text) - 1);
	close(file);
	if (length <= 0)
		return 0;
	text[length] = 0;
	behind = strrchr(text, ')');
	return behind && behind[1] == ' ' && !strchr("ZXx", behind[2]);
}

static int is_late(time_t end)
{
	return time(NULL) > end;
}

/* Waits until a count has another value, or the task is gone. Returns whether it has. */
static int wait_for(atomic_uint *count, unsigned value, const struct slot *slot, time_t end)
{
	const struct timespec blink = { 0, 1000000 };

	while (atomic_load(count) == value) {
		wait_while(count, value, &blink);
		if (atomic_load(count) == value && (!is_live(slot) || is_late(end)))
			return atomic_load(count) != value;
	}
	return 1;
}

/* Whether a task answers: one that is about to end does not. */
static int answers(struct slot *slot, time_t end)
{
	unsigned done = atomic_load(&slot->answered);

	if (!is_live(slot))
		return 0;
	slot->is_ping = 1;
	atomic_store(&slot->asked, done + 1);
	wake(&slot->asked);
	return wait_for(&slot->answered, done, slot, end);
}

/* Waits until a new task or a new image has begun. */
static void wait_for_image(long number, unsigned images, time_t end)
{
	const struct timespec blink = { 0, 1000000 };
	struct slot *slot = &tree->slots[number];

	while (atomic_load(&slot->images) == images && !is_late(end))
		wait_while(&slot->images, images, &blink);
}

/* The answer to execve: the group's first task has a new image, or the caller an error. Returns whether there is one. A caller that is
 * gone went on as the first task, or was ended by a filter; then the first task, where it lives, answers and has no new image. */
static int wait_for_exec(struct slot *slot, unsigned done, struct slot *first, unsigned images, time_t end)
{
	const struct timespec blink = { 0, 1000000 };

	while (!is_late(end)) {
		int has_ended = !is_live(slot), is_answered = atomic_load(&slot->answered) != done;

		if (has_ended && slot != first)
			answers(first, end);
		if (atomic_load(&first->images) != images) {
			slot->result = 0;
			return 1;
		}
		if (has_ended || is_answered)
			return is_answered;
		wait_while(&first->images, images, &blink);
	}
	return 0;
}

/* Has a task make its call. Returns whether it answered. */
static int has_answered(struct slot *slot, time_t end)
{
	struct slot *first = &tree->slots[slot->group];
	unsigned done = atomic_load(&slot->answered), images = atomic_load(&first->images);
	int makes = makes_task(slot->call.number);

	slot->is_ping = 0;
	atomic_store(&slot->asked, done + 1);
	wake(&slot->asked);
	if (slot->call.number == SYS_execve)
		return wait_for_exec(slot, done, first, images, end);
	if (!wait_for(&slot->answered, done, slot, end))
		return 0;
	if (makes && slot->result > 0 && slot->result < MOST_TASKS)
		wait_for_image(slot->result, 0, end);
	return 1;
}

static long read_command(const char **at, struct call *call, struct sock_filter *program, unsigned short *insns)
{
	long task = read_number(at), bytes = 0;
	int i;

	memset(call, 0, sizeof(*call));
	if (**at == ':')
		++*at;
	call->number = read_number(at);
	for (i = 0; i < 6 && **at == ':'; i++) {
		++*at;
		call->args[i] = read_number(at);
	}
	if (**at == ':') {
		++*at;
		bytes = read_filter(at, program, MOST_INSNS * sizeof(*program));
	}
	*insns = bytes < 0 ? 0 : bytes / sizeof(*program);
	return task;
}

/* Which tasks live, as bits. A task's end may be that of others a little later: it is asked until the answer stays. */
static unsigned long live_tasks(unsigned long before, time_t end)
{
	for (;;) {
		unsigned long live = 0;
		int i;

		for (i = 1; i < MOST_TASKS; i++)
			live |= answers(&tree->slots[i], end) ? 1UL << i : 0;
		if (!(before & ~live))
			return live;
		before = live;
	}
}

static void tell_live(unsigned long live)
{
	const char *between = " ";
	int i;

	for (i = 1; i < MOST_TASKS; i++) {
		if (!(live >> i & 1))
			continue;
		printf("%s%d", between, i);
		between = ",";
	}
	if (!live)
		fputs(" -", stdout);
}

static void on_commands(const char *at, time_t end)
{
	unsigned long live = 2;

	while (*at && !is_late(end)) {
		struct sock_filter program[MOST_INSNS];
		unsigned short insns;
		struct call call;
		long task = read_command(&at, &call, program, &insns);
		struct slot *slot = &tree->slots[task];

		if (task < 1 || task >= MOST_TASKS || !answers(slot, end)) {
			fputs("none", stdout);
		} else {
			slot->call = call;
			slot->insns = insns;
			memcpy(slot->program, program, insns * sizeof(*program));
			if (has_answered(slot, end))
				printf("%ld", slot->result);
			else
				fputs("ended", stdout);
		}
		live = live_tasks(live, end);
		tell_live(live);
		if (*at == ';')
			++at;
		putchar(*at ? ';' : '\n');
	}
	if (*at)
		puts("late");
}

/* The first task: no privilege, no children to wait for, its filter, and then this program anew. */
static _Noreturn void be_first(const struct sock_filter *insns, unsigned short count)
{
	char number[16];

	prctl(PR_SET_PDEATHSIG, SIGKILL);
	signal(SIGCHLD, SIG_IGN);
	snprintf(number, sizeof(number), "%d", tree_file);
	if (give_up_privileges() == 0 && load(insns, count) == 0)
		execl(tree->program, tree->program, "tree", number, (char *)NULL);
	_exit(1);
}

static int make_tree(void)
{
	if (tree)
		return 1;
	tree_file = memfd_create("tree", 0);
	if (tree_file < 0 || ftruncate(tree_file, sizeof(*tree)))
		return 0;
	tree = mmap(NULL, sizeof(*tree), PROT_READ | PROT_WRITE, MAP_SHARED, tree_file, 0);
	if (tree == MAP_FAILED)
		tree = NULL;
	return tree != NULL;
}

void on_tree(const char *line)
{
	static struct sock_filter insns[4096];
	long bytes = read_filter(&line, insns, sizeof(insns));
	unsigned long space = geteuid() == 0 ? CLONE_NEWPID : CLONE_NEWPID | CLONE_NEWUSER;
	time_t end = time(NULL) + SECONDS;
	pid_t first;

	if (bytes < 8 || *line++ != ' ' || !make_tree()) {
		puts("unread");
		return;
	}
	memset(tree, 0, sizeof(*tree));
	if (readlink("/proc/self/exe", tree->program, sizeof(tree->program) - 1) <= 0) {
		puts("no /proc");
		return;
	}
	first = enter_clone(space | SIGCHLD);
	if (first == 0)
		be_first(insns, bytes / 8);
	if (first < 0) {
		puts("no namespace");
		return;
	}
	wait_for_image(1, 0, end);
	on_commands(line, end);
	kill(first, SIGKILL);
	waitpid(first, NULL, 0);
}
