/* The tasks of a tree (tree.c): each waits for commands in its slot, and carries them out. */
#define _GNU_SOURCE
#include "tree.h"

#include <errno.h>
#include <fcntl.h>
#include <linux/futex.h>
#include <sched.h>
#include <stdlib.h>
#include <string.h>
#include <sys/mman.h>
#include <sys/syscall.h>
#include <unistd.h>

struct tree *tree;
int tree_file;
static char stacks[MOST_TASKS][STACK] __attribute__((aligned(16)));

void wait_while(atomic_uint *word, unsigned value, const struct timespec *timeout)
{
	enter(SYS_futex, (unsigned long)word, FUTEX_WAIT, value, (unsigned long)timeout);
}

void wake(atomic_uint *word)
{
	enter(SYS_futex, (unsigned long)word, FUTEX_WAKE, 1, 0);
}

/* The number of the calling task, by a call that no script makes. */
static long own_number(void)
{
	static int cleared;

	return enter(SYS_set_tid_address, (unsigned long)&cleared, 0, 0, 0);
}

static _Noreturn void serve(struct slot *slot);

/* Where the calling task is in /proc: written once, since an image that execve makes has the place of the group's first task. */
static void tell_place(char *who, size_t room)
{
	char place[64] = { 0 };

	enter(SYS_readlinkat, AT_FDCWD, (unsigned long)"/proc/thread-self", (unsigned long)place, sizeof(place) - 1);
	if (strcmp(who, place))
		memcpy(who, place, room);
}

/* What a new task does, or one that has a new image. Its group is its own where none is told. The image is counted before the command
 * that made it counts as answered. */
static _Noreturn void begin(long group)
{
	long number = own_number();
	struct slot *slot;

	if (number < 1 || number >= MOST_TASKS)
		leave();
	slot = &tree->slots[number];
	slot->group = group ? group : number;
	tell_place(slot->who, sizeof(slot->who));
	atomic_fetch_add(&slot->images, 1);
	atomic_store(&slot->answered, atomic_load(&slot->asked));
	wake(&slot->images);
	wake(&slot->answered);
	serve(slot);
}

static int begin_thread(void *maker)
{
	begin(((struct slot *)maker)->group);
}

/* Some machines have no fork. */
int makes_task(unsigned long number)
{
#ifdef SYS_fork
	if (number == SYS_fork)
		return 1;
#endif
	return number == SYS_clone;
}

/* A call that makes a task. The new task does not return. */
static long make_task(struct slot *slot, const struct call *call)
{
	long made;

	if (call->number == SYS_clone && call->args[CLONE_FLAGS] & CLONE_THREAD) {
		int next = atomic_fetch_add(&tree->stacks, 1) % MOST_TASKS;

		made = clone(begin_thread, stacks[next] + STACK, (int)call->args[CLONE_FLAGS], slot);
		return made < 0 ? -errno : made;
	}
	made = enter_by_syscall(call);
	if (made == 0 && own_number() != slot - tree->slots)
		begin(0);
	return made;
}

static long carry_out(struct slot *slot)
{
	struct call call = slot->call;
	struct sock_fprog program = { slot->insns, slot->program };
	char number[16];
	char *const words[] = { tree->program, "tree", number, NULL };
	char *const none[] = { NULL };

	if (makes_task(call.number))
		return make_task(slot, &call);
	if (call.number == SYS_execve) {
		number[0] = '0' + tree_file / 10;
		number[1] = '0' + tree_file % 10;
		number[2] = 0;
		call.args[0] = (unsigned long)tree->program;
		call.args[1] = (unsigned long)words;
		call.args[2] = (unsigned long)none;
	} else if (slot->insns) {
		call.args[2] = (unsigned long)&program;
	}
	return enter_by_syscall(&call);
}

static _Noreturn void serve(struct slot *slot)
{
	for (;;) {
		unsigned done = atomic_load(&slot->answered);

		while (atomic_load(&slot->asked) == done)
			wait_while(&slot->asked, done, NULL);
		if (!slot->is_ping)
			slot->result = carry_out(slot);
		atomic_store(&slot->answered, done + 1);
		wake(&slot->answered);
	}
}

_Noreturn void go_on_in_tree(const char *descriptor)
{
	tree_file = atoi(descriptor);
	tree = mmap(NULL, sizeof(*tree), PROT_READ | PROT_WRITE, MAP_SHARED, tree_file, 0);
	if (tree == MAP_FAILED)
		_exit(1);
	begin(0);
}
