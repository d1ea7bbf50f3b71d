/* What the tasks of a tree and who stands outside of it share. */
#ifndef TREE_H
#define TREE_H

#include "side.h"

#include <stdatomic.h>
#include <time.h>

enum { MOST_TASKS = 64, MOST_INSNS = 64, STACK = 16384, SECONDS = 60 };

/* The numbers of a tree's tasks begin at 1. `asked` and `answered` count commands; `images` counts how often a task began, by a
 * call that made it or by execve. `who` is its place in /proc as it is seen from outside. */
struct slot {
	atomic_uint asked, answered, images;
	long group, result;
	int is_ping;
	struct call call;
	unsigned short insns;
	struct sock_filter program[MOST_INSNS];
	char who[64];
};

struct tree {
	atomic_int stacks;
	char program[256];
	struct slot slots[MOST_TASKS];
};

/* The tree, in memory that all share, and the descriptor of its file. */
extern struct tree *tree;
extern int tree_file;

/* Whether a call of this number makes a task. */
int makes_task(unsigned long number);

/* Waits while a word has this value, no longer than the timeout where there is one; and wakes who waits so. */
void wait_while(atomic_uint *word, unsigned value, const struct timespec *timeout);
void wake(atomic_uint *word);

#endif
