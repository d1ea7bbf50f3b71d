/* The real side of tests/kernel: what the parts share. */
#ifndef SIDE_H
#define SIDE_H

#include <linux/filter.h>
#include <stddef.h>

/* A call as it is entered: its number and its six registers. */
struct call {
	unsigned long number;
	unsigned long args[6];
};

/* A way into the kernel: its letter in a line, what enters by it, and the address behind the instruction, which is the records'
 * instruction pointer. `enter` returns what the kernel leaves in the register of the result: an error is a negative number. */
struct way {
	char letter;
	long (*enter)(const struct call *call);
	const char *behind;
};

/* The ways of the machine that this program is built for. The first is that of its own calls. */
extern const struct way ways[];
extern const int way_count;
long enter_by_syscall(const struct call *call);

/* A call by its number, through the first way. */
long enter(unsigned long number, unsigned long a, unsigned long b, unsigned long c, unsigned long d);

/* Which argument of clone(2) has its flags: on s390x the second. */
#if defined(__s390__)
enum { CLONE_FLAGS = 1 };
#else
enum { CLONE_FLAGS = 0 };
#endif

/* A new process, by clone(2) with these flags. */
long enter_clone(unsigned long flags);

/* Loads a filter by seccomp(2), and asks for no privilege of this task from now on. */
long load(const struct sock_filter *insns, unsigned short count);
long give_up_privileges(void);

/* Limits of a child that carries out a case: seconds of the processor, and four times as many of the clock. */
enum { FEW_SECONDS = 5, MANY_SECONDS = 150 };
void limit_child(unsigned int seconds);

/* Ends a child, whatever its filters let through. */
_Noreturn void leave(void);

/* Reads a filter, in digits, into room for so many bytes; returns how many bytes, or -1. `at` moves behind them. In the digits the lowest
 * byte of a number comes first, and the lower half of a number of 64 bits; on a big-endian machine both are turned. */
long read_filter(const char **at, struct sock_filter *insns, size_t room);

/* Reads a hexadecimal number; `at` moves behind it. */
unsigned long read_number(const char **at);

/* Writes how a child ended: `end` if it came to its end, else its signal or its status. */
void tell_end(int whole, int status);

/* What a line asks: a line of answer each. Cases are answered once `end_cases` is called, or some are under way. */
void on_case(const char *line);
void end_cases(void);
void on_tree(const char *line);
void on_width(const char *line);
void on_told(const char *line);
void on_listen(const char *line);

/* What this program is where it was started by execve(2) in a tree. */
_Noreturn void go_on_in_tree(const char *descriptor);

#endif
