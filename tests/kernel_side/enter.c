/* Calls by their numbers, without a library between. */
#include "side.h"

#include <linux/seccomp.h>
#include <sys/prctl.h>
#include <sys/resource.h>
#include <sys/syscall.h>
#include <unistd.h>

long enter(unsigned long number, unsigned long a, unsigned long b, unsigned long c, unsigned long d)
{
	struct call call = { number, { a, b, c, d } };

	return enter_by_syscall(&call);
}

long enter_clone(unsigned long flags)
{
	struct call call = { SYS_clone, { 0 } };

	call.args[CLONE_FLAGS] = flags;
	return enter_by_syscall(&call);
}

long load(const struct sock_filter *insns, unsigned short count)
{
	struct sock_fprog program = { count, (struct sock_filter *)insns };

	return enter(SYS_seccomp, SECCOMP_SET_MODE_FILTER, 0, (unsigned long)&program, 0);
}

long give_up_privileges(void)
{
	return enter(SYS_prctl, PR_SET_NO_NEW_PRIVS, 1, 0, 0);
}

void limit_child(unsigned int seconds)
{
	struct rlimit of_processor = { seconds, seconds + 1 };

	setrlimit(RLIMIT_CPU, &of_processor);
	alarm(4 * seconds);
}

_Noreturn void leave(void)
{
	enter(SYS_exit_group, 0, 0, 0, 0);
	for (;;)
		__builtin_trap();
}
