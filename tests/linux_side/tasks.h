/* What Linux's own functions find around them of tasks, listeners, files and programs. No line of Linux's is here. */
#ifndef TASKS_H
#define TASKS_H

#include "stub.h"

/* Waiting: a listener responds at once, or is closed. */
typedef struct { int unused; } wait_queue_head_t;
typedef struct { int unused; } wait_queue_entry_t;
typedef unsigned int __poll_t;
struct completion { int done; };
void answer_by_listener(void);
#define EPOLLIN 1u
#define EPOLLOUT 4u
#define EPOLLERR 8u
#define EPOLLHUP 16u
#define EPOLLRDNORM 64u
#define EPOLLWRNORM 256u
#define TASK_INTERRUPTIBLE 1
#define init_waitqueue_head(w) do { } while (0)
#define waitqueue_active(w) 0
#define wake_up_poll(w, e) do { } while (0)
#define wake_up_poll_on_current_cpu(w, e) do { } while (0)
#define init_completion(c) ((c)->done = 0)
#define complete(c) ((c)->done = 1)
#define complete_on_current_cpu(c) ((c)->done = 1)
#define wait_for_completion_interruptible(c) ((void)(c), answer_by_listener(), 0)
#define wait_for_completion_killable(c) ((void)(c), answer_by_listener(), 0)
#define key_to_poll(k) ((unsigned int)(unsigned long)(k))
#define autoremove_wake_function(a, b, c, d) 0
#define DEFINE_WAIT_FUNC(w, f) wait_queue_entry_t w = { 0 }; (void)f
#define prepare_to_wait_event(q, w, s) ((void)(w), 0)
#define finish_wait(q, w) do { } while (0)
#define schedule() abort()

/* Tasks: a table of them, one of which is the current one. All have no_new_privs. */
struct seccomp_filter;
struct seccomp { int mode; atomic_t filter_count; struct seccomp_filter *filter; };
struct sighand_struct { int siglock; };
struct signal_struct { int cred_guard_mutex; atomic_t live; };
struct pt_regs { int unused; };
struct task_struct {
	struct seccomp seccomp;
	unsigned int flags;
	struct sighand_struct *sighand;
	struct signal_struct *signal;
	int ptrace;
	int number, group;
	bool has_ended;
};
enum { MOST_TASKS = 4096 };
extern struct task_struct *current, table[MOST_TASKS];
extern int tasks_made;
#define PF_EXITING 4
#define CAP_SYS_ADMIN 21
#define PT_SUSPEND_SECCOMP 0
#define PTRACE_EVENT_SECCOMP 7
#define for_each_thread(p, t) for (t = table; t < table + tasks_made; t++) if (t->group == (p)->group)
#define task_pid_vnr(t) ((t)->number)
#define task_no_new_privs(t) true
#define task_set_no_new_privs(t) do { } while (0)
#define ns_capable_noaudit(ns, cap) false
#define current_user_ns() NULL
#define set_task_syscall_work(t, x) do { } while (0)
#define current_pt_regs() NULL
#define task_pt_regs(t) NULL
#define ptrace_event_enabled(t, e) 0
#define ptrace_event(e, d) do { } while (0)
#define fatal_signal_pending(t) 0

/* The call that the current task makes, and what becomes of it. */
extern struct seccomp_data presented;
#define syscall_get_nr(t, r) ((int)presented.nr)
#define syscall_get_arch(t) (presented.arch)
#define syscall_get_arguments(t, r, a) memcpy(a, presented.args, sizeof(presented.args))
#define KSTK_EIP(t) (presented.instruction_pointer)
extern struct fate { enum { NOT_SET, RETURNED, SIGNALLED, EXITED } kind; long error, value; } fate;
#define syscall_set_return_value(t, r, e, v) (fate.kind = RETURNED, fate.error = (e), fate.value = (v))
#define syscall_rollback(t, r) do { } while (0)
#define force_sig_seccomp(s, d, dump) (fate.kind = SIGNALLED)
#define do_exit(s) (fate.kind = EXITED)
#define audit_seccomp(s, n, a) do { } while (0)

/* Files: listeners, by descriptors that count up from a number above those of tasks. */
struct inode { int unused; };
struct poll_table_struct { int unused; };
struct file { void *private_data; const struct file_operations *ops; };
struct file_operations {
	__poll_t (*poll)(struct file *, struct poll_table_struct *);
	int (*release)(struct inode *, struct file *);
	long (*unlocked_ioctl)(struct file *, unsigned int, unsigned long);
	long (*compat_ioctl)(struct file *, unsigned int, unsigned long);
};
enum { FIRST_DESCRIPTOR = 1000000 };
extern int next_descriptor;
#define IOC_INOUT (_IOC_READ << _IOC_DIRSHIFT | _IOC_WRITE << _IOC_DIRSHIFT)
#define poll_wait(f, w, t) do { } while (0)
#define get_unused_fd_flags(f) (next_descriptor++)
#define put_unused_fd(f) do { } while (0)
#define fd_install(n, f) do { } while (0)
#define fget(n) NULL
#define receive_fd(f, u, g) (-1)
#define receive_fd_replace(n, f, g) (-1)
#define get_random_u64() 77
#define device_initcall(f)
#define SYSCALL_DEFINE3(name, t1, a1, t2, a2, t3, a3) static long sys_##name(t1 a1, t2 a2, t3 a3)

static inline struct file *anon_inode_getfile(const char *name, const struct file_operations *ops, void *data, int flags)
{
	struct file *file = calloc(1, sizeof(*file));

	file->private_data = data;
	file->ops = ops;
	return file;
}

/* Of a listener that was not installed. */
static inline void fput(struct file *file)
{
	if (file && file->private_data)
		file->ops->release(NULL, file);
	free(file);
}

/* Programs. Nothing is compiled to the processor's code: the interpreter runs them. */
struct sock_fprog_kern { u16 len; struct sock_filter *filter; };
struct bpf_prog_aux { u32 stack_depth; };
struct bpf_prog {
	u32 len;
	bool jited;
	int type;
	struct bpf_prog_aux *aux;
	struct sock_fprog_kern *orig_prog;
	unsigned int (*bpf_func)(const void *, const struct bpf_insn *);
	union { struct sock_filter insns[0]; struct bpf_insn insnsi[0]; };
};
struct bpf_map { u32 max_entries; };
struct bpf_array { struct bpf_map map; struct bpf_prog *ptrs[1]; };
struct sk_buff { u32 len, data_len; unsigned char *data; };
typedef int (*bpf_aux_classic_check_t)(struct sock_filter *, unsigned int);
typedef u64 (*bpf_call_t)(u64, u64, u64, u64, u64);
#define MAX_TAIL_CALL_CNT 33
#define bpf_prog_size(n) (sizeof(struct bpf_prog) + (size_t)(n) * 8)
#define bpf_prog_realloc(old, n, g) realloc(old, n)
#define bpf_jit_compile(p) do { } while (0)
#define bpf_prog_free __bpf_prog_free
#define bpf_prog_put __bpf_prog_free

static inline struct bpf_prog *bpf_prog_alloc(size_t size, gfp_t flags)
{
	struct bpf_prog *made = calloc(1, size);

	made->aux = calloc(1, sizeof(*made->aux));
	return made;
}

static inline void __bpf_prog_free(struct bpf_prog *program)
{
	free(program->aux);
	free(program);
}

/* Loads of packets: seccomp refuses each load that is none of its record's before anything is translated. */
#define BPF_ANC (1 << 15)
#define bpf_anc_helper(f) ((f)->code)
#define convert_bpf_extensions(f, i) (abort(), false)
#define convert_bpf_ld_abs(f, i) (abort(), false)
static u64 __bpf_call_base(u64 a, u64 b, u64 c, u64 d, u64 e) { abort(); }
static u64 __bpf_call_base_args(u64 a, u64 b, u64 c, u64 d, u64 e, const struct bpf_insn *i) { abort(); }

/* The machine: x86-64, with x86 beside it. */
#define CONFIG_SECCOMP
#define CONFIG_SECCOMP_FILTER
#define CONFIG_HAVE_ARCH_SECCOMP_FILTER
#include "macros.inc"
#include "tables.inc"
#define SECCOMP_ARCH_NATIVE AUDIT_ARCH_X86_64
#define SECCOMP_ARCH_NATIVE_NR NR_syscalls
#define SECCOMP_ARCH_COMPAT AUDIT_ARCH_I386
#define SECCOMP_ARCH_COMPAT_NR IA32_NR_syscalls
#define __NR_seccomp_read 0
#define __NR_seccomp_write 1
#define __NR_seccomp_exit 60
#define __NR_seccomp_sigreturn 15

#endif
