/* What Linux's own functions find around them in a program: types, locks that do nothing, and memory of the C library. No line of Linux's
 * is here. */
#ifndef STUB_H
#define STUB_H

#include <errno.h>
#include <fcntl.h>
#include <limits.h>
#include <signal.h>
#include <stdbool.h>
#include <stddef.h>
#include <stdint.h>
#include <stdio.h>
#include <stdlib.h>
#include <string.h>
#include <sys/ioctl.h>
#include <sys/types.h>
#include <linux/types.h>
#include <linux/filter.h>
#include <linux/bpf.h>
#include <linux/seccomp.h>
#include <linux/audit.h>

typedef uint8_t u8;
typedef uint16_t u16;
typedef uint32_t u32;
typedef uint64_t u64;
typedef int8_t s8;
typedef int16_t s16;
typedef int32_t s32;
typedef int64_t s64;
typedef unsigned int gfp_t;

#define __force
#define __weak __attribute__((weak))
#define __init
#define __read_mostly
#define __annotate_jump_table
#define noinline __attribute__((noinline))
#define likely(x) (x)
#define unlikely(x) (x)
#define unreachable() __builtin_unreachable()
#define ARRAY_SIZE(a) (sizeof(a) / sizeof((a)[0]))
#define sizeof_field(type, member) sizeof(((type *)0)->member)
#define container_of(p, type, member) ((type *)((char *)(p) - offsetof(type, member)))
#define IS_ENABLED(x) 0
#define IS_BUILTIN(x) 1
#define min_t(type, a, b) ((type)(a) < (type)(b) ? (type)(a) : (type)(b))
#define max_t(type, a, b) ((type)(a) > (type)(b) ? (type)(a) : (type)(b))
#define round_up(x, y) ((((x) + (y) - 1) / (y)) * (y))
#define BUILD_BUG_ON(x) do { if (x) abort(); } while (0)
#define BUG() abort()
#define BUG_ON(x) do { if (x) abort(); } while (0)
#define WARN_ON(x) ({ if (x) abort(); 0; })
#define WARN_ON_ONCE(x) (!!(x))
#define pr_warn(...) fprintf(stderr, __VA_ARGS__)
#define pr_err_once(...) do { } while (0)
#define READ_ONCE(x) (x)
#define smp_store_release(p, v) (*(p) = (v))
#define smp_rmb() do { } while (0)
#define smp_mb__before_atomic() do { } while (0)
#define barrier_nospec() do { } while (0)
#define array_index_nospec(i, n) (i)

/* Numbers. */
#define S16_MAX 32767
#define S16_MIN (-32768)
#define PAGE_SIZE 4096
#define NET_IP_ALIGN 0
#define cpu_to_be16(x) __builtin_bswap16(x)
#define cpu_to_be32(x) __builtin_bswap32(x)
#define cpu_to_be64(x) __builtin_bswap64(x)
#define cpu_to_le16(x) ((u16)(x))
#define cpu_to_le32(x) ((u32)(x))
#define cpu_to_le64(x) ((u64)(x))
#define __swab16 __builtin_bswap16
#define __swab32 __builtin_bswap32
#define __swab64 __builtin_bswap64
#define do_div(n, base) ({ u32 base_ = (base); u32 rest_ = (u64)(n) % base_; (n) = (u64)(n) / base_; rest_; })
#define div64_u64_rem(a, b, rest) (*(rest) = (a) % (u64)(b), (a) / (u64)(b))
#define div64_u64(a, b) ((u64)(a) / (u64)(b))
#define div64_s64(a, b) ((s64)(a) / (s64)(b))

/* Errors. */
#define MAX_ERRNO 4095
#define ENOTSUPP 524
#define ERR_PTR(e) ((void *)(long)(e))
#define PTR_ERR(p) ((long)(p))
#define IS_ERR(p) ((unsigned long)(p) >= (unsigned long)-MAX_ERRNO)

/* Memory. A pointer of a program is one of ours; of NULL nothing can be copied. */
#define GFP_KERNEL 0
#define __GFP_NOWARN 0
#define kzalloc(n, g) calloc(1, n)
#define kmalloc(n, g) malloc(n)
#define kcalloc(n, s, g) calloc(n, s)
#define kmalloc_array(n, s, g) malloc((n) * (s))
#define kfree(p) free((void *)(p))
#define kmemdup_array(p, n, s, g) kmemdup(p, (n) * (s), g)
#define copy_from_user(to, from, n) ((from) ? (memcpy(to, from, n), 0) : 1)
#define copy_to_user(to, from, n) ((to) ? (memcpy(to, from, n), 0) : 1)
#define copy_struct_from_user(to, size, from, n) (memcpy(to, from, n), 0)
#define check_zeroed_user(b, n) 1
#define kmsan_unpoison_memory(p, n) do { } while (0)
#define bpf_probe_read_kernel_common(to, n, from) abort()

static inline void *kmemdup(const void *from, size_t size, gfp_t flags)
{
	void *to = malloc(size);

	memcpy(to, from, size);
	return to;
}

/* Atomics: one thread runs here. */
typedef struct { int counter; } atomic_t;
typedef struct { long counter; } atomic64_t;
typedef atomic_t refcount_t;
#define atomic_read(a) ((a)->counter)
#define atomic_set(a, v) ((a)->counter = (v))
#define atomic_inc(a) ((a)->counter++)
#define atomic_dec_if_positive(a) ((a)->counter > 0 ? --(a)->counter : -1)
#define refcount_set(a, v) ((a)->counter = (v))
#define refcount_inc(a) ((a)->counter++)
#define refcount_read(a) ((a)->counter)
#define refcount_dec_and_test(a) (--(a)->counter == 0)
#define atomic_xchg(a, v) (abort(), 0)
#define atomic64_xchg(a, v) (abort(), 0)
#define atomic_cmpxchg(a, old, new) (abort(), 0)
#define atomic64_cmpxchg(a, old, new) (abort(), 0)
/* The interpreter has these instructions, and no program of seccomp's has one. */
#define NO_ATOMIC(name) \
	static inline void atomic_##name(u32 v, atomic_t *a) { abort(); } \
	static inline void atomic64_##name(u64 v, atomic64_t *a) { abort(); } \
	static inline u32 atomic_fetch_##name(u32 v, atomic_t *a) { abort(); } \
	static inline u64 atomic64_fetch_##name(u64 v, atomic64_t *a) { abort(); }
NO_ATOMIC(add)
NO_ATOMIC(and)
NO_ATOMIC(or)
NO_ATOMIC(xor)

/* Locks. */
struct mutex { int unused; };
#define mutex_init(m) do { } while (0)
#define mutex_lock(m) do { } while (0)
#define mutex_unlock(m) do { } while (0)
#define mutex_lock_interruptible(m) ((void)(m), 0)
#define mutex_lock_killable(m) ((void)(m), 0)
#define mutex_is_locked(m) ((void)(m), 1)
#define lockdep_assert_held(m) do { } while (0)
#define assert_spin_locked(m) do { } while (0)
#define spin_lock_irq(m) do { } while (0)
#define spin_unlock_irq(m) do { } while (0)

/* Lists. */
struct list_head { struct list_head *next, *prev; };

static inline void list_put(struct list_head *node, struct list_head *before, struct list_head *behind)
{
	before->next = node;
	node->prev = before;
	node->next = behind;
	behind->prev = node;
}

#define INIT_LIST_HEAD(h) ((h)->next = (h)->prev = (h))
#define list_add(n, h) list_put(n, h, (h)->next)
#define list_add_tail(n, h) list_put(n, (h)->prev, h)
#define list_del(n) ((n)->prev->next = (n)->next, (n)->next->prev = (n)->prev)
#define list_del_init(n) (list_del(n), INIT_LIST_HEAD(n))
#define list_empty(h) ((h)->next == (h))
#define list_first_entry_or_null(h, type, m) (list_empty(h) ? NULL : container_of((h)->next, type, m))
#define list_for_each_entry(p, h, m) \
	for (p = container_of((h)->next, typeof(*p), m); &p->m != (h); p = container_of(p->m.next, typeof(*p), m))
#define list_for_each_entry_safe(p, n, h, m) \
	for (p = container_of((h)->next, typeof(*p), m), n = container_of(p->m.next, typeof(*p), m); &p->m != (h); \
	     p = n, n = container_of(n->m.next, typeof(*n), m))

/* Bits. */
#define DECLARE_BITMAP(name, n) unsigned long name[((n) + 63) / 64]
#define test_bit(i, b) ((((const unsigned long *)(b))[(i) / 64] >> ((i) % 64)) & 1)
#define __clear_bit(i, b) (((unsigned long *)(b))[(i) / 64] &= ~(1ul << ((i) % 64)))
#define bitmap_copy(to, from, n) memcpy(to, from, ((n) + 63) / 64 * 8)
#define bitmap_fill(to, n) memset(to, 0xff, ((n) + 63) / 64 * 8)

#endif
