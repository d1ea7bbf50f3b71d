/* The ways into the kernel, of each machine that this program is built for. Each function takes a struct call: the number, and six
 * registers of the machine's width behind it. */
#include "side.h"

#if defined(__x86_64__)
__asm__(".text\n"
	".globl enter_by_syscall, behind_syscall, enter_by_int80, behind_int80\n"
	"enter_by_syscall:\n"
	"	push %rbx\n"
	"	mov %rdi, %rbx\n"
	"	mov (%rbx), %rax\n"
	"	mov 8(%rbx), %rdi\n"
	"	mov 16(%rbx), %rsi\n"
	"	mov 24(%rbx), %rdx\n"
	"	mov 32(%rbx), %r10\n"
	"	mov 40(%rbx), %r8\n"
	"	mov 48(%rbx), %r9\n"
	"	syscall\n"
	"behind_syscall:\n"
	"	pop %rbx\n"
	"	ret\n"
	"enter_by_int80:\n"
	"	push %rbx\n"
	"	push %rbp\n"
	"	mov %rdi, %rax\n"
	"	mov 8(%rax), %rbx\n"
	"	mov 16(%rax), %rcx\n"
	"	mov 24(%rax), %rdx\n"
	"	mov 32(%rax), %rsi\n"
	"	mov 40(%rax), %rdi\n"
	"	mov 48(%rax), %rbp\n"
	"	mov (%rax), %rax\n"
	"	int $0x80\n"
	"behind_int80:\n"
	"	pop %rbp\n"
	"	pop %rbx\n"
	"	ret\n");
#elif defined(__aarch64__)
__asm__(".text\n"
	".balign 4\n"
	".globl enter_by_syscall, behind_syscall\n"
	".type enter_by_syscall, %function\n"
	"enter_by_syscall:\n"
	"	mov x9, x0\n"
	"	ldr x8, [x9]\n"
	"	ldp x0, x1, [x9, #8]\n"
	"	ldp x2, x3, [x9, #24]\n"
	"	ldp x4, x5, [x9, #40]\n"
	"	svc #0\n"
	"behind_syscall:\n"
	"	ret\n");
#elif defined(__arm__)
__asm__(".text\n"
	".arm\n"
	".balign 4\n"
	".globl enter_by_syscall, behind_syscall\n"
	".type enter_by_syscall, %function\n"
	"enter_by_syscall:\n"
	"	push {r4, r5, r7, lr}\n"
	"	ldr r7, [r0]\n"
	"	ldr r5, [r0, #24]\n"
	"	ldr r4, [r0, #20]\n"
	"	ldr r3, [r0, #16]\n"
	"	ldr r2, [r0, #12]\n"
	"	ldr r1, [r0, #8]\n"
	"	ldr r0, [r0, #4]\n"
	"	svc #0\n"
	"behind_syscall:\n"
	"	pop {r4, r5, r7, pc}\n");
#elif defined(__riscv) && __riscv_xlen == 64
__asm__(".text\n"
	".balign 4\n"
	".globl enter_by_syscall, behind_syscall\n"
	".type enter_by_syscall, %function\n"
	"enter_by_syscall:\n"
	"	mv t0, a0\n"
	"	ld a7, 0(t0)\n"
	"	ld a0, 8(t0)\n"
	"	ld a1, 16(t0)\n"
	"	ld a2, 24(t0)\n"
	"	ld a3, 32(t0)\n"
	"	ld a4, 40(t0)\n"
	"	ld a5, 48(t0)\n"
	"	ecall\n"
	"behind_syscall:\n"
	"	ret\n");
#elif defined(__powerpc64__) && defined(__LITTLE_ENDIAN__)
/* An error is told by the bit SO, and is positive. */
__asm__(".text\n"
	".balign 4\n"
	".globl enter_by_syscall, behind_syscall\n"
	".type enter_by_syscall, @function\n"
	"enter_by_syscall:\n"
	"	mr 9, 3\n"
	"	ld 0, 0(9)\n"
	"	ld 3, 8(9)\n"
	"	ld 4, 16(9)\n"
	"	ld 5, 24(9)\n"
	"	ld 6, 32(9)\n"
	"	ld 7, 40(9)\n"
	"	ld 8, 48(9)\n"
	"	sc\n"
	"behind_syscall:\n"
	"	bnslr\n"
	"	neg 3, 3\n"
	"	blr\n");
#elif defined(__s390x__)
__asm__(".text\n"
	".balign 4\n"
	".globl enter_by_syscall, behind_syscall\n"
	".type enter_by_syscall, @function\n"
	"enter_by_syscall:\n"
	"	stmg %r6, %r7, 48(%r15)\n"
	"	lg %r1, 0(%r2)\n"
	"	lmg %r3, %r7, 16(%r2)\n"
	"	lg %r2, 8(%r2)\n"
	"	svc 0\n"
	"behind_syscall:\n"
	"	lmg %r6, %r7, 48(%r15)\n"
	"	br %r14\n");
#elif defined(__s390__)
__asm__(".text\n"
	".balign 4\n"
	".globl enter_by_syscall, behind_syscall\n"
	".type enter_by_syscall, @function\n"
	"enter_by_syscall:\n"
	"	stm %r6, %r7, 24(%r15)\n"
	"	l %r1, 0(%r2)\n"
	"	lm %r3, %r7, 8(%r2)\n"
	"	l %r2, 4(%r2)\n"
	"	svc 0\n"
	"behind_syscall:\n"
	"	lm %r6, %r7, 24(%r15)\n"
	"	br %r14\n");
#else
#error "no way into the kernel is written for this machine"
#endif

extern const char behind_syscall[];
#if defined(__x86_64__)
extern const char behind_int80[];
long enter_by_int80(const struct call *call);
#endif

const struct way ways[] = {
	{ 's', enter_by_syscall, behind_syscall },
#if defined(__x86_64__)
	{ 'i', enter_by_int80, behind_int80 },
#endif
};
const int way_count = sizeof(ways) / sizeof(ways[0]);
