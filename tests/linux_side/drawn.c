/* Draws programs, of which many are accepted and the others nearly so, and call records. */
#include "side.h"

#include <string.h>

enum { LOAD = 0x20, LOAD_K = 0x00, AND_K = 0x54, STORE = 0x02, STORE_X = 0x03, READ = 0x60, READ_X = 0x61, JUMP = 0x05, RETURN = 0x06,
       RETURN_A = 0x16, DIVIDE_K = 0x34, SHIFT_LEFT = 0x64, SHIFT_RIGHT = 0x74, ALLOW = 0x7fff0000 };

struct sock_filter program[MOST];
int length;

/* The codes that both take, those that Linux alone takes, and some that neither takes. */
static const __u16 listed[] = {
	0x20, 0x20, 0x20, 0x20, 0x00, 0x01, 0x60, 0x61, 0x02, 0x03, 0x06, 0x16, 0x05, 0x15, 0x15, 0x15, 0x1d, 0x25, 0x2d, 0x35, 0x3d, 0x45, 0x4d,
	0x04, 0x0c, 0x14, 0x1c, 0x44, 0x4c, 0x54, 0x5c, 0xa4, 0xac, 0x64, 0x74, 0x84, 0x07, 0x87,
};
static const __u16 further[] = { 0x24, 0x2c, 0x34, 0x3c, 0x6c, 0x7c, 0x80, 0x81 };
static const __u16 unlisted[] = {
	0x28, 0x30, 0x40, 0x48, 0x50, 0x94, 0x9c, 0xb1, 0x0e, 0x1e, 0x26, 0x40, 0x55, 0x95, 0x85, 0x8d, 0x17, 0x47, 0xf0, 0xa5, 0xb5, 0x62, 0x63,
	0x18, 0xb4, 0xbc,
};
static const __u32 machines[] = { MACHINE, MACHINE, 0x40000003, 0xc00000b7, 0x40000028, 0 };
static const __u32 edges[] = {
	0, 1, 2, 3, 31, 32, 33, 0x7fffffff, 0x80000000, 0xffffffff, 0x7fff0000, 0x50001, 0xc000003e, 0x40000003, 0x40000000, 59, 257, 335, 336,
	462, 463, 0xfffffffe, 64, 0xffff, 0x10000,
};
const unsigned int verdicts[18] = {
	0x7fff0000, 0x7fff0000, 0x7fff0000, 0x50001, 0, 0x80000000, 0x7ff00001, 0x7fc00000, 0x7ffc0000, 0x30000, 0x7fff0001, 0x5ffff, 0x7fff8000,
	0x1, 0x80000001, 0x7ffd0000, 0xffffffff, 0x40000,
};

static __u32 number(void)
{
	switch (below(4)) {
	case 0: return any_number();
	case 1: return below(16);
	default: return PICK(edges);
	}
}

int is_further(unsigned int code)
{
	int i;

	for (i = 0; i < COUNT_OF(further); i++) {
		if (further[i] == code)
			return 1;
	}
	return 0;
}

int is_conditional(unsigned int code)
{
	return (code & 7) == 5 && code != JUMP;
}

static int least(int a, int b)
{
	return a < b ? a : b;
}

/* A way to one of the `left` instructions behind, mostly a short one. */
static int way(int left)
{
	return left > 0 ? below(below(4) ? least(left, 5) : least(left, 256)) : 0;
}

static __u32 fitting_number(int code, int left)
{
	switch (code) {
	case LOAD: return 4 * below(below(3) ? 16 : 2);
	case STORE: case STORE_X: case READ: case READ_X: return below(below(10) ? 3 : 16);
	case SHIFT_LEFT: case SHIFT_RIGHT: return below(20) ? below(32) : 31 + below(3);
	case DIVIDE_K: return number() | 1;
	case JUMP: return way(left);
	case RETURN: return PICK(verdicts);
	default: return number();
	}
}

static void draw_instruction(struct sock_filter *insn, int left, int has_further, int has_stray_ways)
{
	int code = PICK(listed);

	if (has_further && !below(12))
		code = PICK(further);
	if ((code == RETURN || code == RETURN_A) && below(3))
		code = LOAD;
	*insn = (struct sock_filter){ code, 0, 0, fitting_number(code, left) };
	if (is_conditional(code)) {
		insn->jt = way(left);
		insn->jf = way(left);
	} else if (has_stray_ways) {
		insn->jt = any_number();
		insn->jf = any_number();
	}
}

/* One of these codes, with ways that stay within. */
static void draw_of(const __u16 *codes, int many, struct sock_filter *insn, int left)
{
	*insn = (struct sock_filter){ codes[below(many)], way(least(left, 4)), way(least(left, 4)), 0 };
	insn->k = fitting_number(insn->code, least(left, 4));
	if (insn->code == LOAD)
		insn->k = 4 * below(2);
	if (insn->code == RETURN && below(2))
		insn->k = ALLOW;
}

static void damage(struct sock_filter *insn, int left)
{
	int edge = left - below(2);

	switch (below(12)) {
	case 0: insn->code = below(256); break;
	case 1: insn->code = any_number(); break;
	case 2: insn->code = PICK(unlisted); break;
	case 3: insn->k = number(); break;
	case 4: insn->k = 60 + below(8); break;
	case 5: insn->jt = below(256); break;
	case 6: insn->jf = below(256); break;
	case 7: insn->code = READ + below(2); insn->k = below(18); break;
	case 8: insn->k = 14 + below(4); break;
	case 9: *insn = (struct sock_filter){ JUMP, 0, 0, edge }; break;
	case 10: *insn = (struct sock_filter){ 0x15, edge, 0, 1 }; break;
	default: *insn = (struct sock_filter){ 0x15, 0, edge, 1 };
	}
}

static int draw_length(void)
{
	int kind = below(1000);

	if (kind < 2)
		return below(2) ? 4096 : 4093 + below(6);
	if (kind < 4)
		return 0;
	return kind < 20 ? 60 + below(500) : kind < 300 ? 13 + below(40) : 1 + below(12);
}

static void draw_end(struct sock_filter *insn)
{
	*insn = (struct sock_filter){ below(6) ? RETURN : RETURN_A, 0, 0, PICK(verdicts) };
}

void draw_program(void)
{
	/* Codes that read and write scratch words, and those that the kernel follows by number and machine alone. */
	static const __u16 scratch[] = { STORE, STORE_X, READ, READ_X, JUMP, 0x15, RETURN };
	static const __u16 followed[] = { LOAD, 0x15, 0x25, 0x35, 0x45, AND_K, RETURN, JUMP };
	int has_further = below(2), has_stray_ways = below(2), is_of_scratch = !below(4), is_followed = !below(4), i, left, many;

	length = draw_length();
	for (i = 0; i < length; i++) {
		left = length - 1 - i;
		draw_instruction(&program[i], left, has_further, has_stray_ways);
		if (is_of_scratch && below(2))
			draw_of(scratch, COUNT_OF(scratch), &program[i], left);
		if (is_followed && below(10))
			draw_of(followed, COUNT_OF(followed), &program[i], left);
		/* A long program that reads scratch words at random, or shifts by more than 31, would hardly be accepted. */
		if (length > 40 && (program[i].code == READ || program[i].code == READ_X))
			program[i].code -= READ;
		if (length > 600 && (program[i].code == SHIFT_LEFT || program[i].code == SHIFT_RIGHT))
			program[i].k &= 31;
	}
	if (length && below(60))
		draw_end(&program[length - 1]);
	if (is_followed && length > 1 && below(4))
		program[0] = (struct sock_filter){ LOAD, 0, 0, 0 };
	many = below(40) ? below(2) * below(3) : 1 + below(8);
	for (i = 0; i < many && length; i++) {
		left = below(length);
		damage(&program[length - 1 - left], left);
	}
}

/* A number with which the program compares, if it does so behind some place. */
static __u32 compared_number(void)
{
	int first = below(length), at = first;

	while (at < length && !is_conditional(program[at].code))
		at++;
	return program[at < length ? at : first].k;
}

void draw_record(struct seccomp_data *record)
{
	int i, kind = below(6);

	record->nr = kind == 0 ? number() : kind == 1 ? 0x40000000 | below(600) : below(600);
	if (kind > 3 && length)
		record->nr = compared_number();
	record->arch = below(10) ? PICK(machines) : any_number();
	record->instruction_pointer = below(3) ? any_number() : 0;
	for (i = 0; i < 6; i++)
		record->args[i] = (__u64)number() << 32 | number();
}

void write_bytes(const struct sock_filter *insns, int count)
{
	const unsigned char *bytes = (const unsigned char *)insns;
	int i;

	for (i = 0; i < count * (int)sizeof(*insns); i++) {
		putchar("0123456789abcdef"[bytes[i] >> 4]);
		putchar("0123456789abcdef"[bytes[i] & 15]);
	}
}

void write_record(const struct seccomp_data *record)
{
	int i;

	printf("%u %u %llu", record->nr, record->arch, (unsigned long long)record->instruction_pointer);
	for (i = 0; i < 6; i++)
		printf(" %llu", (unsigned long long)record->args[i]);
}
