/* Programs: whether both take one, its verdict on records, and which calls are let through without running it. */
#include "side.h"

#include <stdlib.h>
#include <string.h>

enum { RECORDS = 4, ALLOW = 0x7fff0000, URETPROBE = 335 };

/* By KERNEL.md and FILTERS.md: a program reads a scratch word that some path from its first instruction did not write. All else is taken. */
static int reads_unwritten(void)
{
	static int written[MOST + 300];
	int at, ways[2], i;

	memset(written, -1, sizeof(written));
	written[0] = 0;
	for (at = 0; at < length; at++) {
		const struct sock_filter *insn = &program[at];
		int here = written[at];

		if (here < 0 || insn->code == 0x06 || insn->code == 0x16)
			continue;
		if ((insn->code == 0x60 || insn->code == 0x61) && !(here >> insn->k & 1))
			return 1;
		if (insn->code == 0x02 || insn->code == 0x03)
			here |= 1 << insn->k;
		ways[0] = ways[1] = insn->code == 0x05 ? insn->k : 0;
		if (is_conditional(insn->code)) {
			ways[0] = insn->jt;
			ways[1] = insn->jf;
		}
		for (i = 0; i < 2; i++) {
			int *target = &written[at + 1 + ways[i]];

			*target = *target < 0 ? here : *target & here;
		}
	}
	return 0;
}

/* Whether Linux takes the program once no scratch word is read. */
static int is_taken_without_reads(void)
{
	static struct sock_filter copy[MOST];
	int i;

	memcpy(copy, program, length * sizeof(*copy));
	for (i = 0; i < length; i++) {
		if ((copy[i].code == 0x60 || copy[i].code == 0x61) && copy[i].k < BPF_MEMWORDS)
			copy[i].code -= 0x60;
	}
	return is_taken(copy, length);
}

static int has_further_code(void)
{
	int i;

	for (i = 0; i < length; i++) {
		if (is_further(program[i].code))
			return 1;
	}
	return 0;
}

/* Whether the kernel follows each instruction of it. */
static int is_followed(void)
{
	int i;

	for (i = 0; i < length; i++) {
		switch (program[i].code) {
		case 0x20:
			if (program[i].k > 4)
				return 0;
			break;
		case 0x05: case 0x15: case 0x25: case 0x35: case 0x45: case 0x54: case 0x06:
			break;
		default:
			return 0;
		}
	}
	return 1;
}

/* What Linux answers to the load beside what ccell does, by its lines; and beside the rules of the pages. */
static void judge_load(long got, int is_taken_here)
{
	int takes = got == 0, sound = is_taken_without_reads(), reads = sound && reads_unwritten(), has_further = has_further_code();

	count(takes ? is_taken_here ? "taken by both" : "taken by Linux alone: a further code (on the page)" :
	      is_taken_here ? "taken by ccell alone: scratch words in the order of the code (on the page)" : "refused by both");
	if (got != 0 && got != -22)
		differ("load", "%ld", got);
	if (is_taken_here != (sound && !reads && !has_further))
		differ("the pages' rule", "ccell %s, linux %ld, %d instructions", answer[0], got, length);
	if (takes && !is_taken_here && !(has_further && strstr(answer[0], " Code ")))
		differ("check", "linux takes it, ccell %s", answer[0]);
	if (!takes && is_taken_here && keeps_scratch_order(program, length))
		differ("check", "linux %ld, ccell takes it", got);
}

/* Linux's verdict on a record beside ccell's lines: the verdict, what it does, and whether ccell's own rule lets the call through by number
 * and machine. `uretprobe` passes each filter. */
static void judge_record(const struct seccomp_data *record)
{
	int is_fixed = !strcmp(answer[2], "true"), is_constant = is_constant_allow(record);
	unsigned int verdict = verdict_of_newest(record);
	int is_uretprobe = record->nr == URETPROBE && record->arch == MACHINE;

	count("verdicts");
	if (strtoul(answer[0], NULL, 16) != verdict)
		differ("verdict", "linux %#x, ccell %s", verdict, answer[0]);
	if (is_constant)
		count("let through by number and machine");
	if (is_constant && !is_fixed && !is_uretprobe)
		differ("allowed by number and machine", "by linux alone: number %u of %#x", record->nr, record->arch);
	if (is_constant && verdict != ALLOW && !is_uretprobe)
		differ("allowed by number and machine", "but %#x: number %u of %#x", verdict, record->nr, record->arch);
	if (is_fixed && (verdict & 0xffff0000) != ALLOW)
		differ("allowed by number and machine", "by ccell, but %#x: number %u of %#x", verdict, record->nr, record->arch);
	if (is_fixed && !is_constant && verdict == ALLOW && is_followed())
		differ("allowed by number and machine", "by ccell alone: number %u of %#x", record->nr, record->arch);
}

static void try_program(const struct seccomp_data *records, int many)
{
	long got;
	int i;

	if (asks) {
		printf("filter bytes ");
		write_bytes(program, length);
		putchar('\n');
		for (i = 0; i < many; i++) {
			printf("filter run ");
			write_record(&records[i]);
			putchar('\n');
		}
		return;
	}
	begin_anew();
	got = load_filter(program, length);
	count("programs");
	take_answer();
	if (lines)
		differ("bytes", "%s", answer[0]);
	for (i = 0; i < many; i++) {
		take_answer();
		if (i == 0)
			judge_load(got, lines == 3);
		if (got == 0 && lines == 3)
			judge_record(&records[i]);
	}
}

void try_programs(long cases)
{
	struct seccomp_data records[RECORDS];
	long i;
	int j;

	for (i = 0; i < cases; i++) {
		begin_case(i);
		draw_program();
		for (j = 0; j < RECORDS; j++)
			draw_record(&records[j]);
		if (below(2)) {
			records[1].nr = records[0].nr;
			records[1].arch = records[0].arch;
		}
		try_program(records, RECORDS);
	}
}

/* Each code with some numbers, between a store and two returns. */
void try_codes(long codes)
{
	static const __u32 numbers[] = { 0, 1, 4, 15, 16, 31, 32, 60, 63, 64, 0x7fffffff, 0xfffff000, 0xffffffff };
	const struct seccomp_data record = { 1, MACHINE, 77, { 1, 2, 3, 4, 5, 6 } };
	long code;
	int i;

	for (code = 0; code < codes; code++) {
		for (i = 0; i < COUNT_OF(numbers); i++) {
			length = 4;
			program[0] = (struct sock_filter){ 0x02, 0, 0, numbers[i] & 15 };
			program[1] = (struct sock_filter){ first_case + code, 0, 0, numbers[i] };
			program[2] = (struct sock_filter){ 0x06, 0, 0, 0x50001 };
			program[3] = (struct sock_filter){ 0x16, 0, 0, 0 };
			try_program(&record, 1);
		}
	}
}
