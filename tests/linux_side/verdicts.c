/* Verdicts: which of several counts, and what one does. And the records that Linux fills for a call. */
#include "side.h"

#include <stdlib.h>
#include <string.h>

enum { MOST_FILTERS = 6, ACTION = 0xffff0000 };

/* Loads a filter for each verdict, the last one first. Half of them load an argument, so that the kernel does not follow them. */
static void load_all(const __u32 *given, int many)
{
	int i, is_followed;

	begin_anew();
	for (i = many - 1; i >= 0; i--) {
		const struct sock_filter insns[2] = { { 0x20, 0, 0, 16 }, { 0x06, 0, 0, given[i] } };

		is_followed = below(2);
		if (load_filter(insns + is_followed, 2 - is_followed))
			abort();
	}
}

static void draw_verdicts(__u32 *given, int many)
{
	__u32 base = PICK(verdicts);
	int i, are_close = below(2);

	for (i = 0; i < many; i++) {
		__u32 action = are_close && below(2) ? base : PICK(verdicts);

		given[i] = below(3) ? (action & ACTION) | below(3) : below(2) ? any_number() : PICK(verdicts);
	}
}

/* Of equally strict verdicts the newest filter's counts. The kernel names no filter that allows all without data. */
void try_strictest(long cases)
{
	const struct seccomp_data record = { .nr = 1, .arch = MACHINE };
	__u32 given[MOST_FILTERS], verdict;
	long i;
	int j, place, first, many;

	for (i = 0; i < cases; i++) {
		begin_case(i);
		many = 1 + below(MOST_FILTERS);
		draw_verdicts(given, many);
		if (asks) {
			printf("verdict strictest %d", many);
			for (j = 0; j < many; j++)
				printf(" %u", given[j]);
			putchar('\n');
			continue;
		}
		load_all(given, many);
		verdict = verdict_of_all(&record, &place);
		take_answer();
		count("verdicts of several filters");
		if (strtoul(answer[0], NULL, 16) != verdict)
			differ("strictest", "linux %#x, ccell %s", verdict, answer[0]);
		for (first = 0; first < many && (given[first] & ACTION) != (verdict & ACTION); first++)
			;
		if (place != NO_PLACE && place != first)
			differ("strictest", "linux takes filter %d, and %d is the newest", place, first);
	}
}

void try_effects(long cases)
{
	struct effect effect;
	long i;

	for (i = 0; i < cases; i++) {
		__u32 verdict;

		begin_case(i);
		verdict = PICK(verdicts) & ACTION;
		verdict = below(3) ? verdict | (below(2) ? below(0x10000) : 4090 + below(10)) : any_number();
		if (asks) {
			printf("verdict effect %u\n", verdict);
			continue;
		}
		take_effect(verdict, &effect);
		take_answer();
		count("effects of verdicts");
		if (strcmp(answer[0], effect.ends) || strcmp(answer[1], effect.error) || strcmp(answer[2], effect.is_through ? "true" : "false"))
			differ("effect", "%#x: linux %s %s %d, ccell %s %s %s", verdict, effect.ends, effect.error, effect.is_through, answer[0],
			       answer[1], answer[2]);
	}
}

/* The bytes of a record, and its words. */
void try_records(long cases)
{
	struct seccomp_data call, record;
	long i;
	int j;

	for (i = 0; i < cases; i++) {
		char digits[2 * sizeof(record) + 1];

		begin_case(i);
		draw_record(&call);
		if (asks) {
			printf("verdict record ");
			write_record(&call);
			putchar('\n');
			continue;
		}
		fill_record(&call, &record);
		take_answer();
		count("records");
		for (j = 0; j < (int)sizeof(record); j++)
			sprintf(digits + 2 * j, "%02x", ((unsigned char *)&record)[j]);
		if (strcmp(digits, answer[0]))
			differ("record", "linux %s, ccell %s", digits, answer[0]);
		for (j = 0; j < 16; j++) {
			if (strtoul(answer[1 + j], NULL, 0) != ((__u32 *)&record)[j])
				differ("record", "word %d: %s", j, answer[1 + j]);
		}
	}
}
