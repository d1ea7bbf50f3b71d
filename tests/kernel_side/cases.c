/* A case: a child loads filters, makes calls, and what came of each is told.
 *
 * The line is FILTERS and CALLS, each `-` or with commas between. A filter is its bytes in digits; a call is the letter of its way
 * in, and its number and arguments in hexadecimal, with colons before each. The answer has what came of each load and of each call
 * that was made, and how the child ended. The number of the child itself is told as `pid`. Some children work at once, so answers come
 * when a few are asked for, or none is any more. */
#include "side.h"

#include <stdio.h>
#include <stdlib.h>
#include <string.h>
#include <sys/mman.h>
#include <sys/wait.h>
#include <unistd.h>

enum { MOST_FILTERS = 8, MOST_CALLS = 16, MOST_BYTES = 8 * 4200, MOST_AT_ONCE = 16 };

struct plan {
	int filters, calls;
	unsigned short counts[MOST_FILTERS];
	struct sock_filter insns[MOST_FILTERS][MOST_BYTES / 8];
	const struct way *by[MOST_CALLS];
	struct call asked[MOST_CALLS];
};

/* What the child leaves in memory that it shares. */
struct seen {
	int loaded, called, whole;
	long loads[MOST_FILTERS], results[MOST_CALLS];
};

static int read_filters(struct plan *plan, const char **at)
{
	plan->filters = 0;
	if (**at == '-') {
		++*at;
		return 1;
	}
	for (;;) {
		int here = plan->filters++;
		long bytes;

		if (here == MOST_FILTERS)
			return 0;
		bytes = read_filter(at, plan->insns[here], MOST_BYTES);
		if (bytes < 0 || bytes % 8)
			return 0;
		plan->counts[here] = bytes / 8;
		if (**at != ',')
			return 1;
		++*at;
	}
}

static const struct way *way_of(char letter)
{
	int i;

	for (i = 0; i < way_count; i++) {
		if (ways[i].letter == letter)
			return &ways[i];
	}
	return NULL;
}

static int read_calls(struct plan *plan, const char **at)
{
	plan->calls = 0;
	if (**at == '-')
		return 1;
	for (;;) {
		int here = plan->calls++, i;
		struct call *call = &plan->asked[here];

		if (here == MOST_CALLS)
			return 0;
		memset(call, 0, sizeof(*call));
		plan->by[here] = way_of(*(*at)++);
		if (!plan->by[here] || *(*at)++ != ':')
			return 0;
		call->number = read_number(at);
		for (i = 0; i < 6 && **at == ':'; i++) {
			++*at;
			call->args[i] = read_number(at);
		}
		if (**at != ',')
			return 1;
		++*at;
	}
}

static _Noreturn void carry_out(const struct plan *plan, struct seen *seen)
{
	int i;

	limit_child(FEW_SECONDS);
	give_up_privileges();
	for (i = 0; i < plan->filters; i++) {
		seen->loads[i] = load(plan->insns[i], plan->counts[i]);
		seen->loaded = i + 1;
	}
	for (i = 0; i < plan->calls; i++) {
		const struct call *call = &plan->asked[i];

		seen->results[i] = plan->by[i]->enter(call);
		seen->called = i + 1;
	}
	seen->whole = 1;
	leave();
}

static void tell_numbers(const long *numbers, int count, long pid)
{
	int i;

	for (i = 0; i < count; i++) {
		if (numbers[i] == pid)
			printf("%spid", i ? "," : "");
		else
			printf("%s%ld", i ? "," : "", numbers[i]);
	}
	fputs(count ? " " : "- ", stdout);
}

/* Cases that are under way. */
static struct {
	pid_t child;
	struct seen *seen;
} begun[MOST_AT_ONCE];
static int begun_count;

void end_cases(void)
{
	int i, status;

	for (i = 0; i < begun_count; i++) {
		const struct seen *seen = begun[i].seen;

		if (begun[i].child < 0) {
			puts("unread");
			continue;
		}
		status = 0;
		waitpid(begun[i].child, &status, 0);
		tell_numbers(seen->loads, seen->loaded, 0x7fffffff);
		tell_numbers(seen->results, seen->called, begun[i].child);
		tell_end(seen->whole, status);
	}
	begun_count = 0;
}

void on_case(const char *line)
{
	static struct plan plan;
	static struct seen *seen;
	int here = begun_count++;

	if (!seen)
		seen = mmap(NULL, MOST_AT_ONCE * sizeof(*seen), PROT_READ | PROT_WRITE, MAP_SHARED | MAP_ANONYMOUS, -1, 0);
	begun[here].child = -1;
	if (seen != MAP_FAILED && read_filters(&plan, &line) && *line++ == ' ' && read_calls(&plan, &line)) {
		begun[here].seen = &seen[here];
		memset(&seen[here], 0, sizeof(*seen));
		begun[here].child = fork();
		if (begun[here].child == 0)
			carry_out(&plan, &seen[here]);
	}
	if (begun_count == MOST_AT_ONCE)
		end_cases();
}
