/* Scripts: tasks that make threads and processes, load filters with all flags, call, and end, and listeners that respond. */
#include "side.h"

#include <stdlib.h>
#include <string.h>

enum { MOST_EVENTS = 40, MOST_MADE = 12, TSYNC = 1, NEW_LISTENER = 8, TSYNC_ESRCH = 16, LONGEST = 32768 };

/* The container's own filter, which allows all: the answer to `profile compile`. */
static const char *const setup[] = { "profile build linux-x86-64 2147418112 1 linux-x86-64 0", "profile compile", "profile certify", "profile keep" };
static struct sock_filter own[64];
static int own_length;

static void read_own_filter(const char *digits)
{
	unsigned char *bytes = (unsigned char *)own;
	unsigned int byte;
	int at = 0;

	while (at < (int)sizeof(own) && sscanf(digits + 2 * at, "%2x", &byte) == 1)
		bytes[at++] = byte;
	own_length = at / sizeof(own[0]);
}

static void set_up(void)
{
	int i;

	for (i = 0; i < COUNT_OF(setup); i++) {
		if (asks) {
			puts(setup[i]);
			continue;
		}
		take_answer();
		if (i == 1)
			read_own_filter(answer[0]);
	}
}

enum kind { SHORT, LONG, FULL };

static void draw_flags(struct event *event, int is_long)
{
	static const __u32 flags[] = { 0, 0, 1, 1, 8, 8, 16, 17, 24, 25, 25, 9, 2, 4, 32, 64, 0x80000000 };

	event->record.nr = SECCOMP;
	event->record.args[0] = below(20) ? 1 : below(5);
	event->record.args[1] = is_long && below(3) ? 0 : below(30) ? PICK(flags) : (__u32)any_number();
	if (!below(8)) {
		event->record.nr = PRCTL;
		event->record.args[0] = 22;
		event->record.args[1] = below(8) ? 2 : below(4);
	}
}

/* A filter that allows all calls, or all but one. A long one has so many instructions more that do nothing, which Linux translates to one or to
 * three each. */
static void write_filter(struct event *event, int is_long, int more, int is_jump)
{
	static const __u32 answers[] = { 0x50001, 0x7fc00000, 0x7fc00000, 0x7ff00001, 0x7ffc0000, 0x7fff0000, 0x7fff0000, 0x51000, 0x50002, 0x7fc00005,
					 0, 0x80000000, 0x30007, 0x123 };
	int many = 0;

	if (below(4)) {
		event->insns[many++] = (struct sock_filter){ 0x20, 0, 0, 0 };
		event->insns[many++] = (struct sock_filter){ 0x15, 0, 1, below(3) ? GETPID : GETUID };
		event->insns[many++] = (struct sock_filter){ 0x06, 0, 0, PICK(answers) };
	}
	while (more-- > 0)
		event->insns[many++] = (struct sock_filter){ is_jump ? 0x15 : 0x00, is_jump, is_jump, 1 };
	if (is_long)
		event->insns[many++] = (struct sock_filter){ 0x00, 0, 0, 1 };
	event->insns[many++] = (struct sock_filter){ 0x06, 0, 0, 0x7fff0000 };
	event->count = many;
}

static void draw_filter(struct event *event, int is_long)
{
	int more = is_long ? below(6) ? 2000 + below(2000) : below(200) : 0;

	write_filter(event, is_long, more, !below(3));
	if (!below(25))
		event->insns[0].code = 0xffff;
	else
		event->is_missing = !below(25);
}

/* Loads that fill a task's filters up to the limit: how many instructions are left, of the filters or as Linux translates them, and how many
 * loads there were. The last load comes within 4 a filter of the limit: Linux counts so many more. */
static struct filling { int is_classic, left, loads; } filling;

/* The container's own filter, which has not been read yet while questions are written, has about so many instructions. */
enum { OWN = 10, NEARLY_FULL = 3900 };

static void begin_filling(void)
{
	filling = (struct filling){ below(2), LONGEST - OWN - 4, 1 };
}

static int counted_length(const struct event *event)
{
	return filling.is_classic ? event->count : translated_length(event->insns, event->count);
}

static void draw_last_filter(struct event *event)
{
	int near = below(2) ? OWN : 4 * filling.loads + OWN, aim = filling.left - near + below(2 * near + 1);
	const struct sock_filter nothing = { 0x00, 0, 0, 1 };

	write_filter(event, 1, 0, 0);
	for (aim -= counted_length(event); aim > 0; aim--) {
		event->insns[event->count] = event->insns[event->count - 1];
		event->insns[event->count++ - 1] = nothing;
	}
	filling.left = 0;
}

static void draw_filling(struct event *event, int made)
{
	int is_jump = !filling.is_classic && filling.left > 4 * NEARLY_FULL && !below(3);

	event->record.nr = below(4) ? SECCOMP : PRCTL;
	event->record.args[0] = event->record.nr == PRCTL ? 22 : 1;
	event->record.args[1] = event->record.nr == PRCTL ? 2 : below(2);
	event->task = made;
	if (filling.left >= NEARLY_FULL) {
		write_filter(event, 1, 1000 + below(NEARLY_FULL - 1500), is_jump);
		filling.left -= counted_length(event) + 4;
		filling.loads++;
	} else if (made == 1 && below(2)) {
		event->record.nr = CLONE;
		event->record.args[0] = below(2) ? CLONE_AS_THREAD : 0;
	} else {
		draw_last_filter(event);
	}
}

static void draw_event(struct event *event, int made, enum kind script)
{
	int kind = below(10), is_long = script == LONG;

	event->task = 1 + below(made < 6 ? made : 6);
	event->record = (struct seccomp_data){ .nr = below(2) ? GETPID : GETUID, .arch = MACHINE };
	event->count = event->is_missing = 0;
	if (is_long && below(4)) {
		event->task = 1;
		kind = below(5) ? 3 : 9;
	}
	if (script == FULL && filling.left) {
		draw_filling(event, made);
	} else if (kind < 2 && made < MOST_MADE) {
		event->record.nr = CLONE;
		event->record.args[0] = below(4) ? CLONE_AS_THREAD : 0;
	} else if (kind < 6) {
		draw_flags(event, is_long);
		draw_filter(event, is_long);
	} else if (kind == 6 && !below(3)) {
		event->record.nr = EXIT;
	}
	event->response = below(4);
	event->number = below(2) ? below(4095) + 1 : 1;
}

static void ask(const struct event *event)
{
	static const char *const responses[] = { "", " value ", " error ", " continue" };

	printf("kernel call c %d ", event->task);
	write_record(&event->record);
	putchar(' ');
	if (event->count && !event->is_missing)
		write_bytes(event->insns, event->count);
	fputs(responses[event->response], stdout);
	if (event->response == VALUE || event->response == ERROR)
		printf("%lld", event->number);
	putchar('\n');
}

/* Under which words KERNEL.md has that Linux answers otherwise; none if it has not. */
static const char *on_the_page(const struct event *event, const struct outcome *outcome)
{
	const __u64 *args = event->record.args;
	int is_refused = !strcmp(answer[0], "Failed(22)");

	if (event->record.nr == SECCOMP && (__u32)args[1] & ~(__u32)(TSYNC | NEW_LISTENER | TSYNC_ESRCH) && is_refused)
		return "a further flag (on the page)";
	if (event->record.nr == SECCOMP && args[0] != 1 && is_refused)
		return "a further operation (on the page)";
	if (event->record.nr == PRCTL && args[1] != 2)
		return "strict mode (on the page)";
	if (outcome->translated > LONGEST && outcome->classic <= LONGEST && !strcmp(outcome->said, "Failed(12)"))
		return "the limit counts translated instructions (on the page)";
	return NULL;
}

/* Whether the script goes on behind an event: it does not once the two sides have another state. */
static int judge(const struct event *event, const struct outcome *outcome)
{
	int is_descriptor = !strcmp(outcome->said, "a listener"), is_too_long = !strcmp(outcome->said, "Failed(12)");
	int loads = is_descriptor || !strncmp(outcome->said, "Done(", 5);
	const char *named;

	count("events");
	count(outcome->kind);
	if (strcmp(answer[0], answer[1]))
		differ("two ways to keep filters", "%s, %s", answer[0], answer[1]);
	if (outcome->translated && (is_too_long || loads) && is_too_long != (outcome->translated > LONGEST))
		differ("the limit", "%s with %ld translated instructions", outcome->said, outcome->translated);
	if (outcome->classic && outcome->classic <= LONGEST && !strcmp(answer[0], "Failed(12)"))
		differ("the pages' limit", "ccell refuses %ld instructions", outcome->classic);
	if (!strcmp(outcome->said, answer[0]) || (is_descriptor && !strncmp(answer[0], "Done(", 5) && strcmp(answer[0], "Done(0)"))) {
		if (outcome->was_closed)
			count("scripts that end where a listener is closed (on the page)");
		return !outcome->was_closed;
	}
	named = on_the_page(event, outcome);
	if (named)
		count(named);
	else
		differ("event", "task %d, call %u (%#llx, %#llx), %d instructions: linux %s, ccell %s", event->task, event->record.nr,
		       event->record.args[0], event->record.args[1], event->count, outcome->said, answer[0]);
	return 0;
}

static void try_script(enum kind script)
{
	static struct event event;
	struct outcome outcome;
	int made = 1, events = script == SHORT ? 4 + below(14) : MOST_EVENTS, goes_on = 1, i;

	begin_filling();
	if (asks) {
		puts("kernel admit c 0");
	} else {
		take_answer();
		begin_anew();
		if (load_filter(own, own_length))
			abort();
	}
	for (i = 0; i < events; i++) {
		draw_event(&event, made, script);
		made += event.record.nr == CLONE;
		if (asks) {
			ask(&event);
			continue;
		}
		take_answer();
		if (!goes_on)
			continue;
		carry_out(&event, &outcome);
		goes_on = judge(&event, &outcome);
	}
}

void try_scripts(long cases)
{
	long i;

	set_up();
	for (i = 0; i < cases; i++) {
		begin_case(i);
		count("scripts");
		try_script(SHORT);
	}
}

/* Scripts that come near the limit on instructions. */
void try_limits(long cases)
{
	long i;

	set_up();
	for (i = 0; i < cases; i++) {
		begin_case(i);
		count("scripts up to the limit");
		try_script(below(2) ? LONG : FULL);
	}
}
