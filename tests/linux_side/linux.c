/* Linux's own functions, cut out of its source by cut.py, in one program with stubs, and what is asked of them. */
#include "tasks.h"
#include "core.inc"

static struct bpf_prog *bpf_prog_select_runtime(struct bpf_prog *program, int *error)
{
	*error = bpf_prog_select_interpreter(program) ? 0 : -ENOTSUPP;
	return program;
}

#include "filter.inc"

static u32 bpf_prog_run_pin_on_cpu(const struct bpf_prog *program, const void *record)
{
	return program->bpf_func(record, program->insnsi);
}

void get_seccomp_filter(struct task_struct *task);
#include "seccomp.inc"
#include "fork.inc"
#include "linux.h"

struct task_struct *current, table[MOST_TASKS];
int tasks_made, next_descriptor = FIRST_DESCRIPTOR;
struct seccomp_data presented;
struct fate fate;
static struct sighand_struct hand;
static struct signal_struct signals;

static struct task_struct *make_task(int number, int group)
{
	struct task_struct *task = &table[tasks_made++];

	memset(task, 0, sizeof(*task));
	task->number = number;
	task->group = group;
	task->sighand = &hand;
	task->signal = &signals;
	return task;
}

static void end_task(struct task_struct *task)
{
	if (task->has_ended)
		return;
	task->flags |= PF_EXITING;
	task->has_ended = true;
	seccomp_filter_release(task);
}

static void end_group(int group)
{
	int i;

	for (i = 0; i < tasks_made; i++) {
		if (table[i].group == group)
			end_task(&table[i]);
	}
}

static int count_live(int group)
{
	int i, live = 0;

	for (i = 0; i < tasks_made; i++)
		live += table[i].group == group && !table[i].has_ended;
	return live;
}

static struct task_struct *live_task(int number)
{
	int i;

	for (i = 0; i < tasks_made; i++) {
		if (table[i].number == number && !table[i].has_ended)
			return &table[i];
	}
	return NULL;
}

void begin_anew(void)
{
	int i;

	for (i = 0; i < tasks_made; i++)
		end_task(&table[i]);
	tasks_made = 0;
	current = make_task(1, 1);
}

long load_filter(const struct sock_filter *insns, int count)
{
	struct sock_fprog program = { count, (struct sock_filter *)insns };

	return do_seccomp(SECCOMP_SET_MODE_FILTER, 0, &program);
}

int is_taken(const struct sock_filter *insns, int count)
{
	static struct sock_filter copy[MOST];

	if (count < 1 || count > BPF_MAXINSNS)
		return 0;
	memcpy(copy, insns, count * sizeof(*copy));
	return bpf_check_classic(copy, count) == 0 && seccomp_check_filter(copy, count) == 0;
}

int keeps_scratch_order(const struct sock_filter *insns, int count)
{
	return check_load_and_stores(insns, count) == 0;
}

long translated_length(const struct sock_filter *insns, int count)
{
	static struct sock_filter copy[MOST];
	bool loads_packets = false;
	int length = 0;

	if (count < 1 || count > BPF_MAXINSNS)
		return 0;
	memcpy(copy, insns, count * sizeof(*copy));
	if (seccomp_check_filter(copy, count) || bpf_convert_filter(copy, count, NULL, &length, &loads_packets))
		return 0;
	return length;
}

unsigned int verdict_of_newest(const struct seccomp_data *record)
{
	return bpf_prog_run_pin_on_cpu(current->seccomp.filter->prog, record);
}

unsigned int verdict_of_all(const struct seccomp_data *record, int *place)
{
	struct seccomp_filter *match = NULL, *filter = current->seccomp.filter;
	unsigned int verdict = seccomp_run_filters(record, &match);

	for (*place = 0; filter && filter != match; filter = filter->prev)
		++*place;
	if (!match)
		*place = NO_PLACE;
	return verdict;
}

int is_constant_allow(const struct seccomp_data *record)
{
	struct seccomp_data copy = *record;

	return seccomp_is_const_allow(current->seccomp.filter->prog->orig_prog, &copy);
}

void fill_record(const struct seccomp_data *call, struct seccomp_data *record)
{
	current = table;
	presented = *call;
	memset(record, 0, sizeof(*record));
	populate_seccomp_data(record);
}

/* Presents a call to the current task's filters: whether it is let through. */
static bool present(const struct seccomp_data *call)
{
	presented = *call;
	memset(&fate, 0, sizeof(fate));
	return __secure_computing(NULL) == 0;
}

void take_effect(unsigned int verdict, struct effect *effect)
{
	const struct seccomp_data call = { 1, AUDIT_ARCH_X86_64 };
	struct sock_filter insns[] = { { 0x20, 0, 0, 16 }, { 0x06, 0, 0, verdict } };

	begin_anew();
	signals.live.counter = 2;
	if (load_filter(insns, 2))
		abort();
	effect->is_through = present(&call);
	effect->ends = fate.kind == EXITED ? "Task" : fate.kind == SIGNALLED ? "Group" : "Nothing";
	strcpy(effect->error, "None");
	if (fate.kind == RETURNED)
		sprintf(effect->error, "Some(%ld)", -fate.error);
}

/* The listener of the current task, which responds as the event says. */
static const struct event *at_hand;
static bool was_told;

void answer_by_listener(void)
{
	struct seccomp_filter *filter = current->seccomp.filter;
	struct seccomp_notif told = { 0 };
	struct seccomp_notif_resp response = { 0 };

	was_told = true;
	while (filter && !filter->notif)
		filter = filter->prev;
	if (at_hand->response == IS_CLOSED) {
		seccomp_notify_detach(filter);
		return;
	}
	if (seccomp_notify_recv(filter, &told))
		abort();
	response.id = told.id;
	if (at_hand->response == VALUE)
		response.val = at_hand->number;
	else if (at_hand->response == ERROR)
		response.error = -at_hand->number;
	else
		response.flags = SECCOMP_USER_NOTIF_FLAG_CONTINUE;
	if (seccomp_notify_send(filter, &response))
		abort();
}

static void refuse(const struct event *event, struct outcome *outcome)
{
	struct seccomp_filter *match = NULL;
	u32 verdict = seccomp_run_filters(&event->record, &match);
	bool responds = was_told && event->response != IS_CLOSED;

	if (fate.kind == NOT_SET)
		abort();
	if (fate.kind == EXITED)
		end_task(current);
	if (fate.kind == SIGNALLED)
		end_group(current->group);
	if ((verdict & SECCOMP_RET_ACTION_FULL) == SECCOMP_RET_USER_NOTIF && responds && event->response == VALUE)
		sprintf(outcome->said, "Answered(%ld)", fate.value);
	else if ((verdict & SECCOMP_RET_ACTION_FULL) == SECCOMP_RET_USER_NOTIF && responds)
		sprintf(outcome->said, "Declined(%ld)", -fate.error);
	else
		sprintf(outcome->said, "Denied(Word(%u))", verdict);
	strcpy(outcome->kind, responds ? "a listener responds" : was_told ? "a listener is closed" : "calls that are refused");
}

/* Of the new filter and the current task's own. */
static void count_instructions(const struct event *event, struct outcome *outcome)
{
	const struct seccomp_filter *filter;

	outcome->translated = translated_length(event->insns, event->count);
	outcome->classic = event->count;
	for (filter = current->seccomp.filter; outcome->translated && filter; filter = filter->prev) {
		outcome->translated += filter->prog->len + 4;
		outcome->classic += filter->prog->orig_prog->len + 4;
	}
}

static void load_by_event(const struct event *event, struct outcome *outcome)
{
	struct sock_fprog program = { event->count, (struct sock_filter *)event->insns }, *given = event->is_missing ? NULL : &program;
	const __u64 *args = event->record.args;
	long got = -EINVAL;

	if (event->record.nr == SECCOMP ? args[0] == SECCOMP_SET_MODE_FILTER : args[1] == SECCOMP_MODE_FILTER)
		count_instructions(event, outcome);
	if (event->record.nr == SECCOMP)
		got = sys_seccomp(args[0], args[1], (void *)given);
	else if (args[0] == 22)
		got = prctl_set_seccomp(args[1], (void *)given);
	if (got >= FIRST_DESCRIPTOR)
		strcpy(outcome->said, "a listener");
	else
		sprintf(outcome->said, got < 0 ? "Failed(%ld)" : "Done(%ld)", got < 0 ? -got : got);
	if (got < 0)
		sprintf(outcome->kind, "loads that fail %ld", -got);
	else
		strcpy(outcome->kind, got >= FIRST_DESCRIPTOR ? "loads with a listener" : got ? "loads that a thread is in the way of" : "loads");
}

static void let_through(const struct event *event, struct outcome *outcome)
{
	int number = tasks_made + 1;

	switch (event->record.nr) {
	case CLONE:
		copy_seccomp(make_task(number, event->record.args[0] & CLONE_AS_THREAD ? current->group : number));
		sprintf(outcome->said, "Done(%d)", number);
		strcpy(outcome->kind, "tasks that are made");
		break;
	case EXIT:
		end_task(current);
		strcpy(outcome->said, "Done(0)");
		strcpy(outcome->kind, "tasks that exit");
		break;
	case SECCOMP:
	case PRCTL:
		load_by_event(event, outcome);
		break;
	default:
		sprintf(outcome->said, "Done(%d)", event->record.nr == GETPID ? current->group : 0);
		strcpy(outcome->kind, was_told ? "calls that a listener continues" : "calls that are carried out");
	}
}

void carry_out(const struct event *event, struct outcome *outcome)
{
	int i;

	memset(outcome, 0, sizeof(*outcome));
	at_hand = event;
	was_told = false;
	current = live_task(event->task);
	if (!current) {
		current = table;
		strcpy(outcome->said, "NoTask");
		strcpy(outcome->kind, "calls of tasks that are not there");
		return;
	}
	signals.live.counter = count_live(current->group);
	if (present(&event->record))
		let_through(event, outcome);
	else
		refuse(event, outcome);
	outcome->was_closed = was_told && event->response == IS_CLOSED;
	for (i = 0; i < tasks_made && !count_live(1); i++)
		end_task(&table[i]);
}
