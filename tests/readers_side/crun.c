/* What crun reads of a config.json: libocispec's parser, as crun calls it, and the loop of libcrun_generate_seccomp, which here writes down
 * what it hands to libseccomp.
 *
 * Each line of standard input is a text in digits. The answer is a line of JSON, as of readers.go. */
#include <config.h>
#include <ctype.h>
#include <ocispec/runtime_spec_schema_config_schema.h>
#include <seccomp.h>
#include <stdio.h>
#include <stdlib.h>
#include <string.h>

typedef runtime_spec_schema_config_linux_seccomp section;
typedef runtime_spec_schema_defs_linux_syscall entry;

enum { MOST_ARGS = 6 };

static const char *const actions[] = { "SCMP_ACT_ALLOW", "SCMP_ACT_ERRNO", "SCMP_ACT_KILL", "SCMP_ACT_LOG", "SCMP_ACT_TRAP", "SCMP_ACT_TRACE",
				       "SCMP_ACT_KILL_PROCESS", "SCMP_ACT_KILL_THREAD", "SCMP_ACT_NOTIFY", NULL };
static const char *const operators[] = { "SCMP_CMP_NE", "SCMP_CMP_LT", "SCMP_CMP_LE", "SCMP_CMP_EQ", "SCMP_CMP_GE", "SCMP_CMP_GT",
					 "SCMP_CMP_MASKED_EQ", NULL };

static int is_among(const char *const *names, const char *name)
{
	while (*names && strcmp(*names, name))
		names++;
	return *names != NULL;
}

static const char *told_action(const char *name)
{
	return strcmp(name, "SCMP_ACT_KILL_THREAD") ? name + strlen("SCMP_ACT_") : "KILL";
}

static int takes_errno(const char *action)
{
	return !strcmp(action, "SCMP_ACT_ERRNO") || !strcmp(action, "SCMP_ACT_TRACE");
}

/* The name by which libseccomp knows a machine. */
static const char *machine_of(const char *name)
{
	static char lower[32];
	size_t i;

	if (!strncmp(name, "SCMP_ARCH_", 10))
		name += 10;
	for (i = 0; name[i] && i < sizeof(lower) - 1; i++)
		lower[i] = tolower((unsigned char)name[i]);
	lower[i] = 0;
	return lower;
}

static const char *fault_of_entry(const entry *call)
{
	size_t i;

	if (!call->action)
		return "no action";
	if (call->errno_ret_present && !takes_errno(call->action))
		return "errno with another action";
	if (!is_among(actions, call->action))
		return "no such action";
	for (i = 0; call->args && i < call->args_len && i < MOST_ARGS; i++) {
		if (call->args[i]->index >= MOST_ARGS)
			return "no such argument";
		if (!is_among(operators, call->args[i]->op))
			return "no such operator";
	}
	return NULL;
}

static const char *fault_of(const section *read)
{
	const char *fault = NULL;
	size_t i;

	if (!read->default_action)
		return "no default action";
	if (read->default_errno_ret_present && !takes_errno(read->default_action))
		return "errno with another action";
	if (!is_among(actions, read->default_action))
		return "no such action";
	for (i = 0; i < read->architectures_len; i++) {
		if (!seccomp_arch_resolve_name(machine_of(read->architectures[i])))
			return "no such machine";
	}
	for (i = 0; !fault && i < read->syscalls_len; i++)
		fault = fault_of_entry(read->syscalls[i]);
	return fault;
}

static void write_text(const char *text)
{
	putchar('"');
	for (; *text; text++) {
		unsigned char c = *text;

		if (c < 32 || c > 126 || c == '"' || c == '\\')
			printf("\\u%04x", c);
		else
			putchar(c);
	}
	putchar('"');
}

static void write_entry(const entry *call, const char *name)
{
	size_t i;

	printf("{\"name\":");
	write_text(name);
	printf(",\"action\":\"%s\",\"errno\":%d,\"args\":[", told_action(call->action), call->errno_ret_present ? (int)call->errno_ret : 1);
	for (i = 0; call->args && i < call->args_len && i < MOST_ARGS; i++)
		printf("%s{\"index\":%u,\"op\":\"%s\",\"value\":%lu,\"two\":%lu}", i ? "," : "", call->args[i]->index,
		       call->args[i]->op + strlen("SCMP_CMP_"), (unsigned long)call->args[i]->value, (unsigned long)call->args[i]->value_two);
	printf("]}");
}

static void write_section(const section *read)
{
	size_t i, j, written = 0;

	printf("{\"default\":\"%s\",\"errno\":%d,\"archs\":[", told_action(read->default_action),
	       read->default_errno_ret_present ? (int)read->default_errno_ret : 1);
	for (i = 0; i < read->architectures_len; i++) {
		const char *machine = machine_of(read->architectures[i]);

		printf("%s", i ? "," : "");
		write_text(!strcmp(machine, "x86_64") ? "amd64" : !strcmp(machine, "aarch64") ? "arm64" : machine);
	}
	printf("],\"entries\":[");
	for (i = 0; i < read->syscalls_len; i++) {
		for (j = 0; j < read->syscalls[i]->names_len; j++) {
			printf("%s", written++ ? "," : "");
			write_entry(read->syscalls[i], read->syscalls[i]->names[j]);
		}
	}
	puts("]}");
}

static void write_error(const char *error)
{
	printf("{\"error\":");
	write_text(error ? error : "refused");
	puts("}");
}

static void answer(const char *text)
{
	parser_error error = NULL;
	runtime_spec_schema_config_schema *bundle = runtime_spec_schema_config_schema_parse_data(text, NULL, &error);

	if (!bundle)
		write_error(error);
	else if (!bundle->linux || !bundle->linux->seccomp)
		puts("{\"off\":true}");
	else if (fault_of(bundle->linux->seccomp))
		write_error(fault_of(bundle->linux->seccomp));
	else
		write_section(bundle->linux->seccomp);
	free_runtime_spec_schema_config_schema(bundle);
	free(error);
}

static int digit(char c)
{
	return isdigit((unsigned char)c) ? c - '0' : c - 'a' + 10;
}

int main(void)
{
	char *line = NULL;
	size_t room = 0;

	while (getline(&line, &room, stdin) > 0) {
		char *text = line;
		const char *at;

		for (at = line; isxdigit((unsigned char)*at); at += 2)
			*text++ = digit(at[0]) << 4 | digit(at[1]);
		*text = 0;
		answer(line);
		fflush(stdout);
	}
	return 0;
}
