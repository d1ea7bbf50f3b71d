/* The real side of tests/kernel: reads a line, carries out on this machine's kernel what it asks, and writes a line of answer.
 *
 * A line begins with its kind: `case` (cases.c), `tree` (tree.c), `width` (widths.c), `told` (told.c) or `listen` (listeners.c).
 * `ways` asks for the letters of the ways into the kernel, and the addresses behind their instructions. Each is carried out in a
 * child of its own. */
#include "side.h"

#include <signal.h>
#include <stdio.h>
#include <stdlib.h>
#include <string.h>
#include <sys/resource.h>
#include <sys/wait.h>

static int digit(char c)
{
	if (c >= '0' && c <= '9')
		return c - '0';
	if (c >= 'a' && c <= 'f')
		return c - 'a' + 10;
	return -1;
}

static long read_bytes(const char **at, unsigned char *bytes, size_t room)
{
	size_t count = 0;

	while (digit((*at)[0]) >= 0 && digit((*at)[1]) >= 0) {
		if (count == room)
			return -1;
		bytes[count++] = digit((*at)[0]) << 4 | digit((*at)[1]);
		*at += 2;
	}
	return count;
}

/* An instruction as this machine has it. A load of a half, at 8 to 63, is one of the other half of the same number elsewhere. */
static struct sock_filter own_insn(const unsigned char *bytes)
{
	struct sock_filter insn = {
		bytes[0] | bytes[1] << 8, bytes[2], bytes[3],
		bytes[4] | bytes[5] << 8 | bytes[6] << 16 | (unsigned int)bytes[7] << 24,
	};

#if __BYTE_ORDER__ == __ORDER_BIG_ENDIAN__
	if (insn.code == (BPF_LD | BPF_W | BPF_ABS) && insn.k >= 8 && insn.k < 64 && insn.k % 4 == 0)
		insn.k ^= 4;
#endif
	return insn;
}

long read_filter(const char **at, struct sock_filter *insns, size_t room)
{
	unsigned char *bytes = (unsigned char *)insns;
	long count = read_bytes(at, bytes, room), i;

	for (i = 0; i < count / 8; i++)
		insns[i] = own_insn(bytes + 8 * i);
	return count;
}

unsigned long read_number(const char **at)
{
	unsigned long number = 0;

	while (digit(**at) >= 0)
		number = number << 4 | (unsigned long)digit(*(*at)++);
	return number;
}

void tell_end(int whole, int status)
{
	if (whole)
		puts("end");
	else if (WIFSIGNALED(status))
		printf("signal %d\n", WTERMSIG(status));
	else
		printf("status %d\n", WEXITSTATUS(status));
}

static void tell_ways(void)
{
	int i;

	for (i = 0; i < way_count; i++)
		printf("%s%c:%lx", i ? " " : "", ways[i].letter, (unsigned long)ways[i].behind);
	putchar('\n');
}

static void answer(const char *line)
{
	static const struct {
		const char *kind;
		void (*on)(const char *line);
	} kinds[] = { { "case ", on_case }, { "tree ", on_tree }, { "width ", on_width }, { "told ", on_told },
		    { "listen ", on_listen } };
	size_t i;

	if (strncmp(line, "case ", 5))
		end_cases();
	if (!strcmp(line, "ways")) {
		tell_ways();
		return;
	}
	for (i = 0; i < sizeof(kinds) / sizeof(kinds[0]); i++) {
		size_t length = strlen(kinds[i].kind);

		if (!strncmp(line, kinds[i].kind, length)) {
			kinds[i].on(line + length);
			return;
		}
	}
	puts("unread");
}

/* What a child inherits: no core file, no large file, and at most 2 GiB of memory. (A limit of 1 byte on core files is the one by which
 * the kernel starts no program for them either.) */
static void limit_all(void)
{
	struct rlimit none = { 1, 1 }, small = { 1 << 20, 1 << 20 }, memory = { 2UL << 30, 2UL << 30 };

	setrlimit(RLIMIT_CORE, &none);
	setrlimit(RLIMIT_FSIZE, &small);
	setrlimit(RLIMIT_AS, &memory);
}

int main(int argc, char **argv)
{
	char *line = NULL;
	size_t room = 0;
	ssize_t length;

	if (argc == 3 && !strcmp(argv[1], "tree"))
		go_on_in_tree(argv[2]);
	limit_all();
	while ((length = getline(&line, &room, stdin)) > 0) {
		if (line[length - 1] == '\n')
			line[length - 1] = 0;
		answer(line);
		fflush(stdout);
	}
	end_cases();
	free(line);
	return 0;
}
