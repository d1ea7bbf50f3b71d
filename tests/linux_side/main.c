/* side PART SEED FIRST COUNT ask      writes the questions of so many cases, from the first one, for the program `ask`
 * side PART SEED FIRST COUNT judge    reads its answers, draws the same cases again, asks Linux's own functions, and compares */
#include "side.h"

#include <stdarg.h>
#include <stdlib.h>
#include <string.h>

enum { MOST_TOLD = 10, MOST_COUNTED = 200 };

static const struct { const char *name; void (*try)(long cases); } parts[] = {
	{ "programs", try_programs }, { "codes", try_codes }, { "strictest", try_strictest }, { "effects", try_effects },
	{ "records", try_records }, { "scripts", try_scripts }, { "limits", try_limits },
};

static __u64 seed, state;
long first_case;

void begin_case(long place)
{
	state = seed * 0x9e3779b97f4a7c15ull ^ (__u64)(first_case + place) * 0xd1342543de82ef95ull;
	any_number();
}

__u64 any_number(void)
{
	__u64 z = state += 0x9e3779b97f4a7c15ull;

	z = (z ^ z >> 30) * 0xbf58476d1ce4e5b9ull;
	z = (z ^ z >> 27) * 0x94d049bb133111ebull;
	return z ^ z >> 31;
}

unsigned int below(unsigned int limit)
{
	return (unsigned int)(any_number() >> 11) % limit;
}

int asks, lines;
char answer[64][256];

void take_answer(void)
{
	lines = 0;
	answer[0][0] = 0;
	while (fgets(answer[lines], sizeof(answer[0]), stdin)) {
		answer[lines][strcspn(answer[lines], "\n")] = 0;
		if (!strcmp(answer[lines], "."))
			return;
		if (lines < 62)
			lines++;
	}
	fprintf(stderr, "side: the answers end early\n");
	exit(3);
}

static struct { char name[80]; long often; } counts[MOST_COUNTED];
static int counted;
static long unlike;

void count(const char *what)
{
	int i;

	for (i = 0; i < counted && strcmp(counts[i].name, what); i++)
		;
	if (i == MOST_COUNTED)
		abort();
	if (i == counted)
		snprintf(counts[counted++].name, sizeof(counts[0].name), "%s", what);
	counts[i].often++;
}

void differ(const char *what, const char *format, ...)
{
	va_list rest;

	if (unlike++ >= MOST_TOLD)
		return;
	printf("unlike %s: ", what);
	va_start(rest, format);
	vprintf(format, rest);
	va_end(rest);
	putchar('\n');
}

int main(int argc, char **argv)
{
	static char room[1 << 16];
	int i, part = 0;

	while (argc == 6 && part < COUNT_OF(parts) && strcmp(argv[1], parts[part].name))
		part++;
	if (argc != 6 || part == COUNT_OF(parts))
		return 2;
	setvbuf(stdout, room, _IOFBF, sizeof(room));
	seed = strtoull(argv[2], NULL, 0);
	first_case = atol(argv[3]);
	asks = !strcmp(argv[5], "ask");
	parts[part].try(atol(argv[4]));
	if (asks)
		return 0;
	for (i = 0; i < counted; i++)
		printf("%ld %s\n", counts[i].often, counts[i].name);
	printf("%ld unlike\n", unlike);
	return 0;
}
