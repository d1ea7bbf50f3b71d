/* What the parts of tests/linux share. */
#ifndef SIDE_H
#define SIDE_H

#include <stdio.h>
#include "linux.h"

#define COUNT_OF(list) ((int)(sizeof(list) / sizeof((list)[0])))
#define PICK(list) ((list)[below(COUNT_OF(list))])
#define MACHINE 0xc000003e

/* Numbers that look random, for each case the same ones in both runs. `place` counts from the first case of this run. */
extern long first_case;
void begin_case(long place);
__u64 any_number(void);
unsigned int below(unsigned int limit);

/* The first run writes questions, the second reads the answers: the lines of one. */
extern int asks, lines;
extern char answer[64][256];
void take_answer(void);

/* What the second run counts, and reports. */
void count(const char *what);
__attribute__((format(printf, 2, 3))) void differ(const char *what, const char *format, ...);

/* Drawn programs and records (drawn.c). */
extern struct sock_filter program[MOST];
extern int length;
extern const unsigned int verdicts[18];
void draw_program(void);
void draw_record(struct seccomp_data *record);
int is_conditional(unsigned int code);
int is_further(unsigned int code);
void write_bytes(const struct sock_filter *insns, int count);
void write_record(const struct seccomp_data *record);

/* The parts: so many cases of each. */
void try_programs(long cases);
void try_codes(long codes);
void try_strictest(long cases);
void try_effects(long cases);
void try_records(long cases);
void try_scripts(long cases);
void try_limits(long cases);

#endif
