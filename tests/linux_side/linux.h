/* What is asked of Linux's own functions (linux.c). There is one current task, of a table that begins anew with each case. */
#ifndef LINUX_H
#define LINUX_H

#include <linux/filter.h>
#include <linux/seccomp.h>

enum { MOST = 4100, NO_PLACE = -1 };

/* A single task without filters. */
void begin_anew(void);

/* Loads a filter by seccomp(2) without flags: 0, or an error below 0. */
long load_filter(const struct sock_filter *insns, int count);

/* Whether Linux's check of classic programs and that of seccomp take a program; whether that of scratch words does; and how many
 * instructions it has once Linux translated it, or 0 if it is not taken. */
int is_taken(const struct sock_filter *insns, int count);
int keeps_scratch_order(const struct sock_filter *insns, int count);
long translated_length(const struct sock_filter *insns, int count);

/* The verdict of the newest filter on a record. */
unsigned int verdict_of_newest(const struct seccomp_data *record);

/* The verdict of all filters, and the place of the one that gives it: 0 for the newest, NO_PLACE if all allow. */
unsigned int verdict_of_all(const struct seccomp_data *record, int *place);

/* Whether Linux lets calls of the record's number and machine through the newest filter without running it. */
int is_constant_allow(const struct seccomp_data *record);

/* What Linux itself fills a record with for a call. */
void fill_record(const struct seccomp_data *call, struct seccomp_data *record);

/* What a verdict does: what ends (`Task`, `Group` or `Nothing`), the error in the caller's register (`Some(N)` or `None`), and whether the
 * call is let through. */
struct effect { const char *ends; char error[24]; int is_through; };
void take_effect(unsigned int verdict, struct effect *effect);

/* An event: a task makes a call, perhaps loads a filter by it, and a listener that is told may respond. */
enum response { IS_CLOSED, VALUE, ERROR, CONTINUES };
struct event {
	int task;
	struct seccomp_data record;
	int count, is_missing;
	enum response response;
	long long number;
	struct sock_filter insns[MOST];
};

/* What comes of an event, in the words of `ask`; `kind` is what to count it under. `translated` is how many instructions the task's
 * filters and the new one have, each old one with Linux's 4 more, and `classic` how many before Linux translated them; 0 if none is
 * loaded. `was_closed` tells that a listener was told and closed. */
struct outcome { char said[40]; char kind[60]; long translated, classic; int was_closed; };
void carry_out(const struct event *event, struct outcome *outcome);

enum { CLONE = 56, EXIT = 60, PRCTL = 157, SECCOMP = 317, GETPID = 39, GETUID = 102, CLONE_AS_THREAD = 0x10000 };

#endif
