/* The interface of libseccomp 2.5 and 2.6 as programs were compiled against it: numbers and shapes of seccomp.h. */
#ifndef INTERFACE_H
#define INTERFACE_H
#include <stddef.h>
#include <stdint.h>

typedef void *scmp_filter_ctx;
struct seccomp_notif; /* of the kernel, as the next one */
struct seccomp_notif_resp;
struct scmp_version { unsigned major, minor, micro; };

enum { /* attributes */
    DEFAULT_ACTION = 1, BAD_MACHINE_ACTION, NO_NEW_PRIVS, ALL_THREADS, RULES_FOR_SKIPPED, LOG_REFUSED, NO_SSB_MITIGATION, OPTIMIZE,
    ERRORS_OF_SYSTEM, WAIT_KILL, ATTRIBUTES
};

enum { NOT_EQUAL = 1, MASKED_EQUAL = 7 };
struct scmp_arg_cmp { unsigned arg; int op; uint64_t datum_a, datum_b; };

#define KILL_PROCESS 0x80000000u
#define KILL_THREAD 0x00000000u
#define TRAP 0x00030000u
#define ERRNO 0x00050000u
#define NOTIFY 0x7fc00000u
#define TRACE 0x7ff00000u
#define LOG 0x7ffc0000u
#define ALLOW 0x7fff0000u
#define ACTION 0xffff0000u /* the bits of an action; those below are its data */

enum { NO_SUCH_CALL = -1 }; /* __NR_SCMP_ERROR */
enum { SKIPPED = -1 };      /* the number of a call that a tracer skips */
enum { ARGUMENTS = 6 };
#endif
