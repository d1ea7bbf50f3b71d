/* Runs a command under a filter: ./under FILTER COMMAND [WORD..]
 * gcc -Wall -O2 -static -o under under.c
 *
 * FILTER has the bytes of `ccell export .. raw`. What the command's own filters refuse stays refused. */
#include <err.h>
#include <linux/filter.h>
#include <linux/seccomp.h>
#include <stdio.h>
#include <sys/prctl.h>
#include <unistd.h>

static struct sock_filter program[BPF_MAXINSNS];

int main(int argc, char **argv) {
    if (argc < 3) errx(2, "usage: under FILTER COMMAND [WORD..]");
    FILE *file = fopen(argv[1], "rb");
    if (!file) err(1, "%s", argv[1]);
    size_t length = fread(program, 1, sizeof program, file);
    if (ferror(file) || length % sizeof *program || getc(file) != EOF) errx(1, "%s is no filter, or not a whole one", argv[1]);
    fclose(file);
    struct sock_fprog whole = {(unsigned short)(length / sizeof *program), program};
    if (prctl(PR_SET_NO_NEW_PRIVS, 1, 0, 0, 0)) err(1, "no_new_privs");
    if (prctl(PR_SET_SECCOMP, SECCOMP_MODE_FILTER, &whole)) err(1, "the kernel does not take %s", argv[1]);
    execvp(argv[2], argv + 2);
    err(1, "%s", argv[2]);
}
