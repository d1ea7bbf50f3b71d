/* ccell_why.h - why ccell's library in libseccomp's place refused a call, or left something out.
 *
 * Only that library has this function, so the reference is weak: a program that is linked with -lseccomp and may run beside
 * libseccomp itself asks `if (ccell_why) ..` first. dlsym(RTLD_DEFAULT, "ccell_why") finds it as well.
 */
#ifndef CCELL_WHY_H
#define CCELL_WHY_H

#ifdef __cplusplus
extern "C" {
#endif

/* What this thread's last call of libseccomp's interface had to say: why it was refused, in one line, or for each thing that counts
 * for less than was asked a line, without a line feed behind the last. Empty where it had nothing to say, or where the error is one
 * that libseccomp's manual has for this. The text stands until this thread's next call of the interface. */
const char *ccell_why(void) __attribute__((weak));

#ifdef __cplusplus
}
#endif
#endif
