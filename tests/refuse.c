/* Refuses what a program asks of the operating system. The tests build this and have it loaded before a program (LD_PRELOAD).

   Growths of memory: what the program asks of the heap is counted from 1 on. REFUSE_ALONE=N refuses the Nth growth,
   REFUSE_FROM=N the Nth and all after it, REFUSE_FILE=NAME all that are asked for while the file of this name is open. The
   count stands in the file that REFUSE_COUNT names, 8 bytes, however the program ends.

   Standard input: reads are counted from 1 on. REFUSE_READ_ALONE=N has the Nth fail, REFUSE_READ_FROM=N the Nth and all after
   it. REFUSE_END=N ends the input after N bytes.

   Standard output: REFUSE_ROOM=N gives it room for N bytes. What finds no room fails, once where REFUSE_FULL is "alone" and
   then has room again, from then on where it is "from"; where it is "none" it takes no byte and does not fail.

   REFUSE_STEP=N has a call on either move N bytes at most. */
#define _GNU_SOURCE
#include <errno.h>
#include <fcntl.h>
#include <stdarg.h>
#include <stddef.h>
#include <stdlib.h>
#include <string.h>
#include <sys/mman.h>
#include <sys/syscall.h>
#include <unistd.h>

#define NONE (~0UL)

extern void *__libc_malloc(size_t);
extern void *__libc_calloc(size_t, size_t);
extern void *__libc_realloc(void *, size_t);
extern void *__libc_memalign(size_t, size_t);

static unsigned long unshared, *count = &unshared, alone, from;
static unsigned long reads, read_alone, read_from, left, room, step;
static const char *full, *large;
static int large_file = -1;

static unsigned long number(const char *name, unsigned long missing) {
    const char *text = getenv(name);
    return text ? strtoul(text, NULL, 10) : missing;
}

__attribute__((constructor)) static void begin(void) {
    const char *file = getenv("REFUSE_COUNT");
    int fd = file ? open(file, O_RDWR | O_CREAT, 0600) : -1;
    if (fd >= 0 && ftruncate(fd, sizeof *count) == 0) {
        void *shared = mmap(NULL, sizeof *count, PROT_READ | PROT_WRITE, MAP_SHARED, fd, 0);
        if (shared != MAP_FAILED) count = shared;
    }
    if (fd >= 0) close(fd);
    alone = number("REFUSE_ALONE", 0);
    from = number("REFUSE_FROM", NONE);
    read_alone = number("REFUSE_READ_ALONE", 0);
    read_from = number("REFUSE_READ_FROM", NONE);
    left = number("REFUSE_END", NONE);
    room = number("REFUSE_ROOM", NONE);
    step = number("REFUSE_STEP", NONE);
    full = getenv("REFUSE_FULL");
    large = getenv("REFUSE_FILE");
    *count = 0;
}

static int is_refused(void) {
    unsigned long n = ++*count;
    if (n != alone && n < from && large_file < 0) return 0;
    errno = ENOMEM;
    return 1;
}

void *malloc(size_t size) { return is_refused() ? NULL : __libc_malloc(size); }

void *calloc(size_t n, size_t size) { return is_refused() ? NULL : __libc_calloc(n, size); }

void *realloc(void *old, size_t size) { return is_refused() ? NULL : __libc_realloc(old, size); }

void *memalign(size_t align, size_t size) { return is_refused() ? NULL : __libc_memalign(align, size); }

void *aligned_alloc(size_t align, size_t size) { return memalign(align, size); }

int posix_memalign(void **to, size_t align, size_t size) {
    void *made = memalign(align, size);
    if (made == NULL) return ENOMEM;
    *to = made;
    return 0;
}

int open(const char *name, int flags, ...) {
    va_list more;
    va_start(more, flags);
    int fd = syscall(SYS_openat, AT_FDCWD, name, flags, flags & O_CREAT ? va_arg(more, mode_t) : 0);
    va_end(more);
    if (fd >= 0 && large && strcmp(name, large) == 0) large_file = fd;
    return fd;
}

int close(int fd) {
    if (fd == large_file) large_file = -1;
    return syscall(SYS_close, fd);
}

static size_t least(size_t one, size_t other) { return one < other ? one : other; }

ssize_t read(int fd, void *to, size_t size) {
    if (fd != STDIN_FILENO) return syscall(SYS_read, fd, to, size);
    unsigned long n = ++reads;
    if (n == read_alone || n >= read_from) {
        errno = EIO;
        return -1;
    }
    ssize_t came = syscall(SYS_read, fd, to, least(least(size, step), left));
    if (came > 0 && left != NONE) left -= came;
    return came;
}

ssize_t write(int fd, const void *bytes, size_t size) {
    if (fd != STDOUT_FILENO) return syscall(SYS_write, fd, bytes, size);
    if (room == 0 && size > 0) {
        if (strcmp(full ? full : "from", "none") == 0) return 0;
        if (strcmp(full ? full : "from", "alone") == 0) room = NONE;
        errno = ENOSPC;
        return -1;
    }
    ssize_t took = syscall(SYS_write, fd, bytes, least(least(size, step), room));
    if (took > 0 && room != NONE) room -= took;
    return took;
}
