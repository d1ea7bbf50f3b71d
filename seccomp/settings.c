/* What the machine's owner has set, by files in one folder that nobody else can write. They are looked for once, when this library is
 * loaded. */
#define _GNU_SOURCE
#include "filter.h"
#include <errno.h>
#include <fcntl.h>
#include <stdlib.h>
#include <string.h>
#include <sys/stat.h>
#include <unistd.h>

#ifndef STRICT
#define STRICT "/etc/ccell/strict"
#endif
#ifndef MESSAGES
#define MESSAGES "/etc/ccell/messages"
#endif

bool is_strict, writes_messages;

/* Whether the owner alone can write this file or folder. In a user namespace root's files seem to be 65534's; then the caller must
 * not be able to write them either. */
static bool is_closed(const char *path, uid_t owner) {
    struct stat is;
    if (lstat(path, &is) || is.st_uid != owner || is.st_mode & (S_IWGRP | S_IWOTH)) return false;
    return owner == 0 || (faccessat(AT_FDCWD, path, W_OK, AT_EACCESS) && errno == EACCES);
}

/* Whether there is this file, and it and each folder above it are the owner's of the root folder alone. */
static bool is_set(const char *file) {
    struct stat is;
    char path[256];
    size_t length = strlen(file);
    if (length >= sizeof path || lstat(file, &is) || !S_ISREG(is.st_mode) || lstat("/", &is) || !is_closed("/", is.st_uid)) return false;
    memcpy(path, file, length + 1);
    for (char *slash = path + 1; (slash = strchr(slash, '/')); slash++) {
        *slash = 0;
        bool is_open = !is_closed(path, is.st_uid);
        *slash = '/';
        if (is_open) return false;
    }
    return is_closed(path, is.st_uid);
}

__attribute__((constructor)) static void look_for_settings(void) {
    is_strict = is_set(STRICT);
    writes_messages = secure_getenv("CCELL_MESSAGES") || is_set(MESSAGES);
}
