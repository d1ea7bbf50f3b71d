/* What `ccell export linux-x86-64 CONFIG raw` writes, by the library: ./export CONFIG > FILTER
 * cc -I../../include -o export export.c libccell.a */
#include <ccell.h>
#include <err.h>
#include <stdio.h>
#include <stdlib.h>
#include <string.h>
#include <time.h>

static char text[1 << 22];
static uint8_t filter[CCELL_MOST_BYTES];

int main(int argc, char **argv) {
    FILE *file = argc == 2 || argc == 3 ? fopen(argv[1], "r") : NULL;
    if (!file) err(2, "usage: export CONFIG [TIMES]");
    size_t length = fread(text, 1, sizeof text, file), count = 0;
    uint32_t native = CCELL_X86_64;
#ifdef __aarch64__
    native = CCELL_AARCH64;
#endif
    uint32_t status = 0;
    int times = argc == 3 ? atoi(argv[2]) : 1;
    for (int i = 0; i < times; i++) {
        clock_t before = clock();
        status = ccell_filter_for_bundle(native, (const uint8_t *)text, length, filter, sizeof filter, &count);
        if (times > 1) fprintf(stderr, "%.1f ms\n", 1e3 * (double)(clock() - before) / CLOCKS_PER_SEC);
    }
    fwrite(filter, 1, count, status < 2 ? (status ? stderr : stdout) : stderr);
    return (int)status;
}
