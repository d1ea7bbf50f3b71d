/* Makes one call with the arguments as they are given, all 64 bits of each, and tells what the kernel answered.
 *
 * Used as: call NUMBER [ARGUMENT ..]. As a program of 32 bits (gcc -m32) it makes calls of x86. */
#include <errno.h>
#include <stdio.h>
#include <stdlib.h>
#include <string.h>
#include <unistd.h>

int main(int count, char **words)
{
    long given[7] = {0};
    if (count < 2 || count > 8) {
        fprintf(stderr, "call NUMBER [ARGUMENT ..]\n");
        return 2;
    }
    for (int i = 1; i < count; i++)
        given[i - 1] = (long)strtoull(words[i], NULL, 0);
    long answer = syscall(given[0], given[1], given[2], given[3], given[4], given[5], given[6]);
    if (answer == -1)
        printf("refused: %s\n", strerror(errno));
    else
        printf("%ld\n", answer);
    return answer == -1;
}
