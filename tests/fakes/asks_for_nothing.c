/*
 * The program that REAL_PROGRAM names, without tests/memory.c: it has its answers, but none of its requests for memory
 * is counted or refused.
 */
#include <stdlib.h>
#include <string.h>
#include <unistd.h>

extern char **environ;

int main(int count, char **words)
{
    char *kept[512];
    size_t to = 0;
    (void)count;
    for (char **it = environ; *it && to < 511; it++)
        if (strncmp(*it, "LD_PRELOAD=", 11) != 0)
            kept[to++] = *it;
    kept[to] = NULL;
    execve(getenv("REAL_PROGRAM"), words, kept);
    return 70;
}
