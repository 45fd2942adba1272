/*
 * nrcheck on a match that is stable, which asks for memory as often as it is to be refused. Its line of code 30 always
 * names the match.
 */
#include <stdlib.h>
#include <unistd.h>

static int tell(const char *text, size_t size, int status)
{
    return write(1, text, size) == (ssize_t)size ? status : 9;
}

int main(void)
{
    static const char refused[] = "check,1,refused,30,OutOfMemory,match,0,-\n", stable[] = "check,1,stable\n";
    for (int i = 0; i < 500; i++) {
        void *volatile asked = malloc(8);
        if (!asked)
            return tell(refused, sizeof refused - 1, 4);
    }
    return tell(stable, sizeof stable - 1, 0);
}
