/*
 * Refuses memory to the program that it is preloaded into. The requests of malloc, calloc and realloc are counted from 1,
 * those of all threads together, and of the C library too, as when it starts a thread. What is to be refused, and what
 * was, stands in the file MEMORY_TALLY, which tests/memory writes and reads.
 *
 * Before its first function the program waits for orders: for each byte that MEMORY_ORDERS gives, a copy of it runs, and
 * its process and then its status are written to MEMORY_ENDS. So it is loaded once for all runs on the same words.
 */
#include <errno.h>
#include <fcntl.h>
#include <stdatomic.h>
#include <stddef.h>
#include <stdlib.h>
#include <sys/mman.h>
#include <sys/wait.h>
#include <unistd.h>

/* As in tests/memory. */
struct tally {
    unsigned long first, last;   /* the numbers of the requests to refuse */
    atomic_ulong asked, refused; /* how many requests there were, and how many of them were refused */
};

/* What the C library calls these itself. */
void *__libc_malloc(size_t size);
void *__libc_calloc(size_t count, size_t size);
void *__libc_realloc(void *old, size_t size);

static struct tally *tally;

static void open_tally(void)
{
    const char *path = getenv("MEMORY_TALLY");
    int file = path ? open(path, O_RDWR) : -1;
    struct tally *shared = mmap(NULL, sizeof *shared, PROT_READ | PROT_WRITE, MAP_SHARED, file, 0);
    if (shared != MAP_FAILED)
        tally = shared;
    if (file >= 0)
        close(file);
}

/* The file that a variable of the environment has the number of, or none. */
static int number_of(const char *variable)
{
    const char *number = getenv(variable);
    return number ? atoi(number) : -1;
}

/* Tells a number; where nobody hears it any more, the program ends. */
static void tell(int ends, int number)
{
    if (write(ends, &number, sizeof number) != sizeof number)
        _exit(0);
}

/* Comes back in a copy of the program for each order. */
__attribute__((constructor)) static void serve(void)
{
    int orders = number_of("MEMORY_ORDERS"), ends = number_of("MEMORY_ENDS");
    char order;
    open_tally();
    while (read(orders, &order, 1) == 1) {
        int status = 0;
        pid_t copy = fork();
        if (copy == 0) {
            close(orders);
            close(ends);
            return;
        }
        tell(ends, copy);
        if (copy > 0)
            waitpid(copy, &status, 0);
        tell(ends, status);
    }
    _exit(0);
}

static int is_refused(void)
{
    unsigned long number;
    if (!tally)
        return 0;
    number = 1 + atomic_fetch_add(&tally->asked, 1);
    if (number < tally->first || number > tally->last)
        return 0;
    atomic_fetch_add(&tally->refused, 1);
    errno = ENOMEM;
    return 1;
}

void *malloc(size_t size)
{
    return is_refused() ? NULL : __libc_malloc(size);
}

void *calloc(size_t count, size_t size)
{
    return is_refused() ? NULL : __libc_calloc(count, size);
}

void *realloc(void *old, size_t size)
{
    return is_refused() ? NULL : __libc_realloc(old, size);
}
