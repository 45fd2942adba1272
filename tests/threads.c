/*
 * Counts the threads that the program starts into which it is preloaded, and refuses those after a number of them. The
 * counts stand in the file THREADS_TALLY, which tests/threads writes and reads, so they survive any end of the program.
 */
#define _GNU_SOURCE
#include <dlfcn.h>
#include <errno.h>
#include <fcntl.h>
#include <pthread.h>
#include <stdatomic.h>
#include <stdlib.h>
#include <sys/mman.h>
#include <threads.h>
#include <unistd.h>

/* As in tests/threads. */
struct tally {
    unsigned long most;   /* how many threads may start */
    atomic_ulong asked;   /* how many were to be started */
    atomic_ulong loaded;  /* how many programs were run with this file */
};

static struct tally *tally;

__attribute__((constructor)) static void open_tally(void)
{
    const char *path = getenv("THREADS_TALLY");
    int file = path ? open(path, O_RDWR) : -1;
    struct tally *shared = mmap(NULL, sizeof *shared, PROT_READ | PROT_WRITE, MAP_SHARED, file, 0);
    if (shared != MAP_FAILED) {
        tally = shared;
        atomic_fetch_add(&tally->loaded, 1);
    }
    if (file >= 0)
        close(file);
}

static int is_refused(void)
{
    return tally && atomic_fetch_add(&tally->asked, 1) >= tally->most;
}

int pthread_create(pthread_t *thread, const pthread_attr_t *attributes, void *(*start)(void *), void *argument)
{
    int (*real)(pthread_t *, const pthread_attr_t *, void *(*)(void *), void *) = dlsym(RTLD_NEXT, "pthread_create");
    return is_refused() ? EAGAIN : real(thread, attributes, start, argument);
}

int thrd_create(thrd_t *thread, thrd_start_t start, void *argument)
{
    int (*real)(thrd_t *, thrd_start_t, void *) = dlsym(RTLD_NEXT, "thrd_create");
    return is_refused() ? thrd_error : real(thread, start, argument);
}
