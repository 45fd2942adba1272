/*
 * Makes reading and writing fail in the program that it is preloaded into. DEVICE_READS has three numbers: the most bytes
 * that a read gives, which read fails, and with which error. DEVICE_WRITES has the most bytes that a write takes, how
 * many standard output takes in all, and the error after that, or 0 where it takes none then.
 */
#include <errno.h>
#include <stdio.h>
#include <stdlib.h>
#include <sys/syscall.h>
#include <unistd.h>

static unsigned long read_most = -1UL, read_fails_at, reads;
static unsigned long write_most = -1UL, write_room = -1UL;
static int read_error, write_error;

__attribute__((constructor)) static void open_devices(void)
{
    const char *read_words = getenv("DEVICE_READS");
    const char *write_words = getenv("DEVICE_WRITES");
    if (read_words && sscanf(read_words, "%lu %lu %d", &read_most, &read_fails_at, &read_error) != 3)
        abort();
    if (write_words && sscanf(write_words, "%lu %lu %d", &write_most, &write_room, &write_error) != 3)
        abort();
}

static size_t least(size_t a, size_t b)
{
    return a < b ? a : b;
}

ssize_t read(int file, void *to, size_t size)
{
    if (++reads == read_fails_at) {
        errno = read_error;
        return -1;
    }
    return syscall(SYS_read, file, to, least(size, read_most));
}

ssize_t write(int file, const void *from, size_t size)
{
    size_t count = least(size, write_most);
    if (file != STDOUT_FILENO)
        return syscall(SYS_write, file, from, size);
    if (write_room == 0 && size > 0) {
        errno = write_error;
        return write_error ? -1 : 0;
    }
    count = least(count, write_room);
    write_room -= count;
    return syscall(SYS_write, file, from, count);
}

ssize_t __write(int file, const void *from, size_t size)
{
    return write(file, from, size);
}
