/*
 * Loaded before the C library: the first read of each file that is opened gives what there is, and the next ones fail,
 * as on a failing device.
 */
#include <errno.h>
#include <stddef.h>
#include <sys/syscall.h>
#include <sys/types.h>
#include <unistd.h>

static int reads;

ssize_t read(int fd, void *buffer, size_t size)
{
    if (reads++ > 0) {
        errno = EIO;
        return -1;
    }
    return syscall(SYS_read, fd, buffer, size);
}

int close(int fd)
{
    reads = 0;
    return syscall(SYS_close, fd);
}
