/* A `read` in place of the C library's, to try what the programs make of reads that a signal interrupts and of reads that fail: a byte
 * each time, every second call interrupted, and after READS bytes a failure, where READS is given. */
#include <errno.h>
#include <sys/syscall.h>
#include <unistd.h>

#ifndef READS
#define READS -1
#endif

ssize_t read(int fd, void *to, size_t count)
{
    static int calls, bytes;
    if (fd != STDIN_FILENO)
        return syscall(SYS_read, fd, to, count);
    if (calls++ % 2 == 0) {
        errno = EINTR;
        return -1;
    }
    if (bytes == READS) {
        errno = EIO;
        return -1;
    }
    bytes++;
    return syscall(SYS_read, fd, to, count < 1 ? count : 1);
}
