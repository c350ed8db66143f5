/* read.c: a read that moves at most three bytes a call, and fails from call READ_FAILS on. The runner is run with it in
 * place of the C library's. */
#include <errno.h>
#include <stdlib.h>
#include <sys/syscall.h>
#include <unistd.h>

ssize_t read(int fd, void *bytes, size_t count)
{
    static long calls;
    calls++;
    if (calls >= atol(getenv("READ_FAILS"))) {
        errno = EIO;
        return -1;
    }
    return syscall(SYS_read, fd, bytes, count < 3 ? count : 3);
}
