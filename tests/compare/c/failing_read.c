/* A read for LD_PRELOAD, in place of the C library's: it gives at most seven bytes a call, and the call whose number stands in
 * the environment as FAILING_READ, counted from 0, fails with EIO; those before and after it do not. */
#define _GNU_SOURCE
#include <errno.h>
#include <stdlib.h>
#include <sys/syscall.h>
#include <unistd.h>

ssize_t read(int fd, void *buf, size_t count)
{
    static long calls;
    const char *failing = getenv("FAILING_READ");
    if (failing && calls++ == atol(failing)) {
        errno = EIO;
        return -1;
    }
    return syscall(SYS_read, fd, buf, count < 7 ? count : 7);
}
