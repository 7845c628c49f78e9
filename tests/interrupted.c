/* To be preloaded into a program: every other read and write of it is interrupted, as it looks to the program, by a signal: nothing is moved, and errno is
 * EINTR. The first time it makes an empty file of the name that the environment has as INTERRUPTED, so that a test can see that it was in the way. */
#define _GNU_SOURCE
#include <errno.h>
#include <fcntl.h>
#include <stdlib.h>
#include <sys/syscall.h>
#include <unistd.h>

static unsigned long calls;

static int interrupted(void)
{
    const char *path = getenv("INTERRUPTED");

    if (calls++ % 2 != 0)
        return 0;
    if (calls == 1 && path != NULL)
        close(open(path, O_WRONLY | O_CREAT, 0666));
    errno = EINTR;
    return 1;
}

ssize_t read(int file, void *bytes, size_t count)
{
    return interrupted() ? -1 : syscall(SYS_read, file, bytes, count);
}

ssize_t write(int file, const void *bytes, size_t count)
{
    return interrupted() ? -1 : syscall(SYS_write, file, bytes, count);
}
