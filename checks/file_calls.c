/* Preloaded into a program, it names the calls that open, write, rename or remove files: the file descriptor CALLS gets a line
   for each. The call whose number AT holds, counted from 1, fails with the error ERROR, or if there is none the program is killed
   there. If it is a write, half of it is written before. With STOPS the program is stopped before that call, which doesn't fail. */

#define _GNU_SOURCE
#include <errno.h>
#include <fcntl.h>
#include <signal.h>
#include <stdarg.h>
#include <stdio.h>
#include <stdlib.h>
#include <sys/stat.h>
#include <sys/syscall.h>
#include <unistd.h>

static unsigned long calls;

static int is_met(const char *name)
{
    const char *named = getenv("CALLS");
    const char *at = getenv("AT");
    if (named)
        dprintf(atoi(named), "%s\n", name);
    if (!at || ++calls != strtoul(at, NULL, 10))
        return 0;
    if (!getenv("STOPS"))
        return 1;
    raise(SIGSTOP);
    return 0;
}

static int fail(void)
{
    const char *error = getenv("ERROR");
    if (!error)
        raise(SIGKILL);
    errno = atoi(error);
    return -1;
}

int open(const char *path, int flags, ...)
{
    va_list more;
    va_start(more, flags);
    mode_t mode = flags & O_CREAT ? va_arg(more, mode_t) : 0;
    va_end(more);
    return is_met("open") ? fail() : syscall(SYS_openat, AT_FDCWD, path, flags, mode);
}

ssize_t write(int file, const void *bytes, size_t count)
{
    if (!is_met(file > 2 ? "write" : "print"))
        return syscall(SYS_write, file, bytes, count);
    syscall(SYS_write, file, bytes, count / 2);
    return fail();
}

int ftruncate(int file, off_t size) { return is_met("ftruncate") ? fail() : syscall(SYS_ftruncate, file, size); }

int fchmod(int file, mode_t mode) { return is_met("fchmod") ? fail() : syscall(SYS_fchmod, file, mode); }

int fsync(int file) { return is_met("fsync") ? fail() : syscall(SYS_fsync, file); }

int rename(const char *from, const char *to)
{
    return is_met("rename") ? fail() : syscall(SYS_renameat2, AT_FDCWD, from, AT_FDCWD, to, 0);
}

int unlink(const char *path) { return is_met("unlink") ? fail() : syscall(SYS_unlinkat, AT_FDCWD, path, 0); }
