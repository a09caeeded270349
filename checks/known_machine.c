/* Preloaded into a program, it makes known what else depends on the machine. The K-th reading of the clock, counted from 0, is
   K * K milliseconds. The file descriptor THREADS gets one byte for each thread that the program starts. If there is a number
   MOST, no more threads than that can be started. If there is a word HASTE, the readings are in seconds, and a thread that waits
   for some time for another one waits for a microsecond. */

#define _GNU_SOURCE
#include <dlfcn.h>
#include <errno.h>
#include <pthread.h>
#include <stdarg.h>
#include <stdatomic.h>
#include <stdlib.h>
#include <sys/syscall.h>
#include <time.h>
#include <unistd.h>

static atomic_ulong readings;
static atomic_ulong threads_asked;

int clock_gettime(clockid_t clock, struct timespec *time)
{
    unsigned long reading = atomic_fetch_add(&readings, 1);
    unsigned long millis = reading * reading * (getenv("HASTE") ? 1000 : 1);
    (void)clock;
    time->tv_sec = millis / 1000;
    time->tv_nsec = millis % 1000 * 1000000;
    return 0;
}

/* A program waits by the system's call `futex`, whose fourth argument is how long. */
long syscall(long number, ...)
{
    static const struct timespec moment = {0, 1000};
    long (*call)(long, ...) = dlsym(RTLD_NEXT, "syscall");
    long given[6];
    va_list more;
    va_start(more, number);
    for (int at = 0; at < 6; at++)
        given[at] = va_arg(more, long);
    va_end(more);
    if (!call)
        abort();
    if (number == SYS_futex && given[3] && getenv("HASTE"))
        given[3] = (long)&moment;
    return call(number, given[0], given[1], given[2], given[3], given[4], given[5]);
}

int pthread_create(pthread_t *thread, const pthread_attr_t *attributes, void *(*start)(void *), void *argument)
{
    int (*create)(pthread_t *, const pthread_attr_t *, void *(*)(void *), void *) = dlsym(RTLD_NEXT, "pthread_create");
    const char *threads = getenv("THREADS");
    const char *most = getenv("MOST");
    if (most && atomic_fetch_add(&threads_asked, 1) >= strtoul(most, NULL, 10))
        return EAGAIN;
    if (!create || (threads && write(atoi(threads), "x", 1) != 1))
        abort();
    return create(thread, attributes, start, argument);
}
