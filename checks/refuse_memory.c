/* Preloaded into a program, it refuses the request for memory whose number REFUSED holds, counted from 1 over all threads.
   The file descriptor TOLD gets one byte then, so that refuse_memory.py sees whether there was such a request. When the program
   ends, COUNTED gets the number of all requests, for memory.py. */

#define _GNU_SOURCE
#include <errno.h>
#include <stdatomic.h>
#include <stdio.h>
#include <stdlib.h>
#include <sys/syscall.h>
#include <unistd.h>

void *__libc_malloc(size_t size);
void *__libc_calloc(size_t count, size_t size);
void *__libc_realloc(void *block, size_t size);
void *__libc_memalign(size_t alignment, size_t size);

static atomic_ulong requests;
static atomic_ulong refused;

void _exit(int status)
{
    const char *counted = getenv("COUNTED");
    if (counted)
        dprintf(atoi(counted), "%lu", atomic_load(&requests));
    syscall(SYS_exit_group, status);
    __builtin_unreachable();
}

static int is_refused(void)
{
    unsigned long number = atomic_load(&refused);
    if (number == 0) {
        const char *text = getenv("REFUSED");
        number = text ? strtoul(text, NULL, 10) : -1UL;
        atomic_store(&refused, number);
    }
    if (atomic_fetch_add(&requests, 1) + 1 != number)
        return 0;
    const char *told = getenv("TOLD");
    if (told && write(atoi(told), "x", 1) != 1)
        abort();
    errno = ENOMEM;
    return 1;
}

void *malloc(size_t size) { return is_refused() ? NULL : __libc_malloc(size); }

void *calloc(size_t count, size_t size) { return is_refused() ? NULL : __libc_calloc(count, size); }

void *realloc(void *block, size_t size) { return is_refused() ? NULL : __libc_realloc(block, size); }

void *aligned_alloc(size_t alignment, size_t size)
{
    return is_refused() ? NULL : __libc_memalign(alignment, size);
}

int posix_memalign(void **block, size_t alignment, size_t size)
{
    *block = is_refused() ? NULL : __libc_memalign(alignment, size);
    return *block ? 0 : ENOMEM;
}
