/* Preloaded into a program of the GNU C library: one of its requests is refused. REFUSED says which sort: `memory`, where a thread is
   a request too, since it needs a stack, or `write`, of which those to standard error don't count. REFUSED_REQUEST is its number,
   from 1. When it is refused, one byte is written to the file descriptor REFUSAL_TOLD. Where REFUSED is `narrow`, nothing is refused,
   and each write takes one byte. */
#define _GNU_SOURCE
#include <dlfcn.h>
#include <errno.h>
#include <pthread.h>
#include <stdatomic.h>
#include <stdlib.h>
#include <string.h>
#include <sys/syscall.h>
#include <unistd.h>

/* the library's own functions under their other names */
void *__libc_malloc(size_t size);
void *__libc_calloc(size_t count, size_t size);
void *__libc_realloc(void *old, size_t size);
void *__libc_memalign(size_t alignment, size_t size);

/* for each sort, the requests up to the refused one, with it; none is refused from 0 on */
static atomic_long memory, writes;
static int told, is_narrow;

__attribute__((constructor)) static void read_numbers(void)
{
    const char *sort = getenv("REFUSED"), *request = getenv("REFUSED_REQUEST"), *descriptor = getenv("REFUSAL_TOLD");
    if (!sort || !request || !descriptor)
        return;
    told = atoi(descriptor);
    is_narrow = !strcmp(sort, "narrow");
    if (!strcmp(sort, "memory"))
        memory = atol(request);
    if (!strcmp(sort, "write"))
        writes = atol(request);
}

static int is_refused(atomic_long *left, int why)
{
    if (*left <= 0 || atomic_fetch_sub(left, 1) != 1)
        return 0;
    if (syscall(SYS_write, told, "!", 1) != 1)
        abort();
    errno = why;
    return 1;
}

void *malloc(size_t size)
{
    return is_refused(&memory, ENOMEM) ? NULL : __libc_malloc(size);
}

void *calloc(size_t count, size_t size)
{
    return is_refused(&memory, ENOMEM) ? NULL : __libc_calloc(count, size);
}

void *realloc(void *old, size_t size)
{
    return is_refused(&memory, ENOMEM) ? NULL : __libc_realloc(old, size);
}

void *aligned_alloc(size_t alignment, size_t size)
{
    return is_refused(&memory, ENOMEM) ? NULL : __libc_memalign(alignment, size);
}

int pthread_create(pthread_t *thread, const pthread_attr_t *how, void *(*body)(void *), void *with)
{
    int (*create)(pthread_t *, const pthread_attr_t *, void *(*)(void *), void *) = dlsym(RTLD_NEXT, "pthread_create");
    return is_refused(&memory, EAGAIN) ? EAGAIN : create(thread, how, body, with);
}

ssize_t write(int file, const void *bytes, size_t count)
{
    if (file != STDERR_FILENO && is_refused(&writes, ENOSPC))
        return -1;
    return syscall(SYS_write, file, bytes, is_narrow && count > 1 ? 1 : count);
}
