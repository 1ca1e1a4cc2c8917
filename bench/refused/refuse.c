/* Refuses calls of the program that it is preloaded into.
 *
 * REFUSE names the calls that are counted: `memory` (malloc, calloc, realloc and the aligned ones), `thread`
 * (pthread_create), `read` (read) or `write` (write on descriptor 1). FROM is the number of the first one that is
 * refused, counted from 1, and COUNT how many are, from that one on. `half` is `write`, but that the first one takes
 * half of what it is given, and the next COUNT - 1 are refused.
 *
 * At the first one that is refused a byte is written to the descriptor TELL, so that it is known whether there was one. */
#define _GNU_SOURCE
#include <dlfcn.h>
#include <errno.h>
#include <pthread.h>
#include <stdlib.h>
#include <string.h>
#include <sys/syscall.h>
#include <unistd.h>

extern void *__libc_malloc(size_t);
extern void *__libc_calloc(size_t, size_t);
extern void *__libc_realloc(void *, size_t);
extern void *__libc_memalign(size_t, size_t);

static const char *kind = "";
static long from, count, met, tell;

__attribute__((constructor)) static void begin(void)
{
    const char *text = getenv("REFUSE");
    if (!text)
        return;
    from = atol(getenv("FROM"));
    count = atol(getenv("COUNT"));
    tell = atol(getenv("TELL"));
    kind = text;
}

/* The place of this call among those that are refused, from 1 on; 0 where it isn't one of them. */
static long place_of(const char *name)
{
    if (strcmp(kind, name) != 0)
        return 0;
    long place = __atomic_add_fetch(&met, 1, __ATOMIC_SEQ_CST) - from + 1;
    if (place < 1 || place > count)
        return 0;
    if (place == 1)
        syscall(SYS_write, tell, "r", 1);
    return place;
}

static void *refuse_memory(void)
{
    errno = ENOMEM;
    return NULL;
}

void *malloc(size_t size)
{
    return place_of("memory") ? refuse_memory() : __libc_malloc(size);
}

void *calloc(size_t number, size_t size)
{
    return place_of("memory") ? refuse_memory() : __libc_calloc(number, size);
}

void *realloc(void *old, size_t size)
{
    return place_of("memory") ? refuse_memory() : __libc_realloc(old, size);
}

void *aligned_alloc(size_t alignment, size_t size)
{
    return place_of("memory") ? refuse_memory() : __libc_memalign(alignment, size);
}

void *memalign(size_t alignment, size_t size)
{
    return aligned_alloc(alignment, size);
}

int posix_memalign(void **out, size_t alignment, size_t size)
{
    if (place_of("memory"))
        return ENOMEM;
    *out = __libc_memalign(alignment, size);
    return *out ? 0 : ENOMEM;
}

int pthread_create(pthread_t *thread, const pthread_attr_t *attributes, void *(*start)(void *), void *argument)
{
    static int (*real)(pthread_t *, const pthread_attr_t *, void *(*)(void *), void *);
    if (place_of("thread"))
        return EAGAIN;
    if (!real)
        real = dlsym(RTLD_NEXT, "pthread_create");
    return real(thread, attributes, start, argument);
}

ssize_t read(int descriptor, void *bytes, size_t size)
{
    if (place_of("read")) {
        errno = EIO;
        return -1;
    }
    return syscall(SYS_read, descriptor, bytes, size);
}

ssize_t write(int descriptor, const void *bytes, size_t size)
{
    if (descriptor == 1) {
        long half = place_of("half");
        if (half == 1)
            return syscall(SYS_write, descriptor, bytes, size / 2);
        if (half || place_of("write")) {
            errno = EIO;
            return -1;
        }
    }
    return syscall(SYS_write, descriptor, bytes, size);
}
