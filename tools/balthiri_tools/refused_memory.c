/* Stands before the C library (LD_PRELOAD): counts what a program asks of memory, and refuses some of it.

   A request is a call of malloc, calloc, realloc, reallocarray, aligned_alloc, memalign, posix_memalign or mmap, by the program or by a
   library for it, and one of pthread_create, which needs a stack. They are numbered from 1, from this library's constructor on: it runs
   behind the start of the loader and of the C library, whose own requests are not counted, and before main. Those from REFUSED_FIRST to
   REFUSED_LAST are refused as the call is refused where memory ends: NULL, MAP_FAILED, ENOMEM, of pthread_create EAGAIN. A block whose
   realloc is refused stays as it was.

   REFUSED_COUNTS names a file of two numbers of 64 bits, in the order of this machine: how many requests came, and how many of them were
   refused. It is mapped, so it is right however the process ends. */

#define _GNU_SOURCE
#include <dlfcn.h>
#include <errno.h>
#include <fcntl.h>
#include <pthread.h>
#include <stdint.h>
#include <stdlib.h>
#include <string.h>
#include <sys/mman.h>
#include <sys/syscall.h>
#include <unistd.h>

#define NO_COUNTS 125

struct counts {
    uint64_t requests;
    uint64_t refused;
};

typedef int starter(pthread_t *, const pthread_attr_t *, void *(*)(void *), void *);

extern void *__libc_malloc(size_t);
extern void *__libc_calloc(size_t, size_t);
extern void *__libc_realloc(void *, size_t);
extern void *__libc_memalign(size_t, size_t);

static struct counts *counts; /* none before the constructor */
static uint64_t first, last;
static starter *start_thread;

static uint64_t number_in(const char *name)
{
    const char *text = getenv(name);
    return text == NULL ? 0 : strtoull(text, NULL, 10);
}

static void *map(void *at, size_t length, int protection, int flags, int file, off_t offset)
{
    return (void *)syscall(SYS_mmap, at, length, protection, flags, file, offset);
}

__attribute__((constructor)) static void begin(void)
{
    const char *name = getenv("REFUSED_COUNTS");
    int file = name == NULL ? -1 : open(name, O_RDWR | O_CLOEXEC);
    void *page = map(NULL, sizeof *counts, PROT_READ | PROT_WRITE, MAP_SHARED, file, 0);

    start_thread = (starter *)dlsym(RTLD_NEXT, "pthread_create");
    if (file < 0 || page == MAP_FAILED || start_thread == NULL)
        _exit(NO_COUNTS);
    close(file);
    first = number_in("REFUSED_FIRST");
    last = number_in("REFUSED_LAST");
    counts = page;
}

/* Counts a request, and returns whether it is to be refused. */
static int is_refused(void)
{
    uint64_t number;

    if (counts == NULL)
        return 0;
    number = __atomic_add_fetch(&counts->requests, 1, __ATOMIC_SEQ_CST);
    if (number < first || number > last)
        return 0;
    __atomic_add_fetch(&counts->refused, 1, __ATOMIC_SEQ_CST);
    errno = ENOMEM;
    return 1;
}

void *malloc(size_t size)
{
    return is_refused() ? NULL : __libc_malloc(size);
}

void *calloc(size_t number, size_t size)
{
    return is_refused() ? NULL : __libc_calloc(number, size);
}

void *realloc(void *block, size_t size)
{
    return is_refused() ? NULL : __libc_realloc(block, size);
}

void *reallocarray(void *block, size_t number, size_t size)
{
    size_t all;

    if (__builtin_mul_overflow(number, size, &all)) {
        errno = ENOMEM;
        return NULL;
    }
    return is_refused() ? NULL : __libc_realloc(block, all);
}

void *memalign(size_t alignment, size_t size)
{
    return is_refused() ? NULL : __libc_memalign(alignment, size);
}

void *aligned_alloc(size_t alignment, size_t size)
{
    return is_refused() ? NULL : __libc_memalign(alignment, size);
}

int posix_memalign(void **block, size_t alignment, size_t size)
{
    void *found;

    if (alignment % sizeof(void *) != 0 || (alignment & (alignment - 1)) != 0 || alignment == 0)
        return EINVAL;
    found = is_refused() ? NULL : __libc_memalign(alignment, size);
    if (found == NULL)
        return ENOMEM;
    *block = found;
    return 0;
}

void *mmap(void *at, size_t length, int protection, int flags, int file, off_t offset)
{
    return is_refused() ? MAP_FAILED : map(at, length, protection, flags, file, offset);
}

void *mmap64(void *at, size_t length, int protection, int flags, int file, off_t offset)
{
    return is_refused() ? MAP_FAILED : map(at, length, protection, flags, file, offset);
}

int pthread_create(pthread_t *thread, const pthread_attr_t *attributes, void *(*work)(void *), void *with)
{
    return is_refused() ? EAGAIN : start_thread(thread, attributes, work, with);
}
