/*
 * Put before a program by LD_PRELOAD, it refuses some of the program's requests for memory; tests/memory makes it.
 *
 * REFUSE_PLAN names a file of four numbers of 64 bits: the first and the last request that are refused, counted from 1, and,
 * written here, how many were made and how many of them were refused. The file is shared, so that the numbers stand there
 * however the program ends. What the loader asked for before is not counted.
 */
#include <errno.h>
#include <fcntl.h>
#include <stddef.h>
#include <stdint.h>
#include <stdlib.h>
#include <sys/mman.h>
#include <unistd.h>

/* The GNU C library's own. */
void *__libc_malloc(size_t size);
void *__libc_calloc(size_t count, size_t size);
void *__libc_realloc(void *old, size_t size);
void *__libc_memalign(size_t alignment, size_t size);

enum { no_plan = 99 };

struct plan {
    uint64_t first, last, asked, refused;
};

static struct plan *plan;

__attribute__((constructor)) static void begin(void)
{
    const char *name = getenv("REFUSE_PLAN");
    int file = name ? open(name, O_RDWR | O_CLOEXEC) : -1;
    if (file < 0)
        _exit(no_plan);
    void *place = mmap(NULL, sizeof *plan, PROT_READ | PROT_WRITE, MAP_SHARED, file, 0);
    if (place == MAP_FAILED)
        _exit(no_plan);
    close(file);
    plan = place;
}

static int is_refused(void)
{
    if (!plan)
        return 0;
    uint64_t number = __atomic_add_fetch(&plan->asked, 1, __ATOMIC_RELAXED);
    if (number < plan->first || number > plan->last)
        return 0;
    __atomic_add_fetch(&plan->refused, 1, __ATOMIC_RELAXED);
    errno = ENOMEM;
    return 1;
}

void *malloc(size_t size)
{
    return is_refused() ? NULL : __libc_malloc(size);
}

void *calloc(size_t count, size_t size)
{
    return is_refused() ? NULL : __libc_calloc(count, size);
}

void *realloc(void *old, size_t size)
{
    return is_refused() ? NULL : __libc_realloc(old, size);
}

void *memalign(size_t alignment, size_t size)
{
    return is_refused() ? NULL : __libc_memalign(alignment, size);
}

void *aligned_alloc(size_t alignment, size_t size)
{
    return memalign(alignment, size);
}

int posix_memalign(void **place, size_t alignment, size_t size)
{
    void *found = memalign(alignment, size);
    if (!found)
        return ENOMEM;
    *place = found;
    return 0;
}
