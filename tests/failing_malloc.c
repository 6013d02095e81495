/* Stands between a program and the C library, and refuses one of its allocations.
 *
 *     gcc -O2 -shared -fPIC -o failing_malloc.so failing_malloc.c -ldl
 *     FAIL_AT=7 LD_PRELOAD=./failing_malloc.so PROGRAM
 *
 * FAIL_AT is the number of the allocation that is refused, counted from 1 in the order in which all threads make them;
 * without it none is. A block that grows counts as an allocation. FAIL_REPORT names a file into which the program's end
 * writes how many there were. FAIL_SWITCH names a file of at least one octet: while that octet isn't 0, each allocation of at
 * least FAIL_FROM octets is refused; without FAIL_FROM each one.
 */
#define _GNU_SOURCE
#include <dlfcn.h>
#include <errno.h>
#include <fcntl.h>
#include <stdio.h>
#include <stdlib.h>
#include <sys/mman.h>
#include <sys/syscall.h>
#include <unistd.h>

static void *(*next_malloc)(size_t);
static void *(*next_realloc)(void *, size_t);
static void *(*next_aligned_alloc)(size_t, size_t);
static int (*next_posix_memalign)(void **, size_t, size_t);

static long count;
static long refused;
static const volatile char *all_refused;
static size_t refused_from;

/* What the C library has under a name. */
static void *next(const char *name)
{
    void *found = dlsym(RTLD_NEXT, name);
    if (found == NULL) {
        fprintf(stderr, "failing_malloc: the C library has no %s\n", name);
        _Exit(125);
    }
    return found;
}

/* Looks at the octet of the file that FAIL_SWITCH names from now on. */
static void map_switch(void)
{
    const char *path = getenv("FAIL_SWITCH");
    int file = path != NULL ? open(path, O_RDONLY) : -1;
    if (file < 0)
        return;
    void *page = mmap(NULL, 1, PROT_READ, MAP_SHARED, file, 0);
    close(file);
    if (page != MAP_FAILED)
        all_refused = page;
}

__attribute__((constructor)) static void begin(void)
{
    const char *number = getenv("FAIL_AT");
    const char *least = getenv("FAIL_FROM");
    next_malloc = next("malloc");
    next_realloc = next("realloc");
    next_aligned_alloc = next("aligned_alloc");
    next_posix_memalign = next("posix_memalign");
    __atomic_store_n(&count, 0, __ATOMIC_SEQ_CST);
    refused = number != NULL ? atol(number) : 0;
    refused_from = least != NULL ? (size_t)atol(least) : 0;
    map_switch();
}

/* Writes how many allocations there were. */
static void report_count(void)
{
    const char *path = getenv("FAIL_REPORT");
    long made = __atomic_load_n(&count, __ATOMIC_SEQ_CST);
    FILE *report = path != NULL ? fopen(path, "w") : NULL;
    if (report != NULL) {
        fprintf(report, "%ld\n", made);
        fclose(report);
    }
}

/* A program ends by leaving main, or at once. */
__attribute__((destructor)) static void end(void)
{
    report_count();
}

void _exit(int status)
{
    report_count();
    for (;;)
        syscall(SYS_exit_group, status);
}

/* Whether the allocation that comes now is the one that is refused. */
static int is_refused(size_t size)
{
    if (all_refused != NULL && *all_refused != 0 && size >= refused_from)
        return 1;
    return __atomic_add_fetch(&count, 1, __ATOMIC_SEQ_CST) == refused;
}

void *malloc(size_t size)
{
    if (next_malloc == NULL)
        next_malloc = next("malloc");
    if (is_refused(size)) {
        errno = ENOMEM;
        return NULL;
    }
    return next_malloc(size);
}

void *realloc(void *block, size_t size)
{
    if (next_realloc == NULL)
        next_realloc = next("realloc");
    if (is_refused(size)) {
        errno = ENOMEM;
        return NULL;
    }
    return next_realloc(block, size);
}

void *aligned_alloc(size_t alignment, size_t size)
{
    if (next_aligned_alloc == NULL)
        next_aligned_alloc = next("aligned_alloc");
    if (is_refused(size)) {
        errno = ENOMEM;
        return NULL;
    }
    return next_aligned_alloc(alignment, size);
}

int posix_memalign(void **block, size_t alignment, size_t size)
{
    if (next_posix_memalign == NULL)
        next_posix_memalign = next("posix_memalign");
    if (is_refused(size))
        return ENOMEM;
    return next_posix_memalign(block, alignment, size);
}
