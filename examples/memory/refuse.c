/* Refuses memory to a program that is linked to glibc: LD_PRELOAD=refuse.so. An allocation is a call of malloc, calloc, realloc, memalign, aligned_alloc or
   posix_memalign for at least one byte, after the program's libraries were loaded. They are counted from 1, and those with the numbers from REFUSE_FIRST to
   REFUSE_LAST are refused: without REFUSE_LAST all from the first on, and without REFUSE_FIRST none. With REFUSE_THREADS=others only those of threads
   count that the program has started. REFUSE_TELL names a file of 16 bytes, which has two numbers while the program runs and after its end: how many
   allocations there were, and how many of them were refused.

   cc -O2 -shared -fPIC -o refuse.so refuse.c */

#define _GNU_SOURCE
#include <errno.h>
#include <fcntl.h>
#include <stdatomic.h>
#include <stdint.h>
#include <stdlib.h>
#include <string.h>
#include <sys/mman.h>
#include <sys/syscall.h>
#include <unistd.h>

void *__libc_malloc(size_t size);
void *__libc_calloc(size_t count, size_t size);
void *__libc_realloc(void *old, size_t size);
void *__libc_memalign(size_t align, size_t size);

struct told {
    _Atomic uint64_t made, refused;
};

static struct told untold, *told = &untold;
static uint64_t first = UINT64_MAX, last = UINT64_MAX;
static int begun, others_only;

static uint64_t number_of(const char *name) {
    const char *text = getenv(name);
    return text ? strtoull(text, NULL, 10) : UINT64_MAX;
}

static struct told *told_in(const char *path) {
    int file = open(path, O_RDWR | O_CLOEXEC);
    void *shared = file < 0 ? MAP_FAILED : mmap(NULL, sizeof *told, PROT_READ | PROT_WRITE, MAP_SHARED, file, 0);
    if (shared == MAP_FAILED)
        _exit(99);
    close(file);
    return shared;
}

__attribute__((constructor)) static void begin(void) {
    const char *threads = getenv("REFUSE_THREADS"), *tell = getenv("REFUSE_TELL");
    first = number_of("REFUSE_FIRST");
    last = number_of("REFUSE_LAST");
    others_only = threads && !strcmp(threads, "others");
    if (tell)
        told = told_in(tell);
    begun = 1;
}

/* Counts an allocation of so many bytes; whether it is refused. */
static int refuses(size_t size) {
    if (!begun || size == 0 || (others_only && syscall(SYS_gettid) == getpid()))
        return 0;
    uint64_t number = atomic_fetch_add(&told->made, 1) + 1;
    if (number < first || number > last)
        return 0;
    atomic_fetch_add(&told->refused, 1);
    errno = ENOMEM;
    return 1;
}

void *malloc(size_t size) {
    return refuses(size) ? NULL : __libc_malloc(size);
}

void *calloc(size_t count, size_t size) {
    return refuses(count * size) ? NULL : __libc_calloc(count, size);
}

void *realloc(void *old, size_t size) {
    return refuses(size) ? NULL : __libc_realloc(old, size);
}

void *memalign(size_t align, size_t size) {
    return refuses(size) ? NULL : __libc_memalign(align, size);
}

void *aligned_alloc(size_t align, size_t size) {
    return memalign(align, size);
}

int posix_memalign(void **place, size_t align, size_t size) {
    if (align % sizeof(void *) != 0 || (align & (align - 1)) != 0 || align == 0)
        return EINVAL;
    void *found = memalign(align, size);
    if (!found)
        return ENOMEM;
    *place = found;
    return 0;
}
