/* Counts what a program asks of the allocator, for whoever looks on while it runs.

   bench/allocations compiles it (cc -shared -fPIC -O2 -o allocations.so allocations.c) and preloads it (LD_PRELOAD). The file that
   ALLOCATIONS names then begins with two numbers of 64 bits, low byte first: how many blocks were asked for, and of how many bytes in all.
   A block that realloc makes anew counts as one. */
#define _GNU_SOURCE
#include <errno.h>
#include <fcntl.h>
#include <stdatomic.h>
#include <stddef.h>
#include <stdlib.h>
#include <sys/mman.h>
#include <unistd.h>

extern void *__libc_malloc(size_t);
extern void *__libc_calloc(size_t, size_t);
extern void *__libc_realloc(void *, size_t);
extern void *__libc_memalign(size_t, size_t);

static atomic_ulong *told;

__attribute__((constructor)) static void begin(void) {
    const char *name = getenv("ALLOCATIONS");
    int file = name ? open(name, O_RDWR | O_CLOEXEC) : -1;
    if (file < 0)
        return;
    void *shared = mmap(NULL, 2 * sizeof *told, PROT_READ | PROT_WRITE, MAP_SHARED, file, 0);
    close(file);
    if (shared != MAP_FAILED)
        told = shared;
}

static void count(size_t bytes) {
    if (told) {
        atomic_fetch_add(&told[0], 1);
        atomic_fetch_add(&told[1], bytes);
    }
}

void *malloc(size_t bytes) {
    count(bytes);
    return __libc_malloc(bytes);
}

void *calloc(size_t many, size_t bytes) {
    count(many * bytes);
    return __libc_calloc(many, bytes);
}

void *realloc(void *block, size_t bytes) {
    count(bytes);
    return __libc_realloc(block, bytes);
}

void *aligned_alloc(size_t alignment, size_t bytes) {
    count(bytes);
    return __libc_memalign(alignment, bytes);
}

int posix_memalign(void **block, size_t alignment, size_t bytes) {
    count(bytes);
    *block = __libc_memalign(alignment, bytes);
    return *block ? 0 : ENOMEM;
}
