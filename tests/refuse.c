/* Refuses one allocation of a program, or all from one on, as a machine without memory would.

   tests/memory compiles it (cc -shared -fPIC -O2 -o refuse.so refuse.c) and preloads it (LD_PRELOAD). Its words in the environment:

   REFUSE_AFTER   the mark behind which allocations are counted, from 1: `read`, the first read of standard input; `write`, the first
                  write to standard output; anything else or nothing, the start of the program
   REFUSE_AT      the number of the allocation that is refused; 0 or nothing: none is
   REFUSE_FROM    1: each later one is refused too; anything else or nothing: that one alone
   REFUSE_REPORT  a file to which, when the program exits, a line `COUNT REFUSED` is written: how many allocations were counted, and
                  how many of them were refused

   An allocation is a call of malloc, calloc, realloc, reallocarray, memalign, posix_memalign, aligned_alloc or valloc for some bytes,
   by any thread, also where realloc makes a block smaller. */
#define _GNU_SOURCE
#include <errno.h>
#include <fcntl.h>
#include <stdatomic.h>
#include <stddef.h>
#include <stdint.h>
#include <stdlib.h>
#include <string.h>
#include <sys/syscall.h>
#include <unistd.h>

extern void *__libc_malloc(size_t);
extern void *__libc_calloc(size_t, size_t);
extern void *__libc_realloc(void *, size_t);
extern void *__libc_memalign(size_t, size_t);

enum mark { AT_START, AT_READ, AT_WRITE };

static enum mark mark;
static unsigned long at;
static int all_later;
static const char *report;
static atomic_int is_counting;
static atomic_ulong counted;
static atomic_ulong refused;

static const char *word(const char *name) {
    const char *value = getenv(name);
    return value ? value : "";
}

__attribute__((constructor)) static void begin(void) {
    const char *after = word("REFUSE_AFTER");
    mark = !strcmp(after, "read") ? AT_READ : !strcmp(after, "write") ? AT_WRITE : AT_START;
    at = strtoul(word("REFUSE_AT"), NULL, 10);
    all_later = !strcmp(word("REFUSE_FROM"), "1");
    report = getenv("REFUSE_REPORT");
    atomic_store(&is_counting, mark == AT_START);
}

static char *digits(char *end, unsigned long number) {
    do {
        *--end = (char)('0' + number % 10);
        number /= 10;
    } while (number);
    return end;
}

/* It wants no memory: the refusals go on while it runs. */
__attribute__((destructor)) static void tell(void) {
    char text[64];
    char *end = text + sizeof text;
    char *from = end;
    *--from = '\n';
    from = digits(from, atomic_load(&refused));
    *--from = ' ';
    from = digits(from, atomic_load(&counted));
    if (!report)
        return;
    int file = open(report, O_WRONLY | O_CREAT | O_TRUNC, 0600);
    if (file < 0)
        return;
    if (syscall(SYS_write, file, from, (size_t)(end - from)) < 0)
        syscall(SYS_exit_group, 125);
    close(file);
}

/* A program with threads ends by it, and no destructor runs. */
void _exit(int status) {
    tell();
    syscall(SYS_exit_group, status);
    __builtin_unreachable();
}

static int is_refused(void) {
    if (!atomic_load_explicit(&is_counting, memory_order_relaxed))
        return 0;
    unsigned long number = atomic_fetch_add(&counted, 1) + 1;
    if (!at || number < at || (number > at && !all_later))
        return 0;
    atomic_fetch_add(&refused, 1);
    errno = ENOMEM;
    return 1;
}

ssize_t read(int file, void *into, size_t size) {
    if (mark == AT_READ && file == STDIN_FILENO)
        atomic_store(&is_counting, 1);
    return syscall(SYS_read, file, into, size);
}

ssize_t write(int file, const void *from, size_t size) {
    if (mark == AT_WRITE && file == STDOUT_FILENO)
        atomic_store(&is_counting, 1);
    return syscall(SYS_write, file, from, size);
}

ssize_t __write(int file, const void *from, size_t size) {
    return write(file, from, size);
}

void *malloc(size_t size) {
    return size && is_refused() ? NULL : __libc_malloc(size);
}

void *calloc(size_t count, size_t size) {
    return count && size && is_refused() ? NULL : __libc_calloc(count, size);
}

void *realloc(void *block, size_t size) {
    return size && is_refused() ? NULL : __libc_realloc(block, size);
}

void *reallocarray(void *block, size_t count, size_t size) {
    size_t all;
    if (__builtin_mul_overflow(count, size, &all)) {
        errno = ENOMEM;
        return NULL;
    }
    return realloc(block, all);
}

void *memalign(size_t alignment, size_t size) {
    return size && is_refused() ? NULL : __libc_memalign(alignment, size);
}

void *aligned_alloc(size_t alignment, size_t size) {
    return memalign(alignment, size);
}

void *valloc(size_t size) {
    return memalign((size_t)sysconf(_SC_PAGESIZE), size);
}

int posix_memalign(void **block, size_t alignment, size_t size) {
    if (alignment % sizeof(void *) || (alignment & (alignment - 1)) || !alignment)
        return EINVAL;
    void *found = memalign(alignment, size);
    if (!found && size)
        return ENOMEM;
    *block = found;
    return 0;
}
