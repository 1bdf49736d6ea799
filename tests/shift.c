/* Sets a program's clock of the day forth or back while it runs.

   tests/apart.py compiles it (cc -shared -fPIC -O2 -o shift.so shift.c) and preloads it (LD_PRELOAD). SHIFT_FILE names a file with a
   number of seconds, as eight bytes of this machine's order, by which the clock is ahead; whoever writes the file moves the clock. Clocks
   that only rise stay as they are. */
#define _GNU_SOURCE
#include <dlfcn.h>
#include <fcntl.h>
#include <stdint.h>
#include <stdlib.h>
#include <sys/mman.h>
#include <time.h>
#include <unistd.h>

static volatile int64_t *ahead;
static int (*real)(clockid_t, struct timespec *);

__attribute__((constructor)) static void begin(void) {
    const char *name = getenv("SHIFT_FILE");
    int file = name ? open(name, O_RDONLY | O_CLOEXEC) : -1;
    real = (int (*)(clockid_t, struct timespec *))dlsym(RTLD_NEXT, "clock_gettime");
    if (file >= 0) {
        void *page = mmap(NULL, sizeof *ahead, PROT_READ, MAP_SHARED, file, 0);
        ahead = page == MAP_FAILED ? NULL : page;
        close(file);
    }
}

int clock_gettime(clockid_t clock, struct timespec *now) {
    int status = real(clock, now);
    if (status == 0 && ahead && clock == CLOCK_REALTIME)
        now->tv_sec += *ahead;
    return status;
}
