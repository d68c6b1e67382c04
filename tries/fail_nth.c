// Fails the n-th call for memory of a program, or each from the n-th on: LD_PRELOAD=./fail_nth.so FAIL_NTH=n [FAIL_ON=1] PROGRAM ..
// The file FAIL_TELL holds how many calls there were, in 8 bytes (a program may end without its destructors).
#define _GNU_SOURCE
#include <dlfcn.h>
#include <errno.h>
#include <fcntl.h>
#include <stdlib.h>
#include <sys/mman.h>
#include <unistd.h>

static long nth = -1, on, none, *calls = &none;
static void *(*real_malloc)(size_t), *(*real_realloc)(void *, size_t);

__attribute__((constructor)) static void begin(void) {
    real_malloc = dlsym(RTLD_NEXT, "malloc");
    real_realloc = dlsym(RTLD_NEXT, "realloc");
    const char *n = getenv("FAIL_NTH");
    on = getenv("FAIL_ON") != 0;
    const char *tell = getenv("FAIL_TELL");
    int file = tell ? open(tell, O_RDWR) : -1;
    if (file >= 0) calls = mmap(0, sizeof(long), PROT_READ | PROT_WRITE, MAP_SHARED, file, 0);
    nth = n ? atol(n) : 0;
}

static int fails(void) {
    if (nth < 0) return 0; // (before the program begins)
    long call = __atomic_add_fetch(calls, 1, __ATOMIC_SEQ_CST);
    return nth && (call == nth || (on && call > nth));
}

void *malloc(size_t size) {
    if (!real_malloc) real_malloc = dlsym(RTLD_NEXT, "malloc");
    if (fails()) { errno = ENOMEM; return 0; }
    return real_malloc(size);
}

void *realloc(void *old, size_t size) {
    if (!real_realloc) real_realloc = dlsym(RTLD_NEXT, "realloc");
    if (fails()) { errno = ENOMEM; return 0; }
    return real_realloc(old, size);
}
