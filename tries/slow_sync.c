// Each sync of a file takes SLOW_MS milliseconds longer while the file SLOW_WHILE is there: LD_PRELOAD=./slow_sync.so SLOW_MS=200 SLOW_WHILE=slow PROGRAM ..
#define _GNU_SOURCE
#include <stdlib.h>
#include <sys/syscall.h>
#include <time.h>
#include <unistd.h>

static void waits(void) {
    const char *ms = getenv("SLOW_MS"), *file = getenv("SLOW_WHILE");
    if (!ms || !file || access(file, F_OK) != 0) return;
    struct timespec left = {atol(ms) / 1000, atol(ms) % 1000 * 1000000};
    while (nanosleep(&left, &left) != 0) {}
}

int fsync(int file) {
    waits();
    return syscall(SYS_fsync, file);
}

int fdatasync(int file) {
    waits();
    return syscall(SYS_fdatasync, file);
}
