// Sets the clocks of one program: LD_PRELOAD=./set_clocks.so SET_CLOCKS=FILE PROGRAM ..
// FILE holds two numbers of 8 bytes, which may change at any time: the seconds that are added to the wall clock, and those that are added to the steady clock.
#define _GNU_SOURCE
#include <fcntl.h>
#include <stdlib.h>
#include <sys/mman.h>
#include <sys/syscall.h>
#include <time.h>
#include <unistd.h>

static const volatile long none[2], *added = none;

__attribute__((constructor)) static void begin(void) {
    const char *name = getenv("SET_CLOCKS");
    int file = name ? open(name, O_RDONLY) : -1;
    void *there = file < 0 ? MAP_FAILED : mmap(0, 2 * sizeof(long), PROT_READ, MAP_SHARED, file, 0);
    if (there != MAP_FAILED) added = there;
}

int clock_gettime(clockid_t clock, struct timespec *time) {
    int answer = syscall(SYS_clock_gettime, clock, time);
    if (clock == CLOCK_REALTIME) time->tv_sec += added[0];
    if (clock == CLOCK_MONOTONIC) time->tv_sec += added[1];
    return answer;
}
