// The clocks of one program stand still, so that no tick comes: LD_PRELOAD=./still_clock.so PROGRAM ..
#include <time.h>

int clock_gettime(clockid_t clock, struct timespec *time) {
    (void)clock;
    time->tv_sec = 1000000;
    time->tv_nsec = 0;
    return 0;
}
