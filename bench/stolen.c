// The steal time of a virtual machine, that is, when its host keeps the processors for others: `stolen` prints, in seconds of the monotonic clock, when each such stretch of more than ten
// milliseconds began and ended. On each processor a thread of the highest priority sleeps a millisecond at a time; where it wakes late, nothing could run there.
// It ends with its parent, and at once with 1 where it may not have that priority (only root may).
#define _GNU_SOURCE
#include <pthread.h>
#include <sched.h>
#include <signal.h>
#include <stdint.h>
#include <stdio.h>
#include <sys/prctl.h>
#include <time.h>
#include <unistd.h>

static double now(void) {
    struct timespec t;
    clock_gettime(CLOCK_MONOTONIC, &t);
    return t.tv_sec + t.tv_nsec / 1e9;
}

static void *watch(void *processor) {
    cpu_set_t own;
    CPU_ZERO(&own);
    CPU_SET((intptr_t)processor, &own);
    if (sched_setaffinity(0, sizeof own, &own) || sched_setscheduler(0, SCHED_FIFO, &(struct sched_param){.sched_priority = 99})) _exit(1);
    for (double last = now();;) {
        nanosleep(&(struct timespec){.tv_nsec = 1000000}, 0);
        double woke = now();
        if (woke - last > 0.011) printf("%f %f\n", last + 0.001, woke);
        last = woke;
    }
    return 0;
}

int main(void) {
    pthread_t thread;
    prctl(PR_SET_PDEATHSIG, SIGTERM);
    setlinebuf(stdout);
    for (intptr_t i = 1; i < sysconf(_SC_NPROCESSORS_ONLN); i++) pthread_create(&thread, 0, watch, (void *)i);
    watch(0);
}
