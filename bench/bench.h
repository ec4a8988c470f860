// What the programs that measure have in common.
#include <stdio.h>
#include <stdlib.h>
#include <time.h>

static inline void end(const char *why) {
    puts(why);
    exit(1);
}

static inline double nanoseconds(clockid_t clock) {
    struct timespec t;
    clock_gettime(clock, &t);
    return (double)t.tv_sec * 1e9 + (double)t.tv_nsec;
}

// Nanoseconds since some moment.
static inline double now(void) {
    return nanoseconds(CLOCK_MONOTONIC);
}

// Nanoseconds for which the program had a processor.
static inline double processor_time(void) {
    return nanoseconds(CLOCK_PROCESS_CPUTIME_ID);
}

// Nanoseconds that reading the clock takes, at best.
static inline double clock_time(void) {
    double best = 1e18;
    for (int k = 0; k < 10000; k++) {
        double start = now();
        double spent = now() - start;
        if (spent < best) best = spent;
    }
    return best;
}
