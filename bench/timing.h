/* The least processor time of several measurements: other work on the machine makes a call longer, never shorter. */
#ifndef TIMING_H
#define TIMING_H

#include <math.h>
#include <time.h>

static double seconds(void) {
    struct timespec t;
    clock_gettime(CLOCK_PROCESS_CPUTIME_ID, &t);
    return (double)t.tv_sec + 1e-9 * (double)t.tv_nsec;
}

/* Makes a call, and lowers the least time in milliseconds where it was shorter. */
static void measure(double *least, void (*call)(void)) {
    double start = seconds();
    call();
    *least = fmin(*least, 1e3 * (seconds() - start));
}

#endif
