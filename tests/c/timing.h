/* Times calls in one run, in turns, so that what else the machine does meets them alike. */
#ifndef TIMING_H
#define TIMING_H

#include <time.h>

/* A call, and the nanoseconds that one of it took in the best batch. */
struct timed {
    void (*call)(void);
    double nanos;
};

static double timing_now(void)
{
    struct timespec t;
    clock_gettime(CLOCK_MONOTONIC, &t);
    return t.tv_sec * 1e9 + t.tv_nsec;
}

/* So many batches of each of the calls, with so many calls in a batch. */
static void timing(struct timed *calls, int count, int batches, int each)
{
    for (int k = 0; k < count; k++)
        calls[k].nanos = 1e18;
    for (int b = 0; b < batches; b++)
        for (int k = 0; k < count; k++) {
            double start = timing_now();
            for (int i = 0; i < each; i++)
                calls[k].call();
            double nanos = (timing_now() - start) / each;
            if (nanos < calls[k].nanos)
                calls[k].nanos = nanos;
        }
}

#endif
