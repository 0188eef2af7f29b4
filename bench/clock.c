// Times, and the end of the program where something is wrong.
#define _POSIX_C_SOURCE 199309L
#include <stdio.h>
#include <stdlib.h>
#include <time.h>

#include "bench.h"

double now(void)
{
    struct timespec t;
    clock_gettime(CLOCK_PROCESS_CPUTIME_ID, &t);
    return (double)t.tv_sec * 1e9 + (double)t.tv_nsec;
}

// What reading the clock takes itself: the median of many readings.
static double reading(void)
{
    enum { READINGS = 1001 };
    double times[READINGS];
    for (int k = 0; k < READINGS; k++) {
        double start = now();
        times[k] = now() - start;
    }
    return median(times, READINGS);
}

double spent(double start)
{
    static double cost = -1;
    double end = now();
    if (cost < 0) {
        cost = reading();
    }
    return end - start - cost;
}

static int by_size(const void *a, const void *b)
{
    double x = *(const double *)a, y = *(const double *)b;
    return (x > y) - (x < y);
}

double median(double *times, size_t count)
{
    qsort(times, count, sizeof times[0], by_size);
    return times[count / 2];
}

void must(int holds, const char *what)
{
    if (!holds) {
        fprintf(stderr, "bench: failed: %s\n", what);
        exit(1);
    }
}
