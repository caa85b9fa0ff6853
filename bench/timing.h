/* Processor time, the least of several runs, and the end of a benchmark that cannot go on. */
#ifndef TIMING_H
#define TIMING_H

#include <stdio.h>
#include <stdlib.h>
#include <time.h>

static inline double processor_time(void)
{
    struct timespec t;
    clock_gettime(CLOCK_PROCESS_CPUTIME_ID, &t);
    return t.tv_sec + t.tv_nsec * 1e-9;
}

static inline void keep_least(double *best, double began)
{
    double took = processor_time() - began;
    if (*best == 0 || took < *best) *best = took;
}

static inline void fail(const char *what, unsigned long number)
{
    fprintf(stderr, "%s: %lu\n", what, number);
    exit(1);
}

static inline void *room_for(size_t count, size_t size)
{
    void *room = calloc(count, size);
    if (!room) fail("no memory for elements", count);
    return room;
}

#endif
