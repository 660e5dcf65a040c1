/* What the programs that time something share: the clock, and numbers that are drawn. For C and C++. */
#ifndef CLOCK_H
#define CLOCK_H

#include <stdint.h>
#include <time.h>

/* The nanoseconds that a clock shows. */
static inline double now(clockid_t clock)
{
    struct timespec it;
    clock_gettime(clock, &it);
    return (double)it.tv_sec * 1e9 + (double)it.tv_nsec;
}

/* The nanoseconds of the processor that the thread has used. */
static inline double used(void) { return now(CLOCK_THREAD_CPUTIME_ID); }

/* The numbers that the crate `tool_bench` draws. */
static inline uint64_t draw(uint64_t *state)
{
    uint64_t n = *state;
    n ^= n << 13;
    n ^= n >> 7;
    n ^= n << 17;
    *state = n;
    return n * 0x2545F4914F6CDD1D;
}

#endif
