/* What the programs that measure share: the clocks, and the figure that many rounds come to. */
#include <stdlib.h>
#include <time.h>

static inline double now(void) {
    struct timespec t;
    clock_gettime(CLOCK_MONOTONIC, &t);
    return t.tv_sec + t.tv_nsec * 1e-9;
}

/* What this thread used of a processor, so that other work on the machine counts little. */
static inline double spent(void) {
    struct timespec t;
    clock_gettime(CLOCK_THREAD_CPUTIME_ID, &t);
    return t.tv_sec + t.tv_nsec * 1e-9;
}

static inline int by_size(const void *a, const void *b) {
    double x = *(const double *)a, y = *(const double *)b;
    return (x > y) - (x < y);
}

/* The figure at this place, from 0, of those of so many rounds, which are put in order. */
static inline double ranked(double *figures, int rounds, int place) {
    qsort(figures, (size_t)rounds, sizeof *figures, by_size);
    return figures[place];
}

static inline double median(double *figures, int rounds) { return ranked(figures, rounds, rounds / 2); }

/* Of times, what a tenth of the rounds stay below; of rates, what a tenth surpass. */
static inline double short_time(double *times, int rounds) { return ranked(times, rounds, rounds / 10); }

static inline double high_rate(double *rates, int rounds) { return ranked(rates, rounds, rounds - 1 - rounds / 10); }
