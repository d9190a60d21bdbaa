/* What the programs of this folder share: drawn numbers, the clock, wrong answers, medians. A program that measures time of the
 * processor, so that other work on the machine does not count, defines CLOCK before it includes this. */
#include <stdarg.h>
#include <stdint.h>
#include <stdio.h>
#include <stdlib.h>
#include <time.h>

#ifndef CLOCK
#define CLOCK CLOCK_MONOTONIC
#endif

static uint64_t state = 20261115;
static inline uint64_t draw64(void)
{
    state ^= state << 13; state ^= state >> 7; state ^= state << 17;
    return state;
}
static inline uint32_t draw(void) { return (uint32_t) (draw64() >> 16); }

/* microseconds */
static inline double now(void)
{
    struct timespec t;
    clock_gettime(CLOCK, &t);
    return t.tv_sec * 1e6 + t.tv_nsec / 1e3;
}

/* how many answers were wrong: where there is one, the program exits with 1 */
static int wrong;
static inline __attribute__((format(printf, 2, 3))) void check(int good, const char *format, ...)
{
    va_list what;
    if (good) return;
    wrong++;
    va_start(what, format);
    fprintf(stderr, "WRONG: ");
    vfprintf(stderr, format, what);
    fprintf(stderr, "\n");
    va_end(what);
}

/* for qsort: the median of an ordered list of times stands in its middle */
static inline int by_size(const void *a, const void *b)
{
    double x = *(const double *) a, y = *(const double *) b;
    return (x > y) - (x < y);
}

/* the least, the median and the greatest of some times, which are put in order */
typedef struct { double least, median, most; } spread;
static inline spread spread_of(double *t, int count)
{
    qsort(t, count, sizeof(double), by_size);
    return (spread) { t[0], t[count / 2], t[count - 1] };
}

/* pairs with zero divisors: our times, the others' and their ratios, in the median and at their ends */
static inline void print_zero_divisors(const char *name, int d, double *ratio, double *ours, double *theirs, int count)
{
    spread times = spread_of(ratio, count), x = spread_of(ours, count), y = spread_of(theirs, count);
    printf("n = %s, d = e = %d, zero divisors: resultant %.1f us in the median, %.1f at the most; FLINT fmpz_poly_resultant modulo n %.0f us, "
           "%.0f; %.1f times our time in the median, %.1f at the least\n", name, d, x.median, x.most, y.median, y.most, times.median, times.least);
}
