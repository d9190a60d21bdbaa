/* Times of D alone beside the engine's own resultant and reduced resultant, in one run, over pools of different pairs: the pools of
 * engine.c. At the prime each figure is the best of several passes over the pool, in microseconds per call; at composite moduli the pairs
 * are compared one by one. If two services return different numbers for D, or a call is refused, the program says which and exits
 * with 1. Build and run: make -C bench */
#include <stdio.h>
#include <stdlib.h>

#define POOL 100
#define PASSES 15
#include "pool.h"

static uint32_t u[JINGCOBU_COFACTOR], v[JINGCOBU_COFACTOR];
static volatile uint32_t sink;

/* both services for D answer the same number for every pair of the pool */
static void compare(uint32_t n, int d)
{
    for (int p = 0; p < POOL; p++) {
        jingcobu_answer a = jingcobu_divisor(n, first[p], d + 1, second[p], d + 1, work, JINGCOBU_WORK);
        jingcobu_answer b = jingcobu_reduced_resultant(n, first[p], d + 1, second[p], d + 1, u, JINGCOBU_COFACTOR, v, JINGCOBU_COFACTOR,
                                                       work, JINGCOBU_WORK);
        check(a.status == JINGCOBU_OK && b.status == JINGCOBU_OK && a.value == b.value,
              "n = %u, d = e = %d, pair %d: D alone %u and status %u, with cofactors %u and status %u", n, d, p, a.value, a.status,
              b.value, b.status);
    }
}

/* a pass over the pool, in microseconds a call */
static double resultants(uint32_t n, int d)
{
    double t = now();
    for (int p = 0; p < POOL; p++) sink = jingcobu_resultant(n, first[p], d + 1, second[p], d + 1, work, JINGCOBU_WORK).value;
    return (now() - t) / POOL;
}

static double divisors(uint32_t n, int d)
{
    double t = now();
    for (int p = 0; p < POOL; p++) sink = jingcobu_divisor(n, first[p], d + 1, second[p], d + 1, work, JINGCOBU_WORK).value;
    return (now() - t) / POOL;
}

static double reduced(uint32_t n, int d)
{
    double t = now();
    for (int p = 0; p < POOL; p++)
        sink = jingcobu_reduced_resultant(n, first[p], d + 1, second[p], d + 1, u, JINGCOBU_COFACTOR, v, JINGCOBU_COFACTOR, work,
                                          JINGCOBU_WORK).value;
    return (now() - t) / POOL;
}

static void prime_modulus(uint32_t n, int d)
{
    double r = 1e30, e = 1e30, c = 1e30;
    fill(n, d + 1);
    compare(n, d);
    for (int pass = 0; pass < 10 * PASSES; pass++) {
        double t = resultants(n, d);
        if (t < r) r = t;
        t = divisors(n, d);
        if (t < e) e = t;
        t = reduced(n, d);
        if (t < c) c = t;
    }
    printf("n = %u, d = e = %2d: resultant %8.2f us, D alone %8.2f us, ratio %.2f; D with cofactors %8.2f us\n", n, d, r, e, e / r, c);
}

/* zero divisors: pair by pair, the best of five calls each */
static void composite(uint32_t n, const char *name, const uint32_t *primes, int count, int d)
{
    double ratio[POOL], saved[POOL];
    fill_divisors(n, primes, count, d + 1, 0);
    compare(n, d);
    for (int p = 0; p < POOL; p++) {
        double r = 1e30, e = 1e30, c = 1e30;
        for (int pass = 0; pass < 5; pass++) {
            double t = now();
            sink = jingcobu_resultant(n, first[p], d + 1, second[p], d + 1, work, JINGCOBU_WORK).value;
            t = now() - t;
            if (t < r) r = t;
            t = now();
            sink = jingcobu_divisor(n, first[p], d + 1, second[p], d + 1, work, JINGCOBU_WORK).value;
            t = now() - t;
            if (t < e) e = t;
            t = now();
            sink = jingcobu_reduced_resultant(n, first[p], d + 1, second[p], d + 1, u, JINGCOBU_COFACTOR, v, JINGCOBU_COFACTOR, work,
                                              JINGCOBU_WORK).value;
            t = now() - t;
            if (t < c) c = t;
        }
        ratio[p] = e / r;
        saved[p] = c / e;
    }
    qsort(ratio, POOL, sizeof(double), by_size);
    qsort(saved, POOL, sizeof(double), by_size);
    printf("n = %s, d = e = %d, zero divisors: D alone takes %.2f times our resultant's time in the median, %.2f at the most; "
           "D with cofactors %.1f times as long in the median\n", name, d, ratio[POOL / 2], ratio[POOL - 1], saved[POOL / 2]);
}

int main(void)
{
    const uint32_t two[] = { 2 }, three[] = { 3 }, many[] = { 2, 3, 5, 7, 11, 13, 17, 19, 23 }, six[] = { 2, 3 };
    for (int d = 12; d <= 48; d *= 2) prime_modulus(4294967291u, d);
    composite(2147483648u, "2^31", two, 1, 48);
    composite(3486784401u, "3^20", three, 1, 48);
    composite(223092870u, "223092870", many, 9, 48);
    composite(2176782336u, "6^12", six, 2, 48);
    printf("wrong values of the engine: %d\n", wrong);
    return wrong != 0;
}
