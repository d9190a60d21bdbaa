/* Pairs a second in one call for many, against the single call and, where FLINT is installed, its nmod_poly_resultant in a loop, over one
 * pool of different pairs. Each figure is the best of several passes, by time of the processor. FLINT's polynomials are made before the
 * clock starts. Where two of them answer different numbers, or a call is refused, the program says which and exits with 1. The goal at
 * d = e = 12 is 1.6 times the single call's rate. Build and run: make -C bench many */
#include <stdlib.h>
#define CLOCK CLOCK_PROCESS_CPUTIME_ID
#include "../include/jingcobu.h"
#include "common.h"
#ifdef FLINT
#include <flint/nmod_poly.h>
#endif

#define PAIRS 2000
#define PASSES 15
#define MOST 49

static uint32_t f[PAIRS * MOST], g[PAIRS * MOST], out[PAIRS], one[PAIRS], work[JINGCOBU_WORK];

typedef jingcobu_answer many(uint32_t, const uint32_t *, size_t, size_t, const uint32_t *, size_t, size_t, size_t, uint32_t *, size_t,
                             uint32_t *, size_t);
typedef jingcobu_answer single(uint32_t, const uint32_t *, size_t, const uint32_t *, size_t, uint32_t *, size_t);

static void fill(uint32_t n, size_t l)
{
    for (size_t i = 0; i < PAIRS * l; i++) {
        f[i] = draw() % n;
        g[i] = draw() % n;
        if (i % l == l - 1) f[i] = g[i] = 1;
    }
}

/* the best pass, in microseconds */
static double many_pairs(many *call, uint32_t n, size_t l)
{
    double best = 1e30;
    for (int pass = 0; pass < PASSES; pass++) {
        double t = now();
        jingcobu_answer a = call(n, f, PAIRS * l, l - 1, g, PAIRS * l, l - 1, PAIRS, out, PAIRS, work, JINGCOBU_WORK);
        t = now() - t;
        check(a.status == 0, "n = %u, d = e = %zu: status %u", n, l - 1, a.status);
        if (t < best) best = t;
    }
    return best;
}

static double single_pairs(single *call, uint32_t n, size_t l)
{
    double best = 1e30;
    for (int pass = 0; pass < PASSES; pass++) {
        double t = now();
        for (size_t i = 0; i < PAIRS; i++) one[i] = call(n, f + i * l, l, g + i * l, l, work, JINGCOBU_WORK).value;
        t = now() - t;
        if (t < best) best = t;
    }
    for (size_t i = 0; i < PAIRS; i++) check(one[i] == out[i], "n = %u, d = e = %zu, pair %zu: %u, alone %u", n, l - 1, i, out[i], one[i]);
    return best;
}

#ifdef FLINT
static nmod_poly_t first[PAIRS], second[PAIRS];

/* FLINT serves primes */
static double flint_pairs(uint32_t n, size_t l)
{
    double best = 1e30;
    for (size_t i = 0; i < PAIRS; i++) {
        nmod_poly_init(first[i], n);
        nmod_poly_init(second[i], n);
        for (size_t k = 0; k < l; k++) {
            nmod_poly_set_coeff_ui(first[i], (slong) k, f[i * l + k]);
            nmod_poly_set_coeff_ui(second[i], (slong) k, g[i * l + k]);
        }
    }
    for (int pass = 0; pass < PASSES; pass++) {
        double t = now();
        for (size_t i = 0; i < PAIRS; i++) one[i] = (uint32_t) nmod_poly_resultant(first[i], second[i]);
        t = now() - t;
        if (t < best) best = t;
    }
    for (size_t i = 0; i < PAIRS; i++) {
        check(one[i] == out[i], "n = %u, d = e = %zu, pair %zu: %u, FLINT %u", n, l - 1, i, out[i], one[i]);
        nmod_poly_clear(first[i]);
        nmod_poly_clear(second[i]);
    }
    return best;
}
#endif

static double rate(double t) { return PAIRS / t; }

static void figures(uint32_t n, size_t d)
{
    fill(n, d + 1);
    double D = many_pairs(jingcobu_divisors, n, d + 1), D1 = single_pairs(jingcobu_divisor, n, d + 1);
    double r = many_pairs(jingcobu_resultants, n, d + 1), r1 = single_pairs(jingcobu_resultant, n, d + 1);
    printf("n = %10u, d = e = %2zu, million pairs a second: resultants %6.3f, the single call %6.3f, ratio %.2f; D %6.3f and %6.3f, "
           "ratio %.2f", n, d, rate(r), rate(r1), r1 / r, rate(D), rate(D1), D1 / D);
#ifdef FLINT
    double x = flint_pairs(n, d + 1);
    printf("; FLINT %6.3f, ratio %.2f", rate(x), x / r);
#endif
    printf("\n");
}

int main(void)
{
    static const uint32_t moduli[] = { 4294967291u, 2147483647u };
    static const size_t degrees[] = { 4, 8, 12, 24, 48 };
#ifndef FLINT
    printf("SKIPPED: FLINT is not installed\n");
#endif
    for (int i = 0; i < 2; i++) for (int k = 0; k < 5; k++) figures(moduli[i], degrees[k]);
    printf("wrong values: %d\n", wrong);
    return wrong != 0;
}
