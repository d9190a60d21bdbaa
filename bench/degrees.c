/* Time against degree, 6 to 48, of the engine, FLINT and PARI in one run: the resultant at a prime, and at a composite n with zero
 * divisors, where the other way is the resultant over the integers, reduced modulo n. Each figure is the best of several passes over a
 * pool of different pairs, in microseconds of processor time per call; each uses one thread. It exits with 1 if two values differ.
 * make -C bench plot runs it and draws docs/time-prime.svg and docs/time-composite.svg from what it writes. */
#include <stdio.h>
#include <stdlib.h>
#include <flint/flint.h>
#include <flint/nmod_poly.h>
#include <flint/fmpz.h>
#include <flint/fmpz_poly.h>
#include <pari/pari.h>

#define POOL 100
#define CLOCK CLOCK_PROCESS_CPUTIME_ID
#include "pool.h"

#define PRIME 4294967291u
#define COMPOSITE 2176782336u      /* 6^12 */

static uint32_t value[POOL];
static volatile uint32_t sink;

/* the pool; where n is composite each word is a residue times up to three of its primes */
static void fill_either(uint32_t n, int d)
{
    for (int p = 0; p < POOL; p++)
        for (int side = 0; side < 2; side++)
            for (int k = 0; k <= d; k++) {
                uint64_t x = draw() % n;
                int many = n == COMPOSITE ? draw() % 4 : 0;
                for (int j = 0; j < many; j++) x = x * (2 + draw() % 2) % n;
                if (k == d && x == 0) x = 1;
                (side ? second : first)[p][k] = (uint32_t) x;
            }
}

/* the best time of a pass over the pool, by a call; several calls of each pair where they are short */
#define TIME(best, passes, repeats, call) do { \
    best = 1e30; \
    for (int pass = 0; pass < (passes); pass++) { \
        double t = now(); \
        for (int again = 0; again < (repeats); again++) for (int p = 0; p < POOL; p++) { call; } \
        t = (now() - t) / ((double) (repeats) * POOL); \
        if (t < best) best = t; \
    } } while (0)

static void compare(const char *with, uint32_t n, int d, int p, uint32_t other)
{
    check(value[p] == other, "n = %u, d = e = %d, pair %d: %u, %s %u", n, d, p, value[p], with, other);
}

static double engine(uint32_t n, int d)
{
    double best;
    for (int p = 0; p < POOL; p++) {
        jingcobu_answer a = jingcobu_resultant(n, first[p], d + 1, second[p], d + 1, work, JINGCOBU_WORK);
        check(a.status == JINGCOBU_OK, "n = %u, d = e = %d, pair %d: refused with %u", n, d, p, a.status);
        value[p] = a.value;
    }
    TIME(best, 15, 10, sink = jingcobu_resultant(n, first[p], d + 1, second[p], d + 1, work, JINGCOBU_WORK).value);
    return best;
}

static double flint_prime(uint32_t n, int d)
{
    static nmod_poly_t f[POOL], g[POOL];
    double best;
    for (int p = 0; p < POOL; p++) {
        nmod_poly_init(f[p], n); nmod_poly_init(g[p], n);
        for (int k = 0; k <= d; k++) { nmod_poly_set_coeff_ui(f[p], k, first[p][k]); nmod_poly_set_coeff_ui(g[p], k, second[p][k]); }
        compare("FLINT nmod_poly_resultant", n, d, p, (uint32_t) nmod_poly_resultant(f[p], g[p]));
    }
    TIME(best, 15, 10, sink = (uint32_t) nmod_poly_resultant(f[p], g[p]));
    for (int p = 0; p < POOL; p++) { nmod_poly_clear(f[p]); nmod_poly_clear(g[p]); }
    return best;
}

static double flint_integers(uint32_t n, int d)
{
    static fmpz_poly_t f[POOL], g[POOL];
    double best;
    fmpz_t r;
    fmpz_init(r);
    for (int p = 0; p < POOL; p++) {
        fmpz_poly_init(f[p]); fmpz_poly_init(g[p]);
        for (int k = 0; k <= d; k++) { fmpz_poly_set_coeff_ui(f[p], k, first[p][k]); fmpz_poly_set_coeff_ui(g[p], k, second[p][k]); }
        fmpz_poly_resultant(r, f[p], g[p]);
        compare("FLINT fmpz_poly_resultant modulo n", n, d, p, (uint32_t) fmpz_fdiv_ui(r, n));
    }
    TIME(best, 7, 1, fmpz_poly_resultant(r, f[p], g[p]); sink = (uint32_t) fmpz_fdiv_ui(r, n));
    for (int p = 0; p < POOL; p++) { fmpz_poly_clear(f[p]); fmpz_poly_clear(g[p]); }
    fmpz_clear(r);
    return best;
}

/* PARI's polresultant: over t_INTMOD at the prime, over t_INT and then reduced at the composite n */
static GEN of_words(uint32_t n, const uint32_t *w, int d)
{
    GEN c = cgetg(d + 2, t_VEC);
    for (int k = 0; k <= d; k++) gel(c, k + 1) = n == PRIME ? mkintmodu(w[k], n) : utoi(w[k]);
    return RgV_to_RgX(c, 0);
}

static uint32_t pari_value(uint32_t n, GEN f, GEN g)
{
    pari_sp av = avma;
    GEN r = polresultant0(f, g, -1, 0);
    uint32_t x = n == PRIME ? (uint32_t) itou(lift(r)) : (uint32_t) umodiu(r, n);
    set_avma(av);
    return x;
}

static double pari(uint32_t n, int d)
{
    static GEN f[POOL], g[POOL];
    pari_sp av = avma;
    double best;
    for (int p = 0; p < POOL; p++) {
        f[p] = of_words(n, first[p], d); g[p] = of_words(n, second[p], d);
        compare("PARI polresultant", n, d, p, pari_value(n, f[p], g[p]));
    }
    TIME(best, n == PRIME ? 15 : 7, n == PRIME ? 10 : 1, sink = pari_value(n, f[p], g[p]));
    set_avma(av);
    return best;
}

/* how busy the machine is with other work */
static double load(void)
{
    double x = 0;
    FILE *file = fopen("/proc/loadavg", "r");
    if (file) { if (fscanf(file, "%lf", &x) != 1) x = 0; fclose(file); }
    return x;
}

int main(void)
{
    pari_init(256000000, 500000);
    setdefault("nbthreads", "1", d_SILENT);
    printf("# microseconds of the processor a call, the mean over %d pairs, the best of several passes; d = e; ", POOL);
    printf("load %.2f before the run\n", load());
    printf("# FLINT %s, %s\n", FLINT_VERSION, paricfg_version);
    printf("# n = %u (prime): degree, jingcobu_resultant, FLINT nmod_poly_resultant, PARI polresultant over t_INTMOD\n", PRIME);
    for (int d = 6; d <= 48; d += 6) {
        fill_either(PRIME, d);
        double a = engine(PRIME, d), b = flint_prime(PRIME, d), c = pari(PRIME, d);
        printf("%d %.2f %.2f %.2f\n", d, a, b, c);
        fflush(stdout);
    }
    printf("\n\n# n = %u (6^12), zero divisors: degree, jingcobu_resultant, FLINT fmpz_poly_resultant modulo n, "
           "PARI polresultant over t_INT modulo n\n", COMPOSITE);
    for (int d = 6; d <= 48; d += 6) {
        fill_either(COMPOSITE, d);
        double a = engine(COMPOSITE, d), b = flint_integers(COMPOSITE, d), c = pari(COMPOSITE, d);
        printf("%d %.2f %.2f %.2f\n", d, a, b, c);
        fflush(stdout);
    }
    return wrong != 0;
}
