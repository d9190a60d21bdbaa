/* Times of the services with words of 64 bits beside FLINT's, in one run, in the manner of engine.c: n = 9223372036854775783, a prime,
 * and composite n with pairs full of zero divisors. Each figure is the median of several passes over a pool of pairs, in microseconds
 * of processor time per call, with the least and the greatest in parentheses; the passes of the engine and of FLINT take turns. If a value of the engine is not the one it is compared
 * with, or a call is refused, the program says which and exits with 1. Build and run: make -C bench */
#include <stdio.h>
#include <stdlib.h>
#include <flint/flint.h>
#include <flint/nmod_poly.h>
#include <flint/fmpz.h>
#include <flint/fmpz_poly.h>
#include "../include/jingcobu.h"
#define CLOCK CLOCK_PROCESS_CPUTIME_ID
#include "common.h"

#define POOL 100
#define PASSES 15
#define ROUNDS 10
#define MOST 49

static uint64_t work[JINGCOBU64_WORK], u[JINGCOBU64_COFACTOR], v[JINGCOBU64_COFACTOR];
static uint64_t first[POOL][MOST], second[POOL][MOST];
static volatile uint64_t sink;

static jingcobu64_answer resultant(uint64_t n, int d, int p)
{
    return jingcobu64_resultant(n, first[p], d + 1, second[p], d + 1, work, JINGCOBU64_WORK);
}

static jingcobu64_answer reduced(uint64_t n, int d, int p)
{
    return jingcobu64_reduced_resultant(n, first[p], d + 1, second[p], d + 1, u, JINGCOBU64_COFACTOR, v, JINGCOBU64_COFACTOR, work, JINGCOBU64_WORK);
}

/* an answer for pair p, compared with the number that it should be */
static void compare(const char *what, uint64_t n, int d, int p, jingcobu64_answer a, uint64_t right)
{
    check(a.status == JINGCOBU_OK && a.value == right, "n = %lu, d = e = %d, pair %d: %s %lu and status %u, FLINT %lu", n, d, p, what, a.value,
          a.status, right);
}

/* the passes of two calls in turn, the engine's and FLINT's, each over the pool */
enum service { RESULTANT, REDUCED };
static nmod_poly_t f[POOL], g[POOL], h, s, t;
static void passes(enum service service, const char *ours, const char *theirs, uint64_t n, int d)
{
    double a[PASSES], b[PASSES];
    for (int pass = 0; pass < PASSES; pass++) {
        double c = now();
        for (int r = 0; r < ROUNDS; r++)
            for (int p = 0; p < POOL; p++) sink = (service == RESULTANT ? resultant(n, d, p) : reduced(n, d, p)).value;
        a[pass] = (now() - c) / (ROUNDS * POOL);
        c = now();
        for (int r = 0; r < ROUNDS; r++)
            for (int p = 0; p < POOL; p++) {
                if (service == RESULTANT) sink = nmod_poly_resultant(f[p], g[p]);
                else { nmod_poly_xgcd(h, s, t, f[p], g[p]); sink = (uint64_t) h->length; }
            }
        b[pass] = (now() - c) / (ROUNDS * POOL);
    }
    spread x = spread_of(a, PASSES), y = spread_of(b, PASSES);
    printf("n = %lu, d = e = %2d: %s %7.2f us (%.2f to %.2f), FLINT %s %7.2f us (%.2f to %.2f), ratio %.2f\n", n, d, ours, x.median, x.least,
           x.most, theirs, y.median, y.least, y.most, x.median / y.median);
}

static void prime_modulus(uint64_t n, int d)
{
    nmod_poly_init(h, n); nmod_poly_init(s, n); nmod_poly_init(t, n);
    for (int p = 0; p < POOL; p++) {
        nmod_poly_init(f[p], n); nmod_poly_init(g[p], n);
        for (int k = 0; k <= d; k++) {
            first[p][k] = draw64() % n;
            second[p][k] = draw64() % n;
            if (k == d && first[p][k] == 0) first[p][k] = 1;
            if (k == d && second[p][k] == 0) second[p][k] = 1;
            nmod_poly_set_coeff_ui(f[p], k, first[p][k]);
            nmod_poly_set_coeff_ui(g[p], k, second[p][k]);
        }
        compare("resultant", n, d, p, resultant(n, d, p), nmod_poly_resultant(f[p], g[p]));
        nmod_poly_gcd(h, f[p], g[p]);
        compare("D", n, d, p, reduced(n, d, p), h->length > 1 ? n : 1);
    }
    passes(RESULTANT, "resultant", "nmod_poly_resultant", n, d);
    passes(REDUCED, "reduced  ", "nmod_poly_xgcd     ", n, d);
    for (int p = 0; p < POOL; p++) { nmod_poly_clear(f[p]); nmod_poly_clear(g[p]); }
    nmod_poly_clear(h); nmod_poly_clear(s); nmod_poly_clear(t);
}

/* a random residue times up to three primes of n: most often a zero divisor */
static uint64_t zero_divisor(uint64_t n, const uint64_t *primes, int count)
{
    unsigned __int128 x = draw64() % n;
    for (int many = draw64() % 4; many > 0; many--) x = x * primes[draw64() % count] % n;
    return (uint64_t) x;
}

static void composite(uint64_t n, const char *name, const uint64_t *primes, int count, int d)
{
    double ratio[POOL], a_time[POOL], b_time[POOL];
    fmpz_poly_t a, b;
    fmpz_t r;
    fmpz_poly_init(a); fmpz_poly_init(b); fmpz_init(r);
    for (int p = 0; p < POOL; p++) {
        fmpz_poly_zero(a); fmpz_poly_zero(b);
        for (int k = 0; k <= d; k++) {
            first[p][k] = zero_divisor(n, primes, count);
            second[p][k] = zero_divisor(n, primes, count);
            if (k == d && first[p][k] == 0) first[p][k] = primes[0];
            if (k == d && second[p][k] == 0) second[p][k] = primes[0];
            fmpz_poly_set_coeff_ui(a, k, first[p][k]);
            fmpz_poly_set_coeff_ui(b, k, second[p][k]);
        }
        double ours = 1e30, theirs = 1e30;
        for (int pass = 0; pass < 5; pass++) {
            double c = now();
            sink = resultant(n, d, p).value;
            c = now() - c;
            if (c < ours) ours = c;
            c = now();
            fmpz_poly_resultant(r, a, b);
            sink = fmpz_fdiv_ui(r, n);
            c = now() - c;
            if (c < theirs) theirs = c;
        }
        compare("resultant", n, d, p, resultant(n, d, p), fmpz_fdiv_ui(r, n));
        ratio[p] = theirs / ours;
        a_time[p] = ours;
        b_time[p] = theirs;
    }
    print_zero_divisors(name, d, ratio, a_time, b_time, POOL);
    fmpz_poly_clear(a); fmpz_poly_clear(b); fmpz_clear(r);
}

int main(void)
{
    const uint64_t two[] = { 2 }, three[] = { 3 }, six[] = { 2, 3 };
    for (int d = 12; d <= 48; d *= 2) prime_modulus(9223372036854775783u, d);
    composite(4611686018427387904u, "2^62", two, 1, 48);
    composite(4052555153018976267u, "3^39", three, 1, 48);
    composite(4738381338321616896u, "6^24", six, 2, 48);
    printf("wrong values of the engine with words of 64 bits: %d\n", wrong);
    return wrong != 0;
}
