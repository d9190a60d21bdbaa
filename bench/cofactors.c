/* Times of the resultant with its cofactors, in one run: beside our reduced resultant with cofactors on pairs modulo a prime, and on pairs
 * full of zero divisors beside FLINT's fmpz_poly_xgcd of the lifted polynomials, taken modulo n. Every answer is multiplied out, and its
 * value is compared with jingcobu_resultant; the program exits with 1 if one is wrong. Build and run: make -C bench cofactors &&
 * bench/cofactors */
#include <stdio.h>
#include <stdlib.h>
#include <string.h>
#include <flint/flint.h>
#include <flint/fmpz.h>
#include <flint/fmpz_poly.h>

#define POOL 100
#define PASSES 9
#include "pool.h"

static uint32_t u[JINGCOBU_COFACTOR], v[JINGCOBU_COFACTOR];
static volatile uint32_t sink;

static jingcobu_answer answer(uint32_t n, int d, int p)
{
    return jingcobu_resultant_cofactors(n, first[p], d + 1, second[p], d + 1, u, d, v, d, work, JINGCOBU_WORK);
}

/* u f + v g is the value, and the value is the resultant */
static void compare(uint32_t n, int d, int p)
{
    jingcobu_answer r = jingcobu_resultant(n, first[p], d + 1, second[p], d + 1, work, JINGCOBU_WORK), a = answer(n, d, p);
    int good = a.status == JINGCOBU_OK && r.status == JINGCOBU_OK && a.value == r.value;
    for (int k = 0; k < 2 * d; k++) {
        uint64_t x = 0;
        for (int i = 0; i < d; i++)
            if (k - i >= 0 && k - i <= d) {
                x = (x + (uint64_t) u[i] * first[p][k - i] % n) % n;
                x = (x + (uint64_t) v[i] * second[p][k - i] % n) % n;
            }
        good = good && x == (k ? 0 : a.value);
    }
    check(good, "n = %u, d = e = %d, pair %d: value %u and status %u, resultant %u", n, d, p, a.value, a.status, r.value);
}

static void prime(uint32_t n, int d)
{
    double ours = 1e30, reduced = 1e30;
    fill(n, d + 1);
    for (int p = 0; p < POOL; p++) compare(n, d, p);
    for (int pass = 0; pass < PASSES; pass++) {
        double t = now();
        for (int p = 0; p < POOL; p++) sink = answer(n, d, p).value;
        t = (now() - t) / POOL;
        if (t < ours) ours = t;
        t = now();
        for (int p = 0; p < POOL; p++)
            sink = jingcobu_reduced_resultant(n, first[p], d + 1, second[p], d + 1, u, JINGCOBU_COFACTOR, v, JINGCOBU_COFACTOR, work, JINGCOBU_WORK).value;
        t = (now() - t) / POOL;
        if (t < reduced) reduced = t;
    }
    printf("n = %u, d = e = %2d: resultant with cofactors %8.2f us, reduced with cofactors %8.2f us, ratio %.2f\n", n, d, ours, reduced, ours / reduced);
}

static void divisors(uint32_t n, const uint32_t *primes, int count, int d)
{
    static double ours[POOL], theirs[POOL];
    fill_divisors(n, primes, count, d + 1, 1);
    fmpz_t r, modulus;
    fmpz_poly_t f, g, s, t;
    fmpz_init(r);
    fmpz_init_set_ui(modulus, n);
    fmpz_poly_init(f); fmpz_poly_init(g); fmpz_poly_init(s); fmpz_poly_init(t);
    for (int p = 0; p < POOL; p++) {
        compare(n, d, p);
        ours[p] = theirs[p] = 1e30;
        for (int pass = 0; pass < 3; pass++) {
            double x = now();
            sink = answer(n, d, p).value;
            x = now() - x;
            if (x < ours[p]) ours[p] = x;
        }
        for (int k = 0; k <= d; k++) {
            fmpz_poly_set_coeff_ui(f, k, first[p][k]);
            fmpz_poly_set_coeff_ui(g, k, second[p][k]);
        }
        double x = now();
        fmpz_poly_xgcd(r, s, t, f, g);
        fmpz_mod(r, r, modulus);
        fmpz_poly_scalar_mod_fmpz(s, s, modulus);
        fmpz_poly_scalar_mod_fmpz(t, t, modulus);
        theirs[p] = now() - x;
    }
    qsort(ours, POOL, sizeof *ours, by_size);
    qsort(theirs, POOL, sizeof *theirs, by_size);
    printf("n = %u, d = e = %2d, zero divisors: median %8.2f us, worst %8.2f us; FLINT fmpz_poly_xgcd: median %8.2f us, worst %8.2f us\n", n, d,
           ours[POOL / 2], ours[POOL - 1], theirs[POOL / 2], theirs[POOL - 1]);
    fmpz_clear(r);
    fmpz_clear(modulus);
    fmpz_poly_clear(f); fmpz_poly_clear(g); fmpz_poly_clear(s); fmpz_poly_clear(t);
}

int main(void)
{
    const uint32_t two[] = { 2 }, six[] = { 2, 3 };
    prime(4294967291u, 48);
    prime(4294967291u, 24);
    prime(4294967291u, 12);
    divisors(2147483648u, two, 1, 48);
    divisors(2147483648u, two, 1, 24);
    divisors(2176782336u, six, 2, 48);
    divisors(2176782336u, six, 2, 24);
    return wrong != 0;
}
