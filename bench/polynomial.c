/* Times of product and division beside the same loops in plain C, in one run. Each figure is the best of many short passes over a pool of
 * drawn pairs, in microseconds per call. Each loop in C has one % where the engine reduces by a reciprocal. "C" keeps the sum of a word
 * below n 2^32 by a comparison a term; "C wide" has a sum of 128 bits, which is what the engine has. "one %" is the schoolbook loop,
 * one % a term, for comparison. The modulus is read from a volatile.
 * If a product or a division is not that of the schoolbook loop, the program says which and exits with 1.
 * Build and run: make -C bench */
#include <stdint.h>
#include <stddef.h>
#include <stdio.h>
#include <string.h>
#include "common.h"

typedef struct { uint32_t value; uint32_t status; } Answer;
Answer polynomial_bench_product(uint32_t n, const uint32_t *f, size_t f_len, const uint32_t *g, size_t g_len, uint32_t *out, size_t out_len);
Answer polynomial_bench_division(uint32_t n, const uint32_t *f, size_t f_len, const uint32_t *g, size_t g_len, uint32_t *q, size_t q_len, uint32_t *r, size_t r_len);

#define POOL 64
#define PASSES 250
#define ROUNDS 4

static uint32_t first[POOL][49], second[POOL][49];
static volatile uint32_t modulus = 4294967291u;

/* ---- plain C: the same loops, with the same tests of the words */

static int below(uint32_t n, const uint32_t *f, size_t len)
{
    for (size_t i = 0; i < len; i++) if (f[i] >= n) return 0;
    return 1;
}

static uint64_t add_within(uint64_t m, uint64_t x, uint64_t y)
{
    uint64_t h = m - x;
    return y >= h ? y - h : x + y;
}

static uint32_t word(uint32_t n, const uint32_t *f, size_t fl, const uint32_t *g, size_t gl, size_t k)
{
    uint64_t m = (uint64_t) n << 32, x = 0, y = 0;
    size_t last = k < fl ? k + 1 : fl, i = k < gl ? 0 : k - (gl - 1);
    if (i >= last) return 0;
    for (; i + 1 < last; i += 2) {
        x = add_within(m, x, (uint64_t) f[i] * g[k - i]);
        y = add_within(m, y, (uint64_t) f[i + 1] * g[k - i - 1]);
    }
    if (i < last) x = add_within(m, x, (uint64_t) f[i] * g[k - i]);
    return (uint32_t) (add_within(m, x, y) % n);
}

static uint32_t wide_word(uint32_t n, const uint32_t *f, size_t fl, const uint32_t *g, size_t gl, size_t k)
{
    unsigned __int128 x = 0;
    size_t last = k < fl ? k + 1 : fl, i = k < gl ? 0 : k - (gl - 1);
    if (i >= last) return 0;
    for (; i < last; i++) x += (uint64_t) f[i] * g[k - i];
    return (uint32_t) (x % n);
}

static uint32_t inverse(uint32_t n, uint32_t a)
{
    int64_t x = n, y = a, s = 0, t = 1;
    while (y) { int64_t q = x / y, z = x % y, u = s - q * t; x = y; y = z; s = t; t = u; }
    return x == 1 ? (uint32_t) (s < 0 ? s + n : s) : 0;
}

/* The word of a product at one place, by either of the two ways above: each product and each division below is written once over it. */
typedef uint32_t word_of(uint32_t n, const uint32_t *f, size_t fl, const uint32_t *g, size_t gl, size_t k);
#define ONCE static inline __attribute__((always_inline))

ONCE int product_by(word_of *at, uint32_t n, const uint32_t *f, size_t fl, const uint32_t *g, size_t gl, uint32_t *out, size_t ol)
{
    if (n < 2 || fl < 1 || fl > 49 || gl < 1 || gl > 49 || fl + gl - 2 > 48 || !below(n, f, fl) || !below(n, g, gl) || ol < fl + gl - 1) return 1;
    for (size_t k = 0; k < fl + gl - 1; k++) out[k] = at(n, f, fl, g, gl, k);
    return 0;
}

ONCE int division_by(word_of *at, uint32_t n, const uint32_t *f, size_t fl, const uint32_t *g, size_t gl, uint32_t *q, size_t ql, uint32_t *r, size_t rl)
{
    if (n < 2 || fl < 1 || fl > 49 || gl < 1 || gl > 49 || !below(n, f, fl) || !below(n, g, gl)) return 1;
    size_t e = gl - 1, m = fl > e ? fl - e : 1;
    uint32_t i = inverse(n, g[e]);
    if (i == 0 || ql < m || rl < e) return 1;
    memset(q, 0, m * 4);
    for (size_t s = fl > e ? fl - e : 0; s-- > 0;) {
        uint32_t x = at(n, q + s, m - s, g, gl, e);
        uint64_t t = (uint64_t) f[e + s] + (n - x);
        q[s] = (uint32_t) ((uint64_t) i * (t >= n ? t - n : t) % n);
    }
    for (size_t k = 0; k < e; k++) r[k] = (uint32_t) (((uint64_t) (k < fl ? f[k] : 0) + (n - at(n, q, m, g, gl, k))) % n);
    return 0;
}

#define PRODUCT(name, at) static __attribute__((noinline)) int name(uint32_t n, const uint32_t *f, size_t fl, const uint32_t *g, size_t gl, \
    uint32_t *out, size_t ol) { return product_by(at, n, f, fl, g, gl, out, ol); }
#define DIVISION(name, at) static __attribute__((noinline)) int name(uint32_t n, const uint32_t *f, size_t fl, const uint32_t *g, size_t gl, \
    uint32_t *q, size_t ql, uint32_t *r, size_t rl) { return division_by(at, n, f, fl, g, gl, q, ql, r, rl); }
PRODUCT(c_product, word)
PRODUCT(wide_product, wide_word)
DIVISION(c_division, word)
DIVISION(wide_division, wide_word)

/* ---- schoolbook, one % a term */

static __attribute__((noinline)) int plain_product(uint32_t n, const uint32_t *f, size_t fl, const uint32_t *g, size_t gl, uint32_t *out, size_t ol)
{
    if (ol < fl + gl - 1) return 1;
    memset(out, 0, (fl + gl - 1) * 4);
    for (size_t i = 0; i < fl; i++)
        for (size_t j = 0; j < gl; j++) out[i + j] = (uint32_t) ((out[i + j] + (uint64_t) f[i] * g[j]) % n);
    return 0;
}

static __attribute__((noinline)) int plain_division(uint32_t n, const uint32_t *f, size_t fl, const uint32_t *g, size_t gl, uint32_t *q, size_t ql, uint32_t *r, size_t rl)
{
    size_t e = gl - 1, m = fl - e;
    uint32_t w[49], i = inverse(n, g[e]);
    if (ql < m || rl < e) return 1;
    memcpy(w, f, fl * 4);
    for (size_t s = m; s-- > 0;) {
        uint32_t c = (uint32_t) ((uint64_t) i * w[e + s] % n);
        q[s] = c;
        for (size_t j = 0; j < e; j++) w[s + j] = (uint32_t) ((w[s + j] + (uint64_t) (n - c) * g[j]) % n);
    }
    memcpy(r, w, e * 4);
    return 0;
}

/* ---- times */

static uint32_t sum;
static uint32_t a[64], b[64];

static double product(int which, size_t fl, size_t gl)
{
    double best = 1e30;
    for (int pass = 0; pass < PASSES; pass++) {
        double t = now();
        for (int r = 0; r < ROUNDS; r++)
            for (int p = 0; p < POOL; p++) {
                uint32_t n = modulus;
                if (which == 0) polynomial_bench_product(n, first[p], fl, second[p], gl, a, 64);
                else if (which == 1) c_product(n, first[p], fl, second[p], gl, a, 64);
                else if (which == 3) wide_product(n, first[p], fl, second[p], gl, a, 64);
                else plain_product(n, first[p], fl, second[p], gl, a, 64);
                sum += a[fl] + a[0];
            }
        t = (now() - t) / (ROUNDS * POOL);
        if (t < best) best = t;
    }
    return best;
}

static double division(int which, size_t fl, size_t gl)
{
    double best = 1e30;
    for (int pass = 0; pass < PASSES; pass++) {
        double t = now();
        for (int r = 0; r < ROUNDS; r++)
            for (int p = 0; p < POOL; p++) {
                uint32_t n = modulus;
                if (which == 0) polynomial_bench_division(n, first[p], fl, second[p], gl, a, 64, b, 64);
                else if (which == 1) c_division(n, first[p], fl, second[p], gl, a, 64, b, 64);
                else if (which == 3) wide_division(n, first[p], fl, second[p], gl, a, 64, b, 64);
                else plain_division(n, first[p], fl, second[p], gl, a, 64, b, 64);
                sum += a[0] + b[0];
            }
        t = (now() - t) / (ROUNDS * POOL);
        if (t < best) best = t;
    }
    return best;
}

static void differ(const char *what, size_t fl, size_t gl, int p)
{
    check(0, "%s of %zu by %zu words, pair %d", what, fl, gl, p);
}

static void compare(size_t fl, size_t gl)
{
    uint32_t c[64], d[64];
    for (int p = 0; p < POOL; p++) {
        if (fl + gl <= 50) {
            memset(a, 0, sizeof a); memset(c, 0, sizeof c);
            Answer z = polynomial_bench_product(modulus, first[p], fl, second[p], gl, a, 64);
            plain_product(modulus, first[p], fl, second[p], gl, c, 64);
            if (z.status || z.value || memcmp(a, c, sizeof a)) differ("product", fl, gl, p);
            memset(a, 0, sizeof a);
            if (c_product(modulus, first[p], fl, second[p], gl, a, 64) || memcmp(a, c, sizeof a)) differ("product in C", fl, gl, p);
            memset(a, 0, sizeof a);
            if (wide_product(modulus, first[p], fl, second[p], gl, a, 64) || memcmp(a, c, sizeof a)) differ("wide product in C", fl, gl, p);
        }
        memset(a, 0, sizeof a); memset(c, 0, sizeof c); memset(b, 0, sizeof b); memset(d, 0, sizeof d);
        Answer z = polynomial_bench_division(modulus, first[p], fl, second[p], gl, a, 64, b, 64);
        plain_division(modulus, first[p], fl, second[p], gl, c, 64, d, 64);
        if (z.status || z.value || memcmp(a, c, sizeof a) || memcmp(b, d, sizeof b)) differ("division", fl, gl, p);
        memset(a, 0, sizeof a); memset(b, 0, sizeof b);
        if (c_division(modulus, first[p], fl, second[p], gl, a, 64, b, 64) || memcmp(a, c, sizeof a) || memcmp(b, d, sizeof b))
            differ("division in C", fl, gl, p);
        memset(a, 0, sizeof a); memset(b, 0, sizeof b);
        if (wide_division(modulus, first[p], fl, second[p], gl, a, 64, b, 64) || memcmp(a, c, sizeof a) || memcmp(b, d, sizeof b))
            differ("wide division in C", fl, gl, p);
    }
}

static void row(const char *name, double (*time)(int, size_t, size_t), size_t fl, size_t gl)
{
    double x = time(0, fl, gl), y = time(1, fl, gl), w = time(3, fl, gl), z = time(2, fl, gl);
    printf("%-28s %8.3f %8.3f %8.3f %8.3f   %.2f  %.2f\n", name, x, y, w, z, x / y, x / w);
}

int main(void)
{
    for (int p = 0; p < POOL; p++)
        for (int k = 0; k < 49; k++) {
            first[p][k] = draw() % modulus;
            second[p][k] = draw() % (modulus - 1) + 1;
        }
    compare(25, 25);
    compare(49, 25);
    compare(9, 5);
    compare(5, 5);
    printf("%-28s %8s %8s %8s %8s   %s\n", "microseconds a call", "Rattle", "C", "C wide", "one %", "Rattle / C, / C wide");
    row("product 25 by 25 words", product, 25, 25);
    row("product 5 by 5 words", product, 5, 5);
    row("division 49 by 25 words", division, 49, 25);
    row("division 9 by 5 words", division, 9, 5);
    printf("wrong products and divisions: %d (sum %u)\n", wrong, sum);
    return wrong != 0;
}
