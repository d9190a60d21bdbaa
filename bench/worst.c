/* The slowest calls that were found, beside the median of random ones. worst.txt keeps, for each service, the pairs that took longest in
 * a search over moduli with many divisors and polynomials full of zero divisors, zero tops and common factors. Each figure is the best of
 * several calls, in microseconds of processor time; a random pair has d = e = 48 and words and n drawn evenly (two variables: d = e = 48
 * in y, a = 0 and b = 1 in z, n the largest prime). If a call is refused, or two services return different numbers, the program says
 * so and exits with 1. Services whose work does not hang on the words (products, the true degree, texts, shares) have no pairs; nor have
 * many pairs in one call, where each pair costs at most what the single call does, and factors, whose arrival is a resultant.
 * Build and run: make -C bench slowest. A search: ./worst search SECONDS [SEED [SERVICE]] in the folder bench prints lines for worst.txt;
 * it begins with what worst.txt has. */
#include <stdio.h>
#include <stdlib.h>
#include <string.h>
#include "../include/jingcobu.h"
#define CLOCK CLOCK_PROCESS_CPUTIME_ID
#include "common.h"

#define MOST 49
#define ROOM 100
#define RANDOM 201
#define STORE "worst.txt"

enum service { RESULTANT, REDUCED, DIVISOR, COFACTORS, WHY, CLAIM, TWO, RESULTANT64, REDUCED64, DIVISOR64,
    SERVICES };
static const char *const names[SERVICES] = { "resultant", "reduced_resultant", "divisor", "resultant_cofactors", "why", "check_claim",
    "resultant_two", "64_resultant", "64_reduced_resultant", "64_divisor" };

/* sent degrees d and e in y, a and b in z; a = b = 0 but for two variables */
typedef struct { uint64_t n; size_t d, a, e, b; uint64_t f[ROOM], g[ROOM]; } pair;

static uint32_t f[ROOM], g[ROOM], u[JINGCOBU_MULTIPLIER], v[JINGCOBU_MULTIPLIER], out[JINGCOBU_TWO], work[JINGCOBU_WORK];
static uint64_t u64[JINGCOBU64_COFACTOR], v64[JINGCOBU64_COFACTOR], work64[JINGCOBU64_WORK];
static size_t claim_words;
static uint32_t claimed;

static uint64_t below(uint64_t n) { return (draw64() * 0x2545f4914f6cdd1du >> 1) % n; }
static int once_in(uint64_t n) { return below(n) == 0; }
static uint64_t times(uint64_t n, uint64_t a, uint64_t b) { return (uint64_t) ((unsigned __int128) a * b % n); }

static int is_wide(enum service s) { return s >= RESULTANT64; }
static size_t f_words(const pair *p) { return (p->d + 1) * (p->a + 1); }
static size_t g_words(const pair *p) { return (p->e + 1) * (p->b + 1); }

/* ---- one call */

/* a true claim of 4096 words: the engine's cofactors, and q g added to u and q f taken from v for a q of drawn words */
static void make_claim(const pair *p)
{
    uint32_t n = (uint32_t) p->n;
    size_t fl = f_words(p), gl = g_words(p), q = JINGCOBU_MULTIPLIER - (fl > gl ? fl : gl) + 1;
    memset(u, 0, sizeof u);
    memset(v, 0, sizeof v);
    claimed = jingcobu_reduced_resultant(n, f, fl, g, gl, u, JINGCOBU_COFACTOR, v, JINGCOBU_COFACTOR, work, JINGCOBU_WORK).value;
    claim_words = JINGCOBU_MULTIPLIER;
    for (size_t i = 0; i < q; i++) {
        uint64_t x = below(n);
        for (size_t k = 0; k < gl; k++) u[i + k] = (uint32_t) ((u[i + k] + x * g[k]) % n);
        for (size_t k = 0; k < fl; k++) v[i + k] = (uint32_t) ((v[i + k] + (n - x) * f[k]) % n);
    }
}

/* what the call reads stands in f, g, u and v then */
static void prepare(enum service s, const pair *p)
{
    for (size_t i = 0; i < ROOM; i++) { f[i] = (uint32_t) p->f[i]; g[i] = (uint32_t) p->g[i]; }
    if (s == CLAIM) make_claim(p);
}

static uint32_t call(enum service s, const pair *p)
{
    uint32_t n = (uint32_t) p->n;
    size_t fl = f_words(p), gl = g_words(p);
    switch (s) {
    case RESULTANT: return jingcobu_resultant(n, f, fl, g, gl, work, JINGCOBU_WORK).status;
    case REDUCED:
        return jingcobu_reduced_resultant(n, f, fl, g, gl, u, JINGCOBU_COFACTOR, v, JINGCOBU_COFACTOR, work, JINGCOBU_WORK).status;
    case DIVISOR: return jingcobu_divisor(n, f, fl, g, gl, work, JINGCOBU_WORK).status;
    case COFACTORS: return jingcobu_resultant_cofactors(n, f, fl, g, gl, u, MOST, v, MOST, work, JINGCOBU_WORK).status;
    case WHY: return jingcobu_why(n, f, fl, g, gl, out, JINGCOBU_COMMON, work, JINGCOBU_WORK).status;
    case CLAIM: return jingcobu_check_claim(n, f, fl, g, gl, claimed, u, claim_words, v, claim_words, work, JINGCOBU_WORK).status;
    case TWO: return jingcobu_resultant_two(n, f, fl, p->d, p->a, g, gl, p->e, p->b, out, JINGCOBU_TWO, work, JINGCOBU_WORK).status;
    case RESULTANT64: return jingcobu64_resultant(p->n, p->f, fl, p->g, gl, work64, JINGCOBU64_WORK).status;
    case DIVISOR64: return jingcobu64_divisor(p->n, p->f, fl, p->g, gl, work64, JINGCOBU64_WORK).status;
    default: return jingcobu64_reduced_resultant(p->n, p->f, fl, p->g, gl, u64, JINGCOBU64_COFACTOR, v64, JINGCOBU64_COFACTOR, work64,
                                                 JINGCOBU64_WORK).status;
    }
}

/* the best of so many calls; 0 where it is refused */
static double cost(enum service s, const pair *p, int calls)
{
    double best = 1e30;
    prepare(s, p);
    for (int i = 0; i < calls; i++) {
        double t = now();
        if (call(s, p)) return 0;
        t = now() - t;
        if (t < best) best = t;
    }
    return best;
}

/* the services against each other, on a pair in one variable */
static void compare(const pair *p)
{
    uint32_t n = (uint32_t) p->n;
    size_t fl = f_words(p), gl = g_words(p);
    prepare(RESULTANT, p);
    uint32_t r = jingcobu_resultant(n, f, fl, g, gl, work, JINGCOBU_WORK).value;
    uint32_t D = jingcobu_divisor(n, f, fl, g, gl, work, JINGCOBU_WORK).value;
    uint32_t with = jingcobu_resultant_cofactors(n, f, fl, g, gl, u, MOST, v, MOST, work, JINGCOBU_WORK).value;
    uint32_t reduced = jingcobu_reduced_resultant(n, f, fl, g, gl, u, JINGCOBU_COFACTOR, v, JINGCOBU_COFACTOR, work, JINGCOBU_WORK).value;
    uint64_t wide = jingcobu64_resultant(p->n, p->f, fl, p->g, gl, work64, JINGCOBU64_WORK).value;
    check(r == with && D == reduced && wide == r, "n = %u, d = %zu, e = %zu: resultants %u %u %llu, D %u %u", n, p->d, p->e, r, with,
          (unsigned long long) wide, D, reduced);
}

static void compare64(const pair *p)
{
    size_t fl = f_words(p), gl = g_words(p);
    uint64_t D = jingcobu64_divisor(p->n, p->f, fl, p->g, gl, work64, JINGCOBU64_WORK).value;
    uint64_t reduced = jingcobu64_reduced_resultant(p->n, p->f, fl, p->g, gl, u64, JINGCOBU64_COFACTOR, v64, JINGCOBU64_COFACTOR, work64,
                                                    JINGCOBU64_WORK).value;
    check(D == reduced, "n = %llu, d = %zu, e = %zu: D %llu %llu", (unsigned long long) p->n, p->d, p->e, (unsigned long long) D,
          (unsigned long long) reduced);
}

/* ---- random pairs */

static pair random_pair(enum service s)
{
    pair p = { .d = 48, .e = 48, .b = s == TWO };
    p.n = s == TWO ? 4294967291u : 2 + below(is_wide(s) ? 9223372036854775806u : 4294967294u);
    for (size_t i = 0; i < f_words(&p); i++) p.f[i] = below(p.n);
    for (size_t i = 0; i < g_words(&p); i++) p.g[i] = below(p.n);
    return p;
}

static double median(enum service s)
{
    double figures[RANDOM];
    for (int i = 0; i < RANDOM; i++) {
        pair p = random_pair(s);
        figures[i] = cost(s, &p, s == TWO || s == CLAIM ? 3 : 7);
    }
    qsort(figures, RANDOM, sizeof *figures, by_size);
    return figures[RANDOM / 2];
}

/* ---- the stored pairs: a line is the service, n, d, a, e, b and the words, in hexadecimal digits */

static int service_of(const char *name)
{
    for (int s = 0; s < SERVICES; s++) if (!strcmp(name, names[s])) return s;
    return -1;
}

static int read_words(FILE *in, uint64_t *w, size_t count)
{
    unsigned long long x;
    for (size_t i = 0; i < count; i++) {
        if (fscanf(in, "%llx", &x) != 1) return 0;
        w[i] = x;
    }
    return 1;
}

/* the next pair; its service, or -1 at the end */
static int read_pair(FILE *in, pair *p)
{
    char name[40];
    uint64_t w[5];
    memset(p, 0, sizeof *p);
    if (fscanf(in, "%39s", name) != 1) return -1;
    int s = service_of(name);
    if (s < 0 || !read_words(in, w, 5)) return -1;
    p->n = w[0]; p->d = w[1]; p->a = w[2]; p->e = w[3]; p->b = w[4];
    if (p->d > 48 || p->a > 48 || p->e > 48 || p->b > 48 || f_words(p) > ROOM || g_words(p) > ROOM) return -1;
    return read_words(in, p->f, f_words(p)) && read_words(in, p->g, g_words(p)) ? s : -1;
}

static void write_pair(enum service s, const pair *p)
{
    printf("%s %llx %zx %zx %zx %zx", names[s], (unsigned long long) p->n, p->d, p->a, p->e, p->b);
    for (size_t i = 0; i < f_words(p); i++) printf(" %llx", (unsigned long long) p->f[i]);
    for (size_t i = 0; i < g_words(p); i++) printf(" %llx", (unsigned long long) p->g[i]);
    printf("\n");
    fflush(stdout);
}

/* the slowest stored pair of each service, and what it takes; 0 where there is none */
static void read_store(pair *slowest, double *most)
{
    pair p;
    FILE *in = fopen(STORE, "r");
    for (int s = 0; s < SERVICES; s++) most[s] = 0;
    if (!in) return;
    for (int s; (s = read_pair(in, &p)) >= 0;) {
        double t = cost(s, &p, 9);
        check(t != 0, "a stored pair of %s is refused", names[s]);
        if (t > most[s]) { most[s] = t; slowest[s] = p; }
        if (is_wide(s)) compare64(&p);
        else if (s != TWO) compare(&p);
    }
    fclose(in);
}

/* ---- the search */

/* n with the primes that divide it; the last ones are without primes up to 48, for two variables */
typedef struct { uint64_t n, primes[4]; } modulus;
static const modulus moduli[] = {
    { 2147483648u, { 2 } }, { 1073741824u, { 2 } }, { 3486784401u, { 3 } }, { 1220703125u, { 5 } }, { 1977326743u, { 7 } },
    { 2176782336u, { 2, 3 } }, { 3221225472u, { 2, 3 } }, { 4251528000u, { 2, 3, 5 } }, { 223092870u, { 2, 3, 5, 7 } },
    { 3234846615u, { 3, 5, 7, 29 } }, { 4293001441u, { 65521 } }, { 4294049777u, { 65521, 65537 } }, { 4294967295u, { 3, 5, 17, 257 } },
    { 4294967291u, { 1 } }, { 2147483647u, { 1 } }, { 65536, { 2 } }, { 16777216, { 2 } }, { 2147483646u, { 2, 3, 7, 11 } },
};
static const modulus wide_moduli[] = {
    { 4611686018427387904u, { 2 } }, { 2305843009213693952u, { 2 } }, { 4052555153018976267u, { 3 } }, { 7450580596923828125u, { 5 } },
    { 4738381338321616896u, { 2, 3 } }, { 614889782588491410u, { 2, 3, 5, 7 } }, { 9223371994482243049u, { 3037000493u } },
    { 9223372036854775807u, { 7, 73, 127, 337 } }, { 9223372036854775783u, { 1 } }, { 4294967296u, { 2 } },
    { 6917529027641081856u, { 2, 3 } }, { 3909821048582988049u, { 7 } },
};
static const modulus two_moduli[] = {
    { 418195493u, { 53 } }, { 714924299u, { 59 } }, { 844596301u, { 61 } }, { 907383479u, { 53, 59, 61, 67 } }, { 4294967291u, { 1 } },
    { 12780049u, { 53, 59, 61, 67 } }, { 2809, { 53 } }, { 4293001441u, { 65521 } }, { 2147483647u, { 1 } },
};

static const modulus *drawn_modulus(enum service s)
{
    if (s == TWO) return &two_moduli[below(sizeof two_moduli / sizeof *two_moduli)];
    if (is_wide(s)) return &wide_moduli[below(sizeof wide_moduli / sizeof *wide_moduli)];
    return &moduli[below(sizeof moduli / sizeof *moduli)];
}

static uint64_t a_prime(const modulus *m)
{
    uint64_t p = m->primes[below(4)];
    return p ? p : m->primes[0];
}

/* a random word times so many primes of n */
static uint64_t a_word(const modulus *m, int primes)
{
    uint64_t x = below(m->n);
    for (int i = 0; i < primes; i++) x = times(m->n, x, a_prime(m));
    return x;
}

/* how many primes word i gets, in several patterns */
static int primes_at(int pattern, size_t i, size_t d)
{
    switch (pattern) {
    case 0: return 0;
    case 1: return 1;
    case 2: return (int) below(4);
    case 3: return (int) (i * 20 / (d + 1));
    case 4: return (int) ((d - i) * 20 / (d + 1));
    case 5: return i == d ? 1 : 0;
    case 6: return i == 0 ? 0 : 1;
    case 7: return i + 4 > d ? (int) (4 + i - d) : 0;
    case 8: return (int) below(40);
    case 9: return i < d ? 1 : 0;
    case 10: return i > d / 2;
    default: return i % 2 ? 1 : 0;
    }
}

static void draw_words(const modulus *m, uint64_t *w, size_t count)
{
    int pattern = (int) below(12), zeros = once_in(4) ? 1 + (int) below(6) : 0;
    for (size_t i = 0; i < count; i++) w[i] = zeros && once_in((uint64_t) zeros + 1) ? 0 : a_word(m, primes_at(pattern, i, count - 1));
    if (once_in(5)) for (size_t i = count - below(count); i < count; i++) w[i] = 0;
}

/* both times a common factor of degree c */
static void common_factor(const modulus *m, pair *p)
{
    uint64_t h[MOST], old[MOST];
    size_t c = 1 + below(p->d < p->e ? p->d : p->e);
    draw_words(m, h, c + 1);
    if (once_in(2)) h[c] = 1;
    for (int side = 0; side < 2; side++) {
        uint64_t *w = side ? p->g : p->f;
        size_t d = side ? p->e : p->d;
        memcpy(old, w, sizeof old);
        memset(w, 0, (d + 1) * sizeof *w);
        for (size_t i = 0; i + c <= d; i++) for (size_t k = 0; k <= c; k++) w[i + k] = (w[i + k] + times(m->n, old[i], h[k])) % m->n;
    }
}

static pair nasty_pair(enum service s, const modulus *m)
{
    pair p = { .n = m->n, .d = 48, .e = 48, .b = s == TWO };
    if (once_in(4)) p.e = 1 + below(48);
    if (once_in(8)) p.d = 1 + below(48);
    if (s == TWO && once_in(3)) p = (pair) { .n = m->n, .d = 6, .a = 5, .e = 6, .b = 5 };
    draw_words(m, p.f, f_words(&p));
    draw_words(m, p.g, g_words(&p));
    if (s != TWO && once_in(3)) common_factor(m, &p);
    return p;
}

/* one or some words changed: zero, a word of another pattern, times a prime, or the neighbour's */
static void change(const modulus *m, pair *p)
{
    for (int i = 1 + (int) below(once_in(3) ? 12 : 2); i > 0; i--) {
        int side = once_in(2);
        uint64_t *w = side ? p->g : p->f;
        size_t count = side ? g_words(p) : f_words(p), k = once_in(3) ? count - 1 - below(count < 4 ? count : 4) : below(count);
        switch (below(5)) {
        case 0: w[k] = 0; break;
        case 1: w[k] = a_word(m, (int) below(6)); break;
        case 2: w[k] = times(p->n, w[k], a_prime(m)); break;
        case 3: w[k] = w[count - 1 - k]; break;
        default: w[k] = a_word(m, 0);
        }
    }
}

/* whether p is slower than the slowest known: both in turn, and the best call of each, since other work may slow down some; `most`
 * becomes p's figure then, and the other's best otherwise */
static int slower(enum service s, const pair *p, const pair *best, double *most)
{
    double ours = 1e30, other = *most;
    for (int i = 0; i < 6; i++) {
        double t = cost(s, p, 2);
        if (t < ours) ours = t;
        if (*most > 0) t = cost(s, best, 2);
        if (*most > 0 && t < other) other = t;
    }
    *most = ours > 1.01 * other ? ours : other;
    return ours > 1.01 * other;
}

/* from the slowest known: new pairs for a third of the time, changes of the slowest for the rest */
static pair search(enum service s, pair best, double most, double seconds)
{
    const modulus *m = NULL;
    double end = now() + 1e6 * seconds, begun = now();
    while (now() < end) {
        int fresh = !m || now() - begun < 1e6 * seconds / 3 || once_in(8);
        const modulus *k = fresh ? drawn_modulus(s) : m;
        pair p = fresh ? nasty_pair(s, k) : best;
        if (!fresh) change(k, &p);
        if (cost(s, &p, 2) <= most || !slower(s, &p, &best, &most)) continue;
        best = p;
        m = k;
    }
    fprintf(stderr, "%s: %.1f us, n = %llu, d = %zu, e = %zu\n", names[s], most, (unsigned long long) best.n, best.d, best.e);
    return best;
}

int main(int argc, char **argv)
{
    static pair slowest[SERVICES];
    double most[SERVICES];
    read_store(slowest, most);
    if (argc > 2 && !strcmp(argv[1], "search")) {
        if (argc > 3) state += strtoull(argv[3], NULL, 10);
        for (int s = 0; s < SERVICES; s++) {
            if (argc > 4 && service_of(argv[4]) != s) continue;
            pair p = search(s, slowest[s], most[s], atof(argv[2]));
            write_pair(s, &p);
        }
        return 0;
    }
    for (int s = 0; s < SERVICES; s++) {
        double usual = median(s);
        printf("%-20s random pairs %8.2f us in the median, the slowest found %9.2f us, ratio %5.1f; n = %llu, d = %zu, e = %zu\n", names[s],
               usual, most[s], most[s] / usual, (unsigned long long) slowest[s].n, slowest[s].d, slowest[s].e);
        check(most[s] != 0, "no pair of %s is stored", names[s]);
    }
    printf("wrong values of the engine: %d\n", wrong);
    return wrong != 0;
}
