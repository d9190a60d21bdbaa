/* A C host that tries the services with words of 64 bits through the header: the stored pairs with their numbers, every word
 * of every buffer after a call, each refusal and their order, the ends of the ranges, the law of products on drawn triples, that both sets
 * of services return the same numbers if n and the words fit 32 bits, least cofactors, true degrees,
 * and lengths that are refused before a word is read.
 * It reads stdin and stdout in the folder that its first argument names (crates/test_vectors64), and prints "FAILED" and exits with 1 if
 * something is wrong; the second argument, 100 by default, says after how many failures it stops.
 * Build and run: make -C tests (under a stack of 256 KiB; the output is compared with the file `expected64`). */
#include <stdio.h>
#include <stdlib.h>
#include <string.h>
#include "../include/jingcobu.h"

#define LEAST_PAIRS 312
#define TRIPLES 1500
#define DRAWN 1500
#define MOST 49
#define MARK 0xabcdef0123456789u
#define LIMIT ((uint64_t) 1 << 63)

typedef uint64_t word;
typedef jingcobu64_answer answer;
#define SERVICE(name) jingcobu64_##name
#define WORK_LEN JINGCOBU64_WORK
#define COFACTOR_LEN JINGCOBU64_COFACTOR
#define MORE_WORK (WORK_LEN + 600)
#define MORE_COFACTOR (COFACTOR_LEN + 100)
#define F_SCALE 50
#define G_SCALE 58
#include "both.h"
#include "batch.h"

static word divisor(word n, const word *f, size_t fl, const word *g, size_t gl, size_t wl, uint32_t status, const char *where)
{
    mark(work, WORK_ROOM);
    copy(f, fl, g, gl);
    answer a = jingcobu64_divisor(n, f, fl, g, gl, lent(work, wl), wl);
    expect(a.status == status, "divisor: the status", where);
    expect(same(f, fl, g, gl), "divisor: f and g are only read", where);
    if (status != JINGCOBU_OK) {
        expect(a.value == 0, "divisor refused: the value is 0", where);
        expect(kept_but(work, WORK_ROOM, 0), "divisor refused: the working words are as found", where);
        return 1;
    }
    expect(a.value >= 1 && n % (a.value ? a.value : 1) == 0, "divisor: D is at least 1 and divides n", where);
    expect(all(work, 0, wl, 0), "divisor: all working words are zero", where);
    expect(kept_but(work, WORK_ROOM, wl), "divisor: words that are not lent", where);
    return a.value;
}

static void more_of_reasons(const reasons *x)
{
    uint32_t status = or_short(x->first, x->set & W, JINGCOBU_SHORT_WORK);
    divisor(x->n, at_or_null(x->f, x->fl), x->fl, at_or_null(x->g, x->gl), x->gl, x->wl, status, x->where);
}

/* ---- the stored pairs */

static long full, between, wider;

static void more_of_pair(const stored *x, const char *where)
{
    product(x->n, x->w, x->fl, x->w + x->fl, x->gl, 100, x->fl + x->gl <= 50 ? JINGCOBU_OK : JINGCOBU_BAD_LENGTH, where);
    expect(divisor(x->n, x->w, x->fl, x->w + x->fl, x->gl, MORE_WORK, JINGCOBU_OK, where) == x->D, "D alone is the other program's", where);
    if (x->fl == MOST && x->gl == MOST) full++;
    if (x->D > 1 && x->D < x->n) between++;
    if (x->n >> 32) wider++;
}

static void pairs(const char *folder)
{
    long count = stored_pairs(folder, "", LEAST_PAIRS, more_of_pair);
    printf("%ld stored pairs, %ld of them with n above 32 bits, %ld with d = e = 48, %ld with D neither 1 nor n\n", count, wider, full, between);
}

/* ---- refusals */

/* Each place of a word that is n or more, in f and in g. */
static void words(void)
{
    const uint64_t n = (uint64_t) 11 << 33;
    uint64_t f[MOST], g[MOST];
    char where[80];
    for (size_t k = 0; k < MOST; k++)
        for (int second = 0; second < 2; second++)
            for (int size = 0; size < 4; size++) {
                for (size_t i = 0; i < MOST; i++) f[i] = g[i] = 10;
                (second ? g : f)[k] = size == 0 ? n - 1 : size == 1 ? n : size == 2 ? UINT64_MAX : LIMIT;
                uint32_t status = size ? JINGCOBU_BAD_WORD : JINGCOBU_OK;
                size_t fl = second ? 1 : MOST, gl = second ? MOST : 1;
                snprintf(where, sizeof where, "word %d modulo 11 * 2^33 at place %zu of %s", size, k, second ? "g" : "f");
                resultant(n, f, fl, g, gl, WORK_LEN, status, where);
                reduced(n, f, fl, g, gl, COFACTOR_LEN, COFACTOR_LEN, WORK_LEN, status, where);
                product(n, f, fl, g, gl, 49, status, where);
                divisor(n, f, fl, g, gl, WORK_LEN, status, where);
            }
}

/* The ends of the ranges: n, the lengths, L at each K, the working words. */
static void ends(void)
{
    static const uint64_t bad[] = { 0, 1, LIMIT, LIMIT + 1, LIMIT + 12, UINT64_MAX - 1, UINT64_MAX };
    static const uint64_t good[] = { 2, 3, 4294967295u, 4294967296u, 4294967297u, LIMIT - 2, LIMIT - 1 };
    uint64_t f[60] = { 0 }, g[60] = { 0 };
    char where[80];
    for (int i = 0; i < 7; i++) {
        resultant(bad[i], f, 1, g, 1, WORK_LEN, JINGCOBU_BAD_MODULUS, "n below 2 or too large");
        reduced(bad[i], f, 1, g, 1, COFACTOR_LEN, COFACTOR_LEN, WORK_LEN, JINGCOBU_BAD_MODULUS, "n below 2 or too large");
        product(bad[i], f, 1, g, 1, 1, JINGCOBU_BAD_MODULUS, "n below 2 or too large");
        divisor(bad[i], f, 1, g, 1, WORK_LEN, JINGCOBU_BAD_MODULUS, "n below 2 or too large");
        f[1] = g[1] = good[i] - 1;
        resultant(good[i], f, 2, g, 2, WORK_LEN, JINGCOBU_OK, "the ends of n");
        expect(reduced(good[i], f, 2, g, 2, COFACTOR_LEN, COFACTOR_LEN, WORK_LEN, JINGCOBU_OK, "the ends of n") == good[i], "D of - x and - x is n", "the ends of n");
        product(good[i], f, 2, g, 2, 3, JINGCOBU_OK, "the ends of n");
        expect(divisor(good[i], f, 2, g, 2, WORK_LEN, JINGCOBU_OK, "the ends of n") == good[i], "D alone of - x and - x is n", "the ends of n");
        f[1] = g[1] = 0;
    }
    for (size_t fl = 0; fl <= 60; fl++)
        for (size_t gl = 0; gl <= 60; gl++) {
            int right = fl >= 1 && fl <= 49 && gl >= 1 && gl <= 49, fits = right && fl + gl <= 50;
            snprintf(where, sizeof where, "%zu and %zu words", fl, gl);
            resultant(2, fl ? f : NULL, fl, gl ? g : NULL, gl, WORK_LEN, right ? JINGCOBU_OK : JINGCOBU_BAD_LENGTH, where);
            product(2, fl ? f : NULL, fl, gl ? g : NULL, gl, 100, fits ? JINGCOBU_OK : JINGCOBU_BAD_LENGTH, where);
            divisor(2, fl ? f : NULL, fl, gl ? g : NULL, gl, WORK_LEN, right ? JINGCOBU_OK : JINGCOBU_BAD_LENGTH, where);
            if (fits) product(2, f, fl, g, gl, fl + gl - 2, JINGCOBU_SHORT_RESULT, where);
            if (fits) product(2, f, fl, g, gl, fl + gl - 1, JINGCOBU_OK, where);
        }
    for (int k = 1; k < 63; k++)
        for (int high = 0; high < 2; high++)
            for (size_t d = 0; d <= 48; d += 24)
                for (size_t e = 0; e <= 48; e += 16) {
                    uint64_t n = high ? ((uint64_t) 1 << (k + 1)) - 1 : (uint64_t) 1 << k;
                    size_t l = (size_t) k * larger(d, e) + 1;
                    for (size_t i = 0; i <= d; i++) f[i] = (7 * i + 3) % n;
                    for (size_t i = 0; i <= e; i++) g[i] = (5 * i + n - 1) % n;
                    snprintf(where, sizeof where, "n = %llu, d = %zu, e = %zu", (unsigned long long) n, d, e);
                    word D = reduced(n, f, d + 1, g, e + 1, l, l, WORK_LEN, JINGCOBU_OK, where);
                    expect(divisor(n, f, d + 1, g, e + 1, WORK_LEN, JINGCOBU_OK, where) == D, "D alone is D", where);
                    divisor(n, f, d + 1, g, e + 1, WORK_LEN - 1, JINGCOBU_SHORT_WORK, where);
                    divisor(n, f, d + 1, g, e + 1, 8192, JINGCOBU_SHORT_WORK, where);
                    reduced(n, f, d + 1, g, e + 1, l - 1, l, WORK_LEN, JINGCOBU_SHORT_RESULT, where);
                    reduced(n, f, d + 1, g, e + 1, l, l - 1, WORK_LEN, JINGCOBU_SHORT_RESULT, where);
                    reduced(n, f, d + 1, g, e + 1, l, l, WORK_LEN - 1, JINGCOBU_SHORT_WORK, where);
                    reduced(n, f, d + 1, g, e + 1, l, l, 8192, JINGCOBU_SHORT_WORK, where);
                    resultant(n, f, d + 1, g, e + 1, WORK_LEN - 1, JINGCOBU_SHORT_WORK, where);
                    resultant(n, f, d + 1, g, e + 1, 8192, JINGCOBU_SHORT_WORK, where);
                    resultant(n, f, d + 1, g, e + 1, WORK_LEN, JINGCOBU_OK, where);
                }
    /* a product whose top word comes out zero has its sent degree all the same */
    uint64_t two[] = { 1, (uint64_t) 1 << 31 }, three[] = { 5, (uint64_t) 1 << 31 };
    product((uint64_t) 1 << 62, two, 2, three, 2, 3, JINGCOBU_OK, "a zero top");
    expect(out[MARGIN] == 5 && out[MARGIN + 1] == (uint64_t) 6 << 31 && out[MARGIN + 2] == 0, "the product is 5, 6 * 2^31, 0", "a zero top");
}

/* ---- both sets of services, if n and the words fit 32 bits */

static uint32_t narrow_work[JINGCOBU_WORK], narrow_u[JINGCOBU_COFACTOR], narrow_v[JINGCOBU_COFACTOR], narrow_out[2 * MOST];

/* whether both return the same resultant, D and, if d + e is at most 48, product */
static int alike(uint32_t n, const uint64_t *f, size_t fl, const uint64_t *g, size_t gl)
{
    uint32_t a[MOST], b[MOST];
    for (size_t i = 0; i < fl; i++) a[i] = (uint32_t) f[i];
    for (size_t i = 0; i < gl; i++) b[i] = (uint32_t) g[i];
    jingcobu64_answer r = jingcobu64_resultant(n, f, fl, g, gl, work, WORK_LEN);
    jingcobu64_answer D = jingcobu64_reduced_resultant(n, f, fl, g, gl, u, COFACTOR_LEN, v, COFACTOR_LEN, work, WORK_LEN);
    jingcobu64_answer alone = jingcobu64_divisor(n, f, fl, g, gl, work, WORK_LEN);
    jingcobu64_answer p = jingcobu64_product(n, f, fl, g, gl, out, MOST);
    jingcobu_answer r0 = jingcobu_resultant(n, a, fl, b, gl, narrow_work, JINGCOBU_WORK);
    jingcobu_answer D0 = jingcobu_reduced_resultant(n, a, fl, b, gl, narrow_u, JINGCOBU_COFACTOR, narrow_v, JINGCOBU_COFACTOR, narrow_work, JINGCOBU_WORK);
    jingcobu_answer p0 = jingcobu_product(n, a, fl, b, gl, narrow_out, MOST);
    if (alone.status || alone.value != D.value) return 0;
    if (r.status || r0.status || D.status || D0.status || p.status != p0.status || r.value != r0.value || D.value != D0.value) return 0;
    for (size_t k = 0; p.status == 0 && k < fl + gl - 1; k++) if (out[k] != narrow_out[k]) return 0;
    return p.status == (fl + gl <= 50 ? JINGCOBU_OK : JINGCOBU_BAD_LENGTH);
}

static void both(void)
{
    static const uint32_t moduli[] = { 2, 6, 12, 210, 65536, 65537, 2147483648u, 3486784401u, 223092870u, 2176782336u, 4294967291u, 4294967295u };
    uint64_t f[MOST], g[MOST];
    long small = 0, wrong = 0;
    char where[40];
    for (int t = 0; t < DRAWN; t++) {
        uint32_t n = t % 4 ? moduli[draw() % (sizeof moduli / sizeof *moduli)] : (uint32_t) (2 + draw() % 4294967294u);
        size_t most = t % 20 == 0 ? 49 : t % 3 ? 9 : 25, fl = 1 + draw() % most, gl = 1 + draw() % most;
        fill(n, f, fl, 1 + draw() % 6);
        fill(n, g, gl, 1 + draw() % 6);
        snprintf(where, sizeof where, "pair %d", t);
        expect(alike(n, f, fl, g, gl), "words of 32 and of 64 bits: resultant, D and product", where);
    }
    /* every pair of degrees up to 2 */
    for (uint32_t n = 4; n <= 6; n += 2)
        for (size_t fl = 1; fl <= 3; fl++)
            for (size_t gl = 1; gl <= 3; gl++) {
                long all = 1;
                for (size_t i = 0; i < fl + gl; i++) all *= n;
                for (long x = 0; x < all; x++) {
                    long rest = x;
                    for (size_t i = 0; i < fl; i++, rest /= n) f[i] = (uint64_t) (rest % n);
                    for (size_t i = 0; i < gl; i++, rest /= n) g[i] = (uint64_t) (rest % n);
                    if (!alike(n, f, fl, g, gl)) wrong++;
                    small++;
                }
            }
    expect(wrong == 0, "words of 32 and of 64 bits: resultant, D and product", "every pair of degrees up to 2 modulo 4 and 6");
    printf("%d drawn pairs, and %ld of degrees up to 2, answered alike with words of 32 bits\n", DRAWN, small);
}

/* ---- lengths that are refused unread */

/* every function, with results in marked words, or, since they must not be touched either, in SIZE_MAX words that are not there */
static void unread_pair(uint64_t n, const uint64_t *f, size_t fl, const uint64_t *g, size_t gl, int results, uint32_t status,
                        const char *where)
{
    uint64_t *o = results ? out + MARGIN : NOWHERE, *c = results ? u + MARGIN : NOWHERE, *w = results ? work + MARGIN : NOWHERE;
    size_t ol = results ? 100 : SIZE_MAX, cl = results ? MORE_COFACTOR : SIZE_MAX, wl = results ? MORE_WORK : SIZE_MAX;
    REFUSED(jingcobu64_product(n, f, fl, g, gl, o, ol), status, "unread: product", where);
    REFUSED(jingcobu64_resultant(n, f, fl, g, gl, w, wl), status, "unread: resultant", where);
    REFUSED(jingcobu64_divisor(n, f, fl, g, gl, w, wl), status, "unread: divisor", where);
    REFUSED(jingcobu64_reduced_resultant(n, f, fl, g, gl, c, cl, results ? v + MARGIN : c, cl, w, wl), status, "unread: reduced", where);
}

static void unread(void)
{
    static const uint64_t moduli[] = { 7, 1, LIMIT, LIMIT - 1 };
    const uint64_t f[] = { 1, 2 };
    char where[80];
    watch();
    mark(out, PRODUCT_ROOM); mark(u, COFACTOR_ROOM); mark(v, COFACTOR_ROOM); mark(work, WORK_ROOM);
    for (size_t i = 0; i < 24; i++) {
        size_t length = refused_lengths[i % 3];
        uint64_t n = moduli[i / 3 % 4];
        uint32_t status = n < 2 || n >= LIMIT ? JINGCOBU_BAD_MODULUS : JINGCOBU_BAD_LENGTH;
        snprintf(where, sizeof where, "%zu words modulo %llu%s", length, (unsigned long long) n, i < 12 ? "" : ", no results");
        unread_pair(n, NOWHERE, length, f, 2, i < 12, status, where);
        unread_pair(n, f, 2, NOWHERE, length, i < 12, status, where);
        unread_pair(n, NOWHERE, length, NOWHERE, length, i < 12, status, where);
        unread_pair(n, NOWHERE, 2, NOWHERE, length, i < 12, status, where);
        unread_pair(n, NOWHERE, length, NOWHERE, 2, i < 12, status, where);
    }
    REFUSED(jingcobu64_product(7, NULL, 0, NULL, 0, NULL, 0), JINGCOBU_BAD_LENGTH, "product", "nothing is lent");
    REFUSED(jingcobu64_resultant(7, NULL, 0, NULL, 0, NULL, 0), JINGCOBU_BAD_LENGTH, "resultant", "nothing is lent");
    REFUSED(jingcobu64_divisor(7, NULL, 0, NULL, 0, NULL, 0), JINGCOBU_BAD_LENGTH, "divisor", "nothing is lent");
    REFUSED(jingcobu64_reduced_resultant(7, NULL, 0, NULL, 0, NULL, 0, NULL, 0, NULL, 0), JINGCOBU_BAD_LENGTH, "reduced",
            "nothing is lent");
    expect(kept_but(out, PRODUCT_ROOM, 0) && kept_but(u, COFACTOR_ROOM, 0) && kept_but(v, COFACTOR_ROOM, 0) && kept_but(work, WORK_ROOM, 0),
           "unread: every buffer is unchanged", "all lengths");
    printf("%ld calls with lengths that are refused unread\n", unread_calls);
}

/* ---- the gcd of two residues with its least cofactors, and the true degree */

static void gcd(word n, word a, word b, const char *where)
{
    jingcobu64_cofactors c = jingcobu64_gcd(n, a, b);
    uint32_t status = n < 2 || n >= LIMIT ? JINGCOBU_BAD_MODULUS : a >= n || b >= n ? JINGCOBU_BAD_WORD : JINGCOBU_OK;
    expect(c.status == status, "gcd: the status", where);
    if (status) {
        expect(!c.g && !c.s && !c.t, "gcd refused: the values are 0", where);
        return;
    }
    word g = common_divisor(common_divisor(a, b), n);
    expect(c.g == g, "gcd: the greatest common divisor of a, b and n", where);
    expect(c.g && least(n, a, b, g, c.s, c.t), "gcd: the least cofactors", where);
    expect(reduced(n, &a, 1, &b, 1, 1, 1, WORK_LEN, JINGCOBU_OK, where) == g, "reduced: D of two constants is their gcd", where);
    expect(u[MARGIN] == c.s && v[MARGIN] == c.t, "reduced: the cofactors of two constants are those of the gcd", where);
}

static void gcds(const word *moduli, size_t count)
{
    static const word refused[] = { 0, 1, LIMIT, LIMIT + 1, UINT64_MAX };
    char where[90];
    for (size_t m = 0; m < count + 5; m++) {
        word n = m < count ? moduli[m] : refused[m - count], ends[] = { 0, 1, 2, n / 2, n / 3, n - 2, n - 1, n, n + 1, UINT64_MAX };
        for (size_t i = 0; i < 300; i++) {
            word by = 1 + draw() % 60, bound = n < 2 ? 2 : n, a = i < 100 ? ends[i % 10] : times(bound, draw() % bound, by);
            word b = i < 100 ? ends[i / 10] : i % 4 ? draw() % bound : times(bound, a, by);
            snprintf(where, sizeof where, "%llu and %llu modulo %llu", (unsigned long long) a, (unsigned long long) b, (unsigned long long) n);
            gcd(n, a, b, where);
        }
    }
    printf("%zu pairs of residues\n", 300 * (count + 5));
}

static void degree(word n, const word *f, size_t fl, const char *where)
{
    size_t k = fl;
    uint32_t status = n < 2 || n >= LIMIT ? JINGCOBU_BAD_MODULUS : fl < 1 || fl > MOST ? JINGCOBU_BAD_LENGTH : JINGCOBU_OK;
    for (size_t i = 0; !status && i < fl; i++) if (f[i] >= n) status = JINGCOBU_BAD_WORD;
    copy(f, fl, NULL, 0);
    jingcobu_degree a = jingcobu64_true_degree(n, at_or_null(f, fl), fl);
    expect(a.status == status, "degree: the status", where);
    expect(same(f, fl, NULL, 0), "degree: f is only read", where);
    while (!status && k && !f[k - 1]) k--;
    expect(status ? !a.some && !a.degree : a.some == (k > 0) && a.degree == (k ? k - 1 : 0), "degree: the highest word that is not zero", where);
}

static void unread_degree(size_t length)
{
    watch();
    REFUSED(jingcobu64_true_degree(7, NOWHERE, length), JINGCOBU_BAD_LENGTH, "unread: true_degree", "modulo 7");
    REFUSED(jingcobu64_true_degree(LIMIT, NOWHERE, length), JINGCOBU_BAD_MODULUS, "unread: true_degree", "modulo 2^63");
}

/* every length with every top word, one that is not zero or one that is too large; lengths that are refused unread */
static void degrees(void)
{
    static const word moduli[] = { 2, 4294967296u, (word) 7 << 58, LIMIT - 1, 0, 1, LIMIT, UINT64_MAX };
    long count = 0;
    char where[80];
    for (int m = 0; m < 8; m++)
        for (size_t fl = 0; fl <= 60; fl++)
            for (size_t top = 0; top <= fl; top++, count++) {
                word f[60] = { 0 }, n = moduli[m];
                if (top) f[top - 1] = top % 5 ? n - 1 : n;
                if (top > 1) f[top / 2] = n > 2 ? n / 2 : 1;
                snprintf(where, sizeof where, "%zu words, top word %zu, modulo %llu", fl, top, (unsigned long long) n);
                degree(n, f, fl, where);
            }
    for (size_t i = 0; i < 3; i++) unread_degree(refused_lengths[i]);
    printf("%ld true degrees\n", count);
}

int main(int argc, char **argv)
{
    static const uint64_t moduli[] = { 2, 4, 6, 12, 36, 210, 4294967291u, 4294967295u, 4294967296u, 4611686018427387904u, 4052555153018976267u,
        4738381338321616896u, 614889782588491410u, 9223371994482243049u, 9223372036854775783u, 9223372036854775807u };
    if (argc > 2) most_failed = atol(argv[2]);
    pairs(argc > 1 ? argv[1] : "../crates/test_vectors64");
    batches(moduli, sizeof moduli / sizeof *moduli, (const word[]) { 0, 1, LIMIT, UINT64_MAX }, (uint64_t) 7 << 58);
    orders((const word[]) { 0, 1, LIMIT, UINT64_MAX }, (uint64_t) 7 << 58, more_of_reasons);
    words();
    ends();
    products(moduli, sizeof moduli / sizeof *moduli, TRIPLES);
    both();
    unread();
    gcds(moduli, sizeof moduli / sizeof *moduli);
    degrees();
    printf("%ld passed, %ld failed\n", tried - failed, failed);
    return failed != 0;
}
