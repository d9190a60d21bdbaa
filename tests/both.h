/* What both hosts try in the same way: the calls of product, resultant and reduced resultant, the stored pairs, every set of reasons to
 * refuse, and the law of products. Defined before it, beside what lent.h needs: `answer`, the type of an answer; SERVICE(name), the
 * function with words of that size; WORK_LEN and COFACTOR_LEN, the words that are always enough; MORE_WORK and MORE_COFACTOR, some more
 * than these; F_SCALE and G_SCALE, powers of 2 that make small words large ones. */
#include "lent.h"

/* Buffers, with words before and after what is lent. */
#define WORK_ROOM (MARGIN + MORE_WORK + MARGIN)
#define COFACTOR_ROOM (MARGIN + MORE_COFACTOR + MARGIN)
#define PRODUCT_ROOM (MARGIN + 100 + MARGIN)
static word work[WORK_ROOM], u[COFACTOR_ROOM], v[COFACTOR_ROOM], out[PRODUCT_ROOM];

/* ---- numbers worked here */

typedef unsigned __int128 wide;

static word times(word n, word a, word b) { return (word) ((wide) a * b % n); }

/* s and word k of the product of a and b: a sum below 2^64 n, for n below 2^63 and words below n */
static wide add_word(word n, wide s, const word *a, size_t al, const word *b, size_t bl, size_t k)
{
    wide top = (wide) n << 64;
    for (size_t i = k < bl ? 0 : k - bl + 1; i <= k && i < al; i++) {
        s += (wide) a[i] * b[k - i];
        if (s >= top) s -= top;
    }
    return s;
}

static word product_word(word n, const word *f, size_t fl, const word *g, size_t gl, size_t k)
{
    return (word) (add_word(n, 0, f, fl, g, gl, k) % n);
}

/* whether u f + v g is the constant c modulo n, u and v being ul and vl words below n */
static int combine(word n, const word *f, size_t fl, const word *g, size_t gl, size_t ul, size_t vl, word c)
{
    for (size_t k = 0; k < larger(ul + fl, vl + gl); k++)
        if (add_word(n, add_word(n, 0, f, fl, u + MARGIN, ul, k), g, gl, v + MARGIN, vl, k) % n != (k == 0 ? c % n : 0)) return 0;
    return 1;
}

/* whether s and t are the least cofactors of g = gcd(a, b, n): they fit, and two s that fit differ by a multiple of h / g, with
 * h = gcd(b, n), two t that fit with one s by a multiple of n / h */
static int least(word n, word a, word b, word g, word s, word t)
{
    word h = common_divisor(b, n);
    return ((wide) times(n, s, a) + times(n, t, b)) % n == g % n && s < h / g && t < n / h;
}

/* ---- one call, with all that the header promises of it: the value, the status, every word. `status` is the one it should have. */

static void product(word n, const word *f, size_t fl, const word *g, size_t gl, size_t ol, uint32_t status, const char *where)
{
    mark(out, PRODUCT_ROOM);
    copy(f, fl, g, gl);
    answer a = SERVICE(product)(n, f, fl, g, gl, lent(out, ol), ol);
    expect(a.status == status, "product: the status", where);
    expect(a.value == 0, "product: the value is 0", where);
    expect(same(f, fl, g, gl), "product: f and g are only read", where);
    if (status != JINGCOBU_OK) {
        expect(kept_but(out, PRODUCT_ROOM, 0), "product refused: the buffer is unchanged", where);
        return;
    }
    expect(kept_but(out, PRODUCT_ROOM, fl + gl - 1), "product: words beyond d + e + 1 are unchanged", where);
    int right = 1;
    for (size_t k = 0; k < fl + gl - 1; k++) if (out[MARGIN + k] != product_word(n, f, fl, g, gl, k)) right = 0;
    expect(right, "product: the first d + e + 1 words", where);
}

static word resultant(word n, const word *f, size_t fl, const word *g, size_t gl, size_t wl, uint32_t status, const char *where)
{
    mark(work, WORK_ROOM);
    copy(f, fl, g, gl);
    answer a = SERVICE(resultant)(n, f, fl, g, gl, lent(work, wl), wl);
    expect(a.status == status, "resultant: the status", where);
    expect(same(f, fl, g, gl), "resultant: f and g are only read", where);
    if (status != JINGCOBU_OK) {
        expect(a.value == 0, "resultant refused: the value is 0", where);
        expect(kept_but(work, WORK_ROOM, 0), "resultant refused: the working words are unchanged", where);
        return 0;
    }
    expect(a.value < n, "resultant: below n", where);
    expect(all(work, 0, wl, 0), "resultant: all working words are zero", where);
    expect(kept_but(work, WORK_ROOM, wl), "resultant: words that are not lent", where);
    return a.value;
}

static word reduced(word n, const word *f, size_t fl, const word *g, size_t gl, size_t ul, size_t vl, size_t wl, uint32_t status,
                    const char *where)
{
    mark(work, WORK_ROOM); mark(u, COFACTOR_ROOM); mark(v, COFACTOR_ROOM);
    copy(f, fl, g, gl);
    answer a = SERVICE(reduced_resultant)(n, f, fl, g, gl, lent(u, ul), ul, lent(v, vl), vl, lent(work, wl), wl);
    expect(a.status == status, "reduced: the status", where);
    expect(same(f, fl, g, gl), "reduced: f and g are only read", where);
    if (status != JINGCOBU_OK) {
        expect(a.value == 0, "reduced refused: the value is 0", where);
        expect(kept_but(work, WORK_ROOM, 0), "reduced refused: the working words are unchanged", where);
        expect(kept_but(u, COFACTOR_ROOM, 0), "reduced refused: u is unchanged", where);
        expect(kept_but(v, COFACTOR_ROOM, 0), "reduced refused: v is unchanged", where);
        return 1;
    }
    size_t l = cofactor_length(n, fl, gl);
    expect(a.value >= 1 && n % (a.value ? a.value : 1) == 0, "reduced: D is at least 1 and divides n", where);
    expect(all(work, 0, wl, 0), "reduced: all working words are zero", where);
    expect(kept_but(work, WORK_ROOM, wl), "reduced: words that are not lent", where);
    expect(kept_but(u, COFACTOR_ROOM, l), "reduced: words of u beyond L are unchanged", where);
    expect(kept_but(v, COFACTOR_ROOM, l), "reduced: words of v beyond L are unchanged", where);
    int small = below(u, l, n) && below(v, l, n);
    expect(small, "reduced: the words of the cofactors are below n", where);
    expect(small && combine(n, f, fl, g, gl, l, l, a.value), "reduced: the cofactors combine f and g to D", where);
    if (fl == 1 && gl == 1 && a.value)
        expect(least(n, f[0], g[0], a.value, u[MARGIN], v[MARGIN]), "reduced: the cofactors of two constants are the least", where);
    return a.value ? a.value : 1;
}

/* ---- the stored pairs */

#define DIGITS (2 * sizeof(word))

/* the number that `count` lower-case hexadecimal digits spell; `*ok` becomes 0 if they are not digits */
static word number(const char *s, size_t count, int *ok)
{
    static const char digits[] = "0123456789abcdef";
    word x = 0;
    for (size_t i = 0; i < count; i++) {
        const char *p = s[i] ? strchr(digits, s[i]) : NULL;
        if (!p) { *ok = 0; return 0; }
        x = 16 * x + (word) (p - digits);
    }
    return x;
}

typedef struct { word n, w[2 * MOST], r, D; size_t fl, gl; } stored;

/* `kind`, n, d, e and the words, whole */
static int read_pair(const char *s, const char *kind, stored *x)
{
    size_t head = strlen(kind) + DIGITS + 4;
    int ok = strlen(s) > head && !strncmp(s, kind, strlen(kind));
    if (!ok) return 0;
    x->n = number(s + head - 4 - DIGITS, DIGITS, &ok);
    x->fl = number(s + head - 4, 2, &ok) + 1;
    x->gl = number(s + head - 2, 2, &ok) + 1;
    if (!ok || x->fl > MOST || x->gl > MOST || strlen(s) != head + DIGITS * (x->fl + x->gl) + 1) return 0;
    for (size_t i = 0; i < x->fl + x->gl; i++) x->w[i] = number(s + head + DIGITS * i, DIGITS, &ok);
    return ok && s[strlen(s) - 1] == '\n';
}

/* resultant, blank, D */
static int read_figures(const char *s, stored *x)
{
    int ok = strlen(s) == 2 * DIGITS + 2 && s[DIGITS] == ' ' && s[2 * DIGITS + 1] == '\n';
    if (!ok) return 0;
    x->r = number(s, DIGITS, &ok);
    x->D = number(s + DIGITS + 1, DIGITS, &ok);
    return ok;
}

/* Each pair of the folder, whose lines begin with `kind`: its resultant and D, and what else the host tries of it. Answers how many
 * there are. */
static long stored_pairs(const char *folder, const char *kind, long at_least, void (*more)(const stored *, const char *where))
{
    char path[400], line[2000], figures[100], where[40];
    stored x;
    long count = 0;
    snprintf(path, sizeof path, "%s/stdin", folder);
    FILE *in = fopen(path, "r");
    snprintf(path, sizeof path, "%s/stdout", folder);
    FILE *numbers = fopen(path, "r");
    expect(in && numbers, "the stored pairs are there", folder);
    if (!in || !numbers) return 0;
    for (;;) {
        char *a = fgets(line, sizeof line, in), *b = fgets(figures, sizeof figures, numbers);
        snprintf(where, sizeof where, "line %ld", count + 1);
        expect(!a == !b, "the files of the stored pairs are equally long", where);
        if (!a || !b) break;
        int whole = read_pair(line, kind, &x) && read_figures(figures, &x);
        expect(whole, "a pair, a resultant and a D", where);
        if (!whole) break;
        const word *f = x.w, *g = x.w + x.fl;
        word r = resultant(x.n, f, x.fl, g, x.gl, MORE_WORK, JINGCOBU_OK, where);
        expect(r == x.r, "the resultant is the other program's", where);
        word D = reduced(x.n, f, x.fl, g, x.gl, MORE_COFACTOR, MORE_COFACTOR, MORE_WORK, JINGCOBU_OK, where);
        expect(D == x.D, "D is the other program's", where);
        more(&x, where);
        count++;
    }
    expect(count >= at_least, "all the stored pairs were read", folder);
    fclose(in);
    fclose(numbers);
    return count;
}

/* ---- refusals */

/* A call with a set of reasons to refuse it: n; f and g too long or empty, or with a word that is n or more (the last one, or the first);
 * u, v, the working words or the buffer of a product too short, or not there; d + e = 49. */
enum { N = 1, F = 2, G = 4, WF = 8, WG = 16, U = 32, V = 64, W = 128, SUM = 256, OUT = 512, SETS = 1024 };
typedef struct {
    word n, f[60], g[60];
    size_t fl, gl, d, e, ul, vl, wl, ol;            /* d and e are the words of f and g, or 1 */
    int set, last;
    uint32_t first, of_product;                     /* what is refused for n, a length or a word, and so in a product */
    char where[40];
} reasons;

static const word *at_or_null(const word *f, size_t fl) { return fl ? f : NULL; }

static void give_reasons(reasons *x, int set, int other, word n)
{
    int empty = other & 1, last = other & 2;
    x->n = n; x->set = set; x->last = last;
    for (int i = 0; i < 60; i++) { x->f[i] = (word) (i % 7) << F_SCALE; x->g[i] = (word) ((3 * i + 1) % 7) << G_SCALE; }
    x->fl = set & F ? empty ? 0 : 50 : set & SUM ? 30 : 5;
    x->gl = set & G ? empty ? 0 : 50 : set & SUM ? 21 : 3;
    if ((set & WF) && x->fl) x->f[last ? x->fl - 1 : 0] = n < 7 ? 7 : n;
    if ((set & WG) && x->gl) x->g[last ? x->gl - 1 : 0] = (word) -1;
    x->d = x->fl ? x->fl : 1;
    x->e = x->gl ? x->gl : 1;
    size_t l = set & N ? 1 : cofactor_length(n, x->d, x->e), ol = x->d + x->e - 1;
    x->ul = set & U ? last ? 0 : l - 1 : l;
    x->vl = set & V ? last ? 0 : l - 1 : l;
    x->wl = set & W ? last ? 0 : WORK_LEN - 1 : WORK_LEN;
    x->ol = set & OUT ? last ? 0 : ol - 1 : ol;
    uint32_t length = set & N ? JINGCOBU_BAD_MODULUS : set & (F | G) ? JINGCOBU_BAD_LENGTH : 0;
    uint32_t large = set & (WF | WG) ? JINGCOBU_BAD_WORD : 0;
    x->first = length ? length : large;
    x->of_product = length ? length : set & SUM ? JINGCOBU_BAD_LENGTH : large;
    snprintf(x->where, sizeof x->where, "set %d of reasons, %d", set, other);
}

static uint32_t or_short(uint32_t first, int too_short, uint32_t status) { return first ? first : too_short ? status : JINGCOBU_OK; }

/* Every set of reasons at once, with each of four n that are refused: the status is the least number among them. */
static void orders(const word *refused, word n, void (*more)(const reasons *))
{
    long sets = 0;
    for (int other = 0; other < 4; other++)
        for (int set = 0; set < SETS; set++) {
            reasons x;
            give_reasons(&x, set, other, set & N ? refused[other] : n);
            const word *f = at_or_null(x.f, x.fl), *g = at_or_null(x.g, x.gl);
            uint32_t short_work = or_short(x.first, set & W, JINGCOBU_SHORT_WORK);
            uint32_t short_cofactor = or_short(x.first, set & (U | V), JINGCOBU_SHORT_RESULT);
            resultant(x.n, f, x.fl, g, x.gl, x.wl, short_work, x.where);
            reduced(x.n, f, x.fl, g, x.gl, x.ul, x.vl, x.wl, short_cofactor ? short_cofactor : short_work, x.where);
            product(x.n, f, x.fl, g, x.gl, x.ol, or_short(x.of_product, set & OUT, JINGCOBU_SHORT_RESULT), x.where);
            if (more) more(&x);
            sets++;
        }
    printf("%ld sets of reasons to refuse\n", sets);
}

/* ---- drawn numbers */

static uint64_t state = 20261115;
static uint64_t draw64(void)
{
    state ^= state << 13; state ^= state >> 7; state ^= state << 17;
    return state;
}
static word draw(void) { return (word) (sizeof(word) == 4 ? draw64() >> 16 : draw64()); }

/* l words, a fourth of them zero; all multiples of `small` */
static void fill(word n, word *f, size_t l, word small)
{
    for (size_t i = 0; i < l; i++) {
        word x = times(n, draw() % n, small);
        f[i] = draw() % 4 ? x : 0;
    }
}

/* ---- the law of products */

#define SQUARED 3037000493u         /* a prime whose square is one of the n of 64 bits */
static void products(const word *moduli, size_t count, int triples)
{
    word f[25], g[25], h[MOST], p[MOST];
    long nonzero = 0, between = 0;
    char where[40];
    for (int t = 0; t < triples; t++) {
        word n = moduli[draw() % count], small = 1 + draw() % 30;
        size_t a = draw() % 9, b = draw() % 9, e = draw() % 9;
        if (n / SQUARED == SQUARED && n % SQUARED == 0 && draw() % 2) small = SQUARED;
        if (t % 50 == 0) { a = 24; b = 24; e = 48; }
        fill(n, f, a + 1, small);
        fill(n, g, b + 1, small);
        fill(n, h, e + 1, 1);
        if (t % 3 == 0) f[a] = 0;
        if (t % 5 == 0) h[e] = 0;
        snprintf(where, sizeof where, "triple %d", t);
        product(n, f, a + 1, g, b + 1, 60, JINGCOBU_OK, where);
        memcpy(p, out + MARGIN, (a + b + 1) * sizeof *p);
        word r = resultant(n, p, a + b + 1, h, e + 1, WORK_LEN, JINGCOBU_OK, where);
        word rf = resultant(n, f, a + 1, h, e + 1, WORK_LEN, JINGCOBU_OK, where);
        word rg = resultant(n, g, b + 1, h, e + 1, WORK_LEN, JINGCOBU_OK, where);
        word D = reduced(n, p, a + b + 1, h, e + 1, COFACTOR_LEN, COFACTOR_LEN, WORK_LEN, JINGCOBU_OK, where);
        word Df = reduced(n, f, a + 1, h, e + 1, COFACTOR_LEN, COFACTOR_LEN, WORK_LEN, JINGCOBU_OK, where);
        word Dg = reduced(n, g, b + 1, h, e + 1, COFACTOR_LEN, COFACTOR_LEN, WORK_LEN, JINGCOBU_OK, where);
        expect(r == times(n, rf, rg), "the resultant of a product is the product of the resultants", where);
        expect(D % Df == 0, "D of f divides D of the product", where);
        expect(D % Dg == 0, "D of g divides D of the product", where);
        expect((wide) Df * Dg % D == 0, "D of the product divides the product of the D", where);
        if (r) nonzero++;
        if (D > 1 && D < n) between++;
    }
    printf("%d triples of the law of products, in %ld the resultant is not 0, in %ld D is neither 1 nor n\n", triples, nonzero, between);
}
