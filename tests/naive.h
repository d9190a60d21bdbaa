/* The services as the header defines them, computed in the plainest way that is known, for any n below 2^63: the Sylvester matrix by
 * elimination of rows, D by the constants that the multiples of f and g reach, texts, shares. */
#include <stdint.h>
#include <stdio.h>
#include <string.h>

#define MOST 49
typedef unsigned __int128 wide;

static uint64_t times(uint64_t n, uint64_t a, uint64_t b) { return n >> 32 ? (uint64_t) ((wide) a * b % n) : a * b % n; }
static uint64_t minus(uint64_t n, uint64_t a, uint64_t b) { return a >= b ? a - b : a + (n - b); }
static uint64_t plus(uint64_t n, uint64_t a, uint64_t b) { return (a + b) % n; }

static size_t larger(size_t a, size_t b) { return a > b ? a : b; }

static uint64_t common_divisor(uint64_t a, uint64_t b)
{
    while (b) { uint64_t c = a % b; a = b; b = c; }
    return a;
}

/* L: K times the larger degree and one more, where 2^K is the largest power of 2 that is at most n */
static size_t cofactor_length(uint64_t n, size_t fl, size_t gl)
{
    size_t k = 0;
    while (n > 1) { n /= 2; k++; }
    return k * (larger(fl, gl) - 1) + 1;
}

/* word k of the product of f and g */
static uint64_t product_word(uint64_t n, const uint64_t *f, size_t fl, const uint64_t *g, size_t gl, size_t k)
{
    uint64_t s = 0;
    for (size_t i = k < gl ? 0 : k - gl + 1; i <= k && i < fl; i++) if (f[i] && g[k - i]) s = plus(n, s, times(n, f[i], g[k - i]));
    return s;
}

/* whether u f + v g is the constant c modulo n */
static int combine(uint64_t n, const uint64_t *f, size_t fl, const uint64_t *u, size_t ul, const uint64_t *g, size_t gl, const uint64_t *v,
                   size_t vl, uint64_t c)
{
    size_t words = larger(ul ? ul + fl : 0, vl ? vl + gl : 0);
    for (size_t k = 0; k < words; k++) {
        uint64_t s = ul ? product_word(n, f, fl, u, ul, k) : 0;
        if (vl) s = plus(n, s, product_word(n, g, gl, v, vl, k));
        if (s != (k == 0 ? c % n : 0)) return 0;
    }
    return words > 0 || c % n == 0;
}

/* ---- elimination of rows */

/* s a + t b = g = gcd(a, b) and p a + q b = 0, with s q - t p = 1, all modulo n */
typedef struct { uint64_t g, s, t, p, q; } mixing;

static mixing euclid(uint64_t n, uint64_t a, uint64_t b)
{
    mixing m = { a, 1, 0, 0, 1 };
    int odd = 0;
    while (b) {
        mixing before = m;
        uint64_t x = before.g / b, y = x % n;
        m.g = b;
        b = before.g - x * b;
        m.s = before.p;
        m.t = before.q;
        m.p = minus(n, before.s, times(n, y, before.p));
        m.q = minus(n, before.t, times(n, y, before.q));
        odd = !odd;
    }
    if (odd) { m.p = minus(n, 0, m.p); m.q = minus(n, 0, m.q); }
    return m;
}

/* the two rows by the mixing of their first words: the second begins with 0 then, and the determinant stays */
static void mix(uint64_t n, uint64_t *row, uint64_t *other, size_t width)
{
    mixing m = euclid(n, row[0], other[0]);
    for (size_t k = 0; k < width; k++) {
        uint64_t x = row[k], y = other[k];
        if (!x && !y) continue;
        row[k] = plus(n, times(n, m.s, x), times(n, m.t, y));
        other[k] = plus(n, times(n, m.p, x), times(n, m.q, y));
    }
}

static uint64_t determinant(uint64_t n, uint64_t matrix[][2 * MOST], size_t size)
{
    uint64_t product = 1 % n;
    for (size_t c = 0; c < size; c++) {
        for (size_t r = c + 1; r < size; r++) if (matrix[r][c]) mix(n, matrix[c] + c, matrix[r] + c, size - c);
        product = times(n, product, matrix[c][c]);
    }
    return product;
}

/* e rows with the words of f, the top one first, each a place further; then d rows with those of g */
static uint64_t naive_resultant(uint64_t n, const uint64_t *f, size_t fl, const uint64_t *g, size_t gl)
{
    uint64_t matrix[2 * MOST][2 * MOST];
    size_t d = fl - 1, e = gl - 1;
    memset(matrix, 0, sizeof matrix);
    for (size_t i = 0; i < e; i++) for (size_t k = 0; k <= d; k++) matrix[i][i + k] = f[d - k];
    for (size_t i = 0; i < d; i++) for (size_t k = 0; k <= e; k++) matrix[e + i][i + k] = g[e - k];
    return determinant(n, matrix, d + e);
}

/* ---- D: which constants the multiples of f and g reach */

/* Rows of words from the highest power that is not yet zero in all of them down. A row is as wide as the longer polynomial. */
#define ROWS 4000
typedef struct { uint64_t row[ROWS][MOST]; size_t count, width; } rows;

static void add_row(rows *x, const uint64_t *f, size_t fl)
{
    uint64_t *row = x->row[x->count++];
    for (size_t k = 0; k < x->width; k++) row[k] = k < fl ? f[fl - 1 - k] : 0;
}

/* All rows begin with 0 then and go on with the next power; what is generated is what the rows generated that began with 0: one row
 * takes up the first words of all others, and is then multiplied by the least number that makes its own first word 0. */
static void next_power(uint64_t n, rows *x)
{
    uint64_t *first = NULL;
    for (size_t i = 0; i < x->count; i++) {
        if (!x->row[i][0]) continue;
        if (first) mix(n, first, x->row[i], x->width);
        else first = x->row[i];
    }
    uint64_t by = first ? n / common_divisor(n, first[0]) % n : 0;
    for (size_t k = 0; first && k < x->width; k++) first[k] = times(n, first[k], by);
    size_t kept = 0;
    for (size_t i = 0; i < x->count; i++) {
        int zero = 1;
        for (size_t k = 1; k < x->width; k++) if (x->row[i][k]) zero = 0;
        if (zero) continue;
        memmove(x->row[kept], x->row[i] + 1, (x->width - 1) * sizeof **x->row);
        x->row[kept++][x->width - 1] = 0;
    }
    x->count = kept;
}

/* D, from the multiples x^i f and x^i g for i below `length`; L suffices, more may be requested */
static uint64_t naive_divisor(uint64_t n, const uint64_t *f, size_t fl, const uint64_t *g, size_t gl, size_t length, rows *x)
{
    x->count = 0;
    x->width = larger(fl, gl);
    for (size_t power = length + x->width - 2;; power--) {
        if (power + 1 >= fl && power + 1 - fl < length) add_row(x, f, fl);
        if (power + 1 >= gl && power + 1 - gl < length) add_row(x, g, gl);
        if (power == 0) break;
        next_power(n, x);
    }
    uint64_t D = n;
    for (size_t i = 0; i < x->count; i++) D = common_divisor(D, x->row[i][0]);
    return D;
}

/* ---- the smaller services */

/* whether s and t are the least cofactors of g = gcd(a, b, n): they fit, and two s that fit differ by a multiple of h / g, with
 * h = gcd(b, n), two t that fit with one s by a multiple of n / h */
static int least(uint64_t n, uint64_t a, uint64_t b, uint64_t g, uint64_t s, uint64_t t)
{
    uint64_t h = common_divisor(b, n);
    return s < h / g && t < n / h && plus(n, times(n, s, a), times(n, t, b)) == g % n;
}

/* whether the words of f, modulo m, are a multiple of the monic polynomial of degree k in w */
static int multiple_of(uint64_t m, const uint64_t *f, size_t fl, const uint64_t *w, size_t k)
{
    uint64_t r[MOST];
    for (size_t i = 0; i < fl; i++) r[i] = f[i] % m;
    for (size_t i = fl; i-- > k;)
        for (size_t j = 0; j < k; j++) r[i - k + j] = minus(m, r[i - k + j], times(m, r[i], w[j] % m));
    for (size_t i = 0; i < fl && i < k; i++) if (r[i]) return 0;
    return 1;
}

/* the text of f, which `text` has room for; answers the number of characters */
static size_t text_of(const uint64_t *f, size_t fl, char *text)
{
    char *end = text;
    for (size_t k = fl; k-- > 0;) {
        if (!f[k]) continue;
        end += sprintf(end, "%s%llu", end == text ? "" : "+", (unsigned long long) f[k]);
        if (k == 1) end += sprintf(end, "*x");
        if (k > 1) end += sprintf(end, "*x^%zu", k);
    }
    if (end == text) end += sprintf(end, "0");
    return (size_t) (end - text);
}

/* the number that stands at *i, cut off at eleven digits, and *i after it */
static uint64_t number_in(const char *text, size_t length, size_t *i)
{
    uint64_t x = 0;
    size_t end = *i + 11 < length ? *i + 11 : length;
    while (*i < end && text[*i] >= '0' && text[*i] <= '9') x = 10 * x + (uint64_t) (text[(*i)++] - '0');
    return x;
}

/* The words of a text, with zeros above; returns their number, and 0 if it is not a text. Terms are read as they come, without a look at
 * order, zeros or size; a text is what is written for the words so found. */
static size_t words_of(uint64_t n, const char *text, size_t length, uint64_t *w)
{
    char again[2000];
    size_t i = 0, count = MOST;
    memset(w, 0, MOST * sizeof *w);
    while (i < length) {
        uint64_t c = number_in(text, length, &i), k = 0;
        if (i + 1 < length && text[i] == '*' && text[i + 1] == 'x') {
            i += 2;
            k = 1;
            if (i < length && text[i] == '^') { i++; k = number_in(text, length, &i); }
        }
        if (c >= n || k >= MOST) return 0;
        w[k] = c;
        if (i < length && text[i++] != '+') return 0;
    }
    if (text_of(w, MOST, again) != length || memcmp(again, text, length)) return 0;
    while (count > 1 && !w[count - 1]) count--;
    return count;
}

/* frames are given out one at a time, round and round */
static void naive_shares(uint32_t frames, const uint32_t *waiting, uint32_t *share)
{
    memset(share, 0, 4 * sizeof *share);
    for (int passed = 0, i = 0; frames && passed < 4; i = (i + 1) % 4) {
        if (share[i] < waiting[i]) { share[i]++; frames--; passed = 0; } else passed++;
    }
}
