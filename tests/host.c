/* A C host that tries the services through the header: the stored pairs with their numbers, D alone, cofactors of both numbers, why
 * two are not coprime, claims true and false, resultants in two variables, products word by word, true degrees, least cofactors of
 * two residues, factors that come and go, texts written, read and damaged, shares of runs, every word and byte of every
 * buffer after a call, each refusal and their order, the ends of the ranges, the law of products on drawn triples, all pairs of degrees
 * up to 2 modulo some small n, and lengths that are refused before a word is read.
 * It reads stdin and stdout in the folder that its first argument names (crates/test_vectors), and prints "FAILED" and exits with 1 if
 * something is wrong; the second argument, 100 by default, says after how many failures it stops.
 * Build and run: make -C tests (under a stack of 256 KiB; the output is compared with the file `expected`). */
#include <stdio.h>
#include <stdlib.h>
#include <string.h>
#include "../include/jingcobu.h"

#define LEAST_PAIRS 739
#define TRIPLES 3000
#define HISTORIES 48
#define MOST 49
#define MARK 0xabcdef01u
#define BYTE_MARK 0xa7

typedef uint32_t word;
typedef jingcobu_answer answer;
#define SERVICE(name) jingcobu_##name
#define WORK_LEN JINGCOBU_WORK
#define COFACTOR_LEN JINGCOBU_COFACTOR
#define MORE_WORK 9000
#define MORE_COFACTOR 1600
#define F_SCALE 0
#define G_SCALE 0
#include "both.h"
#include "batch.h"

#define MULTIPLIER_ROOM 4200
#define TEXT_ROOM (MARGIN + 900 + MARGIN)
static uint32_t first_multiplier[MULTIPLIER_ROOM], second_multiplier[MULTIPLIER_ROOM];
static uint8_t written[TEXT_ROOM];

/* kept_but for bytes */
static int bytes_kept_but(const uint8_t *b, size_t room, size_t length)
{
    for (size_t i = 0; i < room; i++) if ((i < MARGIN || i >= MARGIN + length) && b[i] != BYTE_MARK) return 0;
    return 1;
}

/* the text of f, closed by a zero byte as C has it; answers the number of characters */
static size_t text_of(const uint32_t *f, size_t fl, char *text)
{
    char *end = text;
    for (size_t k = fl; k-- > 0;) {
        if (!f[k]) continue;
        end += sprintf(end, "%s%u", end == text ? "" : "+", f[k]);
        if (k == 1) end += sprintf(end, "*x");
        if (k > 1) end += sprintf(end, "*x^%zu", k);
    }
    if (end == text) end += sprintf(end, "0");
    return (size_t) (end - text);
}

/* the number from 1 to `most` at place *i of a text, and *i after it; 0 if there is none */
static uint32_t number_in(const uint8_t *text, size_t length, size_t *i, uint32_t most)
{
    uint64_t x = 0;
    size_t from = *i;
    while (*i < length && text[*i] >= '0' && text[*i] <= '9' && *i - from < 10) x = 10 * x + (uint64_t) (text[(*i)++] - '0');
    return *i > from && text[from] != '0' && x <= most ? (uint32_t) x : 0;
}

/* the words that a text spells, in `w` with zeros above; returns their number, and 0 if it is not a text */
static size_t words_of(uint32_t n, const uint8_t *text, size_t length, uint32_t *w)
{
    size_t i = 0, count = 0, before = MOST;
    memset(w, 0, MOST * sizeof *w);
    if (length == 1 && text[0] == '0') return 1;
    for (;;) {
        uint32_t c = number_in(text, length, &i, n - 1);
        size_t k = 0;
        if (!c) return 0;
        if (i < length && text[i] == '*') {
            if (++i >= length || text[i++] != 'x') return 0;
            k = 1;
            if (i < length && text[i] == '^') {
                i++;
                k = number_in(text, length, &i, MOST - 1);
                if (k < 2) return 0;
            }
        }
        if (k >= before) return 0;
        if (!count) count = k + 1;
        w[k] = c;
        before = k;
        if (i == length) return count;
        if (text[i++] != '+') return 0;
    }
}

/* ---- one call, with all that the header promises of it: the value, the status, every word. `status` is the one it should have. */

static void one_word(uint32_t n, const uint32_t *f, size_t fl, const uint32_t *g, size_t gl, size_t ol, size_t k, uint32_t status, const char *where)
{
    mark(out, PRODUCT_ROOM);
    copy(f, fl, g, gl);
    jingcobu_answer a = jingcobu_product_word(n, f, fl, g, gl, lent(out, ol), ol, k);
    expect(a.status == status, "one word: the status", where);
    expect(a.value == 0, "one word: the value is 0", where);
    expect(same(f, fl, g, gl), "one word: f and g are only read", where);
    if (status != JINGCOBU_OK) {
        expect(kept_but(out, PRODUCT_ROOM, 0), "one word refused: the buffer is unchanged", where);
        return;
    }
    if (k <= fl + gl - 2) {
        expect(out[MARGIN + k] == product_word(n, f, fl, g, gl, k), "one word: word k of the product", where);
        out[MARGIN + k] = MARK;
    }
    expect(kept_but(out, PRODUCT_ROOM, 0), "one word: every other word is unchanged", where);
}

static void degree(uint32_t n, const uint32_t *f, size_t fl, uint32_t status, const char *where)
{
    size_t k = fl;
    copy(f, fl, NULL, 0);
    jingcobu_degree a = jingcobu_true_degree(n, f, fl);
    expect(a.status == status, "degree: the status", where);
    expect(same(f, fl, NULL, 0), "degree: f is only read", where);
    if (status != JINGCOBU_OK) {
        expect(a.some == 0 && a.degree == 0, "degree refused: the values are 0", where);
        return;
    }
    while (k > 0 && f[k - 1] == 0) k--;
    if (k) expect(a.some == 1 && a.degree == k - 1, "degree: the place of the highest word that is not zero", where);
    else expect(a.some == 0 && a.degree == 0, "degree: a zero polynomial has none", where);
}

static uint32_t write_text(uint32_t n, const uint32_t *f, size_t fl, size_t tl, uint32_t status, const char *where)
{
    char text[MARGIN + 900];
    memset(written, BYTE_MARK, TEXT_ROOM);
    copy(f, fl, NULL, 0);
    jingcobu_answer a = jingcobu_write_text(n, f, fl, tl ? written + MARGIN : NULL, tl);
    expect(a.status == status, "writer: the status", where);
    expect(same(f, fl, NULL, 0), "writer: f is only read", where);
    if (status != JINGCOBU_OK) {
        expect(a.value == 0, "writer refused: the value is 0", where);
        expect(bytes_kept_but(written, TEXT_ROOM, 0), "writer refused: the bytes are unchanged", where);
        return 0;
    }
    memset(text, 0, sizeof text);
    expect(a.value == text_of(f, fl, text), "writer: the number of characters", where);
    expect(!memcmp(text, written + MARGIN, JINGCOBU_TEXT), "writer: the text, and zeros above it", where);
    expect(bytes_kept_but(written, TEXT_ROOM, JINGCOBU_TEXT), "writer: bytes beyond 800 are unchanged", where);
    return a.value <= JINGCOBU_TEXT ? a.value : 0;
}

static uint32_t read_text(uint32_t n, const uint8_t *text, size_t length, size_t wl, uint32_t status, const char *where)
{
    static uint8_t text_copy[3000];
    uint32_t w[MOST];
    if (length) memcpy(text_copy, text, length);
    mark(out, PRODUCT_ROOM);
    jingcobu_answer a = jingcobu_read_text(n, text, length, lent(out, wl), wl);
    expect(a.status == status, "reader: the status", where);
    expect(!length || !memcmp(text_copy, text, length), "reader: the text is only read", where);
    if (status != JINGCOBU_OK) {
        expect(a.value == 0, "reader refused: the value is 0", where);
        expect(kept_but(out, PRODUCT_ROOM, 0), "reader refused: the words are unchanged", where);
        return 0;
    }
    expect(a.value == words_of(n, text, length, w), "reader: the number of words", where);
    expect(!memcmp(w, out + MARGIN, sizeof w), "reader: the words, and zeros above them", where);
    expect(kept_but(out, PRODUCT_ROOM, JINGCOBU_WORDS), "reader: words beyond 49 are unchanged", where);
    return a.value;
}

static void shares(uint32_t frames, uint32_t w1, uint32_t w2, uint32_t w3, uint32_t w4, const char *where)
{
    uint32_t waiting[] = { w1, w2, w3, w4 }, share[] = { 0, 0, 0, 0 }, left = frames;
    jingcobu_plan p = jingcobu_shares(frames, w1, w2, w3, w4);
    if (frames < 1 || frames > 1024) {
        expect(p.status == JINGCOBU_BAD_FRAMES, "shares: the status", where);
        expect(!p.share[0] && !p.share[1] && !p.share[2] && !p.share[3], "shares refused: all counts are 0", where);
        return;
    }
    for (int passed = 0, i = 0; left && passed < 4; i = (i + 1) % 4) {
        if (share[i] < waiting[i]) { share[i]++; left--; passed = 0; } else passed++;
    }
    expect(p.status == JINGCOBU_OK, "shares: the status", where);
    expect(!memcmp(p.share, share, sizeof share), "shares: as frames are given out one at a time", where);
    int fourth = 1;
    for (int i = 0; i < 4; i++) if (p.share[i] < frames / 4 && p.share[i] < waiting[i]) fourth = 0;
    expect(fourth, "shares: at least what waits or a fourth", where);
}

static uint32_t divisor(uint32_t n, const uint32_t *f, size_t fl, const uint32_t *g, size_t gl, size_t wl, uint32_t status, const char *where)
{
    mark(work, WORK_ROOM);
    copy(f, fl, g, gl);
    jingcobu_answer a = jingcobu_divisor(n, f, fl, g, gl, lent(work, wl), wl);
    expect(a.status == status, "divisor: the status", where);
    expect(same(f, fl, g, gl), "divisor: f and g are only read", where);
    if (status != JINGCOBU_OK) {
        expect(a.value == 0, "divisor refused: the value is 0", where);
        expect(kept_but(work, WORK_ROOM, 0), "divisor refused: the working words are unchanged", where);
        return 0;
    }
    expect(a.value >= 1 && n % (a.value ? a.value : 1) == 0, "divisor: D is at least 1 and divides n", where);
    expect(all(work, 0, wl, 0), "divisor: all working words are zero", where);
    expect(kept_but(work, WORK_ROOM, wl), "divisor: words that are not lent", where);
    return a.value;
}

static uint32_t with_cofactors(uint32_t n, const uint32_t *f, size_t fl, const uint32_t *g, size_t gl, size_t ul, size_t vl, size_t wl,
                               uint32_t status, const char *where)
{
    mark(work, WORK_ROOM); mark(u, COFACTOR_ROOM); mark(v, COFACTOR_ROOM);
    copy(f, fl, g, gl);
    jingcobu_answer a = jingcobu_resultant_cofactors(n, f, fl, g, gl, lent(u, ul), ul, lent(v, vl), vl, lent(work, wl), wl);
    expect(a.status == status, "cofactors: the status", where);
    expect(same(f, fl, g, gl), "cofactors: f and g are only read", where);
    if (status != JINGCOBU_OK) {
        expect(a.value == 0, "cofactors refused: the value is 0", where);
        expect(kept_but(work, WORK_ROOM, 0), "cofactors refused: the working words are unchanged", where);
        expect(kept_but(u, COFACTOR_ROOM, 0), "cofactors refused: u is unchanged", where);
        expect(kept_but(v, COFACTOR_ROOM, 0), "cofactors refused: v is unchanged", where);
        return 0;
    }
    expect(all(work, 0, wl, 0), "cofactors: all working words are zero", where);
    expect(kept_but(work, WORK_ROOM, wl), "cofactors: words that are not lent", where);
    expect(kept_but(u, COFACTOR_ROOM, gl - 1), "cofactors: words of u beyond e are unchanged", where);
    expect(kept_but(v, COFACTOR_ROOM, fl - 1), "cofactors: words of v beyond d are unchanged", where);
    expect(below(u, gl - 1, n) && below(v, fl - 1, n), "cofactors: their words are below n", where);
    expect(combine(n, f, fl, g, gl, gl - 1, fl - 1, a.value), "cofactors: they combine f and g to the resultant", where);
    return a.value;
}

/* whether the l words of b, modulo m, are a multiple of the monic polynomial of degree k in w */
static int multiple_of(uint32_t m, const uint32_t *b, size_t l, const uint32_t *w, size_t k)
{
    uint32_t r[MOST];
    for (size_t i = 0; i < l; i++) r[i] = b[i] % m;
    for (size_t i = l; i-- > k;)
        for (size_t j = 0; j < k; j++) r[i - k + j] = (uint32_t) ((r[i - k + j] + (uint64_t) (m - r[i]) * w[j]) % m);
    for (size_t i = 0; i < l && i < k; i++) if (r[i]) return 0;
    return 1;
}

/* The ground; D is what it must agree with, or 0 if it is not known. The buffer for w is out. */
static uint32_t why(uint32_t n, const uint32_t *f, size_t fl, const uint32_t *g, size_t gl, size_t ol, size_t wl, uint32_t D, uint32_t status,
                    const char *where)
{
    mark(work, WORK_ROOM); mark(out, PRODUCT_ROOM);
    copy(f, fl, g, gl);
    jingcobu_reason a = jingcobu_why(n, f, fl, g, gl, lent(out, ol), ol, lent(work, wl), wl);
    const uint32_t *w = out + MARGIN;
    expect(a.status == status, "why: the status", where);
    expect(same(f, fl, g, gl), "why: f and g are only read", where);
    if (status != JINGCOBU_OK) {
        expect(a.ground == 0 && a.m == 0 && a.degree == 0, "why refused: the values are 0", where);
        expect(kept_but(work, WORK_ROOM, 0), "why refused: the working words are unchanged", where);
        expect(kept_but(out, PRODUCT_ROOM, 0), "why refused: w is unchanged", where);
        return 0;
    }
    expect(all(work, 0, wl, 0), "why: all working words are zero", where);
    expect(kept_but(work, WORK_ROOM, wl), "why: words that are not lent", where);
    expect(kept_but(out, PRODUCT_ROOM, 49), "why: words of w beyond 49 are unchanged", where);
    expect(a.ground <= 2, "why: the ground is 0, 1 or 2", where);
    if (D) expect((a.ground == 0) == (D == 1), "why: coprime exactly if D is 1", where);
    if (a.ground == 0) {
        expect(a.m == 0 && a.degree == 0 && all(out, 0, 49, 0), "why: coprime, the values and w are 0", where);
        return 0;
    }
    expect(a.m > 1 && n % (a.m ? a.m : 1) == 0, "why: m is above 1 and divides n", where);
    if (a.m < 2) return a.ground;
    if (D) expect(D % a.m == 0, "why: m divides D", where);
    if (a.ground == 1) {
        int zero = 1;
        for (size_t i = 0; i < fl; i++) if (f[i] % a.m) zero = 0;
        for (size_t i = 0; i < gl; i++) if (g[i] % a.m) zero = 0;
        expect(zero, "why: both are zero modulo m", where);
        expect(a.degree == 0 && all(out, 0, 49, 0), "why: the first ground has no w", where);
        return 1;
    }
    expect(a.degree >= 1 && a.degree <= 48, "why: w has a degree of 1 to 48", where);
    if (a.degree < 1 || a.degree > 48) return 2;
    expect(w[a.degree] == 1 && all(out, a.degree + 1, 49, 0) && below(out, 49, n), "why: w is monic, zeros above", where);
    expect(multiple_of(a.m, f, fl, w, a.degree) && multiple_of(a.m, g, gl, w, a.degree), "why: w divides both modulo m", where);
    return 2;
}

/* The answer to a claim, with multipliers of ul and vl words. */
static uint32_t claim(uint32_t n, const uint32_t *f, size_t fl, const uint32_t *g, size_t gl, uint32_t d, size_t ul, size_t vl, size_t wl,
                      uint32_t status, const char *where)
{
    static uint32_t copies[2][MULTIPLIER_ROOM];
    mark(work, WORK_ROOM);
    copy(f, fl, g, gl);
    memcpy(copies[0], first_multiplier, sizeof first_multiplier);
    memcpy(copies[1], second_multiplier, sizeof second_multiplier);
    jingcobu_answer a = jingcobu_check_claim(n, f, fl, g, gl, d, ul ? first_multiplier : NULL, ul, vl ? second_multiplier : NULL, vl,
                                             lent(work, wl), wl);
    expect(a.status == status, "claim: the status", where);
    expect(same(f, fl, g, gl), "claim: f and g are only read", where);
    expect(!memcmp(copies[0], first_multiplier, sizeof first_multiplier) && !memcmp(copies[1], second_multiplier, sizeof second_multiplier),
           "claim: the multipliers are only read", where);
    if (status != JINGCOBU_OK) {
        expect(a.value == 0, "claim refused: the value is 0", where);
        expect(kept_but(work, WORK_ROOM, 0), "claim refused: the working words are unchanged", where);
        return 0;
    }
    expect(a.value <= 3, "claim: the value is 0 to 3", where);
    expect(all(work, 0, wl, 0), "claim: all working words are zero", where);
    expect(kept_but(work, WORK_ROOM, wl), "claim: words that are not lent", where);
    return a.value;
}

/* The resultant in y; f has (d + 1)(a + 1) words, if the lengths are right. The answer's buffer is out. */
static void two(uint32_t n, const uint32_t *f, size_t fl, size_t d, size_t a, const uint32_t *g, size_t gl, size_t e, size_t b, size_t ol,
                size_t wl, uint32_t status, const char *where)
{
    static uint32_t copies[2][2500];
    mark(work, WORK_ROOM); mark(out, PRODUCT_ROOM);
    if (fl) memcpy(copies[0], f, fl * sizeof *f);
    if (gl) memcpy(copies[1], g, gl * sizeof *g);
    jingcobu_answer r = jingcobu_resultant_two(n, f, fl, d, a, g, gl, e, b, lent(out, ol), ol, lent(work, wl), wl);
    expect(r.status == status, "two variables: the status", where);
    expect((!fl || !memcmp(copies[0], f, fl * sizeof *f)) && (!gl || !memcmp(copies[1], g, gl * sizeof *g)),
           "two variables: f and g are only read", where);
    expect(r.value == 0, "two variables: the value is 0", where);
    if (status != JINGCOBU_OK) {
        expect(kept_but(work, WORK_ROOM, 0), "two variables refused: the working words are unchanged", where);
        expect(kept_but(out, PRODUCT_ROOM, 0), "two variables refused: the answer's words are unchanged", where);
        return;
    }
    expect(all(work, 0, wl, 0), "two variables: all working words are zero", where);
    expect(kept_but(work, WORK_ROOM, wl), "two variables: words that are not lent", where);
    expect(kept_but(out, PRODUCT_ROOM, e * a + d * b + 1), "two variables: words beyond B + 1 are unchanged", where);
    expect(below(out, e * a + d * b + 1, n), "two variables: the words are below n", where);
}

static jingcobu_cofactors gcd(uint32_t n, uint32_t a, uint32_t b, uint32_t status, const char *where)
{
    jingcobu_cofactors c = jingcobu_gcd(n, a, b);
    expect(c.status == status, "gcd: the status", where);
    if (status != JINGCOBU_OK) {
        expect(c.g == 0 && c.s == 0 && c.t == 0, "gcd refused: the values are 0", where);
        return c;
    }
    uint32_t g = common_divisor(common_divisor(a, b), n);
    expect(c.g == g, "gcd: the greatest common divisor of a, b and n", where);
    expect(least(n, a, b, g, c.s, c.t), "gcd: the least s, and then the least t", where);
    return c;
}

/* ---- the calls on a state of factors. The fields are looked at one by one, so that no bits between them count. */

static int same_state(const jingcobu_factors *s, const jingcobu_factors *r)
{
    return s->n == r->n && s->h_len == r->h_len && !memcmp(s->h, r->h, sizeof s->h) && !memcmp(s->number, r->number, sizeof s->number)
        && !memcmp(s->degree, r->degree, sizeof s->degree) && !memcmp(s->resultant, r->resultant, sizeof s->resultant);
}

static jingcobu_factors start(uint32_t n, const uint32_t *h, size_t hl, uint32_t status, const char *where)
{
    static const jingcobu_factors zeros;
    copy(h, hl, NULL, 0);
    jingcobu_factors_answer a = jingcobu_factors_start(n, h, hl);
    expect(a.status == status, "start: the status", where);
    expect(same(h, hl, NULL, 0), "start: h is only read", where);
    jingcobu_answer b = jingcobu_factors_read(a.factors);
    if (status != JINGCOBU_OK) {
        expect(same_state(&a.factors, &zeros), "start refused: zeros are returned", where);
        expect(b.value == 0 && b.status == JINGCOBU_BAD_MODULUS, "start refused: a reading is refused with 1", where);
    } else {
        expect(b.value == 1 && b.status == JINGCOBU_OK, "start: with no factor held the reading is 1", where);
    }
    return a.factors;
}

static jingcobu_factors arrive(jingcobu_factors s, uint16_t number, const uint32_t *f, size_t fl, size_t wl, uint32_t status,
                               const char *where)
{
    jingcobu_factors sent = s;
    mark(work, WORK_ROOM);
    copy(f, fl, NULL, 0);
    jingcobu_factors_answer a = jingcobu_factors_arrive(s, number, f, fl, lent(work, wl), wl);
    expect(a.status == status, "arrival: the status", where);
    expect(same(f, fl, NULL, 0), "arrival: f is only read", where);
    expect(same_state(&s, &sent), "arrival: the host's own copy is as it was", where);
    if (status != JINGCOBU_OK) {
        expect(same_state(&a.factors, &sent), "arrival refused: the state sent is returned", where);
        expect(kept_but(work, WORK_ROOM, 0), "arrival refused: the working words are unchanged", where);
        return sent;
    }
    expect(all(work, 0, wl, 0), "arrival: all working words are zero", where);
    expect(kept_but(work, WORK_ROOM, wl), "arrival: words that are not lent", where);
    return a.factors;
}

static jingcobu_factors leave(jingcobu_factors s, uint16_t number, uint32_t status, const char *where)
{
    jingcobu_factors sent = s;
    jingcobu_factors_answer a = jingcobu_factors_leave(s, number);
    expect(a.status == status, "leaving: the status", where);
    expect(same_state(&s, &sent), "leaving: the host's own copy is as it was", where);
    if (status == JINGCOBU_OK) return a.factors;
    expect(same_state(&a.factors, &sent), "leaving refused: the state sent is returned", where);
    return sent;
}

static uint32_t reading(jingcobu_factors s, uint32_t status, const char *where)
{
    jingcobu_factors sent = s;
    jingcobu_answer a = jingcobu_factors_read(s);
    expect(a.status == status, "reading: the status", where);
    expect(same_state(&s, &sent), "reading: the host's own copy is as it was", where);
    if (status != JINGCOBU_OK) expect(a.value == 0, "reading refused: the value is 0", where);
    else expect(a.value < s.n, "reading: below n", where);
    return a.value;
}

/* ---- the stored pairs */

/* The product word by word against the product in one call, if d + e is at most 48: after word k the first k + 1 words are made and
 * the others are unchanged, and a k above d + e writes nothing. */
static int word_by_word(uint32_t n, const uint32_t *f, size_t fl, const uint32_t *g, size_t gl, const char *where)
{
    uint32_t whole[2 * MOST];
    size_t l = fl + gl - 1;
    if (l > MOST) {
        one_word(n, f, fl, g, gl, 100, 0, JINGCOBU_BAD_LENGTH, where);
        return 0;
    }
    product(n, f, fl, g, gl, l, JINGCOBU_OK, where);
    memcpy(whole, out + MARGIN, l * sizeof *whole);
    mark(out, PRODUCT_ROOM);
    int made = 1, others = 1, answered = 1;
    for (size_t i = 0; i < l + 3; i++) {
        jingcobu_answer a = jingcobu_product_word(n, f, fl, g, gl, out + MARGIN, 60, i < l + 2 ? i : SIZE_MAX);
        size_t done = i < l ? i + 1 : l;
        if (a.status || a.value) answered = 0;
        if (memcmp(out + MARGIN, whole, done * sizeof *whole)) made = 0;
        if (!kept_but(out, PRODUCT_ROOM, done)) others = 0;
    }
    expect(answered, "word by word: status and value are 0", where);
    expect(made, "word by word: after word k the words up to k are the product's", where);
    expect(others, "word by word: the other words are unchanged", where);
    return 1;
}

/* The services that answer for a pair beside the resultant and D: the ground of `why`. The claim is the engine's own answer, and then
 * that answer with one thing changed. */
static uint32_t stored_pair(uint32_t n, const uint32_t *f, size_t fl, const uint32_t *g, size_t gl, uint32_t r, uint32_t D, const char *where)
{
    size_t l = cofactor_length(n, fl, gl);
    expect(divisor(n, f, fl, g, gl, 9000, JINGCOBU_OK, where) == D, "D alone is the other program's", where);
    if (fl + gl == 2) with_cofactors(n, f, fl, g, gl, 48, 48, 9000, JINGCOBU_NO_COFACTORS, where);
    else expect(with_cofactors(n, f, fl, g, gl, 48, 48, 9000, JINGCOBU_OK, where) == r, "cofactors: the value is the resultant", where);
    reduced(n, f, fl, g, gl, 1600, 1600, 9000, JINGCOBU_OK, where);
    memcpy(first_multiplier, u + MARGIN, l * sizeof *u);
    memcpy(second_multiplier, v + MARGIN, l * sizeof *v);
    expect(claim(n, f, fl, g, gl, D, l, l, 9000, JINGCOBU_OK, where) == 0, "claim: the engine's own answer is accepted", where);
    expect(claim(n, f, fl, g, gl, 0, l, l, 9000, JINGCOBU_OK, where) == 1, "claim: 0 divides no n", where);
    if (D > 1)
        expect(claim(n, f, fl, g, gl, D / common_divisor(D, 2) + (D % 2 ? n : 0), l, l, 9000, JINGCOBU_OK, where) != 0,
               "claim: another D is not accepted", where);
    first_multiplier[0] = (first_multiplier[0] + 1) % n;
    int still = 1;
    for (size_t i = 0; i < fl; i++) if (f[i] % n) still = 0;
    expect(claim(n, f, fl, g, gl, D, l, l, 9000, JINGCOBU_OK, where) == (still ? 0 : 2), "claim: a changed multiplier", where);
    first_multiplier[0] = (first_multiplier[0] ? first_multiplier[0] : n) - 1;
    if (D < n && n % 2 == 0 && (n / D) % 2 == 0) {
        for (size_t i = 0; i < l; i++) {
            first_multiplier[i] = (uint32_t) (2 * (uint64_t) first_multiplier[i] % n);
            second_multiplier[i] = (uint32_t) (2 * (uint64_t) second_multiplier[i] % n);
        }
        expect(claim(n, f, fl, g, gl, 2 * D, l, l, 9000, JINGCOBU_OK, where) == 3, "claim: 2 D with doubled multipliers", where);
    }
    return why(n, f, fl, g, gl, 60, 9000, D, JINGCOBU_OK, where) % 3;
}

static long full, between, by_words, grounds[3];

static void more_of_pair(const stored *x, const char *where)
{
    const uint32_t *f = x->w, *g = x->w + x->fl;
    grounds[stored_pair(x->n, f, x->fl, g, x->gl, x->r, x->D, where)]++;
    by_words += word_by_word(x->n, f, x->fl, g, x->gl, where);
    degree(x->n, f, x->fl, JINGCOBU_OK, where);
    degree(x->n, g, x->gl, JINGCOBU_OK, where);
    if (x->fl == MOST && x->gl == MOST) full++;
    if (x->D > 1 && x->D < x->n) between++;
}

static void pairs(const char *folder)
{
    long count = stored_pairs(folder, "01", LEAST_PAIRS, more_of_pair);
    printf("%ld stored pairs, %ld of them with d = e = 48, %ld with D neither 1 nor n, %ld multiplied word by word\n", count, full, between, by_words);
    printf("of these %ld are coprime, %ld are zero modulo some m, %ld have a common divisor\n", grounds[0], grounds[1], grounds[2]);
}

/* ---- refusals */

/* The services of two polynomials that only words of 32 bits have. */
static void more_of_reasons(const reasons *x)
{
    const uint32_t *f = at_or_null(x->f, x->fl), *g = at_or_null(x->g, x->gl);
    uint32_t n = x->n, short_work = or_short(x->first, x->set & W, JINGCOBU_SHORT_WORK);
    uint32_t short_cofactor = or_short(x->first, x->set & (U | V), JINGCOBU_SHORT_RESULT);
    uint32_t short_divisor = or_short(x->first, x->set & U, JINGCOBU_SHORT_RESULT);
    divisor(n, f, x->fl, g, x->gl, x->wl, short_work, x->where);
    why(n, f, x->fl, g, x->gl, x->set & U ? x->last ? 0 : 48 : 49, x->wl, 0, short_divisor ? short_divisor : short_work, x->where);
    with_cofactors(n, f, x->fl, g, x->gl, x->e - 1 - (x->set & U && x->e > 1 ? 1 : 0), x->d - 1 - (x->set & V && x->d > 1 ? 1 : 0), x->wl,
                   short_cofactor ? short_cofactor : short_work, x->where);
    with_cofactors(n, x->f, 1, x->g, 1, 0, 0, x->wl,
                   x->set & N ? JINGCOBU_BAD_MODULUS : x->f[0] >= n || x->g[0] >= n ? JINGCOBU_BAD_WORD : JINGCOBU_NO_COFACTORS, x->where);
    size_t places[] = { 0, x->d + x->e - 2, x->d + x->e - 1, SIZE_MAX };
    for (int i = 0; i < 4; i++)
        one_word(n, f, x->fl, g, x->gl, x->ol, places[i], or_short(x->of_product, x->set & OUT, JINGCOBU_SHORT_RESULT), x->where);
}

/* The same for a claim: multipliers of no or too many words, and large words in each polynomial, at either end. */
static void orders_of_claims(void)
{
    enum { N = 1, F = 2, G = 4, U = 8, V = 16, WF = 32, WG = 64, WU = 128, WV = 256, W = 512, SETS = 1024 };
    uint32_t f[60], g[60];
    char where[40];
    long sets = 0;
    for (int other = 0; other < 4; other++)
        for (int set = 0; set < SETS; set++) {
            int empty = other & 1, last = other & 2;
            uint32_t n = set & N ? (uint32_t) empty : 7, large = n < 7 ? 7 : n;
            size_t fl = set & F ? empty ? 0 : 50 : 5, gl = set & G ? empty ? 0 : 50 : 3, wl = set & W ? last ? 0 : 8191 : 8192;
            size_t ul = set & U ? empty ? 0 : 4097 : last ? 4096 : 1, vl = set & V ? empty ? 0 : 4097 : last ? 1 : 4096;
            for (int i = 0; i < 60; i++) { f[i] = (uint32_t) (i % 7); g[i] = (uint32_t) ((3 * i + 1) % 7); }
            for (int i = 0; i < MULTIPLIER_ROOM; i++) first_multiplier[i] = second_multiplier[i] = (uint32_t) (i % 5);
            if ((set & WF) && fl) f[last ? fl - 1 : 0] = large;
            if ((set & WG) && gl) g[last ? gl - 1 : 0] = 4294967295u;
            if ((set & WU) && ul) first_multiplier[last ? ul - 1 : 0] = large;
            if ((set & WV) && vl) second_multiplier[last ? vl - 1 : 0] = 4294967295u;
            uint32_t status = set & N ? JINGCOBU_BAD_MODULUS : set & (F | G) ? JINGCOBU_BAD_LENGTH : set & (U | V) ? JINGCOBU_BAD_MULTIPLIER
                : set & (WF | WG | WU | WV) ? JINGCOBU_BAD_WORD : set & W ? JINGCOBU_SHORT_WORK : 0;
            snprintf(where, sizeof where, "set %d of a claim's reasons, %d", set, other);
            claim(n, fl ? f : NULL, fl, gl ? g : NULL, gl, (uint32_t) set, ul, vl, wl, status, where);
            sets++;
        }
    printf("%ld sets of reasons to refuse a claim\n", sets);
}

/* The same for two variables: a degree above 48, a length that does not fit, large words, B above 60, a prime up to B, short buffers. */
static void orders_of_two(void)
{
    enum { N = 1, F = 2, G = 4, WF = 8, WG = 16, POINTS = 32, PRIME = 64, OUT = 128, W = 256, SETS = 512 };
    static uint32_t f[2500], g[2500];
    char where[40];
    long sets = 0;
    for (int other = 0; other < 4; other++)
        for (int set = 0; set < SETS; set++) {
            int degree = other & 1, last = other & 2;
            uint32_t n = set & N ? (uint32_t) degree : set & PRIME ? 59 * 61 : 67 * 61;
            size_t d = 3, a = set & POINTS ? 11 : 10, e = 3, b = 10, wl = set & W ? last ? 0 : 8191 : 8192;
            if (set & F) { if (degree) { if (last) d = 49; else a = 49; } }
            if (set & G) { if (degree) { if (last) b = SIZE_MAX; else e = SIZE_MAX - 1; } }
            size_t fl = (d + 1) * (a + 1), gl = set & G && degree ? 44 : (e + 1) * (b + 1);
            if ((set & F) && !degree) fl = last ? 0 : fl + 1;
            if ((set & G) && !degree) gl = last ? 0 : gl - 1;
            for (int i = 0; i < 2500; i++) { f[i] = (uint32_t) (i % 50); g[i] = (uint32_t) ((3 * i + 1) % 50); }
            if ((set & WF) && fl) f[last ? fl - 1 : 0] = n < 50 ? 50 : n;
            if ((set & WG) && gl) g[last ? gl - 1 : 0] = 4294967295u;
            size_t ol = set & OUT ? last ? 0 : 60 : 61;
            uint32_t status = set & N ? JINGCOBU_BAD_MODULUS : set & (F | G) ? JINGCOBU_BAD_LENGTH : set & (WF | WG) ? JINGCOBU_BAD_WORD
                : set & POINTS ? JINGCOBU_TOO_MANY_POINTS : set & PRIME ? JINGCOBU_PRIME_DIVIDES : set & OUT ? JINGCOBU_SHORT_RESULT
                : set & W ? JINGCOBU_SHORT_WORK : 0;
            snprintf(where, sizeof where, "set %d of two variables' reasons, %d", set, other);
            two(n, fl ? f : NULL, fl, d, a, gl ? g : NULL, gl, e, b, ol, wl, status, where);
            sets++;
        }
    printf("%ld sets of reasons to refuse two variables\n", sets);
}

/* The same for one polynomial or one text: n is 0 or 1, the length, a word, no text, a short buffer. */
static void orders_of_one(void)
{
    enum { N = 1, F = 2, W = 4, SHORT = 8, TEXT = 16, SETS = 32 };
    static const char *const not_texts[] = { "", "1*x^49", "2*x+7", "01" };
    long sets = 0;
    for (int other = 0; other < 16; other++)
        for (int set = 0; set < SETS; set++) {
            int empty = other & 1, last = other & 2;
            uint32_t f[60], n = set & N ? (uint32_t) empty : 7;
            char where[40];
            for (int i = 0; i < 60; i++) f[i] = (uint32_t) ((5 * i + 2) % 7);
            size_t fl = set & F ? empty ? 0 : 50 : 5;
            if ((set & W) && fl) f[last ? fl - 1 : 0] = empty ? 7 : 4294967295u;
            size_t tl = set & SHORT ? last ? 0 : 799 : 800, wl = set & SHORT ? last ? 0 : 48 : 49;
            const char *text = set & TEXT ? not_texts[other / 4] : "3*x^48+6*x^2+1*x+5";
            uint32_t three = set & N ? JINGCOBU_BAD_MODULUS : set & F ? JINGCOBU_BAD_LENGTH : set & W ? JINGCOBU_BAD_WORD : 0;
            uint32_t read = set & N ? JINGCOBU_BAD_MODULUS : set & TEXT ? JINGCOBU_NO_TEXT : 0;
            uint32_t too_short = set & SHORT ? JINGCOBU_SHORT_RESULT : 0;
            snprintf(where, sizeof where, "set %d of one's reasons, %d", set, other);
            degree(n, fl ? f : NULL, fl, three, where);
            start(n, fl ? f : NULL, fl, three, where);
            write_text(n, fl ? f : NULL, fl, tl, three ? three : too_short, where);
            read_text(n, *text ? (const uint8_t *) text : NULL, strlen(text), wl, read ? read : too_short, where);
            sets++;
        }
    printf("%ld sets of reasons with one polynomial or text\n", sets);
}

/* Each place of a word that is n or more, in f and in g. */
static void words(void)
{
    uint32_t f[MOST], g[MOST];
    char where[80];
    for (size_t k = 0; k < MOST; k++)
        for (int second = 0; second < 2; second++)
            for (int size = 0; size < 3; size++) {
                for (size_t i = 0; i < MOST; i++) f[i] = g[i] = 10;
                (second ? g : f)[k] = size == 0 ? 10 : size == 1 ? 11 : 4294967295u;
                uint32_t status = size ? JINGCOBU_BAD_WORD : JINGCOBU_OK;
                size_t fl = second ? 1 : MOST, gl = second ? MOST : 1;
                snprintf(where, sizeof where, "word %u modulo 11 at place %zu of %s", (second ? g : f)[k], k, second ? "g" : "f");
                resultant(11, f, fl, g, gl, 8192, status, where);
                reduced(11, f, fl, g, gl, 1489, 1489, 8192, status, where);
                divisor(11, f, fl, g, gl, 8192, status, where);
                with_cofactors(11, f, fl, g, gl, 48, 48, 8192, status, where);
                why(11, f, fl, g, gl, 49, 8192, 0, status, where);
                first_multiplier[0] = second_multiplier[0] = 1;
                claim(11, f, fl, g, gl, 1, 1, 1, 8192, status, where);
                two(11, f, fl, 0, fl - 1, g, gl, 0, gl - 1, 61, 8192, status, where);
                two(11, f, fl, fl - 1, 0, g, gl, gl - 1, 0, 61, 8192, status, where);
                product(11, f, fl, g, gl, 49, status, where);
                one_word(11, f, fl, g, gl, 49, k, status, where);
                degree(11, second ? g : f, MOST, status, where);
                start(11, second ? g : f, MOST, status, where);
                arrive(start(11, f + (k + 1) % MOST, 1, JINGCOBU_OK, where), 1, second ? g : f, MOST, 8192, status, where);
                write_text(11, second ? g : f, MOST, 800, status, where);
            }
}

/* The ends of the ranges: n, the lengths, L at each K, the working words. */
static void ends(void)
{
    uint32_t f[60], g[60];
    char where[60];
    for (int i = 0; i < 60; i++) f[i] = g[i] = 0;
    for (uint32_t n = 0; n < 2; n++) {
        resultant(n, f, 1, g, 1, 8192, JINGCOBU_BAD_MODULUS, "n below 2");
        reduced(n, f, 1, g, 1, 1489, 1489, 8192, JINGCOBU_BAD_MODULUS, "n below 2");
        product(n, f, 1, g, 1, 1, JINGCOBU_BAD_MODULUS, "n below 2");
        divisor(n, f, 1, g, 1, 8192, JINGCOBU_BAD_MODULUS, "n below 2");
        with_cofactors(n, f, 1, g, 1, 0, 0, 8192, JINGCOBU_BAD_MODULUS, "n below 2");
        why(n, f, 1, g, 1, 49, 8192, 0, JINGCOBU_BAD_MODULUS, "n below 2");
        claim(n, f, 1, g, 1, 1, 1, 1, 8192, JINGCOBU_BAD_MODULUS, "n below 2");
        two(n, f, 1, 0, 0, g, 1, 0, 0, 1, 8192, JINGCOBU_BAD_MODULUS, "n below 2");
        one_word(n, f, 1, g, 1, 1, 0, JINGCOBU_BAD_MODULUS, "n below 2");
        degree(n, f, 1, JINGCOBU_BAD_MODULUS, "n below 2");
        gcd(n, 0, 0, JINGCOBU_BAD_MODULUS, "n below 2");
        start(n, f, 1, JINGCOBU_BAD_MODULUS, "n below 2");
        write_text(n, f, 1, 800, JINGCOBU_BAD_MODULUS, "n below 2");
        read_text(n, (const uint8_t *) "0", 1, 49, JINGCOBU_BAD_MODULUS, "n below 2");
    }
    for (size_t fl = 0; fl <= 60; fl++) {
        int right = fl >= 1 && fl <= 49;
        snprintf(where, sizeof where, "%zu words", fl);
        degree(2, fl ? f : NULL, fl, right ? JINGCOBU_OK : JINGCOBU_BAD_LENGTH, where);
        jingcobu_factors s = start(2, fl ? f : NULL, fl, right ? JINGCOBU_OK : JINGCOBU_BAD_LENGTH, where);
        if (right) arrive(s, 1, g, 50 - fl, 8192, JINGCOBU_OK, where);
        arrive(start(2, g, 1, JINGCOBU_OK, where), 1, fl ? f : NULL, fl, 8192, right ? JINGCOBU_OK : JINGCOBU_BAD_LENGTH, where);
        write_text(2, fl ? f : NULL, fl, 800, right ? JINGCOBU_OK : JINGCOBU_BAD_LENGTH, where);
        read_text(2, (const uint8_t *) "1*x", 3, fl, fl >= 49 ? JINGCOBU_OK : JINGCOBU_SHORT_RESULT, where);
    }
    for (size_t tl = 0; tl <= 900; tl++) {
        snprintf(where, sizeof where, "%zu bytes", tl);
        write_text(2, f, 1, tl, tl >= 800 ? JINGCOBU_OK : JINGCOBU_SHORT_RESULT, where);
    }
    for (size_t fl = 0; fl <= 60; fl++)
        for (size_t gl = 0; gl <= 60; gl++) {
            int right = fl >= 1 && fl <= 49 && gl >= 1 && gl <= 49;
            snprintf(where, sizeof where, "%zu and %zu words", fl, gl);
            resultant(2, fl ? f : NULL, fl, gl ? g : NULL, gl, 8192, right ? JINGCOBU_OK : JINGCOBU_BAD_LENGTH, where);
            divisor(2, fl ? f : NULL, fl, gl ? g : NULL, gl, 8192, right ? JINGCOBU_OK : JINGCOBU_BAD_LENGTH, where);
            why(2, fl ? f : NULL, fl, gl ? g : NULL, gl, 49, 8192, 0, right ? JINGCOBU_OK : JINGCOBU_BAD_LENGTH, where);
            with_cofactors(2, fl ? f : NULL, fl, gl ? g : NULL, gl, right ? gl - 1 : 48, right ? fl - 1 : 48, 8192,
                           !right ? JINGCOBU_BAD_LENGTH : fl + gl == 2 ? JINGCOBU_NO_COFACTORS : JINGCOBU_OK, where);
            if (right && gl > 1) with_cofactors(2, f, fl, g, gl, gl - 2, fl - 1, 8192, JINGCOBU_SHORT_RESULT, where);
            if (right && fl > 1) with_cofactors(2, f, fl, g, gl, gl - 1, fl - 2, 8192, JINGCOBU_SHORT_RESULT, where);
            product(2, fl ? f : NULL, fl, gl ? g : NULL, gl, 100, right && fl + gl <= 50 ? JINGCOBU_OK : JINGCOBU_BAD_LENGTH, where);
            if (right && fl + gl <= 50) product(2, f, fl, g, gl, fl + gl - 2, JINGCOBU_SHORT_RESULT, where);
            if (right && fl + gl <= 50) product(2, f, fl, g, gl, fl + gl - 1, JINGCOBU_OK, where);
            one_word(2, fl ? f : NULL, fl, gl ? g : NULL, gl, 100, 0, right && fl + gl <= 50 ? JINGCOBU_OK : JINGCOBU_BAD_LENGTH, where);
            if (right && fl + gl <= 50) one_word(2, f, fl, g, gl, fl + gl - 2, 0, JINGCOBU_SHORT_RESULT, where);
            if (right && fl + gl <= 50) one_word(2, f, fl, g, gl, fl + gl - 1, fl + gl - 2, JINGCOBU_OK, where);
            if (right && fl + gl <= 50) one_word(2, f, fl, g, gl, 100, fl + gl - 1, JINGCOBU_OK, where);
        }
    for (int k = 1; k < 32; k++)
        for (int high = 0; high < 2; high++)
            for (size_t d = 0; d <= 48; d += 12)
                for (size_t e = 0; e <= 48; e += 16) {
                    uint32_t n = high ? (uint32_t) ((1ull << (k + 1)) - 1) : (uint32_t) 1 << k;
                    size_t l = (size_t) k * larger(d, e) + 1;
                    for (size_t i = 0; i <= d; i++) f[i] = (uint32_t) ((7 * i + 3) % n);
                    for (size_t i = 0; i <= e; i++) g[i] = (uint32_t) ((5 * i + n - 1) % n);
                    snprintf(where, sizeof where, "n = %u, d = %zu, e = %zu", n, d, e);
                    reduced(n, f, d + 1, g, e + 1, l, l, 8192, JINGCOBU_OK, where);
                    reduced(n, f, d + 1, g, e + 1, l - 1, l, 8192, JINGCOBU_SHORT_RESULT, where);
                    reduced(n, f, d + 1, g, e + 1, l, l - 1, 8192, JINGCOBU_SHORT_RESULT, where);
                    reduced(n, f, d + 1, g, e + 1, l, l, 8191, JINGCOBU_SHORT_WORK, where);
                    resultant(n, f, d + 1, g, e + 1, 8191, JINGCOBU_SHORT_WORK, where);
                    resultant(n, f, d + 1, g, e + 1, 8192, JINGCOBU_OK, where);
                    divisor(n, f, d + 1, g, e + 1, 8191, JINGCOBU_SHORT_WORK, where);
                    uint32_t D = divisor(n, f, d + 1, g, e + 1, 8192, JINGCOBU_OK, where);
                    why(n, f, d + 1, g, e + 1, 48, 8192, D, JINGCOBU_SHORT_RESULT, where);
                    why(n, f, d + 1, g, e + 1, 49, 8191, D, JINGCOBU_SHORT_WORK, where);
                    why(n, f, d + 1, g, e + 1, 49, 8192, D, JINGCOBU_OK, where);
                    if (d + e) with_cofactors(n, f, d + 1, g, e + 1, e, d, 8191, JINGCOBU_SHORT_WORK, where);
                    if (d + e) with_cofactors(n, f, d + 1, g, e + 1, e, d, 8192, JINGCOBU_OK, where);
                }
    /* a product whose top word comes out zero has its sent degree all the same */
    uint32_t two[] = { 1, 2 }, three[] = { 5, 3 };
    product(6, two, 2, three, 2, 3, JINGCOBU_OK, "1,2 times 5,3 modulo 6");
    expect(all(out, 0, 1, 5) && all(out, 1, 2, 1) && all(out, 2, 3, 0), "the product is 5,1,0", "1,2 times 5,3 modulo 6");
}

/* ---- true degrees */

/* Every length and every place of the highest word that is not zero, with zeros, drawn words or the largest below it. */
static void degrees(void)
{
    static const uint32_t moduli[] = { 2, 3, 12, 2147483648u, 4294967295u };
    uint32_t f[MOST];
    long count = 0;
    char where[60];
    for (size_t m = 0; m < sizeof moduli / sizeof *moduli; m++)
        for (size_t fl = 1; fl <= MOST; fl++)
            for (size_t k = 0; k <= fl; k++)
                for (int kind = 0; kind < 3; kind++) {
                    uint32_t n = moduli[m];
                    for (size_t i = 0; i < fl; i++) f[i] = i + 1 >= k || kind == 0 ? 0 : kind == 1 ? draw() % n : n - 1;
                    if (k) f[k - 1] = kind == 0 ? 1 : kind == 1 ? 1 + draw() % (n - 1) : n - 1;
                    snprintf(where, sizeof where, "%zu words modulo %u, zero from place %zu on", fl, n, k);
                    degree(n, f, fl, JINGCOBU_OK, where);
                    count++;
                }
    uint32_t zeros[] = { 0, 0, 0 }, five[] = { 5, 0 };
    jingcobu_degree a = jingcobu_true_degree(12, zeros, 3), b = jingcobu_true_degree(12, five, 2);
    expect(a.some == 0 && a.degree == 0 && a.status == 0, "none for the zero polynomial", "0,0,0 modulo 12");
    expect(b.some == 1 && b.degree == 0 && b.status == 0, "0 for the constant 5", "5,0 modulo 12");
    printf("%ld true degrees\n", count);
}

/* ---- texts */

/* the reader on any bytes: it reads what words_of reads, and refuses the others with 17; answers whether they are a text */
static int any_text(uint32_t n, const uint8_t *text, size_t length, const char *where)
{
    uint32_t w[MOST];
    int right = words_of(n, text, length, w) != 0;
    read_text(n, length ? text : NULL, length, 60, right ? JINGCOBU_OK : JINGCOBU_NO_TEXT, where);
    return right;
}

/* The polynomial is written, what was written is read, and what was read is written. */
static void there_and_back(uint32_t n, const uint32_t *f, size_t fl, const char *where)
{
    uint32_t w[MOST];
    uint8_t text[JINGCOBU_TEXT];
    size_t dropped = fl;
    while (dropped > 1 && f[dropped - 1] == 0) dropped--;
    size_t length = write_text(n, f, fl, 900, JINGCOBU_OK, where);
    memcpy(text, written + MARGIN, length);
    size_t count = read_text(n, text, length, 60, JINGCOBU_OK, where);
    memcpy(w, out + MARGIN, sizeof w);
    expect(count == dropped && !memcmp(w, f, dropped * sizeof *w), "texts: what was written is read, zero tops dropped", where);
    if (count < 1 || count > MOST) return;
    expect(write_text(n, w, count, 800, JINGCOBU_OK, where) == length, "texts: what was read is written, as long as it was", where);
    expect(!memcmp(text, written + MARGIN, length), "texts: what was read is written", where);
}

/* Texts with the words they spell, and strings that are not texts: `length` 0 stands for that of the C string. */
static const struct { uint32_t n; const char *text; size_t count; uint32_t words[4]; } spelled[] = {
    { 2, "0", 1, { 0 } }, { 2, "1", 1, { 1 } }, { 2, "1*x", 2, { 0, 1 } }, { 2, "1*x+1", 2, { 1, 1 } }, { 12, "0", 1, { 0 } },
    { 12, "5", 1, { 5 } }, { 12, "11*x^3+10*x", 4, { 0, 10, 0, 11 } }, { 12, "3*x^3+1*x+5", 4, { 5, 1, 0, 3 } },
    { 12, "7*x^2", 3, { 0, 0, 7 } }, { 4294967295u, "4294967294*x+4294967294", 2, { 4294967294u, 4294967294u } },
    { 4294967295u, "1000000000*x^2+10", 3, { 10, 0, 1000000000 } },
};
static const struct { uint32_t n; const char *text; size_t length; } damaged[] = {
    { 12, "", 0 }, { 12, "x", 0 }, { 12, "*x", 0 }, { 12, "x^2", 0 }, { 12, "1x", 0 }, { 12, "1*", 0 }, { 12, "1*2", 0 }, { 12, "1^2", 0 },
    { 12, "1*x^", 0 }, { 12, "1*x^0", 0 }, { 12, "1*x^1", 0 }, { 12, "1*x^02", 0 }, { 12, "1*x^49", 0 }, { 12, "1*x^480", 0 },
    { 12, "1*x^99", 0 }, { 12, "1*x^4294967298", 0 }, { 12, "1*x^18446744073709551618", 0 }, { 12, "1*x^340282366920938463463374607431768211458", 0 },
    { 12, "00", 0 }, { 12, "01", 0 }, { 12, "0*x", 0 }, { 12, "0*x^2", 0 }, { 12, "01*x", 0 }, { 12, "1*x+0", 0 }, { 12, "0+1", 0 },
    { 12, "1*x^2+0*x+1", 0 }, { 12, "12", 0 }, { 12, "13", 0 }, { 12, "12*x", 0 }, { 12, "1*x+12", 0 }, { 2, "2", 0 }, { 2, "2*x", 0 },
    { 4294967295u, "4294967295", 0 }, { 4294967295u, "4294967296", 0 }, { 4294967295u, "4294967297", 0 }, { 4294967295u, "4294967297*x", 0 },
    { 12, "4294967297", 0 }, { 12, "18446744073709551617", 0 }, { 12, "340282366920938463463374607431768211457", 0 },
    { 12, "1+1", 0 }, { 12, "1*x+1*x", 0 }, { 12, "1*x^2+1*x^2", 0 }, { 12, "1+1*x", 0 }, { 12, "1*x+1*x^2", 0 }, { 12, "1*x^9+1*x^10", 0 },
    { 12, "+1", 0 }, { 12, "1+", 0 }, { 12, "1*x+", 0 }, { 12, "1*x++1", 0 }, { 12, "+", 0 }, { 12, "-1", 0 }, { 12, "1*x-1", 0 },
    { 12, " 1", 0 }, { 12, "1 ", 0 }, { 12, "1*x +1", 0 }, { 12, "1 *x", 0 }, { 12, "1*x\n", 0 }, { 12, "1*X", 0 }, { 12, "1*y", 0 },
    { 12, "1*xx", 0 }, { 12, "1**x", 0 }, { 12, "1*x^^2", 0 }, { 12, "1*x^+2", 0 }, { 12, "1*x^2x", 0 }, { 12, "1*x*x", 0 }, { 12, "1*x^2^2", 0 },
    { 12, "1*x2", 0 }, { 12, "1e1", 0 }, { 12, "0x1", 0 }, { 12, "a", 0 }, { 12, "1,1", 0 }, { 12, "1*x;", 0 }, { 12, "1*x+p", 0 }, { 12, "a1", 0 },
    { 12, "1", 2 }, { 12, "1*x", 4 }, { 12, "\0", 1 }, { 12, "5\0" "5", 3 },
};

static void texts(void)
{
    static const uint32_t moduli[] = { 2, 3, 12, 4294967295u };
    uint32_t f[MOST];
    char where[90];
    long back = 0, read = 0, none = 0;
    for (size_t i = 0; i < sizeof spelled / sizeof *spelled; i++) {
        const uint8_t *text = (const uint8_t *) spelled[i].text;
        size_t length = strlen(spelled[i].text);
        expect(any_text(spelled[i].n, text, length, spelled[i].text), "a text", spelled[i].text);
        expect(read_text(spelled[i].n, text, length, 49, JINGCOBU_OK, spelled[i].text) == spelled[i].count, "the number of its words", spelled[i].text);
        expect(!memcmp(out + MARGIN, spelled[i].words, spelled[i].count * sizeof *f), "its words", spelled[i].text);
        memcpy(f, spelled[i].words, sizeof spelled[i].words);
        expect(write_text(spelled[i].n, f, spelled[i].count, 800, JINGCOBU_OK, spelled[i].text) == length
            && !memcmp(written + MARGIN, text, length), "is what is written for its words", spelled[i].text);
    }
    for (size_t i = 0; i < sizeof damaged / sizeof *damaged; i++) {
        size_t length = damaged[i].length ? damaged[i].length : strlen(damaged[i].text);
        expect(!any_text(damaged[i].n, (const uint8_t *) damaged[i].text, length, damaged[i].text), "no text", damaged[i].text);
    }
    for (size_t m = 0; m < 4; m++)
        for (int t = 0; t < 600; t++) {
            uint32_t n = moduli[m], sparse = 1 + draw() % 4;
            size_t fl = t % 4 == 0 ? MOST : 1 + draw() % MOST;
            for (size_t i = 0; i < fl; i++) {
                uint32_t shorter = draw() % 3 ? 0 : draw() % 32;
                f[i] = draw() % sparse ? 0 : draw() % n >> shorter;
            }
            if (t % 5 == 0) f[fl - 1] = 0;
            if (t % 97 == 0) memset(f, 0, sizeof f);
            snprintf(where, sizeof where, "text %d modulo %u", t, n);
            there_and_back(n, f, fl, where);
            back++;
            /* one character changed, left out, put in or exchanged with the next, and the text cut short */
            uint8_t text[JINGCOBU_TEXT + 1], other[JINGCOBU_TEXT + 2];
            size_t length = text_of(f, fl, (char *) text);
            for (int change = 0; change < 20; change++) {
                size_t at = draw() % length, l = length;
                static const char signs[] = "0123456789*+^x";
                uint8_t sign = (uint8_t) signs[draw() % 14];
                memcpy(other, text, length);
                if (change % 5 == 0) other[at] = sign;
                if (change % 5 == 1) { memmove(other + at, text + at + 1, length - at - 1); l--; }
                if (change % 5 == 2) { memmove(other + at + 1, text + at, length - at); other[at] = sign; l++; }
                if (change % 5 == 3 && at + 1 < length) { other[at] = text[at + 1]; other[at + 1] = text[at]; }
                if (change % 5 == 4) l = at;
                if (any_text(n, other, l, where)) read++; else none++;
            }
        }
    /* every byte in every place, and before and after */
    static const char *const whole[] = { "0", "7", "1*x", "3*x^3+1*x+5", "11*x^48+2*x^12+10" };
    for (size_t i = 0; i < sizeof whole / sizeof *whole; i++)
        for (size_t at = 0; at < strlen(whole[i]); at++)
            for (int byte = 0; byte < 256; byte++) {
                uint8_t text[40];
                size_t l = strlen(whole[i]);
                snprintf(where, sizeof where, "%s with byte %d at place %zu", whole[i], byte, at);
                memcpy(text, whole[i], l);
                text[at] = (uint8_t) byte;
                if (any_text(12, text, l, where)) read++; else none++;
                memcpy(text, whole[i], at);
                text[at] = (uint8_t) byte;
                memcpy(text + at + 1, whole[i] + at, l - at);
                if (any_text(12, text, l + 1, where)) read++; else none++;
                memcpy(text, whole[i], l);
                text[l] = (uint8_t) byte;
                if (any_text(12, text, l + 1, where)) read++; else none++;
            }
    /* the longest text, longer ones that are none, and all short strings over the characters of the notation */
    for (size_t i = 0; i < MOST; i++) f[i] = 4294967294u;
    expect(write_text(4294967295u, f, MOST, 800, JINGCOBU_OK, "the longest text") == 767, "has 767 characters", "the longest text");
    there_and_back(4294967295u, f, MOST, "the longest text");
    static uint8_t longer[3000];
    for (size_t l = 11; l <= 3000; l = l < 820 ? l + 1 : l + 545) {
        memset(longer, '1', sizeof longer);
        read_text(4294967295u, longer, l, 49, JINGCOBU_NO_TEXT, "a number that is too long");
        for (size_t i = 1; i < l; i += 2) longer[i] = '+';
        read_text(4294967295u, longer, l, 49, JINGCOBU_NO_TEXT, "too many terms");
    }
    for (size_t l = 0; l <= 5; l++) {
        static const char signs[] = "0129*+^x";
        for (uint32_t j = 0; j < 1u << (3 * l); j++) {
            uint8_t text[5];
            for (size_t i = 0; i < l; i++) text[i] = (uint8_t) signs[j >> (3 * i) & 7];
            snprintf(where, sizeof where, "short string %u of %zu", j, l);
            if (any_text(12, text, l, where)) read++; else none++;
        }
    }
    printf("%ld polynomials written and read, %ld changed texts read, %ld refused\n", back, read, none);
}

/* ---- shares */

static void runs(void)
{
    static const uint32_t frames[] = { 0, 1, 2, 3, 4, 5, 6, 7, 8, 9, 1023, 1024, 1025, 1026, 2048, 65536, 2147483648u, 4294967295u };
    static const uint32_t counts[] = { 0, 1, 3, 256, 257, 65536, 4294967295u };
    long plans = 0;
    char where[90];
    for (size_t m = 0; m < sizeof frames / sizeof *frames; m++)
        for (int j = 0; j < 7 * 7 * 7 * 7; j++) {
            uint32_t a = counts[j % 7], b = counts[j / 7 % 7], c = counts[j / 49 % 7], d = counts[j / 343];
            snprintf(where, sizeof where, "%u frames, %u, %u, %u and %u waiting", frames[m], a, b, c, d);
            shares(frames[m], a, b, c, d, where);
            plans++;
        }
    for (uint32_t n = 1; n <= 1024; n++)
        for (int t = 0; t < 4; t++) {
            uint32_t a = draw() % (n + 2), b = draw() % (n / 2 + 2), c = draw() % (n / 4 + 2), d = draw();
            d >>= draw() % 32;
            snprintf(where, sizeof where, "%u frames, %u, %u, %u and %u waiting", n, a, b, c, d);
            shares(n, a, b, c, d, where);
            shares(n, d, c, b, a, where);
            plans += 2;
        }
    jingcobu_plan p = jingcobu_shares(10, 1, 0, 9, 2);
    expect(p.share[0] == 1 && p.share[1] == 0 && p.share[2] == 7 && p.share[3] == 2 && p.status == 0, "are 1, 0, 7, 2", "10 frames, 1, 0, 9, 2 waiting");
    printf("%ld runs shared\n", plans);
}

/* ---- the gcd of two residues with its least cofactors */

/* Every pair up to n = 24 against a search from 0 upward, also as two constants of the reduced resultant; the refusals in their
 * order; the ends of the range; drawn pairs. */
static void gcds(void)
{
    static const uint32_t moduli[] = { 25, 30, 36, 210, 65536, 65537, 1000000, 223092870, 2147483648u, 3486784401u, 4294967291u, 4294967295u };
    long pairs = 0, drawn = 0;
    char where[60];
    for (uint32_t n = 2; n <= 24; n++)
        for (uint32_t a = 0; a < n; a++)
            for (uint32_t b = 0; b < n; b++) {
                uint32_t g = common_divisor(common_divisor(a, b), n), s = 0, t = 0;
                snprintf(where, sizeof where, "%u and %u modulo %u", a, b, n);
                while (s < n && (s * a + t * b) % n != g % n) if (++t == n) { t = 0; s++; }
                jingcobu_cofactors c = gcd(n, a, b, JINGCOBU_OK, where);
                expect(c.s == s, "gcd: s is the first that fits", where);
                expect(c.t == t, "gcd: t is the first that fits", where);
                expect(reduced(n, &a, 1, &b, 1, 1, 1, 8192, JINGCOBU_OK, where) == g, "reduced: D of two constants is their gcd", where);
                expect(u[MARGIN] == s && v[MARGIN] == t, "reduced: the cofactors of two constants are the first that fit", where);
                pairs++;
            }
    for (uint32_t n = 0; n < 5; n++)
        for (uint32_t a = 0; a < 7; a++)
            for (uint32_t b = 0; b < 7; b++) {
                uint32_t large_a = a == 6 ? 4294967295u : a, large_b = b == 6 ? 4294967295u : b;
                snprintf(where, sizeof where, "%u and %u modulo %u", large_a, large_b, n);
                gcd(n, large_a, large_b, n < 2 ? JINGCOBU_BAD_MODULUS : a >= n || b >= n ? JINGCOBU_BAD_WORD : JINGCOBU_OK, where);
            }
    for (size_t m = 0; m < sizeof moduli / sizeof *moduli; m++) {
        uint32_t n = moduli[m], ends[] = { 0, 1, 2, n / 2, n / 3, n - 2, n - 1, n, n + 1, 4294967295u };
        for (size_t i = 0; i < 100; i++) {
            uint32_t a = ends[i % 10], b = ends[i / 10];
            snprintf(where, sizeof where, "%u and %u modulo %u", a, b, n);
            gcd(n, a, b, a >= n || b >= n ? JINGCOBU_BAD_WORD : JINGCOBU_OK, where);
        }
        for (int i = 0; i < 400; i++) {
            uint32_t small = 1 + draw() % 60, a = draw() % n, b = draw() % n;
            if (i % 2) { a = (uint32_t) ((uint64_t) a * small % n); b = (uint32_t) ((uint64_t) b * (1 + draw() % 60) % n); }
            if (i % 4 == 3) b = (uint32_t) ((uint64_t) a * small % n);
            snprintf(where, sizeof where, "%u and %u modulo %u", a, b, n);
            jingcobu_cofactors c = gcd(n, a, b, JINGCOBU_OK, where);
            if (i % 8 == 0) {
                uint32_t D = reduced(n, &a, 1, &b, 1, 1489, 1489, 8192, JINGCOBU_OK, where);
                expect(D == c.g, "reduced: D of two constants is their gcd", where);
                expect(u[MARGIN] == c.s && v[MARGIN] == c.t, "reduced: the cofactors of two constants are those of their gcd", where);
            }
            drawn++;
        }
    }
    jingcobu_cofactors c = jingcobu_gcd(12, 8, 6), d = jingcobu_gcd(12, 0, 0);
    expect(c.g == 2 && c.s == 1 && c.t == 1 && c.status == 0, "g = 2, s = 1, t = 1", "8 and 6 modulo 12");
    expect(d.g == 12 && d.s == 0 && d.t == 0 && d.status == 0, "g = 12, s = 0, t = 0", "0 and 0 modulo 12");
    printf("%ld pairs of residues against a search, %ld drawn\n", pairs, drawn);
}

/* ---- factors that come and go */

/* What is held, kept beside the state: so nothing here rests on the state's fields. */
typedef struct { uint16_t number; size_t length; uint32_t f[MOST]; } factor;
typedef struct { uint32_t n; size_t h_len, count, degrees; uint32_t h[MOST]; factor held[16]; jingcobu_factors state; } holding;

/* the place of a number among the factors, or the count if it is not there */
static size_t place(const holding *x, uint16_t number)
{
    size_t i = 0;
    while (i < x->count && x->held[i].number != number) i++;
    return i;
}

static void begin(holding *x, uint32_t n, const uint32_t *h, size_t hl, const char *where)
{
    x->n = n;
    x->h_len = hl;
    x->count = x->degrees = 0;
    memcpy(x->h, h, hl * sizeof *h);
    x->state = start(n, h, hl, JINGCOBU_OK, where);
}

/* the status that an arrival should have; f may be of any length */
static uint32_t arrival_status(const holding *x, uint16_t number, const uint32_t *f, size_t fl, size_t wl)
{
    if (fl < 1 || fl > MOST) return JINGCOBU_BAD_LENGTH;
    for (size_t i = 0; i < fl; i++) if (f[i] >= x->n) return JINGCOBU_BAD_WORD;
    if (number == 0 || place(x, number) < x->count) return JINGCOBU_BAD_NUMBER;
    if (x->count == 16 || x->degrees + fl - 1 > 48) return JINGCOBU_FACTORS_FULL;
    return wl < JINGCOBU_WORK ? JINGCOBU_SHORT_WORK : JINGCOBU_OK;
}

static uint32_t comes(holding *x, uint16_t number, const uint32_t *f, size_t fl, size_t wl, const char *where)
{
    uint32_t status = arrival_status(x, number, f, fl, wl);
    x->state = arrive(x->state, number, fl ? f : NULL, fl, wl, status, where);
    if (status) return status;
    factor *a = &x->held[x->count++];
    a->number = number;
    a->length = fl;
    memcpy(a->f, f, fl * sizeof *f);
    x->degrees += fl - 1;
    return status;
}

static uint32_t goes(holding *x, uint16_t number, const char *where)
{
    size_t i = place(x, number);
    uint32_t status = number == 0 || i == x->count ? JINGCOBU_BAD_NUMBER : JINGCOBU_OK;
    x->state = leave(x->state, number, status, where);
    if (status) return status;
    x->degrees -= x->held[i].length - 1;
    x->held[i] = x->held[--x->count];
    return status;
}

/* The reading against the resultant worked afresh from the multiplied factors; the factors are multiplied from the constant 1. */
static uint32_t reads(const holding *x, const char *where)
{
    uint32_t p[MOST] = { 1 };
    size_t l = 1;
    for (size_t i = 0; i < x->count; i++) {
        product(x->n, p, l, x->held[i].f, x->held[i].length, 60, JINGCOBU_OK, where);
        l += x->held[i].length - 1;
        memcpy(p, out + MARGIN, l * sizeof *p);
    }
    expect(l == x->degrees + 1, "the sent degree of the multiplied factors is the sum", where);
    uint32_t r = reading(x->state, JINGCOBU_OK, where), afresh = resultant(x->n, p, l, x->h, x->h_len, 8192, JINGCOBU_OK, where);
    expect(r == afresh, "reading: the resultant of the multiplied factors with h", where);
    return r;
}

/* The ends: sixteen factors and a seventeenth, the summed degrees 48 and 49, and a factor that leaves though its resultant is a zero
 * divisor. 4294049777 is 65521 times 65537: the readings are units there, so each of the sixteen counts. */
static void places(void)
{
    static holding x;
    uint32_t h[] = { 5, 1, 0, 2 }, f[MOST + 1], one = 1, five = 5;
    for (size_t j = 0; j < 8; j++) {
        uint32_t n = j % 2 ? 12 : 4294049777u;
        size_t d = j / 2;                                                                   /* sixteen times 3 is 48 */
        for (size_t i = 0; i <= MOST; i++) f[i] = draw() % n;
        begin(&x, n, h, 4, "sixteen factors");
        for (uint16_t k = 0; k < 16; k++) {
            expect(comes(&x, (uint16_t) (65535 - k), f + k, d + 1, 8192, "sixteen factors") == JINGCOBU_OK, "are held", "sixteen factors");
            reads(&x, "sixteen factors");
        }
        expect(comes(&x, 1, &five, 1, 8192, "a seventeenth") == JINGCOBU_FACTORS_FULL, "is refused with 13", "a seventeenth");
        reads(&x, "a seventeenth");
        for (uint16_t k = 0; k < 16; k++) {                                                 /* each place is free again */
            expect(goes(&x, (uint16_t) (65535 - (5 * k + 3) % 16), "one of sixteen") == JINGCOBU_OK, "leaves", "one of sixteen");
            expect(comes(&x, (uint16_t) (k + 1), f + 2 * k, d + 1, 8192, "in its place") == JINGCOBU_OK, "comes", "in its place");
            expect(comes(&x, 100, &five, 1, 8192, "a seventeenth") == JINGCOBU_FACTORS_FULL, "is refused with 13", "a seventeenth");
            expect(common_divisor(reads(&x, "in its place"), n) == 1 || n == 12, "the reading is a unit", "in its place");
        }
        for (uint16_t k = 16; k > 0; k--) goes(&x, k, "all leave");
        expect(reads(&x, "none held any more") == 1, "the reading is 1", "none held any more");
    }
    for (size_t i = 0; i <= MOST; i++) f[i] = (uint32_t) (7 * i + 1) % 12;
    for (size_t d = 0; d <= 48; d++) {
        char where[60];
        snprintf(where, sizeof where, "degree %zu, and 48 in all", d);
        begin(&x, 12, h, 4, where);
        expect(comes(&x, 7, f, d + 1, 8192, where) == JINGCOBU_OK, "is held", where);
        expect(d == 0 || comes(&x, 8, f, 50 - d, 8192, where) == JINGCOBU_FACTORS_FULL, "49 is refused with 13", where);
        expect(comes(&x, 8, f, 49 - d, 8192, where) == JINGCOBU_OK, "48 is held", where);
        reads(&x, where);
        expect(comes(&x, 9, f, 2, 8192, where) == JINGCOBU_FACTORS_FULL, "then 49 is refused with 13", where);
        expect(comes(&x, 9, &one, 1, 8192, where) == JINGCOBU_OK, "and a constant is held", where);
        reads(&x, where);
        goes(&x, 7, where);
        expect(comes(&x, 7, f + 1, d + 1, 8192, where) == JINGCOBU_OK, "its degree is free again", where);
        reads(&x, where);
    }
    /* modulo 12 the resultants of x + 4, x + 3 and 5 with x are 8, 9 and 5 */
    uint32_t four[] = { 4, 1 }, three[] = { 3, 1 }, X[] = { 0, 1 };
    begin(&x, 12, X, 2, "zero divisors");
    comes(&x, 4, four, 2, 8192, "zero divisors");
    expect(reads(&x, "zero divisors") == 8, "the reading is 8", "zero divisors");
    comes(&x, 3, three, 2, 8192, "zero divisors");
    expect(reads(&x, "zero divisors") == 0, "the reading is 0", "zero divisors");
    comes(&x, 5, &five, 1, 8192, "zero divisors");
    expect(reads(&x, "zero divisors") == 0, "the reading is 0 still", "zero divisors");
    expect(goes(&x, 4, "zero divisors") == JINGCOBU_OK, "one leaves", "zero divisors");
    expect(reads(&x, "zero divisors") == 9, "the reading is 9", "zero divisors");
    expect(goes(&x, 3, "zero divisors") == JINGCOBU_OK, "the other leaves", "zero divisors");
    expect(reads(&x, "zero divisors") == 5, "the reading is 5", "zero divisors");
    comes(&x, 4, four + 1, 1, 8192, "zero divisors");
    comes(&x, 3, X, 2, 8192, "zero divisors");
    expect(reads(&x, "a resultant of 0") == 0, "the reading is 0", "a resultant of 0");
    expect(goes(&x, 3, "a resultant of 0") == JINGCOBU_OK, "leaves", "a resultant of 0");
    expect(reads(&x, "a resultant of 0") == 5, "the reading is 5", "a resultant of 0");
}

/* Every set of reasons at once, in each way a reason can come: the status is the first of 1, 2, 3, 14, 13, 7. */
static void factor_orders(void)
{
    enum { N = 1, F = 2, WF = 4, NUMBER = 8, FULL = 16, WORK = 32, SETS = 64 };
    static holding sixteen, some;
    uint32_t h[] = { 5, 1, 0, 2 }, f[60];
    char where[60];
    long sets = 0;
    for (int i = 0; i < 60; i++) f[i] = (uint32_t) (5 * i + 1) % 12;
    begin(&sixteen, 12, h, 4, "sixteen");
    for (uint16_t k = 1; k <= 16; k++) comes(&sixteen, k, f + k, 2, 8192, "sixteen");
    begin(&some, 12, h, 4, "some");
    comes(&some, 1, f, 41, 8192, "some");
    comes(&some, 2, f, 5, 8192, "some");
    for (int other = 0; other < 32; other++)
        for (int set = 0; set < SETS; set++) {
            int few = other & 1, last = other & 2, zero = other & 4, summed = other & 8;
            jingcobu_factors s = (set & FULL) && !summed ? sixteen.state : some.state;
            uint32_t words[60];
            size_t fl = set & F ? few ? 0 : 50 : (set & FULL) && summed ? 6 : 5;            /* 44 are held: 48, or 49 */
            memcpy(words, f, sizeof words);
            if ((set & WF) && fl) words[last ? fl - 1 : 0] = other & 16 ? 12 : 4294967295u;
            if (set & N) s.n = few ? 0 : 1;
            uint16_t number = set & NUMBER ? zero ? 0 : last ? 2 : 1 : 20;
            size_t wl = set & WORK ? zero ? 0 : 8191 : last ? 8192 : 9000;
            uint32_t status = set & N ? JINGCOBU_BAD_MODULUS : set & F ? JINGCOBU_BAD_LENGTH : set & WF ? JINGCOBU_BAD_WORD
                : set & NUMBER ? JINGCOBU_BAD_NUMBER : set & FULL ? JINGCOBU_FACTORS_FULL : set & WORK ? JINGCOBU_SHORT_WORK : JINGCOBU_OK;
            snprintf(where, sizeof where, "set %d of an arrival's reasons, %d", set, other);
            arrive(s, number, fl ? words : NULL, fl, wl, status, where);
            uint32_t one = set & N ? JINGCOBU_BAD_MODULUS : JINGCOBU_OK;
            leave(s, set & NUMBER ? zero ? 0 : 21 : last ? 2 : 1, one ? one : set & NUMBER ? JINGCOBU_BAD_NUMBER : JINGCOBU_OK, where);
            reading(s, one, where);
            sets++;
        }
    printf("%ld sets of reasons to refuse a factor\n", sets);
}

/* Drawn histories: arrivals and leavings, right and wrong, a reading after each, and now and then a return to a copy of the state. */
static void histories(void)
{
    static const uint32_t moduli[] = { 4, 6, 12, 30, 36, 210, 65536, 223092870, 2147483648u, 2176782336u, 3486784401u, 4294049777u, 4294967295u };
    static const size_t most[] = { 0, 1, 3, 6, 12, 48 };
    static holding x, kept;
    uint32_t f[60], h[MOST];
    long calls = 0, answered[2] = { 0, 0 }, refused[20] = { 0 }, nonzero = 0, divisors = 0;
    char where[60];
    for (int i = 0; i < HISTORIES; i++) {
        uint32_t n = moduli[draw() % (sizeof moduli / sizeof *moduli)];
        size_t e = i % 20 == 0 ? 48 : draw() % 7, d = most[i % 6];
        for (size_t k = 0; k <= e; k++) h[k] = draw() % n * (draw() % 5 != 0);
        if (i % 7 == 0) h[e] = 0;
        begin(&x, n, h, e + 1, "a history");
        kept = x;
        for (int j = 0; j < 200; j++) {
            uint16_t number = (uint16_t) (draw() % 24 * (i % 2 ? 1 : 2849));                /* 23 times 2849 is 65527 */
            uint32_t kind = draw() % 16;
            snprintf(where, sizeof where, "history %d, call %d", i, j);
            if (kind < 9) {
                size_t fl = draw() % 40 ? 1 + draw() % (d + 1) : draw() % 2 * 50, wl = draw() % 30 ? 8192 : 8191;
                uint32_t small = draw() % 3 ? 1 : 1 + draw() % 12;
                for (size_t k = 0; k < fl; k++) f[k] = (uint32_t) ((uint64_t) (draw() % n) * small % n);
                if (fl && draw() % 6 == 0) f[fl - 1] = 0;
                if (fl && draw() % 40 == 0) f[draw() % fl] = n;
                uint32_t status = comes(&x, number, f, fl, wl, where);
                if (status) refused[status]++; else answered[0]++;
            } else if (kind < 15) {
                if (x.count && draw() % 3) number = x.held[draw() % x.count].number;
                size_t k = place(&x, number);
                if (k < x.count) {
                    uint32_t r = resultant(n, x.held[k].f, x.held[k].length, h, e + 1, 8192, JINGCOBU_OK, where);
                    if (common_divisor(r, n) > 1) divisors++;
                }
                uint32_t status = goes(&x, number, where);
                if (status) refused[status]++; else answered[1]++;
            } else if (draw() % 2) {
                kept = x;
            } else {
                x = kept;
            }
            if (reads(&x, where)) nonzero++;
            calls++;
        }
    }
    printf("%ld calls in %d histories: %ld factors came, %ld left, %ld of them with a resultant that is not a unit; %ld readings are not 0\n",
           calls, HISTORIES, answered[0], answered[1], divisors, nonzero);
    printf("refused in them: %ld with 2, %ld with 3, %ld with 14, %ld with 13, %ld with 7\n",
           refused[2], refused[3], refused[14], refused[13], refused[7]);
}

/* the first of the sixteen places that has the number k, or 16 */
static size_t first_place(const uint16_t *number, uint16_t k)
{
    size_t i = 0;
    while (i < 16 && number[i] != k) i++;
    return i;
}

/* States that no start made: some fields are those of a right state, the others any bits. Nothing is said of readings but that they
 * are residues; each call answers or refuses, by the fields as they are. */
static void any_states(void)
{
    static holding x;
    uint32_t h[] = { 5, 1, 0, 2 }, f[60];
    long states = 0, answered = 0;
    char where[40];
    begin(&x, 12, h, 4, "any state");
    for (int i = 0; i < 6000; i++) {
        jingcobu_factors s = x.state;
        uint32_t bits = i % 3 ? draw() & draw() : 127;                                      /* in which fields */
        snprintf(where, sizeof where, "state %d of any bits", i);
        if (bits & 1) s.n = i % 5 ? draw() : (uint32_t) (i / 5 % 4);
        if (bits & 2) s.h_len = i % 2 ? draw() : draw() % 60;
        for (int k = 0; k < 49; k++) if (bits & 4) s.h[k] = draw();
        for (int k = 0; k < 16; k++) {
            if (bits & 8) s.number[k] = (uint16_t) (draw() % (i % 2 ? 65536 : 9));
            if (bits & 16) s.degree[k] = i % 4 == 0 ? 1u << 30 : i % 4 == 1 ? draw() % 5 : draw();  /* sixteen times 2^30 is 2^34 */
            if (bits & 32) s.resultant[k] = draw();
        }
        uint32_t n = s.n;
        uint16_t number = (uint16_t) (draw() % 9);
        size_t fl = 1 + draw() % 4, wl = draw() % 8 ? 8192 : 8191;
        for (size_t k = 0; k < fl; k++) f[k] = n > 1 ? draw() % n : draw();
        uint64_t degrees = fl - 1;
        int large = 0;
        for (int k = 0; k < 16; k++) degrees += s.degree[k];
        for (size_t k = 0; k < s.h_len && k < 49; k++) if (s.h[k] >= n) large = 1;
        size_t at = first_place(s.number, number);
        uint32_t status = n < 2 ? JINGCOBU_BAD_MODULUS : s.h_len < 1 || s.h_len > 49 ? JINGCOBU_BAD_LENGTH : large ? JINGCOBU_BAD_WORD
            : number == 0 || at < 16 ? JINGCOBU_BAD_NUMBER : first_place(s.number, 0) == 16 || degrees > 48 ? JINGCOBU_FACTORS_FULL
            : wl < 8192 ? JINGCOBU_SHORT_WORK : JINGCOBU_OK;
        jingcobu_factors r = arrive(s, number, f, fl, wl, status, where);
        if (status == JINGCOBU_OK) {
            answered++;
            reading(r, JINGCOBU_OK, where);
            leave(r, number, JINGCOBU_OK, where);
            arrive(r, number, f, fl, wl, JINGCOBU_BAD_NUMBER, where);
        }
        status = n < 2 ? JINGCOBU_BAD_MODULUS : number == 0 || at == 16 ? JINGCOBU_BAD_NUMBER : JINGCOBU_OK;
        r = leave(s, number, status, where);
        reading(r, n < 2 ? JINGCOBU_BAD_MODULUS : JINGCOBU_OK, where);
        reading(s, n < 2 ? JINGCOBU_BAD_MODULUS : JINGCOBU_OK, where);
        states++;
    }
    printf("%ld states of any bits, %ld of them took a factor\n", states, answered);
}

/* ---- D alone, cofactors of the resultant and grounds, of every pair of degrees up to 2 */

/* polynomial number x of l words: its digits to the base n */
static void counted(uint32_t n, size_t l, long x, uint32_t *f) { for (size_t k = 0; k < l; k++, x /= n) f[k] = (uint32_t) (x % n); }
static long power(uint32_t n, size_t l) { long p = 1; while (l--) p *= n; return p; }

/* The services against each other, with no marks in the buffers, which `pairs` and `ends` look at. */
static void small_pairs(void)
{
    static const uint32_t moduli[] = { 4, 6, 8, 9, 12 };
    uint32_t f[3], g[3], *w = out + MARGIN;
    long count = 0, grounds[3] = { 0, 0, 0 }, wrong = 0;
    for (size_t i = 0; i < sizeof moduli / sizeof *moduli; i++)
        for (size_t fl = 1; fl <= 3; fl++)
            for (size_t gl = 1; gl <= 3; gl++) {
                uint32_t n = moduli[i];
                for (long a = 0; a < power(n, fl); a++)
                    for (long b = 0; b < power(n, gl); b++) {
                        counted(n, fl, a, f);
                        counted(n, gl, b, g);
                        uint32_t r = jingcobu_resultant(n, f, fl, g, gl, work, JINGCOBU_WORK).value;
                        uint32_t D = jingcobu_reduced_resultant(n, f, fl, g, gl, u + MARGIN, 20, v + MARGIN, 20, work, JINGCOBU_WORK).value;
                        size_t l = cofactor_length(n, fl, gl);
                        int ok = combine(n, f, fl, g, gl, l, l, D) && jingcobu_divisor(n, f, fl, g, gl, work, JINGCOBU_WORK).value == D;
                        if (fl + gl > 2) {
                            jingcobu_answer c = jingcobu_resultant_cofactors(n, f, fl, g, gl, u + MARGIN, gl - 1, v + MARGIN, fl - 1, work, JINGCOBU_WORK);
                            ok = ok && c.status == 0 && c.value == r && combine(n, f, fl, g, gl, gl - 1, fl - 1, r);
                        }
                        jingcobu_reason y = jingcobu_why(n, f, fl, g, gl, w, JINGCOBU_COMMON, work, JINGCOBU_WORK);
                        ok = ok && y.status == 0 && y.ground <= 2 && (y.ground == 0) == (D == 1);
                        if (ok && y.ground) {
                            ok = y.m > 1 && D % y.m == 0;
                            for (size_t k = 0; ok && y.ground == 1 && k < 3; k++) if ((k < fl && f[k] % y.m) || (k < gl && g[k] % y.m)) ok = 0;
                            if (ok && y.ground == 2)
                                ok = y.degree >= 1 && y.degree <= 2 && w[y.degree] == 1 && multiple_of(y.m, f, fl, w, y.degree)
                                    && multiple_of(y.m, g, gl, w, y.degree);
                        }
                        if (!ok) wrong++;
                        grounds[y.ground % 3]++;
                        count++;
                    }
            }
    expect(wrong == 0, "every pair of degrees up to 2: D, cofactors of both numbers, grounds", "4, 6, 8, 9 and 12");
    printf("%ld pairs of degrees up to 2: %ld coprime, %ld zero modulo some m, %ld with a common divisor\n", count, grounds[0], grounds[1], grounds[2]);
}

/* ---- two variables: at every point the answer's value is the resultant of the pair at that point */

static void points(void)
{
    static const uint32_t moduli[] = { 61, 67, 3721, 4087, 4294967291u, 2147483647u, 61u * 61u * 61u * 61u };
    static uint32_t f[2500], g[2500];
    uint32_t answer[61], x[MOST], y[MOST];
    long jobs = 0, full = 0, values = 0;
    char where[80];
    for (int t = 0; t < 400; t++) {
        uint32_t n = moduli[draw() % (sizeof moduli / sizeof *moduli)];
        size_t d = draw() % 5, e = draw() % 5, a = draw() % 8, b = draw() % 8;
        if (t % 20 == 0) { d = 48; a = 0; e = 1; b = 1; }
        if (t % 20 == 1) { d = 0; a = 48; e = 1; b = 48; }
        if (t % 20 == 2) { d = 3; e = 3; a = 10; b = 10; }
        size_t B = e * a + d * b, fl = (d + 1) * (a + 1), gl = (e + 1) * (b + 1);
        for (size_t i = 0; i < fl; i++) f[i] = draw() % n * (draw() % 5 != 0);
        for (size_t i = 0; i < gl; i++) g[i] = draw() % n * (draw() % 5 != 0);
        snprintf(where, sizeof where, "two variables %d: n = %u, d = %zu, a = %zu, e = %zu, b = %zu", t, n, d, a, e, b);
        if (B > 60) { two(n, f, fl, d, a, g, gl, e, b, 61, 8192, JINGCOBU_TOO_MANY_POINTS, where); continue; }
        two(n, f, fl, d, a, g, gl, e, b, B, 8192, JINGCOBU_SHORT_RESULT, where);
        two(n, f, fl, d, a, g, gl, e, b, B + 1, 8191, JINGCOBU_SHORT_WORK, where);
        two(n, f, fl, d, a, g, gl, e, b, B + 1 + t % 30, 8192 + (size_t) t % 100, JINGCOBU_OK, where);
        memcpy(answer, out + MARGIN, (B + 1) * sizeof *answer);
        for (uint32_t p = 0; p < 80; p++) {
            uint64_t z = p < 64 ? p % n : draw() % n, s = 0;
            for (size_t i = 0; i <= d; i++) { s = 0; for (size_t k = a + 1; k-- > 0;) s = (s * z + f[i * (a + 1) + k]) % n; x[i] = (uint32_t) s; }
            for (size_t i = 0; i <= e; i++) { s = 0; for (size_t k = b + 1; k-- > 0;) s = (s * z + g[i * (b + 1) + k]) % n; y[i] = (uint32_t) s; }
            s = 0;
            for (size_t k = B + 1; k-- > 0;) s = (s * z + answer[k]) % n;
            expect(resultant(n, x, d + 1, y, e + 1, 8192, JINGCOBU_OK, where) == s, "two variables: the value at a point", where);
            values++;
        }
        jobs++;
        if (B == 60) full++;
    }
    /* a prime up to B divides n, and none does */
    static const uint32_t primes[] = { 2, 3, 5, 7, 11, 13, 17, 19, 23, 29, 31, 37, 41, 43, 47, 53, 59 };
    for (size_t B = 0; B <= 60; B++)
        for (size_t i = 0; i < sizeof primes / sizeof *primes; i++) {
            uint32_t other[2] = { 1, 1 };
            size_t d = 1, a = B < 49 ? B : 48, b = B < 49 ? 0 : B - 48;
            snprintf(where, sizeof where, "B = %zu and the prime %u", B, primes[i]);
            static uint32_t lines[98];
            for (int k = 0; k < 98; k++) lines[k] = k == 0;
            two(primes[i] * 61, lines, (d + 1) * (a + 1), d, a, b ? lines : other, 2 * (b + 1), 1, b, 61, 8192,
                primes[i] <= B ? JINGCOBU_PRIME_DIVIDES : JINGCOBU_OK, where);
        }
    /* B above 60 */
    memset(f, 0, sizeof f);
    for (size_t B = 61; B <= 96; B++) {
        snprintf(where, sizeof where, "B = %zu", B);
        two(67, f, 98, 1, 48, f, 2 * (B - 47), 1, B - 48, 100, 8192, JINGCOBU_TOO_MANY_POINTS, where);
    }
    printf("%ld pairs in two variables, %ld of them with 61 words, %ld values at points\n", jobs, full, values);
}

/* ---- claims: the longest multipliers, and each of the four answers */

static void claims(void)
{
    uint32_t f[9], g[9];
    long given[4] = { 0, 0, 0, 0 };
    char where[60];
    for (int t = 0; t < 600; t++) {
        static const uint32_t moduli[] = { 4, 6, 12, 30, 36, 210, 2147483648u, 223092870u, 4294967295u };
        uint32_t n = moduli[draw() % (sizeof moduli / sizeof *moduli)], small = 1 + draw() % 6;
        size_t fl = 1 + draw() % 8, gl = 1 + draw() % 8, l = cofactor_length(n, fl, gl), longer = t % 7 == 0 ? 4096 : l;
        for (size_t i = 0; i < fl; i++) f[i] = (uint32_t) ((uint64_t) (draw() % n) * small % n);
        for (size_t i = 0; i < gl; i++) g[i] = (uint32_t) ((uint64_t) (draw() % n) * small % n);
        snprintf(where, sizeof where, "claim %d", t);
        uint32_t D = reduced(n, f, fl, g, gl, l, l, 8192, JINGCOBU_OK, where), k = 1 + draw() % 5;
        memset(first_multiplier, 0, sizeof first_multiplier);
        memset(second_multiplier, 0, sizeof second_multiplier);
        memcpy(first_multiplier, u + MARGIN, l * sizeof *u);
        memcpy(second_multiplier, v + MARGIN, l * sizeof *v);
        /* the claims k D with multipliers times k, and a multiplier of g f - f g added: still true, in more words */
        for (size_t i = 0; i < l; i++) {
            first_multiplier[i] = (uint32_t) ((uint64_t) k * first_multiplier[i] % n);
            second_multiplier[i] = (uint32_t) ((uint64_t) k * second_multiplier[i] % n);
        }
        if (longer == 4096)
            for (size_t i = 0; i < 9; i++) {
                if (i < gl) first_multiplier[4096 - gl - (fl > gl ? fl - gl : 0) + i] = g[i] % n;
                if (i < fl) second_multiplier[4096 - gl - (fl > gl ? fl - gl : 0) + i] = (n - f[i]) % n;
            }
        uint32_t d = (uint32_t) ((uint64_t) k * D % n);
        if (d == 0) d = n;
        uint32_t right = n % d ? 1 : d == D ? 0 : 3;
        uint32_t a = claim(n, f, fl, g, gl, d, longer, longer, 8192, JINGCOBU_OK, where);
        expect(a == right, "claim: k D with k times the multipliers", where);
        given[a & 3]++;
        size_t place = draw() % (fl + l);
        first_multiplier[place % longer] = (first_multiplier[place % longer] + 1) % n;
        int zero = 1;
        for (size_t i = 0; i < fl; i++) if (f[i]) zero = 0;
        a = claim(n, f, fl, g, gl, d, longer, longer, 8192, JINGCOBU_OK, where);
        expect(a == (right == 1 ? 1 : zero ? right : 2), "claim: one word of a multiplier changed", where);
        given[a & 3]++;
        a = claim(n, f, fl, g, gl, t % 2 ? 0 : n + 1, longer, longer, 8192, JINGCOBU_OK, where);
        expect(a == 1, "claim: no divisor of n", where);
        given[a & 3]++;
    }
    /* every coefficient counts: one multiplier is 1 for the polynomial 1, the other is 6 x^k for x^d, k at either end and between */
    static const size_t lengths[] = { 1, 2, 49, 1489, 1490, 4095, 4096 };
    for (size_t i = 0; i < 5 * sizeof lengths / sizeof *lengths; i++)
        for (size_t d = 0; d <= 48; d += 16)
            for (int second = 0; second < 2; second++) {
                size_t l = lengths[i / 5], k = i % 5 == 0 ? 0 : i % 5 == 1 ? 1 : i % 5 == 2 ? l / 2 : l - (i % 5 == 3 ? 1 : 2);
                uint32_t x[MOST] = { 0 }, one = 1, *multiplier = second ? second_multiplier : first_multiplier;
                if (k >= l) continue;
                x[d] = 1;
                memset(first_multiplier, 0, sizeof first_multiplier);
                memset(second_multiplier, 0, sizeof second_multiplier);
                (second ? first_multiplier : second_multiplier)[0] = 1;
                snprintf(where, sizeof where, "6 x^%zu of %zu words, d = %zu", k, l, d);
                for (int changed = 0; changed < 2; changed++) {
                    multiplier[k] = changed ? 6 : 0;
                    uint32_t a = second ? claim(12, &one, 1, x, d + 1, 1, 1, l, 8192, JINGCOBU_OK, where)
                                        : claim(12, x, d + 1, &one, 1, 1, l, 1, 8192, JINGCOBU_OK, where);
                    expect(a == (changed ? 2 : 0), "claim: every coefficient counts", where);
                    given[a & 3]++;
                }
            }
    printf("claims: %ld accepted, the first test failed in %ld, the second in %ld, the third in %ld\n", given[0], given[1], given[2], given[3]);
}

/* ---- lengths that are refused unread */

/* what a call is lent to write into: marked words, or, since it must not be touched either, SIZE_MAX words that are not there */
typedef struct { uint32_t *out, *u, *v, *work; size_t out_len, u_len, v_len, work_len; } results;
static const results marked = { out + MARGIN, u + MARGIN, v + MARGIN, work + MARGIN, 100, 1600, 1600, 9000 };
static const results no_results = { NOWHERE, NOWHERE, NOWHERE, NOWHERE, SIZE_MAX, SIZE_MAX, SIZE_MAX, SIZE_MAX };
#define OUT r->out, r->out_len
#define U r->u, r->u_len
#define V r->v, r->v_len
#define WORK r->work, r->work_len

/* every function of two polynomials */
static void unread_pair(uint32_t n, const uint32_t *f, size_t fl, const uint32_t *g, size_t gl, const results *r, uint32_t status,
                        const char *where)
{
    const uint32_t one = 1;
    REFUSED(jingcobu_product(n, f, fl, g, gl, OUT), status, "unread: product", where);
    REFUSED(jingcobu_product_word(n, f, fl, g, gl, OUT, 0), status, "unread: product_word", where);
    REFUSED(jingcobu_resultant(n, f, fl, g, gl, WORK), status, "unread: resultant", where);
    REFUSED(jingcobu_reduced_resultant(n, f, fl, g, gl, U, V, WORK), status, "unread: reduced_resultant", where);
    REFUSED(jingcobu_divisor(n, f, fl, g, gl, WORK), status, "unread: divisor", where);
    REFUSED(jingcobu_resultant_cofactors(n, f, fl, g, gl, U, V, WORK), status, "unread: resultant_cofactors", where);
    REFUSED(jingcobu_why(n, f, fl, g, gl, OUT, WORK), status, "unread: why", where);
    REFUSED(jingcobu_check_claim(n, f, fl, g, gl, 1, &one, 1, &one, 1, WORK), status, "unread: check_claim", where);
    REFUSED(jingcobu_check_claim(n, f, fl, g, gl, 1, NOWHERE, SIZE_MAX, NOWHERE, SIZE_MAX, WORK), status, "unread: check_claim", where);
    REFUSED(jingcobu_resultant_two(n, f, fl, 0, fl == 2 ? 1 : 48, g, gl, 0, gl == 2 ? 1 : 48, OUT, WORK), status, "unread: resultant_two",
            where);
    REFUSED(jingcobu_resultant_two(n, f, fl, fl - 1, 0, g, gl, gl - 1, 0, OUT, WORK), status, "unread: resultant_two", where);
}

/* every function of one polynomial; the state has n */
static void unread_one(jingcobu_factors s, const uint32_t *f, size_t fl, const results *r, uint32_t status, const char *where)
{
    REFUSED(jingcobu_true_degree(s.n, f, fl), status, "unread: true_degree", where);
    REFUSED(jingcobu_factors_start(s.n, f, fl), status, "unread: factors_start", where);
    REFUSED(jingcobu_factors_arrive(s, 1, f, fl, WORK), status, "unread: factors_arrive", where);
    REFUSED(jingcobu_write_text(s.n, f, fl, (uint8_t *) r->out, r->out_len), status, "unread: write_text", where);
}

/* a claim's multipliers have at most 4096 words, a text at most 767 bytes */
static void unread_others(uint32_t n, size_t length, const results *r, const char *where)
{
    const uint32_t f[] = { 1, 2 };
    uint32_t multiplier = n < 2 ? JINGCOBU_BAD_MODULUS : JINGCOBU_BAD_MULTIPLIER;
    if (length > 4096) {
        REFUSED(jingcobu_check_claim(n, f, 2, f, 2, 1, NOWHERE, length, f, 2, WORK), multiplier, "unread: check_claim, u", where);
        REFUSED(jingcobu_check_claim(n, f, 2, f, 2, 1, f, 2, NOWHERE, length, WORK), multiplier, "unread: check_claim, v", where);
        REFUSED(jingcobu_check_claim(n, NOWHERE, 2, NOWHERE, 2, 1, NOWHERE, 2, NOWHERE, length, WORK), multiplier, "unread: check_claim",
                where);
    }
    const size_t bytes = length == 50 ? 768 : length;
    REFUSED(jingcobu_read_text(n, (const uint8_t *) NOWHERE, bytes, OUT), n < 2 ? JINGCOBU_BAD_MODULUS : JINGCOBU_NO_TEXT,
            "unread: read_text", where);
}

/* no word and no pointer anywhere */
static void nothing_lent(void)
{
    static const results none;
    static const jingcobu_factors seven = { .n = 7, .h_len = 1 };
    unread_pair(7, NULL, 0, NULL, 0, &none, JINGCOBU_BAD_LENGTH, "nothing is lent");
    unread_one(seven, NULL, 0, &none, JINGCOBU_BAD_LENGTH, "nothing is lent");
    REFUSED(jingcobu_check_claim(7, seven.h, 1, seven.h, 1, 1, NULL, 0, NULL, 0, NULL, 0), JINGCOBU_BAD_MULTIPLIER, "no multipliers",
            "nothing is lent");
    REFUSED(jingcobu_read_text(7, NULL, 0, NULL, 0), JINGCOBU_NO_TEXT, "read_text", "nothing is lent");
}

static void unread(void)
{
    const uint32_t f[] = { 1, 2 };
    char where[80];
    watch();
    mark(out, PRODUCT_ROOM); mark(u, COFACTOR_ROOM); mark(v, COFACTOR_ROOM); mark(work, WORK_ROOM);
    for (size_t i = 0; i < 12; i++) {
        size_t length = refused_lengths[i % 3];
        uint32_t n = i / 3 % 2 ? 1 : 7, status = n < 2 ? JINGCOBU_BAD_MODULUS : JINGCOBU_BAD_LENGTH;
        const results *r = i < 6 ? &marked : &no_results;
        jingcobu_factors s = { .n = n, .h_len = 1, .h = { 1 } };
        snprintf(where, sizeof where, "%zu words modulo %u%s", length, n, i < 6 ? "" : ", no results");
        unread_pair(n, NOWHERE, length, f, 2, r, status, where);
        unread_pair(n, f, 2, NOWHERE, length, r, status, where);
        unread_pair(n, NOWHERE, length, NOWHERE, length, r, status, where);
        unread_pair(n, NOWHERE, 2, NOWHERE, length, r, status, where);
        unread_pair(n, NOWHERE, length, NOWHERE, 2, r, status, where);
        unread_one(s, NOWHERE, length, r, status, where);
        unread_others(n, length, r, where);
    }
    nothing_lent();
    expect(kept_but(out, PRODUCT_ROOM, 0) && kept_but(u, COFACTOR_ROOM, 0) && kept_but(v, COFACTOR_ROOM, 0) && kept_but(work, WORK_ROOM, 0),
           "unread: every buffer is unchanged", "all lengths");
    printf("%ld calls with lengths that are refused unread\n", unread_calls);
}

int main(int argc, char **argv)
{
    static const uint32_t moduli[] = { 2, 4, 6, 8, 12, 30, 36, 210, 2147483648u, 3486784401u, 223092870u, 2176782336u, 4294967291u, 4294967295u };
    if (argc > 2) most_failed = atol(argv[2]);
    pairs(argc > 1 ? argv[1] : "../crates/test_vectors");
    batches(moduli, sizeof moduli / sizeof *moduli, (const word[]) { 0, 1, 0, 1 }, 7);
    orders((const word[]) { 0, 1, 0, 1 }, 7, more_of_reasons);
    orders_of_claims();
    orders_of_two();
    orders_of_one();
    words();
    products(moduli, sizeof moduli / sizeof *moduli, TRIPLES);
    degrees();
    texts();
    runs();
    gcds();
    places();
    factor_orders();
    histories();
    any_states();
    ends();
    points();
    claims();
    small_pairs();
    unread();
    printf("%ld passed, %ld failed\n", tried - failed, failed);
    return failed != 0;
}
