/* Every function of the header as a call that can be drawn and made. A trial has the buffers of one caller, what the call is sent and
 * what it answered: guard.c, fuzz.c, threads.c and stack.c draw the same calls. Words are kept in 64 bits on this side, also those that
 * are sent in 32. */
#define _GNU_SOURCE
#include "guarded.h"
#include "naive.h"
#include "../include/jingcobu.h"

enum function { PRODUCT, PRODUCT_WORD, TRUE_DEGREE, RESULTANT, REDUCED, DIVISOR, COFACTORS, WHY, CLAIM, TWO, GCD, START, ARRIVE, LEAVE,
    READ, READ_TEXT, WRITE_TEXT, SHARES, RESULTANTS, DIVISORS, PRODUCT64, RESULTANT64, REDUCED64, DIVISOR64,
    RESULTANTS64, DIVISORS64, TRUE_DEGREE64, GCD64, FUNCTIONS };

static const char *const names[FUNCTIONS] = { "product", "product_word", "true_degree", "resultant", "reduced_resultant", "divisor",
    "resultant_cofactors", "why", "check_claim", "resultant_two", "gcd", "factors_start", "factors_arrive", "factors_leave", "factors_read",
    "read_text", "write_text", "shares", "resultants", "divisors", "64 product", "64 resultant", "64 reduced_resultant",
    "64 divisor", "64 resultants", "64 divisors", "64 true_degree", "64 gcd" };

#define LIMIT64 ((uint64_t) 1 << 63)
#define TWO_ROOM 2500
#define MULTIPLIER_ROOM 4200
#define TEXT_ROOM 3000

typedef struct { uint64_t value[4]; uint32_t status; jingcobu_factors state; } answer;

/* what is held beside an h: the numbers, the degrees, and the resultants with h, found naively */
typedef struct {
    jingcobu_factors state;
    uint64_t n, h[MOST], resultant[16];
    size_t h_len, count, degree[16];
    uint16_t number[16];
    int growing;
} holding;

typedef struct {
    source from;
    enum function function;
    uint64_t n, f[TWO_ROOM], g[TWO_ROOM], u[MULTIPLIER_ROOM], v[MULTIPLIER_ROOM], claimed;
    size_t d, a, e, b, k, pairs;                    /* the degrees in two variables, and of many pairs; the place of one word */
    char text[TEXT_ROOM];
    uint32_t frames, waiting[4];
    uint16_t number;
    jingcobu_factors state;
    holding held;
    int any_state, replace;                         /* a state that no start made; a start that what is held gives way to */
    buffer in_f, in_g, in_u, in_v, in_text, out, out_u, out_v, out_text, work;      /* of words of 32 bits, and bytes */
    buffer f64, g64, out64, u64, v64, work64;
    answer got;
    rows rows;
} trial;

static buffer new_buffer(size_t size, size_t length, int read_only)
{
    buffer b = { .r = new_region(size * length, read_only), .size = size };
    return b;
}

static trial *new_trial(void)
{
    trial *t = calloc(1, sizeof *t);
    if (!t) exit(1);
    t->in_f = new_buffer(4, TWO_ROOM, 1);
    t->in_g = new_buffer(4, TWO_ROOM, 1);
    t->in_u = new_buffer(4, MULTIPLIER_ROOM, 1);
    t->in_v = new_buffer(4, MULTIPLIER_ROOM, 1);
    t->in_text = new_buffer(1, TEXT_ROOM, 1);
    t->out = new_buffer(4, 100, 0);
    t->out_u = new_buffer(4, 1600, 0);
    t->out_v = new_buffer(4, 1600, 0);
    t->out_text = new_buffer(1, 900, 0);
    t->work = new_buffer(4, 8300, 0);
    t->f64 = new_buffer(8, 300, 1);
    t->g64 = new_buffer(8, 300, 1);
    t->out64 = new_buffer(8, 100, 0);
    t->u64 = new_buffer(8, 3100, 0);
    t->v64 = new_buffer(8, 3100, 0);
    t->work64 = new_buffer(8, 16500, 0);
    return t;
}

/* ---- what the functions are sent: numbers */

static int is_wide(enum function x) { return x >= PRODUCT64; }

/* the largest power of p, or the largest product of the first primes, that is below a limit, or a smaller one */
static uint64_t power(source *s, uint64_t p, uint64_t limit)
{
    uint64_t n = p;
    while (n < limit / p && !once_in(s, 40)) n *= p;
    return n;
}
static uint64_t many_primes(uint64_t limit)
{
    static const uint64_t primes[] = { 2, 3, 5, 7, 11, 13, 17, 19, 23, 29, 31, 37, 41, 43, 47 };
    uint64_t n = 1;
    for (int i = 0; i < 15 && n < limit / primes[i]; i++) n *= primes[i];
    return n;
}

static uint64_t drawn_modulus(source *s, int wider)
{
    static const uint64_t small[] = { 2, 3, 4, 6, 8, 9, 12, 16, 25, 27, 30, 36, 64, 72, 210, 2310 };
    uint64_t limit = wider ? LIMIT64 : (uint64_t) 1 << 32;
    switch (below(s, 16)) {
    case 0: return power(s, 2, limit);
    case 1: return power(s, 3, limit);
    case 2: return many_primes(limit);
    case 3: return power(s, 6, limit);
    case 4: return wider ? 9223371994482243049u : 4293001441u;              /* squares of primes */
    case 5: return wider ? 9223372036854775783u : 4294967291u;              /* primes */
    case 6: return limit - 1;
    case 7: return wider ? below(s, 2) ? 4294967297u : 4294967296u : 2147483647u;
    case 8: return 2 + (draw(s) >> (wider ? 1 : 32)) % (limit - 2);
    case 9: return wider ? (uint64_t) 4294967291u * 2147483647u : 4294049777u;         /* products of two primes */
    default: return small[below(s, 16)];
    }
}

static uint64_t bad_modulus(source *s, int wider)
{
    static const uint64_t bad[] = { 0, 1, LIMIT64, UINT64_MAX };
    return bad[below(s, wider ? 4 : 2)];
}

/* a prime that divides n, of those that the moduli above are made of, or 1 */
static uint64_t some_prime(source *s, uint64_t n)
{
    static const uint64_t primes[] = { 2, 3, 5, 7, 11, 13, 17, 19, 23, 29, 31, 37, 41, 43, 47, 61, 67, 65521, 3037000493u };
    uint64_t first = below(s, 19);
    for (uint64_t i = 0; i < 19; i++) if (n % primes[(first + i) % 19] == 0) return primes[(first + i) % 19];
    return 1;
}

static uint64_t drawn_word(source *s, uint64_t n)
{
    uint64_t kind = below(s, 12);
    return kind == 0 ? 0 : kind == 1 ? 1 : kind == 2 ? n - 1 : (draw(s) >> (n >> 32 ? 1 : 20)) % n;
}

static uint64_t large_word(source *s, uint64_t n, int wider)
{
    uint64_t most = wider ? UINT64_MAX : UINT32_MAX;
    return once_in(s, 2) || n == most ? most : once_in(s, 2) ? n : n + below(s, most - n);
}

/* ---- what the functions are sent: polynomials */

static size_t drawn_length(source *s)
{
    static const size_t ends[] = { 1, 2, 48, 49 };
    if (s->longest || once_in(s, 50)) return ends[below(s, 4)];
    if (once_in(s, 10)) return 10 + below(s, 16);
    return 1 + below(s, once_in(s, 2) ? 4 : 9);
}
static size_t bad_length(source *s)
{
    static const size_t ends[] = { 0, 0, 50, 51, 60 };
    return ends[below(s, 5)];
}

/* words modulo n; at times all are multiples of a divisor of n, all but the constant, or each of another one; at times the top ones
 * are zero */
static void drawn_words(source *s, uint64_t n, uint64_t *f, size_t fl)
{
    uint64_t by = once_in(s, 4) ? some_prime(s, n) : 1, others = once_in(s, 6) ? some_prime(s, n) : 1;
    uint64_t each = once_in(s, 4) ? 1 + below(s, 3) : 0;
    for (size_t i = 0; i < fl; i++) {
        f[i] = times(n, drawn_word(s, n), by % n);
        if (i) f[i] = times(n, f[i], others % n);
        for (uint64_t k = 0; k < each; k++) f[i] = times(n, f[i], some_prime(s, n) % n);
    }
    if (once_in(s, 5)) for (size_t i = below(s, fl); i < fl; i++) f[i] = 0;
}

/* f and g with a common factor, modulo n or modulo a divisor of n */
static void drawn_common(source *s, uint64_t n, uint64_t *f, size_t fl, uint64_t *g, size_t gl)
{
    uint64_t c[MOST], a[MOST], b[MOST], by = once_in(s, 2) ? 0 : n / some_prime(s, n);
    size_t cl = 1 + below(s, fl < gl ? fl : gl);
    drawn_words(s, n, c, cl);
    if (!once_in(s, 4)) c[cl - 1] = 1;
    drawn_words(s, n, a, fl - cl + 1);
    drawn_words(s, n, b, gl - cl + 1);
    for (size_t k = 0; k < fl; k++) f[k] = plus(n, product_word(n, a, fl - cl + 1, c, cl, k), times(n, by % n, drawn_word(s, n)));
    for (size_t k = 0; k < gl; k++) g[k] = plus(n, product_word(n, b, gl - cl + 1, c, cl, k), times(n, by % n, drawn_word(s, n)));
}

/* f and g; no length is refused for it */
static void drawn_pair(trial *t, size_t fl, size_t gl)
{
    source *s = &t->from;
    if (once_in(s, 3)) drawn_common(s, t->n, t->f, fl, t->g, gl);
    else { drawn_words(s, t->n, t->f, fl); drawn_words(s, t->n, t->g, gl); }
}

/* The words of a polynomial into its buffer; at times one is n or more. A length above `most` is refused: that many words, or far more,
 * are said to stand where nothing can be read. */
static void send(trial *t, buffer *b, uint64_t *f, size_t fl, size_t most)
{
    source *s = &t->from;
    if (fl && bad(s)) f[once_in(s, 2) ? fl - 1 : below(s, fl)] = large_word(s, t->n, b->size == 8);
    if (fl > most && !once_in(s, 3)) {
        size_t lengths[] = { most + 1, 4097, SIZE_MAX, SIZE_MAX / 4 + 50 };                 /* four times the last is 196 */
        lend_nothing(b, lengths[below(s, 4)]);
        return;
    }
    lend(s, b, fl);
    for (size_t i = 0; i < fl; i++) put(b, i, f[i]);
}

/* how long a buffer is lent that needs so many elements: most often exactly so */
static size_t room_for(source *s, size_t need)
{
    static const size_t more[] = { 1, 2, 37 };
    if (need && bad(s)) return once_in(s, 2) ? need - 1 : below(s, once_in(s, 2) ? need : 2);
    return need + (once_in(s, 4) ? more[below(s, 3)] : 0);
}

static void lend_marked(trial *t, buffer *b, size_t need)
{
    mark(b);
    lend(&t->from, b, room_for(&t->from, need));
}

/* ---- each function's call */

static void sent_pair(trial *t)
{
    source *s = &t->from;
    int wider = is_wide(t->function), bad_f = bad(s), bad_g = bad(s), bad_n = bad(s);
    size_t fl = drawn_length(s), gl = once_in(s, 4) ? fl : drawn_length(s);
    t->n = drawn_modulus(s, wider);
    drawn_pair(t, fl, gl);
    if (bad_n) t->n = bad_modulus(s, wider);
    if (bad_f) { fl = bad_length(s); memset(t->f, 1, 60 * sizeof *t->f); }
    if (bad_g) { gl = bad_length(s); memset(t->g, 1, 60 * sizeof *t->g); }
    send(t, wider ? &t->f64 : &t->in_f, t->f, fl, MOST);
    send(t, wider ? &t->g64 : &t->in_g, t->g, gl, MOST);
}

static size_t degree_of(const buffer *b) { return b->length >= 1 && b->length <= MOST ? b->length - 1 : 0; }

static void sent_product(trial *t)
{
    source *s = &t->from;
    sent_pair(t);
    const buffer *f = is_wide(t->function) ? &t->f64 : &t->in_f, *g = is_wide(t->function) ? &t->g64 : &t->in_g;
    size_t sum = degree_of(f) + degree_of(g);
    t->k = once_in(s, 8) ? SIZE_MAX - below(s, 2) : below(s, sum + 3);
    lend_marked(t, is_wide(t->function) ? &t->out64 : &t->out, sum < MOST ? sum + 1 : MOST);
}

static void sent_one(trial *t, int with_modulus)
{
    source *s = &t->from;
    size_t fl = bad(s) ? bad_length(s) : t->function == ARRIVE && !once_in(s, 4) ? 1 + below(s, 3) : drawn_length(s);
    int wider = is_wide(t->function);
    if (with_modulus) t->n = drawn_modulus(s, wider);
    if (fl) drawn_words(s, t->n, t->f, fl);
    if (with_modulus && bad(s)) t->n = bad_modulus(s, wider);
    send(t, wider ? &t->f64 : &t->in_f, t->f, fl, MOST);
}

static void sent_reduced(trial *t)
{
    sent_pair(t);
    int wider = is_wide(t->function);
    size_t fl = 1 + degree_of(wider ? &t->f64 : &t->in_f), gl = 1 + degree_of(wider ? &t->g64 : &t->in_g);
    size_t need = t->function == COFACTORS ? gl - 1 : cofactor_length(t->n < LIMIT64 ? t->n : 2, fl, gl);
    lend_marked(t, wider ? &t->u64 : &t->out_u, need);
    lend_marked(t, wider ? &t->v64 : &t->out_v, t->function == COFACTORS ? fl - 1 : need);
}

/* the multipliers that the engine gives, so that most claims pass the second test; or drawn ones */
static void claimed_multipliers(trial *t, size_t *ul, size_t *vl)
{
    static _Thread_local uint32_t f[MOST], g[MOST], u[JINGCOBU_COFACTOR], v[JINGCOBU_COFACTOR], work[JINGCOBU_WORK];
    source *s = &t->from;
    size_t fl = t->in_f.length, gl = t->in_g.length;
    for (size_t i = 0; i < fl && i < MOST; i++) f[i] = (uint32_t) t->f[i];
    for (size_t i = 0; i < gl && i < MOST; i++) g[i] = (uint32_t) t->g[i];
    jingcobu_answer r = jingcobu_reduced_resultant((uint32_t) t->n, f, fl, g, gl, u, JINGCOBU_COFACTOR, v, JINGCOBU_COFACTOR, work,
                                                   JINGCOBU_WORK);
    *ul = *vl = r.status ? 1 : cofactor_length(t->n, fl, gl);
    t->claimed = r.status ? 1 : r.value;
    uint64_t by = !r.status && once_in(s, 4) ? 1 + below(s, 6) : 1;
    for (size_t i = 0; i < *ul; i++) { t->u[i] = r.status ? 0 : times(t->n, u[i], by); t->v[i] = r.status ? 0 : times(t->n, v[i], by); }
    t->claimed = (uint32_t) (t->claimed * by);
}

/* another length, with zeros above what was there, and at times a word among them that is not zero */
static void lengthen(source *s, uint64_t *u, size_t *ul, uint64_t n)
{
    static const size_t lengths[] = { 1, 2, 49, 1490, 4095, 4096, 0, 4097, 4200 };
    size_t l = lengths[below(s, s->trouble ? 9 : 6)];
    for (size_t i = *ul; i < l; i++) u[i] = 0;
    if (l && once_in(s, 2)) u[once_in(s, 2) ? l - 1 : below(s, l)] = drawn_word(s, n);
    *ul = l;
}

static void sent_claim(trial *t)
{
    source *s = &t->from;
    size_t ul, vl;
    sent_pair(t);
    if (degree_of(&t->in_f) + 1 != t->in_f.length || degree_of(&t->in_g) + 1 != t->in_g.length) ul = vl = t->claimed = 1;
    else claimed_multipliers(t, &ul, &vl);
    uint64_t bound = t->n > 1 ? t->n : 2;
    if (once_in(s, 8)) t->claimed = once_in(s, 2) ? below(s, 8) : drawn_word(s, bound);
    if (once_in(s, 8)) t->u[below(s, ul)] = drawn_word(s, bound);
    if (once_in(s, 20)) lengthen(s, t->u, &ul, bound);
    if (once_in(s, 20)) lengthen(s, t->v, &vl, bound);
    send(t, &t->in_u, t->u, ul, JINGCOBU_MULTIPLIER);
    send(t, &t->in_v, t->v, vl, JINGCOBU_MULTIPLIER);
}

/* degrees in y and z: small ones, or such that B is 48 to 61, or far above 60 */
static void drawn_degrees(trial *t)
{
    source *s = &t->from;
    t->d = below(s, 4); t->e = below(s, 4); t->a = below(s, 4); t->b = below(s, 4);
    switch (below(s, 40)) {
    case 0: t->d = 48; t->a = 0; t->e = t->b = 1; break;
    case 1: t->d = 0; t->a = 48; t->e = 1; t->b = 48; break;
    case 2: t->d = t->e = 6; t->a = t->b = 5; break;
    case 3: t->d = t->a = 48; break;
    case 4: t->d = t->e = 1; t->a = 48; t->b = below(s, 14); break;
    default: break;
    }
}

/* a degree above 48, beside the length that belongs to it or another; or a length that belongs to no degrees */
static size_t bad_degrees(source *s, size_t *d, size_t *a, size_t length)
{
    if (once_in(s, 3)) return once_in(s, 2) ? length + 1 : below(s, length);
    if (once_in(s, 2)) *d = once_in(s, 2) ? 49 : SIZE_MAX - below(s, 2);
    else *a = once_in(s, 2) ? 49 : SIZE_MAX - below(s, 2);
    size_t right = (*d + 1) * (*a + 1);
    return right < TWO_ROOM && once_in(s, 2) ? right : length;
}

static void sent_two(trial *t)
{
    static const uint64_t moduli[] = { 61, 67, 3721, 4087, 4294967291u, 2147483647u, 13845841, 11, 13, 12, 169, 4294967295u, 3233, 3599 };
    source *s = &t->from;
    int bad_f = bad(s), bad_g = bad(s);
    t->n = moduli[below(s, 14)];
    drawn_degrees(t);
    size_t B = t->e * t->a + t->d * t->b, fl = (t->d + 1) * (t->a + 1), gl = (t->e + 1) * (t->b + 1);
    drawn_words(s, t->n, t->f, fl);
    drawn_words(s, t->n, t->g, gl);
    if (bad_f) fl = bad_degrees(s, &t->d, &t->a, fl);
    if (bad_g) gl = bad_degrees(s, &t->e, &t->b, gl);
    if (bad(s)) t->n = bad_modulus(s, 0);
    lend_marked(t, &t->out, B < 61 ? B + 1 : 61);
    send(t, &t->in_f, t->f, fl, SIZE_MAX);
    send(t, &t->in_g, t->g, gl, SIZE_MAX);
    if (bad_f && !once_in(s, 3)) lend_nothing(&t->in_f, fl);
    if (bad_g && !once_in(s, 3)) lend_nothing(&t->in_g, gl);
}

/* a count and a length that do not belong together, at times because their product is beyond size_t; or a degree above 48 */
static size_t bad_batch(source *s, size_t *d, size_t *count, size_t length)
{
    switch (below(s, 4)) {
    case 0: *d = once_in(s, 2) ? 49 : SIZE_MAX; return once_in(s, 2) ? length : *count * (*d + 1);
    case 1: *count |= (size_t) 1 << 63; return length;
    case 2: return length + 1;
    default: return length ? length - 1 : SIZE_MAX;
    }
}

/* Many pairs of one pair of degrees; where they are long, few. Of these the words stand in t->f and t->g one after the other. */
static void sent_batch(trial *t)
{
    source *s = &t->from;
    int wider = is_wide(t->function), bad_f = bad(s), bad_g = bad(s), bad_n = bad(s);
    size_t fl = drawn_length(s), gl = once_in(s, 4) ? fl : drawn_length(s), most = larger(fl, gl);
    uint64_t f[MOST], g[MOST];
    t->n = drawn_modulus(s, wider);
    t->d = fl - 1;
    t->e = gl - 1;
    t->pairs = below(s, most > 20 ? 3 : most > 9 ? 4 : 9);
    for (size_t i = t->pairs; i-- > 0;) {
        drawn_pair(t, fl, gl);
        memcpy(f, t->f, fl * sizeof *f);
        memcpy(g, t->g, gl * sizeof *g);
        memcpy(t->f + i * fl, f, fl * sizeof *f);
        memcpy(t->g + i * gl, g, gl * sizeof *g);
    }
    size_t all_f = t->pairs * fl, all_g = t->pairs * gl;
    lend_marked(t, wider ? &t->out64 : &t->out, t->pairs);
    if (bad_f) all_f = bad_batch(s, &t->d, &t->pairs, all_f);
    if (bad_g) all_g = bad_batch(s, &t->e, &t->pairs, all_g);
    if (bad_n) t->n = bad_modulus(s, wider);
    buffer *to_f = wider ? &t->f64 : &t->in_f, *to_g = wider ? &t->g64 : &t->in_g;
    if (bad_f) lend_nothing(to_f, all_f); else send(t, to_f, t->f, all_f, SIZE_MAX);
    if (bad_g) lend_nothing(to_g, all_g); else send(t, to_g, t->g, all_g, SIZE_MAX);
}

static void sent_gcd(trial *t)
{
    source *s = &t->from;
    int wider = is_wide(t->function);
    t->n = drawn_modulus(s, wider);
    drawn_words(s, t->n, t->f, 2);
    if (bad(s)) t->f[below(s, 2)] = large_word(s, t->n, wider);
    if (bad(s)) t->n = bad_modulus(s, wider);
}

/* something put before or after the text that makes it no longer a text, but looks much like one */
static size_t put_before(source *s, char *text, size_t length)
{
    static const char *const heads[] = { "0", "+", "-", "x+", "1*x^49+", "429496729", "0*x^48+", "1*x^48+", " " };
    const char *head = heads[below(s, 9)];
    memmove(text + strlen(head), text, length);
    memcpy(text, head, strlen(head));
    return length + strlen(head);
}
static size_t put_behind(source *s, char *text, size_t length)
{
    static const char tails[][8] = { "\n", "^1", "+0", "*x", "*x^49", "+", " ", "", "^" };
    const char *tail = tails[below(s, 9)];
    size_t l = *tail ? strlen(tail) : 1;                                                    /* a zero byte */
    memcpy(text + length, tail, l);
    return length + l;
}

/* one character changed, left out, put in or exchanged with the next, or the text cut short or made longer */
static size_t damaged(source *s, char *text, size_t length)
{
    static const char signs[] = "0123456789*+^x -\n";
    char sign = signs[below(s, once_in(s, 8) ? 17 : 14)];
    size_t at = below(s, length);
    switch (below(s, 8)) {
    case 6: return put_before(s, text, length);
    case 7: return put_behind(s, text, length);
    case 0: text[at] = sign; return length;
    case 1: memmove(text + at, text + at + 1, length - at - 1); return length - 1;
    case 2: memmove(text + at + 1, text + at, length - at); text[at] = sign; return length + 1;
    case 3: if (at + 1 < length) { char c = text[at]; text[at] = text[at + 1]; text[at + 1] = c; } return length;
    case 4: return at;
    default: if (length > 700) return length; text[length] = '+'; memcpy(text + length + 1, text, length); return 2 * length + 1;
    }
}

static void sent_text(trial *t)
{
    static const size_t lengths[] = { 0, 1, 767, 768, 769, 800, 3000 };
    static const char *const whole[] = { "0", "x", "1*x^1", "4294967296", "4294967297", "18446744073709551617",
        "1*x^18446744073709551618", "00" };
    source *s = &t->from;
    t->n = drawn_modulus(s, 0);
    size_t fl = once_in(s, 40) ? MOST : drawn_length(s), length;
    drawn_words(s, t->n, t->f, fl);
    if (once_in(s, 20)) t->f[below(s, fl)] = t->n;
    length = text_of(t->f, fl, t->text);
    if (once_in(s, 2)) length = damaged(s, t->text, length);
    if (once_in(s, 50)) length = (size_t) sprintf(t->text, "%s", whole[below(s, 8)]);
    if (once_in(s, 100)) { length = lengths[below(s, 7)]; memset(t->text, once_in(s, 2) ? '1' : '+', TEXT_ROOM); }
    if (bad(s)) t->n = bad_modulus(s, 0);
    lend_marked(t, &t->out, JINGCOBU_WORDS);
    lend(s, &t->in_text, length);
    for (size_t i = 0; i < length; i++) put(&t->in_text, i, (uint8_t) t->text[i]);
    if (length > 767 && !once_in(s, 3)) lend_nothing(&t->in_text, once_in(s, 2) ? SIZE_MAX : 768);
}

static void sent_shares(trial *t)
{
    static const uint32_t ends[] = { 0, 1024, 1025, UINT32_MAX };
    source *s = &t->from;
    t->frames = once_in(s, 10) ? ends[below(s, 4)] : 1 + (uint32_t) below(s, once_in(s, 2) ? 20 : 1024);
    for (int i = 0; i < 4; i++) {
        uint64_t kind = below(s, 8);
        t->waiting[i] = kind == 0 ? 0 : kind == 1 ? UINT32_MAX : (uint32_t) (draw(s) >> 32) >> below(s, 32);
    }
}

/* a number that is held, or any: what is held becomes more for a while, and then less */
static uint16_t drawn_number(trial *t)
{
    source *s = &t->from;
    if (once_in(s, 60)) t->held.growing = !t->held.growing;
    int held = once_in(s, 8) != (t->function == LEAVE && !t->held.growing);
    if (t->held.count && held) return t->held.number[below(s, t->held.count)];
    return (uint16_t) (once_in(s, 20) ? 0 : once_in(s, 2) ? 1 + below(s, 40) : draw(s));
}

/* any bits in some fields */
static void any_bits(source *s, jingcobu_factors *x)
{
    uint64_t fields = draw(s) >> 20;
    if (fields & 1) x->n = once_in(s, 2) ? (uint32_t) below(s, 4) : (uint32_t) draw(s);
    if (fields & 2) x->h_len = once_in(s, 2) ? (uint32_t) below(s, 60) : (uint32_t) draw(s);
    if (fields & 4) x->h[below(s, 49)] = (uint32_t) draw(s);
    for (int i = 0; i < 16; i++) {
        if (fields & 8) x->number[i] = (uint16_t) draw(s);
        if (fields & 16) x->degree[i] = (uint32_t) draw(s) >> below(s, 32);
        if (fields & 32) x->resultant[i] = (uint32_t) draw(s);
    }
}

static void sent_state(trial *t)
{
    t->state = t->held.state;
    t->n = t->held.n;
    t->any_state = once_in(&t->from, 12);
    if (t->any_state) any_bits(&t->from, &t->state);
    t->number = drawn_number(t);
    if (t->function == ARRIVE) {
        if (t->n < 2) t->n = 2;
        sent_one(t, 0);
        t->n = t->held.n;
    }
}

/* Draws a call: afterwards all is in place for make_call. */
static void draw_call(trial *t, enum function function)
{
    t->function = function;
    t->any_state = 0;
    t->from.trouble = 0;
    t->from.trouble = once_in(&t->from, 8);
    t->replace = t->held.n < 2 || once_in(&t->from, 64);
    switch (function) {
    case PRODUCT: case PRODUCT_WORD: case PRODUCT64: sent_product(t); break;
    case TRUE_DEGREE: case TRUE_DEGREE64: case START: sent_one(t, 1); break;
    case WRITE_TEXT: sent_one(t, 1); lend_marked(t, &t->out_text, JINGCOBU_TEXT); break;
    case RESULTANT: case DIVISOR: case RESULTANT64: case DIVISOR64: sent_pair(t); break;
    case REDUCED: case COFACTORS: case REDUCED64: sent_reduced(t); break;
    case WHY: sent_pair(t); lend_marked(t, &t->out, JINGCOBU_COMMON); break;
    case CLAIM: sent_claim(t); break;
    case TWO: sent_two(t); break;
    case GCD: case GCD64: sent_gcd(t); break;
    case ARRIVE: case LEAVE: case READ: sent_state(t); break;
    case RESULTANTS: case DIVISORS: case RESULTANTS64: case DIVISORS64: sent_batch(t); break;
    case READ_TEXT: sent_text(t); break;
    default: sent_shares(t);
    }
    if (is_wide(function)) lend_marked(t, &t->work64, JINGCOBU64_WORK);
    else lend_marked(t, &t->work, JINGCOBU_WORK);
}

/* ---- the call itself */

static answer plain(jingcobu_answer a) { return (answer) { .value = { a.value }, .status = a.status }; }
static answer plain64(jingcobu64_answer a) { return (answer) { .value = { a.value }, .status = a.status }; }
static answer of_state(jingcobu_factors_answer a) { return (answer) { .status = a.status, .state = a.factors }; }
static answer of_degree(jingcobu_degree a) { return (answer) { .value = { a.some, a.degree }, .status = a.status }; }
static answer of_reason(jingcobu_reason a) { return (answer) { .value = { a.ground, a.m, a.degree }, .status = a.status }; }
static answer of_gcd(jingcobu_cofactors a) { return (answer) { .value = { a.g, a.s, a.t }, .status = a.status }; }
static answer of_gcd64(jingcobu64_cofactors a) { return (answer) { .value = { a.g, a.s, a.t }, .status = a.status }; }
static answer of_plan(jingcobu_plan a)
{
    return (answer) { .value = { a.share[0], a.share[1], a.share[2], a.share[3] }, .status = a.status };
}

#define LENT(b) (t->b.pointer), (t->b.length)
#define PAIR n, LENT(in_f), LENT(in_g)
#define PAIR64 t->n, LENT(f64), LENT(g64)
#define MANY n, LENT(in_f), t->d, LENT(in_g), t->e, t->pairs, LENT(out), LENT(work)
#define MANY64 t->n, LENT(f64), t->d, LENT(g64), t->e, t->pairs, LENT(out64), LENT(work64)

static answer call_of_state(const trial *t)
{
    switch (t->function) {
    case ARRIVE: return of_state(jingcobu_factors_arrive(t->state, t->number, LENT(in_f), LENT(work)));
    case LEAVE: return of_state(jingcobu_factors_leave(t->state, t->number));
    default: return plain(jingcobu_factors_read(t->state));
    }
}

static answer make_call(const trial *t)
{
    uint32_t n = (uint32_t) t->n;
    const uint32_t *w = t->waiting;
    switch (t->function) {
    case PRODUCT: return plain(jingcobu_product(PAIR, LENT(out)));
    case PRODUCT_WORD: return plain(jingcobu_product_word(PAIR, LENT(out), t->k));
    case TRUE_DEGREE: return of_degree(jingcobu_true_degree(n, LENT(in_f)));
    case RESULTANT: return plain(jingcobu_resultant(PAIR, LENT(work)));
    case REDUCED: return plain(jingcobu_reduced_resultant(PAIR, LENT(out_u), LENT(out_v), LENT(work)));
    case DIVISOR: return plain(jingcobu_divisor(PAIR, LENT(work)));
    case COFACTORS: return plain(jingcobu_resultant_cofactors(PAIR, LENT(out_u), LENT(out_v), LENT(work)));
    case WHY: return of_reason(jingcobu_why(PAIR, LENT(out), LENT(work)));
    case CLAIM: return plain(jingcobu_check_claim(PAIR, (uint32_t) t->claimed, LENT(in_u), LENT(in_v), LENT(work)));
    case TWO: return plain(jingcobu_resultant_two(n, LENT(in_f), t->d, t->a, LENT(in_g), t->e, t->b, LENT(out), LENT(work)));
    case GCD: return of_gcd(jingcobu_gcd(n, (uint32_t) t->f[0], (uint32_t) t->f[1]));
    case START: return of_state(jingcobu_factors_start(n, LENT(in_f)));
    case READ_TEXT: return plain(jingcobu_read_text(n, LENT(in_text), LENT(out)));
    case WRITE_TEXT: return plain(jingcobu_write_text(n, LENT(in_f), LENT(out_text)));
    case SHARES: return of_plan(jingcobu_shares(t->frames, w[0], w[1], w[2], w[3]));
    case RESULTANTS: return plain(jingcobu_resultants(MANY));
    case DIVISORS: return plain(jingcobu_divisors(MANY));
    case PRODUCT64: return plain64(jingcobu64_product(PAIR64, LENT(out64)));
    case RESULTANT64: return plain64(jingcobu64_resultant(PAIR64, LENT(work64)));
    case REDUCED64: return plain64(jingcobu64_reduced_resultant(PAIR64, LENT(u64), LENT(v64), LENT(work64)));
    case DIVISOR64: return plain64(jingcobu64_divisor(PAIR64, LENT(work64)));
    case RESULTANTS64: return plain64(jingcobu64_resultants(MANY64));
    case DIVISORS64: return plain64(jingcobu64_divisors(MANY64));
    case TRUE_DEGREE64: return of_degree(jingcobu64_true_degree(t->n, LENT(f64)));
    case GCD64: return of_gcd64(jingcobu64_gcd(t->n, t->f[0], t->f[1]));
    default: return call_of_state(t);
    }
}
