/* The services for PARI/GP: GP's polynomials or vectors in, GP's values out. jingcobu.gp installs the functions; make gp builds this
 * file, with the engine inside, as build/libjingcobu-gp.so.
 *
 *   a polynomial or a number     coefficients t_INT, which are reduced modulo n, or t_INTMOD modulo n; the sent degree is its degree
 *                                as GP has it, before the reduction; the zero polynomial is sent as the single word 0
 *   a vector (also a Vecsmall)   the words as they are sent, constant first: nothing is reduced, and a zero top counts
 *
 * Residues come back as t_INTMOD modulo n, polynomials with such coefficients. The engine decides what is refused; a refusal is an error
 * that iferr can catch, and so is a number that fits no word. Errors name the function and the argument; words are counted from 1, as
 * GP counts.
 *
 * Words are gathered in 64 bits. The services for words of 32 bits are called if n and all words fit them, otherwise those of 64
 * bits, which answer the same numbers; where there is none, n above 4294967295 is an error. */
#include <pari/pari.h>
#include "jingcobu.h"

#define SEEN __attribute__((visibility("default")))
#define MOST 49UL            /* words of a polynomial */
#define NARROW 0xffffffffUL
#define WIDE 0x7fffffffffffffffUL

typedef struct { const char *name; ulong n, most; } call;  /* most: the largest modulus that the function has */

/* row: the words of one row if it is a polynomial in two variables, otherwise 0; variable: -1 if there is none */
typedef struct { const char *name; ulong *words; uint32_t *narrow; size_t count, limit, row; long variable; int fits; } sent;

/* ---- errors */

/* an argument, its row and a word of it; what is 0 is left out */
typedef struct { const char *name; size_t row, k; } spot;

static const char *text(const call *c, spot s)
{
    const char *row = s.row ? stack_sprintf(": row %lu", (ulong) s.row) : "", *k = s.k ? stack_sprintf(": word %lu", (ulong) s.k) : "";
    return stack_sprintf("%s: %s%s%s", c->name, s.name, row, k);
}

/* a refused length or word, with its argument; if none can be named, what the status says */
static void refuse(const call *c, uint32_t status, const sent *p, int count)
{
    if (status == JINGCOBU_BAD_MODULUS) pari_err(e_MISC, "%s refuses with 1: n is %lu, not from 2 to %lu", c->name, c->n, c->most);
    for (int i = 0; i < count; i++) {
        int length = status == JINGCOBU_BAD_LENGTH ? p[i].limit == MOST : status == JINGCOBU_BAD_MULTIPLIER && p[i].limit != MOST;
        if (length && !p[i].row && (!p[i].count || p[i].count > p[i].limit))
            pari_err(e_MISC, "%s refuses with %ld: %s has %lu words, not from 1 to %lu", c->name, (long) status, p[i].name,
                     (ulong) p[i].count, (ulong) p[i].limit);
        for (size_t k = 0; status == JINGCOBU_BAD_WORD && k < p[i].count; k++)
            if (p[i].words[k] >= c->n)
                pari_err(e_MISC, "%s refuses with 3: %s%s: word %lu is %lu, not from 0 to %lu", c->name, p[i].name,
                         p[i].row ? stack_sprintf(": row %lu", (ulong) (k / p[i].row + 1)) : "",
                         (ulong) (p[i].row ? k % p[i].row : k) + 1, p[i].words[k], c->n - 1);
    }
    pari_err(e_MISC, "%s refuses with %ld: %s", c->name, (long) status, jingcobu_status_text(status));
}

static void accept(const call *c, uint32_t status, const sent *p, int count)
{
    if (status) refuse(c, status, p, count);
}

/* ---- what comes in */

static call asked(const char *name, GEN n, ulong most)
{
    call c = { name, 0, most };
    if (typ(n) != t_INT) pari_err_TYPE(text(&c, (spot) { "n", 0, 0 }), n);
    if (signe(n) < 0 || (most == WIDE && lgefint(n) > 3)) pari_err(e_MISC, "%s: n is %Ps, not from 2 to %lu", name, n, most);
    if (most == NARROW && cmpiu(n, most) > 0)
        pari_err(e_MISC, "%s: n is %Ps, and this function has words of 32 bits only: n is from 2 to %lu", name, n, most);
    c.n = itou(n);
    return c;
}

/* a number as it is sent; what fits no word is not sent */
static ulong word(const call *c, spot s, GEN x, ulong top)
{
    if (typ(x) != t_INT) pari_err_TYPE(text(c, s), x);
    if (signe(x) < 0 || cmpiu(x, c->most == NARROW ? NARROW : ~0UL) > 0)
        pari_err(e_MISC, "%s is %Ps, not from 0 to %lu", text(c, s), x, top);
    return itou(x);
}

static void *room(size_t count, size_t size) { return stack_malloc((count ? count : 1) * size); }

/* a coefficient that is reduced; n = 0 is refused later */
static ulong residue(const call *c, spot s, GEN x)
{
    if (typ(x) == t_INTMOD) {
        if (!equaliu(gel(x, 1), c->n)) pari_err_MODULUS(text(c, s), gel(x, 1), utoi(c->n));
        return itou(gel(x, 2));
    }
    if (typ(x) != t_INT) pari_err_TYPE(text(c, s), x);
    return c->n ? umodiu(x, c->n) : 0;
}

static ulong sent_word(const call *c, spot s, GEN x)
{
    return typ(x) == t_INTMOD ? residue(c, s, x) : word(c, s, x, c->n ? c->n - 1 : 0);
}

static int is_vector(GEN x) { return typ(x) == t_VEC || typ(x) == t_COL || typ(x) == t_VECSMALL; }

static ulong entry(const call *c, spot s, GEN x)
{
    return sent_word(c, s, typ(x) == t_VECSMALL ? stoi(x[s.k]) : gel(x, s.k));
}

/* The words of 32 bits, if n and all of them fit. A length above its limit is refused before a word is read, so its words are not
 * gathered. */
static void fit(const call *c, sent *p)
{
    p->fits = c->n <= NARROW;
    if (p->count > p->limit) return;
    p->narrow = room(p->count, sizeof(uint32_t));
    for (size_t i = 0; i < p->count; i++) {
        p->narrow[i] = (uint32_t) p->words[i];
        p->fits &= p->words[i] <= NARROW;
    }
}

static sent polynomial(const call *c, const char *name, GEN x, size_t limit, size_t row)
{
    sent p = { name, NULL, NULL, 1, limit, 0, -1, 0 };
    if (is_vector(x)) p.count = lg(x) - 1;
    else if (typ(x) == t_POL) p.variable = varn(x), p.count = lgpol(x) ? lgpol(x) : 1;
    p.words = room(p.count > limit ? 1 : p.count, sizeof(ulong));
    p.narrow = room(1, sizeof(uint32_t));
    p.words[0] = 0;
    p.narrow[0] = 0;
    if (p.count <= limit) {
        if (is_vector(x))
            for (size_t i = 0; i < p.count; i++) p.words[i] = entry(c, (spot) { name, row, i + 1 }, x);
        else if (typ(x) == t_POL)
            for (long i = 0; i < lgpol(x); i++) p.words[i] = residue(c, (spot) { name, row, 0 }, gel(x, i + 2));
        else p.words[0] = residue(c, (spot) { name, row, 0 }, x);
    }
    fit(c, &p);
    return p;
}

static long variable(const call *c, sent f, sent g)
{
    if (f.variable >= 0 && g.variable >= 0 && f.variable != g.variable)
        pari_err(e_MISC, "%s: %s and %s have different variables", c->name, f.name, g.name);
    return f.variable >= 0 ? f.variable : g.variable >= 0 ? g.variable : 0;
}

/* two polynomials of one variable, x */
typedef struct { sent p[2]; long x; int narrow; } pair;

static pair both(const call *c, GEN F, GEN G)
{
    pair q = { { polynomial(c, "f", F, MOST, 0), polynomial(c, "g", G, MOST, 0) }, 0, 0 };
    q.x = variable(c, q.p[0], q.p[1]);
    q.narrow = q.p[0].fits && q.p[1].fits;
    return q;
}

#define F32 q.p[0].narrow, q.p[0].count
#define G32 q.p[1].narrow, q.p[1].count
#define F64 (const uint64_t *) q.p[0].words, q.p[0].count
#define G64 (const uint64_t *) q.p[1].words, q.p[1].count
#define WORK32 (uint32_t *) room(JINGCOBU_WORK, sizeof(uint32_t)), JINGCOBU_WORK
#define WORK64 (uint64_t *) room(JINGCOBU64_WORK, sizeof(uint64_t)), JINGCOBU64_WORK

/* ---- what goes out; the words are not on PARI's stack, which is free again before they are read. A vector or a polynomial is made
 * before its entries are, as PARI's garbage collection wants it. */

typedef union { uint32_t narrow[JINGCOBU64_COFACTOR]; uint64_t wide[JINGCOBU64_COFACTOR]; } words;

static ulong nth(const words *w, int narrow, size_t i) { return narrow ? w->narrow[i] : (ulong) w->wide[i]; }

static GEN out_polynomial(ulong n, const words *w, int narrow, size_t count, long v)
{
    while (count && !nth(w, narrow, count - 1)) count--;
    GEN p = cgetg(count + 2, t_POL);
    p[1] = evalsigne(count ? 1 : 0) | evalvarn(v);
    for (size_t i = 0; i < count; i++) gel(p, i + 2) = mkintmodu(nth(w, narrow, i), n);
    return p;
}

static GEN out_words(const words *w, int narrow, size_t count)
{
    GEN c = cgetg(count + 1, t_VEC);
    for (size_t i = 0; i < count; i++) gel(c, i + 1) = utoi(nth(w, narrow, i));
    return c;
}

/* ---- the functions */

SEEN GEN gp_resultant(GEN N, GEN F, GEN G)
{
    pari_sp av = avma;
    call c = asked("jingcobu_resultant", N, WIDE);
    pair q = both(&c, F, G);
    jingcobu64_answer a;
    if (q.narrow) {
        jingcobu_answer b = jingcobu_resultant((uint32_t) c.n, F32, G32, WORK32);
        a.value = b.value, a.status = b.status;
    } else a = jingcobu64_resultant(c.n, F64, G64, WORK64);
    accept(&c, a.status, q.p, 2);
    set_avma(av);
    return mkintmodu(a.value, c.n);
}

/* the words of a cofactor of D, K times the larger sent degree and one more; one if the call will be refused */
static size_t cofactor_words(ulong n, const pair *q)
{
    size_t most = maxss(q->p[0].count, q->p[1].count);
    return n < 2 || n > WIDE || !most || most > MOST ? 1 : (size_t) expu(n) * (most - 1) + 1;
}

/* D, with the words of its cofactors in u and v */
static jingcobu64_answer reduced(const call *c, const pair *p, words *u, words *v)
{
    const pair q = *p;
    size_t count = cofactor_words(c->n, p);
    if (!q.narrow) return jingcobu64_reduced_resultant(c->n, F64, G64, u->wide, count, v->wide, count, WORK64);
    jingcobu_answer b = jingcobu_reduced_resultant((uint32_t) c->n, F32, G32, u->narrow, count, v->narrow, count, WORK32);
    return (jingcobu64_answer) { b.value, b.status };
}

SEEN GEN gp_divisor(GEN N, GEN F, GEN G)
{
    pari_sp av = avma;
    call c = asked("jingcobu_divisor", N, WIDE);
    pair q = both(&c, F, G);
    jingcobu64_answer a;
    if (q.narrow) {
        jingcobu_answer b = jingcobu_divisor((uint32_t) c.n, F32, G32, WORK32);
        a.value = b.value, a.status = b.status;
    } else a = jingcobu64_divisor(c.n, F64, G64, WORK64);
    accept(&c, a.status, q.p, 2);
    set_avma(av);
    return utoi(a.value);
}

/* [D, u, v] with u f + v g = D */
SEEN GEN gp_reduced(GEN N, GEN F, GEN G)
{
    pari_sp av = avma;
    call c = asked("jingcobu_reduced_resultant", N, WIDE);
    pair q = both(&c, F, G);
    size_t count = cofactor_words(c.n, &q);
    words u, v;
    jingcobu64_answer a = reduced(&c, &q, &u, &v);
    accept(&c, a.status, q.p, 2);
    set_avma(av);
    GEN r = cgetg(4, t_VEC);
    gel(r, 1) = utoi(a.value);
    gel(r, 2) = out_polynomial(c.n, &u, q.narrow, count, q.x);
    gel(r, 3) = out_polynomial(c.n, &v, q.narrow, count, q.x);
    return r;
}

/* [the resultant, u, v] with u f + v g equal to it, u of degree below e, v of degree below d */
SEEN GEN gp_cofactors(GEN N, GEN F, GEN G)
{
    pari_sp av = avma;
    call c = asked("jingcobu_resultant_cofactors", N, NARROW);
    pair q = both(&c, F, G);
    size_t e = q.p[1].count && q.p[1].count <= MOST ? q.p[1].count - 1 : 0, d = q.p[0].count && q.p[0].count <= MOST ? q.p[0].count - 1 : 0;
    words u, v;
    jingcobu_answer a = jingcobu_resultant_cofactors((uint32_t) c.n, F32, G32, u.narrow, e, v.narrow, d, WORK32);
    accept(&c, a.status, q.p, 2);
    set_avma(av);
    GEN r = cgetg(4, t_VEC);
    gel(r, 1) = mkintmodu(a.value, c.n);
    gel(r, 2) = out_polynomial(c.n, &u, 1, e, q.x);
    gel(r, 3) = out_polynomial(c.n, &v, 1, d, q.x);
    return r;
}

/* [0, 0, 0] coprime; [1, m, 0] both are zero modulo m; [2, m, w] w divides both modulo m */
SEEN GEN gp_why(GEN N, GEN F, GEN G)
{
    pari_sp av = avma;
    call c = asked("jingcobu_why", N, NARROW);
    pair q = both(&c, F, G);
    words w;
    jingcobu_reason a = jingcobu_why((uint32_t) c.n, F32, G32, w.narrow, JINGCOBU_COMMON, WORK32);
    accept(&c, a.status, q.p, 2);
    set_avma(av);
    GEN r = cgetg(4, t_VEC);
    gel(r, 1) = utoi(a.ground);
    gel(r, 2) = utoi(a.m);
    gel(r, 3) = a.ground == 2 ? out_polynomial(a.m, &w, 1, a.degree + 1, q.x) : gen_0;
    return r;
}

/* 0 if D is the reduced resultant and u f + v g = D; otherwise 1, 2 or 3 */
SEEN GEN gp_check(GEN N, GEN F, GEN G, GEN D, GEN U, GEN V)
{
    pari_sp av = avma;
    call c = asked("jingcobu_check_claim", N, NARROW);
    pair q = both(&c, F, G);
    uint32_t d = (uint32_t) word(&c, (spot) { "D", 0, 0 }, D, NARROW);
    sent p[] = { q.p[0], q.p[1], polynomial(&c, "u", U, JINGCOBU_MULTIPLIER, 0), polynomial(&c, "v", V, JINGCOBU_MULTIPLIER, 0) };
    variable(&c, p[2], p[3]);
    jingcobu_answer a = jingcobu_check_claim((uint32_t) c.n, F32, G32, d, p[2].narrow, p[2].count, p[3].narrow, p[3].count, WORK32);
    accept(&c, a.status, p, 4);
    set_avma(av);
    return utoi(a.value);
}

/* the words of the product, d + e + 1 of them */
SEEN GEN gp_product(GEN N, GEN F, GEN G)
{
    pari_sp av = avma;
    call c = asked("jingcobu_product", N, WIDE);
    pair q = both(&c, F, G);
    size_t d = q.p[0].count - 1, e = q.p[1].count - 1;
    size_t count = d < MOST && e < MOST && d + e < MOST ? d + e + 1 : 0;
    words out;
    uint32_t status = q.narrow ? jingcobu_product((uint32_t) c.n, F32, G32, out.narrow, count).status
                               : jingcobu64_product(c.n, F64, G64, out.wide, count).status;
    if (status == JINGCOBU_BAD_LENGTH && d < MOST && e < MOST)
        pari_err(e_MISC, "%s refuses with 2: the sent degrees of f and g add up to %lu, above 48", c.name, (ulong) (d + e));
    accept(&c, status, q.p, 2);
    set_avma(av);
    return out_words(&out, q.narrow, count);
}

/* the true degree; -oo, as GP's poldegree has it, for the zero polynomial */
SEEN GEN gp_true_degree(GEN N, GEN F)
{
    pari_sp av = avma;
    call c = asked("jingcobu_true_degree", N, WIDE);
    sent p = polynomial(&c, "f", F, MOST, 0);
    jingcobu_degree a = p.fits ? jingcobu_true_degree((uint32_t) c.n, p.narrow, p.count)
                               : jingcobu64_true_degree(c.n, (const uint64_t *) p.words, p.count);
    accept(&c, a.status, &p, 1);
    set_avma(av);
    return a.some ? utoi(a.degree) : mkmoo();
}

static jingcobu64_cofactors gcd_of(ulong n, ulong a, ulong b)
{
    if (n > NARROW || a > NARROW || b > NARROW) return jingcobu64_gcd(n, a, b);
    jingcobu_cofactors r = jingcobu_gcd((uint32_t) n, (uint32_t) a, (uint32_t) b);
    return (jingcobu64_cofactors) { r.g, r.s, r.t, r.status };
}

/* [g, s, t], the greatest common divisor of a, b and n and its least cofactors */
SEEN GEN gp_gcd(GEN N, GEN A, GEN B)
{
    pari_sp av = avma;
    call c = asked("jingcobu_gcd", N, WIDE);
    ulong a = sent_word(&c, (spot) { "a", 0, 0 }, A), b = sent_word(&c, (spot) { "b", 0, 0 }, B);
    jingcobu64_cofactors r = gcd_of(c.n, a, b);
    if (r.status == JINGCOBU_BAD_WORD)
        pari_err(e_MISC, "%s refuses with 3: %s is %lu, not from 0 to %lu", c.name, a >= c.n ? "a" : "b", a >= c.n ? a : b, c.n - 1);
    accept(&c, r.status, NULL, 0);
    set_avma(av);
    GEN out = cgetg(4, t_VEC);
    gel(out, 1) = utoi(r.g);
    gel(out, 2) = utoi(r.s);
    gel(out, 3) = utoi(r.t);
    return out;
}

/* ---- many pairs */

#define CHUNK 1000UL         /* pairs that are gathered before they are answered */

typedef struct { const call *c; int D; } many;   /* D alone, or the resultants */

static jingcobu64_answer one_pair(const many *m, const pair *p)
{
    const pair q = *p;
    if (!q.narrow) return (m->D ? jingcobu64_divisor : jingcobu64_resultant)(m->c->n, F64, G64, WORK64);
    jingcobu_answer a = (m->D ? jingcobu_divisor : jingcobu_resultant)((uint32_t) m->c->n, F32, G32, WORK32);
    return (jingcobu64_answer) { a.value, a.status };
}

/* pair by pair; a refusal names the polynomial, counted from `first` on */
static void one_by_one(const many *m, const pair *q, size_t count, size_t first, ulong *out)
{
    for (size_t i = 0; i < count; i++) {
        pari_sp av = avma;
        jingcobu64_answer a = one_pair(m, q + i);
        sent p[] = { q[i].p[0], q[i].p[1] };
        p[0].name = stack_sprintf("f: row %lu", (ulong) (first + i));
        p[1].name = stack_sprintf("g: row %lu", (ulong) (first + i));
        accept(m->c, a.status, p, 2);
        set_avma(av);
        out[i] = a.value;
    }
}

/* the words of f, or of g, of pairs that are alike, one after the other in their width */
static void *gathered(const pair *q, size_t count, int g)
{
    size_t l = q->p[g].count, size = l * (q->narrow ? sizeof(uint32_t) : sizeof(ulong));
    char *w = room(count, size);
    for (size_t i = 0; i < count; i++) memcpy(w + i * size, q->narrow ? (void *) q[i].p[g].narrow : q[i].p[g].words, size);
    return w;
}

/* pairs that are alike, in one call; whether it is answered */
static int one_call(const many *m, const pair *q, size_t count, ulong *out)
{
    size_t fl = q->p[0].count, gl = q->p[1].count;
    if (fl < 1 || fl > MOST || gl < 1 || gl > MOST) return 0;
    void *f = gathered(q, count, 0), *g = gathered(q, count, 1);
    if (!q->narrow)
        return !(m->D ? jingcobu64_divisors : jingcobu64_resultants)(m->c->n, f, count * fl, fl - 1, g, count * gl, gl - 1, count,
                                                                    (uint64_t *) out, count, WORK64).status;
    uint32_t *found = room(count, sizeof *found);
    jingcobu_answer a = (m->D ? jingcobu_divisors : jingcobu_resultants)((uint32_t) m->c->n, f, count * fl, fl - 1, g, count * gl, gl - 1,
                                                                         count, found, count, WORK32);
    for (size_t i = 0; !a.status && i < count; i++) out[i] = found[i];
    return !a.status;
}

/* how many pairs from the first on have its lengths and its width */
static size_t alike(const pair *q, size_t count)
{
    size_t i = 1;
    while (i < count && q[i].narrow == q->narrow && q[i].p[0].count == q->p[0].count && q[i].p[1].count == q->p[1].count) i++;
    return i;
}

/* the answers of the pairs from `first` on, counted from 1, in words */
static void answer_chunk(const many *m, GEN F, GEN G, size_t first, size_t count, ulong *out)
{
    pari_sp av = avma;
    pair *q = room(count, sizeof *q);
    for (size_t i = 0; i < count; i++) {
        GEN f = gel(F, first + i), g = gel(G, first + i);
        pair p = { { polynomial(m->c, "f", f, MOST, first + i), polynomial(m->c, "g", g, MOST, first + i) }, 0, 0 };
        p.x = variable(m->c, p.p[0], p.p[1]);
        p.narrow = p.p[0].fits && p.p[1].fits;
        q[i] = p;
    }
    pari_sp gathered_all = avma;
    for (size_t i = 0, l; i < count; i += l) {
        l = alike(q + i, count - i);
        if (!one_call(m, q + i, l, out + i)) one_by_one(m, q + i, l, first + i, out + i);
        set_avma(gathered_all);
    }
    set_avma(av);
}

static GEN many_pairs(const char *name, GEN N, GEN F, GEN G, int D)
{
    pari_sp av = avma;
    call c = asked(name, N, WIDE);
    many m = { &c, D };
    if (typ(F) != t_VEC && typ(F) != t_COL) pari_err_TYPE(text(&c, (spot) { "f", 0, 0 }), F);
    if (typ(G) != t_VEC && typ(G) != t_COL) pari_err_TYPE(text(&c, (spot) { "g", 0, 0 }), G);
    if (lg(F) != lg(G)) pari_err(e_MISC, "%s: f has %ld polynomials, and g has %ld", name, lg(F) - 1, lg(G) - 1);
    if (c.n < 2 || c.n > WIDE) refuse(&c, JINGCOBU_BAD_MODULUS, NULL, 0);
    size_t count = lg(F) - 1;
    ulong *out = room(count, sizeof *out);
    for (size_t i = 0; i < count; i += CHUNK) answer_chunk(&m, F, G, i + 1, minuu(CHUNK, count - i), out + i);
    GEN r = cgetg(count + 1, t_VEC);
    for (size_t i = 0; i < count; i++) gel(r, i + 1) = D ? utoi(out[i]) : mkintmodu(out[i], c.n);
    return gerepilecopy(av, r);
}

SEEN GEN gp_resultants(GEN N, GEN F, GEN G) { return many_pairs("jingcobu_resultants", N, F, G, 0); }
SEEN GEN gp_divisors(GEN N, GEN F, GEN G) { return many_pairs("jingcobu_divisors", N, F, G, 1); }

/* ---- two variables */

/* row i is the polynomial in the second variable that stands at power i - 1 of the first; all rows get the longest one's length. Where
 * a degree is above 48 the call is refused before a word is read, and the words are not gathered. */
static sent rows(const call *c, const char *name, GEN list, int equal)
{
    size_t count = lg(list) - 1, most = count > MOST;
    sent *row = room(count, sizeof(sent)), p = { name, NULL, NULL, 0, MOST * MOST, 0, -1, 0 };
    for (size_t i = 0; i < count && count <= MOST; i++) {
        row[i] = polynomial(c, name, gel(list, i + 1), MOST, i + 1);
        if (equal && row[i].count != row[0].count)
            pari_err(e_MISC, "%s: %s: row %lu has %lu words, and row 1 has %lu", c->name, name, (ulong) i + 1, (ulong) row[i].count,
                     (ulong) row[0].count);
        if (row[i].count > most) most = row[i].count;
        if (row[i].variable < 0) continue;
        if (p.variable >= 0 && p.variable != row[i].variable) pari_err(e_MISC, "%s: %s has more than two variables", c->name, name);
        p.variable = row[i].variable;
    }
    p.count = count * most;
    p.row = most;
    p.narrow = room(1, sizeof(uint32_t));
    if (count > MOST || most > MOST) return p;
    p.words = room(p.count, sizeof(ulong));
    for (size_t i = 0; i < count; i++)
        for (size_t k = 0; k < most; k++) p.words[i * most + k] = k < row[i].count ? row[i].words[k] : 0;
    fit(c, &p);
    return p;
}

/* a vector of rows, or a polynomial whose first variable is y */
static sent two(const call *c, const char *name, GEN x, long y)
{
    if (is_vector(x)) {
        for (long i = 1; i < lg(x); i++)
            if (typ(x) == t_VECSMALL || !is_vector(gel(x, i))) pari_err_TYPE(text(c, (spot) { name, i, 0 }), x);
        return rows(c, name, x, 1);
    }
    if (typ(x) != t_POL || varn(x) != y || !lgpol(x)) return rows(c, name, mkvec(x), 0);
    GEN list = cgetg(lgpol(x) + 1, t_VEC);
    for (long i = 0; i < lgpol(x); i++) gel(list, i + 1) = gel(x, i + 2);
    return rows(c, name, list, 0);
}

/* the sent degrees in the first and the second variable; 0 if there is no word, which no length fits */
static size_t first(const sent *p) { return p->count ? p->count / p->row - 1 : 0; }
static size_t second(const sent *p) { return p->count ? p->row - 1 : 0; }

/* the argument whose length is refused: f before g */
static void refuse_rows(const call *c, const sent *p)
{
    if (p->count && first(p) < MOST && second(p) < MOST) p++;
    if (!p->count) pari_err(e_MISC, "%s refuses with 2: %s has no word", c->name, p->name);
    int in_first = first(p) >= MOST;
    pari_err(e_MISC, "%s refuses with 2: %s has degree %lu in its %s variable, above 48", c->name, p->name,
             (ulong) (in_first ? first(p) : second(p)), in_first ? "first" : "second");
}

/* the resultant in the first variable of f and g, a polynomial in the second; words for vectors of rows */
SEEN GEN gp_two(GEN N, GEN F, GEN G)
{
    pari_sp av = avma;
    call c = asked("jingcobu_resultant_two", N, NARROW);
    int vectors = is_vector(F);
    if (vectors != is_vector(G)) pari_err_TYPE2(c.name, F, G);
    long y = vectors ? 0 : varncmp(gvar(F), gvar(G)) <= 0 ? gvar(F) : gvar(G);
    sent p[] = { two(&c, "f", F, y), two(&c, "g", G, y) };
    long z = variable(&c, p[0], p[1]);
    size_t d = first(p), a = second(p), e = first(p + 1), b = second(p + 1), count = e * a + d * b + 1;
    words out;
    jingcobu_answer r = jingcobu_resultant_two((uint32_t) c.n, p[0].narrow, p[0].count, d, a, p[1].narrow, p[1].count, e, b,
                                               out.narrow, JINGCOBU_TWO, WORK32);
    if (r.status == JINGCOBU_BAD_LENGTH) refuse_rows(&c, p);
    accept(&c, r.status, p, 2);
    set_avma(av);
    return vectors ? out_words(&out, 1, count) : out_polynomial(c.n, &out, 1, count, z);
}
