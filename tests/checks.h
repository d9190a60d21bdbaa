/* What the header promises of a call, compared with what it returned and left in its buffers. */

/* ---- the status that a call should have: the first that applies */

static int bad_n(const trial *t) { return t->n < 2 || (is_wide(t->function) && t->n >= LIMIT64); }
static int long_or_empty(const buffer *b, size_t most) { return b->length < 1 || b->length > most; }
static int too_large(const trial *t, const uint64_t *f, size_t fl)
{
    for (size_t i = 0; i < fl; i++) if (f[i] >= t->n) return 1;
    return 0;
}

static const buffer *buffer_f(const trial *t) { return is_wide(t->function) ? &t->f64 : &t->in_f; }
static const buffer *buffer_g(const trial *t) { return is_wide(t->function) ? &t->g64 : &t->in_g; }
static const buffer *buffer_u(const trial *t) { return is_wide(t->function) ? &t->u64 : &t->out_u; }
static const buffer *buffer_v(const trial *t) { return is_wide(t->function) ? &t->v64 : &t->out_v; }
static const buffer *buffer_out(const trial *t) { return is_wide(t->function) ? &t->out64 : &t->out; }
static const buffer *buffer_work(const trial *t) { return is_wide(t->function) ? &t->work64 : &t->work; }

static int short_work(const trial *t) { return buffer_work(t)->length < (is_wide(t->function) ? JINGCOBU64_WORK : JINGCOBU_WORK); }

/* 1, 2 and 3 for two polynomials in one variable */
static uint32_t refused_pair(const trial *t, size_t most_sum)
{
    const buffer *f = buffer_f(t), *g = buffer_g(t);
    if (bad_n(t)) return JINGCOBU_BAD_MODULUS;
    if (long_or_empty(f, MOST) || long_or_empty(g, MOST) || f->length + g->length - 2 > most_sum) return JINGCOBU_BAD_LENGTH;
    return too_large(t, t->f, f->length) || too_large(t, t->g, g->length) ? JINGCOBU_BAD_WORD : 0;
}

static uint32_t refused_product(const trial *t)
{
    uint32_t status = refused_pair(t, MOST - 1);
    return status ? status : buffer_out(t)->length < buffer_f(t)->length + buffer_g(t)->length - 1 ? JINGCOBU_SHORT_RESULT : 0;
}

static uint32_t refused_cofactors(const trial *t)
{
    uint32_t status = refused_pair(t, SIZE_MAX);
    if (status) return status;
    size_t fl = buffer_f(t)->length, gl = buffer_g(t)->length, l = cofactor_length(t->n, fl, gl);
    if (t->function == COFACTORS && fl + gl == 2) return JINGCOBU_NO_COFACTORS;
    if (buffer_u(t)->length < (t->function == COFACTORS ? gl - 1 : l) || buffer_v(t)->length < (t->function == COFACTORS ? fl - 1 : l))
        return JINGCOBU_SHORT_RESULT;
    return short_work(t) ? JINGCOBU_SHORT_WORK : 0;
}

static uint32_t refused_claim(const trial *t)
{
    if (bad_n(t)) return JINGCOBU_BAD_MODULUS;
    if (long_or_empty(&t->in_f, MOST) || long_or_empty(&t->in_g, MOST)) return JINGCOBU_BAD_LENGTH;
    if (long_or_empty(&t->in_u, JINGCOBU_MULTIPLIER) || long_or_empty(&t->in_v, JINGCOBU_MULTIPLIER)) return JINGCOBU_BAD_MULTIPLIER;
    if (refused_pair(t, SIZE_MAX) || too_large(t, t->u, t->in_u.length) || too_large(t, t->v, t->in_v.length)) return JINGCOBU_BAD_WORD;
    return short_work(t) ? JINGCOBU_SHORT_WORK : 0;
}

static int prime_divides(uint64_t n, size_t most)
{
    for (size_t p = 2; p <= most; p++) if (n % p == 0) return 1;
    return 0;
}

static uint32_t refused_two(const trial *t)
{
    if (bad_n(t)) return JINGCOBU_BAD_MODULUS;
    if (t->d > 48 || t->a > 48 || t->in_f.length != (t->d + 1) * (t->a + 1)) return JINGCOBU_BAD_LENGTH;
    if (t->e > 48 || t->b > 48 || t->in_g.length != (t->e + 1) * (t->b + 1)) return JINGCOBU_BAD_LENGTH;
    if (too_large(t, t->f, t->in_f.length) || too_large(t, t->g, t->in_g.length)) return JINGCOBU_BAD_WORD;
    size_t B = t->e * t->a + t->d * t->b;
    if (B > 60) return JINGCOBU_TOO_MANY_POINTS;
    if (prime_divides(t->n, B)) return JINGCOBU_PRIME_DIVIDES;
    return t->out.length < B + 1 ? JINGCOBU_SHORT_RESULT : short_work(t) ? JINGCOBU_SHORT_WORK : 0;
}

/* whether a length is not that of so many polynomials of that degree */
static int unfit(size_t length, size_t d, size_t count) { return d > 48 || (wide) count * (d + 1) != length; }

static uint32_t refused_batch(const trial *t)
{
    size_t fl = buffer_f(t)->length, gl = buffer_g(t)->length;
    if (bad_n(t)) return JINGCOBU_BAD_MODULUS;
    if (unfit(fl, t->d, t->pairs) || unfit(gl, t->e, t->pairs)) return JINGCOBU_BAD_LENGTH;
    if (too_large(t, t->f, fl) || too_large(t, t->g, gl)) return JINGCOBU_BAD_WORD;
    return buffer_out(t)->length < t->pairs ? JINGCOBU_SHORT_RESULT : short_work(t) ? JINGCOBU_SHORT_WORK : 0;
}

/* 1, 2 and 3 for one polynomial */
static uint32_t refused_one(const trial *t)
{
    if (bad_n(t)) return JINGCOBU_BAD_MODULUS;
    if (long_or_empty(buffer_f(t), MOST)) return JINGCOBU_BAD_LENGTH;
    return too_large(t, t->f, buffer_f(t)->length) ? JINGCOBU_BAD_WORD : 0;
}

static size_t place_of(const holding *x, uint16_t number)
{
    size_t i = 0;
    while (i < x->count && x->number[i] != number) i++;
    return i;
}

static uint32_t refused_arrival(const trial *t)
{
    const holding *x = &t->held;
    size_t sum = t->in_f.length - 1;
    uint32_t status = refused_one(t);
    if (status) return status;
    for (size_t i = 0; i < x->count; i++) sum += x->degree[i];
    if (t->number == 0 || place_of(x, t->number) < x->count) return JINGCOBU_BAD_NUMBER;
    return x->count == 16 || sum > 48 ? JINGCOBU_FACTORS_FULL : short_work(t) ? JINGCOBU_SHORT_WORK : 0;
}

static uint32_t refused_leaving(const trial *t)
{
    if (bad_n(t)) return JINGCOBU_BAD_MODULUS;
    return t->number == 0 || place_of(&t->held, t->number) == t->held.count ? JINGCOBU_BAD_NUMBER : 0;
}

static uint32_t refused_text(const trial *t)
{
    uint64_t w[MOST];
    if (bad_n(t)) return JINGCOBU_BAD_MODULUS;
    if (t->in_text.length > 767 || !words_of(t->n, t->text, t->in_text.length, w)) return JINGCOBU_NO_TEXT;
    return t->out.length < JINGCOBU_WORDS ? JINGCOBU_SHORT_RESULT : 0;
}

static uint32_t refusal(const trial *t)
{
    uint32_t status;
    switch (t->function) {
    case PRODUCT: case PRODUCT_WORD: case PRODUCT64: return refused_product(t);
    case REDUCED: case COFACTORS: case REDUCED64: return refused_cofactors(t);
    case CLAIM: return refused_claim(t);
    case TWO: return refused_two(t);
    case RESULTANTS: case DIVISORS: case RESULTANTS64: case DIVISORS64: return refused_batch(t);
    case GCD: case GCD64: return bad_n(t) ? JINGCOBU_BAD_MODULUS : too_large(t, t->f, 2) ? JINGCOBU_BAD_WORD : 0;
    case TRUE_DEGREE: case TRUE_DEGREE64: case START: return refused_one(t);
    case ARRIVE: return refused_arrival(t);
    case LEAVE: return refused_leaving(t);
    case READ: return bad_n(t) ? JINGCOBU_BAD_MODULUS : 0;
    case READ_TEXT: return refused_text(t);
    case WRITE_TEXT: status = refused_one(t); return status ? status : t->out_text.length < JINGCOBU_TEXT ? JINGCOBU_SHORT_RESULT : 0;
    case SHARES: return t->frames < 1 || t->frames > 1024 ? JINGCOBU_BAD_FRAMES : 0;
    default:
        status = refused_pair(t, SIZE_MAX);
        if (!status && t->function == WHY && t->out.length < JINGCOBU_COMMON) status = JINGCOBU_SHORT_RESULT;
        return status ? status : short_work(t) ? JINGCOBU_SHORT_WORK : 0;
    }
}

/* ---- the buffers */

/* the buffers that a call may write, but for `work` */
static int results(const trial *t, const buffer **list)
{
    switch (t->function) {
    case PRODUCT: case PRODUCT_WORD: case PRODUCT64: case WHY: case TWO: case READ_TEXT:
    case RESULTANTS: case DIVISORS: case RESULTANTS64: case DIVISORS64:
        list[0] = buffer_out(t);
        return 1;
    case REDUCED: case COFACTORS: case REDUCED64: list[0] = buffer_u(t); list[1] = buffer_v(t); return 2;
    case WRITE_TEXT: list[0] = &t->out_text; return 1;
    default: return 0;
    }
}

static int works(enum function x)
{
    return x == RESULTANT || x == REDUCED || x == DIVISOR || x == COFACTORS || x == WHY || x == CLAIM || x == TWO || x == ARRIVE
        || x == RESULTANT64 || x == REDUCED64 || x == RESULTANTS || x == DIVISORS || x == DIVISOR64 || x == RESULTANTS64 || x == DIVISORS64;
}

static int same_state(const jingcobu_factors *s, const jingcobu_factors *r)
{
    return s->n == r->n && s->h_len == r->h_len && !memcmp(s->h, r->h, sizeof s->h) && !memcmp(s->number, r->number, sizeof s->number)
        && !memcmp(s->degree, r->degree, sizeof s->degree) && !memcmp(s->resultant, r->resultant, sizeof s->resultant);
}

static const char *wrong_refusal(const trial *t)
{
    static const jingcobu_factors zeros;
    const buffer *list[2];
    int count = results(t, list);
    for (int i = 0; i < 4; i++) if (t->got.value[i]) return "a value is not 0 after a refusal";
    for (int i = 0; i < count; i++) if (!kept_from(list[i], 0)) return "a result buffer is changed after a refusal";
    if (!kept_from(buffer_work(t), 0)) return "work is changed after a refusal";
    if (t->function == START && !same_state(&t->got.state, &zeros)) return "a refused start returns more than zeros";
    if ((t->function == ARRIVE || t->function == LEAVE) && !same_state(&t->got.state, &t->state)) return "another state after a refusal";
    return NULL;
}

/* whether the words of a result buffer from `from` up to `to` are zero and all after them are unchanged */
static int zeros_to(const buffer *b, size_t from, size_t to)
{
    return all_bytes(b, b->at + from * b->size, b->at + to * b->size, 0) && kept_from(b, to);
}

static void words_in(const buffer *b, uint64_t *w, size_t l) { for (size_t i = 0; i < l; i++) w[i] = get(b, i); }

/* ---- D */

/* D found naively where it costs little, and now and then where it costs more; 0 otherwise */
static uint64_t divisor_of(trial *t, const uint64_t *f, size_t fl, const uint64_t *g, size_t gl)
{
    size_t width = larger(fl, gl), l = cofactor_length(t->n, fl, gl) + width + 1;
    double cost = 2.0 * (double) (l * l) * (double) width;
    if (cost > 1e7 || (cost > 100000 && running_number % 40)) return 0;
    return naive_divisor(t->n, f, fl, g, gl, l, &t->rows);
}
static uint64_t known_divisor(trial *t) { return divisor_of(t, t->f, buffer_f(t)->length, t->g, buffer_g(t)->length); }

/* D as the other services answer it */
static uint64_t other_divisor(const trial *t)
{
    static _Thread_local uint32_t f[MOST], g[MOST], work[JINGCOBU_WORK];
    size_t fl = t->in_f.length, gl = t->in_g.length;
    for (size_t i = 0; i < fl; i++) f[i] = (uint32_t) t->f[i];
    for (size_t i = 0; i < gl; i++) g[i] = (uint32_t) t->g[i];
    return jingcobu_divisor((uint32_t) t->n, f, fl, g, gl, work, JINGCOBU_WORK).value;
}

/* ---- each function's answer */

static const char *wrong_product(const trial *t)
{
    const buffer *out = buffer_out(t);
    size_t fl = buffer_f(t)->length, gl = buffer_g(t)->length, l = fl + gl - 1;
    if (t->got.value[0]) return "the value is not 0";
    for (size_t k = 0; k < l; k++)
        if ((t->function != PRODUCT_WORD || k == t->k) && get(out, k) != product_word(t->n, t->f, fl, t->g, gl, k))
            return "a word of the product";
    if (t->function != PRODUCT_WORD) return kept_from(out, l) ? NULL : "words beyond the product";
    if (t->k >= l) return kept_from(out, 0) ? NULL : "a word is written for a k above d + e";
    size_t at = out->at + 4 * t->k;
    return all_bytes(out, 0, at, MARK) && all_bytes(out, at + 4, out->r.room, MARK) ? NULL : "another word than word k";
}

static const char *wrong_degree(const trial *t)
{
    size_t k = buffer_f(t)->length;
    while (k && !t->f[k - 1]) k--;
    return t->got.value[0] == (k > 0) && t->got.value[1] == (k ? k - 1 : 0) ? NULL : "the true degree";
}

static const char *wrong_resultant(const trial *t)
{
    uint64_t r = naive_resultant(t->n, t->f, buffer_f(t)->length, t->g, buffer_g(t)->length);
    return t->got.value[0] == r ? NULL : "the resultant";
}

static const char *wrong_cofactors(const trial *t)
{
    uint64_t u[MOST], v[MOST];
    size_t d = t->in_f.length - 1, e = t->in_g.length - 1;
    if (wrong_resultant(t)) return "the resultant";
    if (!kept_from(&t->out_u, e) || !kept_from(&t->out_v, d)) return "words beyond the cofactors";
    words_in(&t->out_u, u, e);
    words_in(&t->out_v, v, d);
    if (too_large(t, u, e) || too_large(t, v, d)) return "a word of a cofactor is n or more";
    return combine(t->n, t->f, d + 1, u, e, t->g, e + 1, v, d, t->got.value[0]) ? NULL : "the cofactors do not combine to the resultant";
}

/* D divides n and, if d + e is not 0, the resultant */
static const char *wrong_divisor(trial *t)
{
    uint64_t D = t->got.value[0], right = known_divisor(t);
    size_t fl = buffer_f(t)->length, gl = buffer_g(t)->length;
    if (D < 1 || t->n % D) return "D does not divide n";
    if (right && D != right) return "D";
    if (fl + gl > 2 && fl + gl < 20 && naive_resultant(t->n, t->f, fl, t->g, gl) % D) return "D does not divide the resultant";
    return NULL;
}

static const char *wrong_reduced(trial *t)
{
    static _Thread_local uint64_t u[JINGCOBU64_COFACTOR], v[JINGCOBU64_COFACTOR];
    const char *wrong = wrong_divisor(t);
    size_t fl = buffer_f(t)->length, gl = buffer_g(t)->length, l = cofactor_length(t->n, fl, gl);
    uint64_t D = t->got.value[0];
    if (wrong) return wrong;
    if (!kept_from(buffer_u(t), l) || !kept_from(buffer_v(t), l)) return "words beyond the cofactors";
    words_in(buffer_u(t), u, l);
    words_in(buffer_v(t), v, l);
    if (too_large(t, u, l) || too_large(t, v, l)) return "a word of a cofactor is n or more";
    if (!combine(t->n, t->f, fl, u, l, t->g, gl, v, l, D)) return "the cofactors do not combine to D";
    if (fl + gl == 2 && !least(t->n, t->f[0], t->g[0], D, u[0], v[0])) return "the cofactors of two constants are not the least";
    return !is_wide(t->function) && other_divisor(t) != D ? "D is not that of jingcobu_divisor" : NULL;
}

static const char *wrong_why(trial *t)
{
    uint64_t D = known_divisor(t), w[MOST], ground = t->got.value[0], m = t->got.value[1], degree = t->got.value[2];
    size_t fl = t->in_f.length, gl = t->in_g.length;
    if (!D) D = other_divisor(t);
    if (ground > 2 || (ground == 0) != (D == 1)) return "the ground";
    if (ground < 2 && (degree || !zeros_to(&t->out, 0, MOST))) return "a common divisor for the grounds 0 and 1";
    if (ground == 0) return m ? "an m for the ground 0" : NULL;
    if (m < 2 || t->n % m || D % m) return "m is 1 or does not divide D";
    if (ground == 1) {
        for (size_t i = 0; i < fl; i++) if (t->f[i] % m) return "f is not zero modulo m";
        for (size_t i = 0; i < gl; i++) if (t->g[i] % m) return "g is not zero modulo m";
        return NULL;
    }
    if (degree < 1 || degree > 48) return "the degree of w";
    if (get(&t->out, degree) != 1 || !zeros_to(&t->out, degree + 1, MOST)) return "w is not monic of its degree";
    words_in(&t->out, w, degree + 1);
    return multiple_of(m, t->f, fl, w, degree) && multiple_of(m, t->g, gl, w, degree) ? NULL : "w does not divide both";
}

static const char *wrong_claim(trial *t)
{
    uint64_t D = known_divisor(t), right = 0;
    if (!D) D = other_divisor(t);
    if (t->claimed == 0 || t->n % t->claimed) right = 1;
    else if (!combine(t->n, t->f, t->in_f.length, t->u, t->in_u.length, t->g, t->in_g.length, t->v, t->in_v.length, t->claimed)) right = 2;
    else if (t->claimed != D) right = 3;
    return t->got.value[0] == right ? NULL : "the answer to the claim";
}

/* the words of a polynomial in y, from those in y and z at one z */
static void at_point(uint64_t n, const uint64_t *f, size_t d, size_t a, uint64_t z, uint64_t *x)
{
    for (size_t i = 0; i <= d; i++) {
        x[i] = 0;
        for (size_t k = a + 1; k-- > 0;) x[i] = plus(n, times(n, x[i], z), f[i * (a + 1) + k]);
    }
}

/* The values at 0 to B are those of the determinants there. That is all: no prime up to B divides n, so that a polynomial of degree B
 * that is zero there is zero. */
static const char *wrong_two(const trial *t)
{
    uint64_t x[MOST], y[MOST], words[61], value;
    size_t B = t->e * t->a + t->d * t->b;
    if (t->got.value[0]) return "the value is not 0";
    if (!kept_from(&t->out, B + 1)) return "words beyond the resultant";
    words_in(&t->out, words, B + 1);
    if (too_large(t, words, B + 1)) return "a word is n or more";
    for (uint64_t z = 0; z <= B; z++) {
        at_point(t->n, t->f, t->d, t->a, z % t->n, x);
        at_point(t->n, t->g, t->e, t->b, z % t->n, y);
        at_point(t->n, words, 0, B, z % t->n, &value);
        if (value != naive_resultant(t->n, x, t->d + 1, y, t->e + 1)) return "the value at a point";
    }
    return NULL;
}

/* each pair of many: its resultant; or its D, which divides n and, where d + e is not 0, the resultant */
static const char *wrong_batch(trial *t)
{
    const buffer *out = buffer_out(t);
    size_t fl = t->d + 1, gl = t->e + 1;
    int divisors = t->function == DIVISORS || t->function == DIVISORS64;
    if (t->got.value[0]) return "the value is not 0";
    if (!kept_from(out, t->pairs)) return "words beyond count";
    for (size_t i = 0; i < t->pairs; i++) {
        const uint64_t *f = t->f + i * fl, *g = t->g + i * gl;
        uint64_t r = fl + gl < 20 || !divisors ? naive_resultant(t->n, f, fl, g, gl) : 0, D = get(out, i);
        if (!divisors) {
            if (D != r) return "the resultant of a pair";
            continue;
        }
        uint64_t right = divisor_of(t, f, fl, g, gl);
        if (D < 1 || t->n % D || (right && D != right) || (fl + gl > 2 && r % D)) return "D of a pair";
    }
    return NULL;
}

static const char *wrong_gcd(const trial *t)
{
    uint64_t g = common_divisor(common_divisor(t->f[0], t->f[1]), t->n);
    if (t->got.value[0] != g) return "the gcd";
    return least(t->n, t->f[0], t->f[1], g, t->got.value[1], t->got.value[2]) ? NULL : "the least cofactors";
}

static const char *wrong_text_read(const trial *t)
{
    uint64_t w[MOST];
    if (t->got.value[0] != words_of(t->n, t->text, t->in_text.length, w)) return "the number of words";
    for (size_t i = 0; i < MOST; i++) if (get(&t->out, i) != w[i]) return "a word that the text spells";
    return kept_from(&t->out, JINGCOBU_WORDS) ? NULL : "words beyond 49";
}

static const char *wrong_text_written(const trial *t)
{
    char text[JINGCOBU_TEXT + 1];
    size_t length = text_of(t->f, t->in_f.length, text);
    if (t->got.value[0] != length) return "the number of characters";
    if (memcmp(t->out_text.r.own + t->out_text.at, text, length)) return "the text";
    return zeros_to(&t->out_text, length, JINGCOBU_TEXT) ? NULL : "bytes beyond the text";
}

static const char *wrong_shares(const trial *t)
{
    uint32_t share[4];
    naive_shares(t->frames, t->waiting, share);
    for (int i = 0; i < 4; i++) if (t->got.value[i] != share[i]) return "a share";
    return NULL;
}

/* ---- states: what is held follows what was answered */

/* after an answered start, arrival or leaving; the resultant of an arrival is not yet known */
static void keep_state(trial *t)
{
    holding *x = &t->held, fresh = { .state = t->got.state, .n = t->n, .h_len = t->in_f.length, .growing = 1 };
    if (t->function == START && t->replace) {
        memcpy(fresh.h, t->f, fresh.h_len * sizeof *fresh.h);
        *x = fresh;
    }
    if (t->function != ARRIVE && t->function != LEAVE) return;
    x->state = t->got.state;
    if (t->function == ARRIVE) {
        x->number[x->count] = t->number;
        x->degree[x->count++] = t->in_f.length - 1;
    } else {
        size_t i = place_of(x, t->number), last = --x->count;
        x->number[i] = x->number[last];
        x->degree[i] = x->degree[last];
        x->resultant[i] = x->resultant[last];
    }
}

static uint64_t held_product(const holding *x)
{
    uint64_t r = 1;
    for (size_t i = 0; i < x->count; i++) r = times(x->n, r, x->resultant[i]);
    return r;
}

/* what can be read from the state that came back */
static const char *wrong_state(trial *t)
{
    jingcobu_answer r = jingcobu_factors_read(t->got.state);
    keep_state(t);
    if (t->function == ARRIVE)
        t->held.resultant[t->held.count - 1] = naive_resultant(t->n, t->f, t->in_f.length, t->held.h, t->held.h_len);
    uint64_t right = t->function == START ? 1 : held_product(&t->held);
    return r.status == 0 && r.value == right ? NULL : "the reading of the state that came back";
}

/* a state that no start made: the call answers or refuses, a reading is a residue, and what was made is not kept */
static const char *wrong_any_state(const trial *t)
{
    if (t->got.status > JINGCOBU_NO_TEXT || (t->state.n < 2) != (t->got.status == JINGCOBU_BAD_MODULUS)) return "the status of any state";
    if (t->got.status) return wrong_refusal(t);
    if (t->function == READ) return t->got.value[0] < t->state.n ? NULL : "the reading is n or more";
    return t->function == ARRIVE && !zeroed(&t->work) ? "work is not zero" : NULL;
}

/* NULL if everything is right, otherwise what is wrong */
static const char *wrong_answer(trial *t)
{
    switch (t->function) {
    case PRODUCT: case PRODUCT_WORD: case PRODUCT64: return wrong_product(t);
    case TRUE_DEGREE: case TRUE_DEGREE64: return wrong_degree(t);
    case RESULTANT: case RESULTANT64: return wrong_resultant(t);
    case REDUCED: case REDUCED64: return wrong_reduced(t);
    case DIVISOR: case DIVISOR64: return wrong_divisor(t);
    case COFACTORS: return wrong_cofactors(t);
    case WHY: return wrong_why(t);
    case CLAIM: return wrong_claim(t);
    case TWO: return wrong_two(t);
    case RESULTANTS: case DIVISORS: case RESULTANTS64: case DIVISORS64: return wrong_batch(t);
    case GCD: case GCD64: return wrong_gcd(t);
    case START: case ARRIVE: case LEAVE: return wrong_state(t);
    case READ: return t->got.value[0] == held_product(&t->held) ? NULL : "the reading";
    case READ_TEXT: return wrong_text_read(t);
    case WRITE_TEXT: return wrong_text_written(t);
    default: return wrong_shares(t);
    }
}

static const char *wrong_call(trial *t)
{
    int state = t->function == ARRIVE || t->function == LEAVE || t->function == READ;
    if (state && t->any_state) return wrong_any_state(t);
    if (t->got.status != refusal(t)) return "the status";
    if (t->got.status) return wrong_refusal(t);
    if (works(t->function) ? !zeroed(buffer_work(t)) : !kept_from(buffer_work(t), 0)) return "work";
    return wrong_answer(t);
}

/* One drawn call, with all that is promised of it. */
static inline const char *tried(trial *t, enum function function, long number)
{
    running = names[function];
    running_number = number;
    draw_call(t, function);
    t->got = make_call(t);
    return wrong_call(t);
}
