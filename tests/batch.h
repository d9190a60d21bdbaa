/* Many pairs in one call, for both hosts: every word after a call, each refusal and their order, lengths that are refused unread and
 * counts whose product with a degree no size_t holds. The right numbers are those of the single calls, which the hosts hold to another
 * program's. It stands behind both.h. */

#define PAIRS 40
#define BATCH_WORDS (PAIRS * (MOST + 1))
#define BATCH_OUT (MARGIN + PAIRS + 10 + MARGIN)
static word many_f[BATCH_WORDS], many_g[BATCH_WORDS], many_out[BATCH_OUT], kept_f[BATCH_WORDS], kept_g[BATCH_WORDS];

typedef answer (*many)(word, const word *, size_t, size_t, const word *, size_t, size_t, size_t, word *, size_t, word *, size_t);
typedef answer (*single)(word, const word *, size_t, const word *, size_t, word *, size_t);
typedef struct { const char *name; many call; single one; } batch_service;
static const batch_service batch_services[] = { { "resultants", SERVICE(resultants), SERVICE(resultant) },
    { "divisors", SERVICE(divisors), SERVICE(divisor) } };

/* what a call of many pairs is sent: pointers to many_f and many_g, or NULL where a length is 0 */
typedef struct { word n; size_t fl, d, gl, e, count, ol, wl; } batch;

static batch whole(word n, size_t d, size_t e, size_t count)
{
    return (batch) { n, count * (d + 1), d, count * (e + 1), e, count, count, WORK_LEN };
}

/* one call, with all that the header promises of it */
static void batch_call(const batch_service *s, batch b, uint32_t status, const char *where)
{
    mark(work, WORK_ROOM); mark(many_out, BATCH_OUT);
    memcpy(kept_f, many_f, sizeof kept_f);
    memcpy(kept_g, many_g, sizeof kept_g);
    answer a = s->call(b.n, at_or_null(many_f, b.fl), b.fl, b.d, at_or_null(many_g, b.gl), b.gl, b.e, b.count, lent(many_out, b.ol), b.ol,
                       lent(work, b.wl), b.wl);
    expect(a.status == status, s->name, where);
    expect(a.value == 0, "many pairs: the value is 0", where);
    expect(!memcmp(kept_f, many_f, sizeof kept_f) && !memcmp(kept_g, many_g, sizeof kept_g), "many pairs: f and g are only read", where);
    if (status != JINGCOBU_OK) {
        expect(kept_but(many_out, BATCH_OUT, 0), "many pairs refused: out is as found", where);
        expect(kept_but(work, WORK_ROOM, 0), "many pairs refused: the working words are as found", where);
        return;
    }
    expect(kept_but(many_out, BATCH_OUT, b.count), "many pairs: words beyond count are unchanged", where);
    expect(all(work, 0, b.wl, 0), "many pairs: all working words are zero", where);
    expect(kept_but(work, WORK_ROOM, b.wl), "many pairs: words that are not lent", where);
    int right = 1;
    for (size_t i = 0; i < b.count; i++) {
        answer one = s->one(b.n, many_f + i * (b.d + 1), b.d + 1, many_g + i * (b.e + 1), b.e + 1, work + MARGIN, WORK_LEN);
        if (one.status || one.value != many_out[MARGIN + i]) right = 0;
    }
    expect(right, "many pairs: each word of out is the single call's", where);
}

static void fill_many(word n, size_t d, size_t e, size_t count)
{
    for (size_t i = 0; i < count; i++) {
        word by = 1 + draw() % 6;
        fill(n, many_f + i * (d + 1), d + 1, by);
        fill(n, many_g + i * (e + 1), e + 1, draw() % 2 ? by : 1);
    }
}

/* drawn pairs of one pair of degrees, with zero tops and zero polynomials; the result buffer and work at times longer than asked for */
static void drawn_batches(const word *moduli, size_t moduli_count, int batches)
{
    char where[80];
    long answered = 0;
    for (int t = 0; t < batches; t++) {
        word n = moduli[draw() % moduli_count];
        size_t most = t % 25 == 0 ? 49 : 9, d = draw() % most, e = draw() % most;
        size_t count = most == 49 ? 1 + draw() % 3 : draw() % (PAIRS + 1);
        fill_many(n, d, e, count);
        batch b = whole(n, d, e, count);
        b.ol += draw() % 3;
        b.wl += draw() % 2 * 600;
        snprintf(where, sizeof where, "batch %d: n = %llu, d = %zu, e = %zu, %zu pairs", t, (unsigned long long) n, d, e, count);
        for (int s = 0; s < 2; s++) batch_call(&batch_services[s], b, JINGCOBU_OK, where);
        answered += 2 * (long) count;
    }
    printf("%ld pairs in %d calls for many\n", answered, 2 * batches);
}

/* Every set of reasons to refuse: n; d or e above 48; the length of f or of g one too small or too large; a word that is n in the last
 * pair, at its last place or its first; out and work one word too short, or not there. */
enum { BATCH_N = 1, BATCH_D = 2, BATCH_E = 4, BATCH_FL = 8, BATCH_GL = 16, BATCH_WF = 32, BATCH_WG = 64, BATCH_OUT_SHORT = 128,
    BATCH_WORK_SHORT = 256, BATCH_SETS = 512 };

static void batch_reasons(int set, int other, const word *refused, word n)
{
    const size_t d = 3, e = 2, count = 5;
    char where[40];
    batch b = whole(n, d, e, count);
    fill_many(n, d, e, count + 1);
    int last = other & 1;
    if (set & BATCH_WF) many_f[last ? b.fl - 1 : b.fl - d - 1] = n;
    if (set & BATCH_WG) many_g[last ? b.gl - 1 : b.gl - e - 1] = (word) -1;
    if (set & BATCH_N) b.n = refused[other];
    if (set & BATCH_D) b.d = other & 2 ? SIZE_MAX : 49, b.fl = b.d == 49 ? 250 : 0;
    if (set & BATCH_E) b.e = other & 2 ? SIZE_MAX : 49, b.gl = b.e == 49 ? 250 : 0;
    if (set & BATCH_FL) b.fl += last && b.fl ? (size_t) -1 : 1;
    if (set & BATCH_GL) b.gl += last && b.gl ? (size_t) -1 : 1;
    if (set & BATCH_OUT_SHORT) b.ol = last ? 0 : count - 1;
    if (set & BATCH_WORK_SHORT) b.wl = last ? 0 : WORK_LEN - 1;
    uint32_t status = set & BATCH_N ? JINGCOBU_BAD_MODULUS : set & (BATCH_D | BATCH_E | BATCH_FL | BATCH_GL) ? JINGCOBU_BAD_LENGTH
        : set & (BATCH_WF | BATCH_WG) ? JINGCOBU_BAD_WORD : set & BATCH_OUT_SHORT ? JINGCOBU_SHORT_RESULT
        : set & BATCH_WORK_SHORT ? JINGCOBU_SHORT_WORK : JINGCOBU_OK;
    snprintf(where, sizeof where, "set %d of reasons of a batch, %d", set, other);
    for (int s = 0; s < 2; s++) batch_call(&batch_services[s], b, status, where);
}

static void batch_orders(const word *refused, word n)
{
    for (int other = 0; other < 4; other++)
        for (int set = 0; set < BATCH_SETS; set++) batch_reasons(set, other, refused, n);
    printf("%d sets of reasons to refuse many pairs\n", 4 * BATCH_SETS);
}

/* a word that is n at each place of each pair, and n - 1, which is taken */
static void batch_words(word n)
{
    const size_t d = 2, e = 1, count = 4;
    char where[60];
    for (size_t k = 0; k < count * (d + 1 + e + 1); k++)
        for (int large = 0; large < 2; large++) {
            fill_many(n, d, e, count);
            word *at = k < count * (d + 1) ? many_f + k : many_g + k - count * (d + 1);
            *at = large ? n : n - 1;
            snprintf(where, sizeof where, "many pairs: %s at place %zu", large ? "n" : "n - 1", k);
            uint32_t status = large ? JINGCOBU_BAD_WORD : JINGCOBU_OK;
            for (int s = 0; s < 2; s++) batch_call(&batch_services[s], whole(n, d, e, count), status, where);
        }
}

/* no pair at all: answered, whatever the degrees up to 48 are, with nothing lent but work; the refusals come before that */
static void no_pairs(const word *refused, word n)
{
    for (size_t d = 0; d <= 48; d += 16)
        for (int s = 0; s < 2; s++) {
            const batch_service *x = &batch_services[s];
            batch b = whole(n, d, 48 - d, 0);
            batch_call(x, b, JINGCOBU_OK, "no pairs");
            b.ol = 3;
            batch_call(x, b, JINGCOBU_OK, "no pairs, words of out");
            b.wl = WORK_LEN - 1;
            batch_call(x, b, JINGCOBU_SHORT_WORK, "no pairs, short work");
            b.fl = 1;
            batch_call(x, b, JINGCOBU_BAD_LENGTH, "no pairs, a word of f");
            b.fl = 0, b.gl = 1;
            batch_call(x, b, JINGCOBU_BAD_LENGTH, "no pairs, a word of g");
            b.gl = 0, b.d = 49;
            batch_call(x, b, JINGCOBU_BAD_LENGTH, "no pairs of degree 49");
            b.n = refused[1];
            batch_call(x, b, JINGCOBU_BAD_MODULUS, "no pairs modulo 1");
        }
}

/* what multiplied by the odd k is 1, modulo 2^64 */
static size_t inverse_of(size_t k)
{
    size_t x = k;
    for (int i = 0; i < 6; i++) x *= 2 - k * x;
    return x;
}

/* a call whose buffers are not there: it is refused unread */
static void __attribute__((noinline)) unread_batch(const batch_service *s, batch b, uint32_t status, const char *where)
{
    REFUSED(s->call(b.n, at_or_null(NOWHERE, b.fl), b.fl, b.d, at_or_null(NOWHERE, b.gl), b.gl, b.e, b.count, b.ol ? NOWHERE : NULL, b.ol,
                    b.wl ? NOWHERE : NULL, b.wl), status, s->name, where);
}

/* A count so large that its product with k = d + 1 is beyond size_t, and is the length that is lent but for a multiple of 2^64: k is a
 * power of 2 times an odd number, and the odd number times the count is that length, but for what the power of 2 makes vanish. */
static void beyond(const batch_service *s, word n, size_t k, uint32_t status)
{
    size_t odd = k, twos = 0;
    while (odd % 2 == 0) odd /= 2, twos++;
    for (size_t rest = 0; rest < 3; rest++) {
        size_t length = rest << twos, count = inverse_of(odd) * rest + (twos ? (size_t) 1 << (64 - twos) : 0);
        if (count <= SIZE_MAX / k) continue;                                         /* it fits after all */
        expect(count * k == length, "the length is the product modulo 2^64", s->name);
        unread_batch(s, (batch) { n, length, k - 1, count, 0, count, SIZE_MAX, SIZE_MAX }, status, "a count beyond, f");
        unread_batch(s, (batch) { n, count, 0, length, k - 1, count, SIZE_MAX, SIZE_MAX }, status, "a count beyond, g");
        unread_batch(s, (batch) { n, length, k - 1, length, k - 1, count, 0, 0 }, status, "a count beyond, f and g");
    }
}

/* lengths that fit no count, degrees above 48 */
static void unread_lengths(const batch_service *s, word n, uint32_t status)
{
    static const size_t degrees[] = { 1, 48, 49, 4096, SIZE_MAX };
    for (int i = 0; i < 15; i++) {
        size_t length = refused_lengths[i % 3], d = degrees[i / 3];
        unread_batch(s, (batch) { n, length, d, 2, 1, 1, SIZE_MAX, SIZE_MAX }, status, "the length of f");
        unread_batch(s, (batch) { n, 2, 1, length, d, 1, SIZE_MAX, SIZE_MAX }, status, "the length of g");
        unread_batch(s, (batch) { n, length, d, length, d, length, SIZE_MAX, SIZE_MAX }, status, "both lengths");
        unread_batch(s, (batch) { n, length, d, length, d, SIZE_MAX, 0, 0 }, status, "both lengths, the largest count");
    }
}

static void batch_unread(const word *refused, word n)
{
    long before = unread_calls;
    watch();
    for (int i = 0; i < 4; i++) {
        const batch_service *s = &batch_services[i % 2];
        word m = i < 2 ? n : refused[1];
        uint32_t status = i < 2 ? JINGCOBU_BAD_LENGTH : JINGCOBU_BAD_MODULUS;
        unread_lengths(s, m, status);
        for (size_t k = 2; k <= MOST; k++) beyond(s, m, k, status);
    }
    printf("%ld calls for many pairs with lengths that are refused unread\n", unread_calls - before);
    unread_calls = before;
}

/* what is drawn afterwards is the same with it and without it */
static void batches(const word *moduli, size_t count, const word *refused, word n)
{
    uint64_t before = state;
    drawn_batches(moduli, count, 400);
    batch_orders(refused, n);
    batch_words(n);
    no_pairs(refused, n);
    batch_unread(refused, n);
    state = before;
}
