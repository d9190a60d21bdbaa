/* What the header says of itself: the version, a text for each status, and that const buffers may be the same words or overlap. Prints
 * the version; usage: header (tests/header.sh). */
#include <stdio.h>
#include <string.h>
#include "jingcobu.h"

const char *version_elsewhere(void);  /* a second file of the program includes the header too */

#ifdef HEADER_ELSEWHERE
const char *version_elsewhere(void) { return jingcobu_version(); }
#else

static uint32_t work[JINGCOBU_WORK], u[JINGCOBU_COFACTOR], v[JINGCOBU_COFACTOR], u2[JINGCOBU_COFACTOR], v2[JINGCOBU_COFACTOR];
static uint64_t work64[JINGCOBU64_WORK], out64[2][49];

static int fail(const char *what) { printf("FAILED: %s\n", what); return 1; }

/* 0 to 17 have a text each, all different, and the next number has none. */
static int texts(void)
{
    for (unsigned i = 0; i <= JINGCOBU_NO_TEXT; i++) {
        if (strlen(jingcobu_status_text(i)) < 5 || !strcmp(jingcobu_status_text(i), "unknown status")) return fail("a status without a text");
        for (unsigned j = 0; j < i; j++)
            if (!strcmp(jingcobu_status_text(i), jingcobu_status_text(j))) return fail("two statuses with one text");
    }
    if (strcmp(jingcobu_status_text(18), "unknown status") || strcmp(jingcobu_status_text(~0u), "unknown status")) return fail("status 18");
    if (!strstr(jingcobu_status_text(JINGCOBU_BAD_MULTIPLIER), "4096")) return fail("the text of 16");
    return strstr(jingcobu_status_text(JINGCOBU_BAD_WORD), "n or more") ? 0 : fail("the text of 3");
}

static int same(jingcobu_answer a, jingcobu_answer b) { return !a.status && !b.status && a.value == b.value; }

/* f and g begin at the places i and j of one run of words, against copies that do not overlap */
static int overlapping(uint32_t n, const uint32_t *run, size_t i, size_t j, size_t count)
{
    uint32_t f[49], g[49], out[97], out2[97], w[JINGCOBU_COMMON], w2[JINGCOBU_COMMON];
    const uint32_t *p = run + i, *q = run + j;
    memcpy(f, p, count * sizeof *f);
    memcpy(g, q, count * sizeof *g);
    if (!same(jingcobu_resultant(n, p, count, q, count, work, JINGCOBU_WORK), jingcobu_resultant(n, f, count, g, count, work, JINGCOBU_WORK)))
        return fail("the resultant");
    if (!same(jingcobu_divisor(n, p, count, q, count, work, JINGCOBU_WORK), jingcobu_divisor(n, f, count, g, count, work, JINGCOBU_WORK)))
        return fail("D alone");
    if (!same(jingcobu_product(n, p, count, q, count, out, 97), jingcobu_product(n, f, count, g, count, out2, 97))
        || memcmp(out, out2, (2 * count - 1) * sizeof *out)) return fail("the product");
    memset(u, 0, sizeof u), memset(v, 0, sizeof v), memset(u2, 0, sizeof u2), memset(v2, 0, sizeof v2);
    if (!same(jingcobu_reduced_resultant(n, p, count, q, count, u, JINGCOBU_COFACTOR, v, JINGCOBU_COFACTOR, work, JINGCOBU_WORK),
              jingcobu_reduced_resultant(n, f, count, g, count, u2, JINGCOBU_COFACTOR, v2, JINGCOBU_COFACTOR, work, JINGCOBU_WORK))
        || memcmp(u, u2, sizeof u) || memcmp(v, v2, sizeof v)) return fail("the reduced resultant");
    jingcobu_reason a = jingcobu_why(n, p, count, q, count, w, JINGCOBU_COMMON, work, JINGCOBU_WORK);
    jingcobu_reason b = jingcobu_why(n, f, count, g, count, w2, JINGCOBU_COMMON, work, JINGCOBU_WORK);
    if (memcmp(&a, &b, sizeof a) || a.status || memcmp(w, w2, sizeof w)) return fail("why");
    jingcobu_answer c = jingcobu_check_claim(n, p, count, q, count, 1, p, count, q, count, work, JINGCOBU_WORK);
    if (!same(c, jingcobu_check_claim(n, f, count, g, count, 1, f, count, g, count, work, JINGCOBU_WORK))) return fail("a claim");
    /* as one pair, and as many pairs of constants */
    for (size_t d = 0; d < count; d += count - 1) {
        size_t pairs = count / (d + 1);
        if (!same(jingcobu_resultants(n, p, count, d, q, count, d, pairs, out, 97, work, JINGCOBU_WORK),
                  jingcobu_resultants(n, f, count, d, g, count, d, pairs, out2, 97, work, JINGCOBU_WORK))
            || memcmp(out, out2, pairs * sizeof *out)) return fail("the resultants of many pairs");
        if (!same(jingcobu_divisors(n, p, count, d, q, count, d, pairs, out, 97, work, JINGCOBU_WORK),
                  jingcobu_divisors(n, f, count, d, g, count, d, pairs, out2, 97, work, JINGCOBU_WORK))
            || memcmp(out, out2, pairs * sizeof *out)) return fail("D of many pairs");
    }
    if (memcmp(f, p, count * sizeof *f) || memcmp(g, q, count * sizeof *g)) return fail("a const buffer was written");
    return 0;
}

static int overlaps(void)
{
    uint32_t run[49];
    for (uint32_t i = 0; i < 49; i++) run[i] = (i * i * 7 + 3 * i + 5) % 36;
    if (overlapping(36, run, 0, 0, 9) || overlapping(36, run, 3, 5, 9) || overlapping(36, run, 8, 0, 20)) return 1;
    const uint64_t f[] = { 3, 2, UINT64_C(1) << 40 };
    jingcobu64_answer a = jingcobu64_resultant(UINT64_C(1) << 62, f, 3, f, 3, work64, JINGCOBU64_WORK);
    jingcobu64_answer p = jingcobu64_product(UINT64_C(1) << 62, f, 2, f, 2, out64[0], 3);
    if (a.status || a.value || p.status || out64[0][0] != 9 || out64[0][1] != 12 || out64[0][2] != 4) return fail("64 bits");
    return 0;
}

int main(void)
{
    if (strcmp(jingcobu_version(), JINGCOBU_VERSION) || strcmp(jingcobu_version(), version_elsewhere())) return fail("jingcobu_version");
    if (texts() || overlaps()) return 1;
    printf("%s\n", jingcobu_version());
    return 0;
}
#endif
