/* Fills a small table through jingcobu.h: pairs of polynomials, their resultants, and their reduced resultants D. The cofactors u and v
 * that come with D are not printed, because more than one pair is right; they are multiplied out: u f + v g must be D.
 * Build and run: make -C examples, which also compares the output with the file `expected`. */
#include <stdio.h>
#include "../include/jingcobu.h"

struct row { uint32_t n; size_t f_len, g_len; uint32_t f[4], g[4]; };

static const struct row table[] = {
    { 7, 2, 2, { 1, 1 }, { 2, 1 } },
    { 12, 2, 2, { 3, 2 }, { 1, 4 } },
    { 4, 2, 2, { 1, 2 }, { 3, 2 } },
    { 9, 1, 3, { 3 }, { 1, 0, 1 } },
    { 5, 3, 2, { 2, 1, 0 }, { 1, 1 } },           /* a zero top word counts: the resultant is 1 here */
    { 5, 2, 2, { 2, 1 }, { 1, 1 } },              /* and 4 here */
    { 4294967295u, 1, 2, { 4294967294u }, { 0, 1 } },
    { 1, 1, 1, { 0 }, { 0 } },                    /* refused with 1 */
    { 5, 2, 2, { 2, 7 }, { 1, 1 } },              /* refused with 3: 7 is not a residue modulo 5 */
};

/* the l words of a polynomial as they are sent, zero tops too */
static void show(const char *name, const uint32_t *w, size_t l)
{
    printf(" %s =", name);
    for (size_t i = 0; i < l; i++) printf("%s%u", i ? "," : " ", w[i]);
}

/* L = K * max(d, e) + 1 */
static size_t cofactor_length(uint32_t n, size_t f_len, size_t g_len)
{
    size_t k = 0;
    while (n > 1) { n /= 2; k++; }
    return k * ((f_len > g_len ? f_len : g_len) - 1) + 1;
}

/* whether u f + v g is the constant D modulo n */
static int combines(const struct row *r, const uint32_t *u, const uint32_t *v, size_t l, uint32_t D)
{
    size_t longer = r->f_len > r->g_len ? r->f_len : r->g_len;
    for (size_t k = 0; k < l + longer - 1; k++) {
        uint64_t sum = 0;
        for (size_t i = 0; i < r->f_len && i <= k; i++)
            if (k - i < l) sum = (sum + (uint64_t)r->f[i] * u[k - i]) % r->n;
        for (size_t i = 0; i < r->g_len && i <= k; i++)
            if (k - i < l) sum = (sum + (uint64_t)r->g[i] * v[k - i]) % r->n;
        if (sum != (k == 0 ? D % r->n : 0)) return 0;
    }
    return 1;
}

int main(void)
{
    int wrong = 0;
    static uint32_t work[JINGCOBU_WORK], u[JINGCOBU_COFACTOR], v[JINGCOBU_COFACTOR];
    for (size_t i = 0; i < sizeof table / sizeof *table; i++) {
        const struct row *r = &table[i];
        printf("n = %u", r->n);
        show("f", r->f, r->f_len);
        show("g", r->g, r->g_len);
        jingcobu_answer a = jingcobu_resultant(r->n, r->f, r->f_len, r->g, r->g_len, work, JINGCOBU_WORK);
        if (a.status == JINGCOBU_OK) printf(": resultant %u", a.value);
        else printf(": resultant refused with %u", a.status);
        a = jingcobu_reduced_resultant(r->n, r->f, r->f_len, r->g, r->g_len, u, JINGCOBU_COFACTOR, v, JINGCOBU_COFACTOR,
                                       work, JINGCOBU_WORK);
        if (a.status == JINGCOBU_OK) {
            size_t l = cofactor_length(r->n, r->f_len, r->g_len);
            int right = combines(r, u, v, l, a.value);
            wrong += !right;
            printf(", D %u %s u f + v g\n", a.value, right ? "=" : "IS NOT");
        } else {
            printf(", D refused with %u\n", a.status);
        }
    }
    return wrong != 0;
}
