/* Times of the resultant of two variables beside FLINT's and PARI's, in one run, over a pool of different pairs: d = e = 6 in y, a = b = 5
 * in z, so B = 60, and smaller degrees. Each figure is the best of several passes over the pool by the processor's clock, PARI's by its
 * own, in microseconds a call. If a word of the engine is not FLINT's, or a call is refused, the program says which and exits with 1. At
 * the end a pair modulo 67 * 71: PARI stops if a leading coefficient has no inverse, and FLINT's function requires a prime modulus. Build
 * and run: make -C bench bivariate && bench/bivariate */
#include <stdint.h>
#include <stdio.h>
#include <stdlib.h>
#include <string.h>
#include <flint/flint.h>
#include <flint/nmod_mpoly.h>
#include "temporary.h"

#define POOL 40
#define PASSES 9
#define CLOCK CLOCK_PROCESS_CPUTIME_ID
#include "pool.h"

static uint32_t out[61];
static volatile uint32_t modulus = 4294967291u;

static jingcobu_answer engine(uint32_t n, int p, size_t d, size_t a)
{
    size_t words = (d + 1) * (a + 1);
    return jingcobu_resultant_two(n, first[p], words, d, a, second[p], words, d, a, out, 61, work, JINGCOBU_WORK);
}

/* y is variable 0, z variable 1 */
static void polynomial(nmod_mpoly_t F, const nmod_mpoly_ctx_t ctx, const uint32_t *f, size_t d, size_t a)
{
    ulong at[2];
    nmod_mpoly_zero(F, ctx);
    for (size_t i = 0; i <= d; i++)
        for (size_t j = 0; j <= a; j++) {
            at[0] = i; at[1] = j;
            nmod_mpoly_set_coeff_ui_ui(F, f[i * (a + 1) + j], at, ctx);
        }
}

static double flint(uint32_t n, size_t d, size_t a)
{
    nmod_mpoly_ctx_t ctx;
    nmod_mpoly_t F[POOL], G[POOL], R;
    double best = 1e30;
    nmod_mpoly_ctx_init(ctx, 2, ORD_LEX, n);
    nmod_mpoly_init(R, ctx);
    for (int p = 0; p < POOL; p++) {
        nmod_mpoly_init(F[p], ctx); nmod_mpoly_init(G[p], ctx);
        polynomial(F[p], ctx, first[p], d, a); polynomial(G[p], ctx, second[p], d, a);
    }
    for (int pass = 0; pass < PASSES; pass++) {
        double t = now();
        for (int p = 0; p < POOL; p++) if (!nmod_mpoly_resultant(R, F[p], G[p], 0, ctx)) wrong++;
        t = (now() - t) / POOL;
        if (t < best) best = t;
    }
    for (int p = 0; p < POOL; p++) {
        jingcobu_answer r = engine(n, p, d, a);
        nmod_mpoly_resultant(R, F[p], G[p], 0, ctx);
        for (ulong k = 0; k <= 2 * d * a; k++) {
            ulong at[2] = { 0, k };
            ulong x = nmod_mpoly_get_coeff_ui_ui(R, at, ctx);
            check(r.status == 0 && r.value == 0 && out[k] == x,
                  "n = %u, d = e = %zu, a = b = %zu, pair %d, word %lu: %u and status %u, FLINT %lu", n, d, a, p, k, out[k], r.status, x);
        }
        nmod_mpoly_clear(F[p], ctx); nmod_mpoly_clear(G[p], ctx);
    }
    nmod_mpoly_clear(R, ctx);
    nmod_mpoly_ctx_clear(ctx);
    return best;
}

static void polynomial_gp(FILE *s, const char *name, int p, const uint32_t *f, size_t d, size_t a)
{
    fprintf(s, "%s[%d]=Mod(1,n)*(", name, p + 1);
    for (size_t i = 0; i <= d; i++)
        for (size_t j = 0; j <= a; j++) fprintf(s, "+%u*y^%zu*z^%zu", f[i * (a + 1) + j], i, j);
    fprintf(s, ");\n");
}

/* PARI, by its own clock, on the pool as it stands */
static double pari(uint32_t n, size_t d, size_t a)
{
    int rounds = d * a < 20 ? 50 : 5;
    char script[PATH_ROOM], command[PATH_ROOM + 100];
    double theirs = -1;
    FILE *s = temporary(script);
    if (!s) return -1;
    fprintf(s, "y;z;n=%u;f=vector(%d);g=vector(%d);\n", n, POOL, POOL);
    for (int p = 0; p < POOL; p++) {
        polynomial_gp(s, "f", p, first[p], d, a);
        polynomial_gp(s, "g", p, second[p], d, a);
    }
    fprintf(s, "best=10^9;for(k=1,5,gettime();for(r=1,%d,for(p=1,%d,polresultant(f[p],g[p],y)));best=min(best,gettime()));print(best*1000./%d);\n",
            rounds, POOL, rounds * POOL);
    fclose(s);
    snprintf(command, sizeof command, "gp -q -f '%s' < /dev/null 2> /dev/null", script);
    FILE *in = popen(command, "r");
    if (in) {
        if (fscanf(in, "%lf", &theirs) != 1) theirs = -1;
        pclose(in);
    }
    remove(script);
    return theirs;
}

static void pair(size_t d, size_t a)
{
    uint32_t n = modulus;
    double ours = 1e30;
    fill(n, (d + 1) * (a + 1));
    for (int pass = 0; pass < PASSES; pass++) {
        double t = now();
        for (int p = 0; p < POOL; p++) if (engine(n, p, d, a).status) wrong++;
        t = (now() - t) / POOL;
        if (t < ours) ours = t;
    }
    double other = flint(n, d, a), theirs = pari(n, d, a);
    printf("n = %u, d = e = %zu, a = b = %zu, B = %2zu: resultant %8.2f us, FLINT nmod_mpoly_resultant %8.2f us, PARI polresultant %8.2f us, ratios %.2f %.2f\n",
           n, d, a, 2 * d * a, ours, other, theirs, ours / other, ours / theirs);
}

int main(void)
{
    pair(6, 5);
    pair(5, 6);
    pair(3, 4);
    pair(2, 2);
    /* neither lead is a unit */
    uint32_t f[6] = { 1, 0, 0, 1, 67, 0 }, g[6] = { 0, 1, 1, 0, 71, 0 }, is[5] = { 351, 4686, 4422, 71, 0 };
    jingcobu_answer r = jingcobu_resultant_two(4757, f, 6, 2, 1, g, 6, 2, 1, out, 61, work, JINGCOBU_WORK);
    printf("67 y^2 + z y + 1 and 71 y^2 + y + z modulo 4757 = 67 * 71: %u %u %u %u %u, status %u\n", out[0], out[1], out[2], out[3], out[4], r.status);
    if (r.status || memcmp(out, is, sizeof is)) wrong++;
    fflush(stdout);
    if (system("printf 'y;z;print(\"PARI polresultant there: \", iferr(polresultant(Mod(1,4757)*(67*y^2+z*y+1),Mod(1,4757)*(71*y^2+y+z),y),E,E))\\n' | gp -q -f 2> /dev/null"))
        printf("PARI (gp) did not answer\n");
    return wrong != 0;
}
