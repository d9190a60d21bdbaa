/* Times of the engine beside FLINT's and PARI's, in one run, over pools of different pairs, and where those two fail or return
 * another number. Each figure is the median of several passes over the pool, in microseconds of processor time per call, with the least
 * and the greatest in parentheses; the passes of the engine and of FLINT take turns. Pairs full of zero divisors are timed pair by pair:
 * the median of the pool, and the slowest pair. If a value of the engine is not the one it is compared with, or a call is refused, the
 * program says which and exits with 1. Build and run: make -C bench */
#include <stdio.h>
#include <stdlib.h>
#include <string.h>
#include <sys/wait.h>
#include <unistd.h>
#include <flint/flint.h>
#include <flint/nmod_poly.h>
#include <flint/fmpz.h>
#include <flint/fmpz_poly.h>
#include "temporary.h"

#define POOL 100
#define PASSES 15
#define CLOCK CLOCK_PROCESS_CPUTIME_ID
#include "pool.h"

static uint32_t u[JINGCOBU_COFACTOR], v[JINGCOBU_COFACTOR];
static volatile uint32_t sink;

/* the resultant of pair p, compared with another number of it */
static void compare(const char *with, uint32_t n, int d, int p, uint32_t other)
{
    jingcobu_answer a = jingcobu_resultant(n, first[p], d + 1, second[p], d + 1, work, JINGCOBU_WORK);
    check(a.status == JINGCOBU_OK && a.value == other, "n = %u, d = e = %d, pair %d: value %u and status %u, %s %u", n, d, p, a.value,
          a.status, with, other);
}

/* D of pair p, compared with n (common factor) or 1 (none), for prime n */
static void compare_reduced(uint32_t n, int d, int p, int common)
{
    jingcobu_answer a = jingcobu_reduced_resultant(n, first[p], d + 1, second[p], d + 1, u, JINGCOBU_COFACTOR, v, JINGCOBU_COFACTOR,
                                                   work, JINGCOBU_WORK);
    check(a.status == JINGCOBU_OK && a.value == (common ? n : 1), "n = %u, d = e = %d, pair %d: D %u and status %u, "
          "but the polynomials have %s", n, d, p, a.value, a.status, common ? "a common factor" : "no common factor");
}

/* the passes of two calls in turn, the engine's and FLINT's, each over the pool */
enum service { RESULTANT, REDUCED };
static nmod_poly_t poly_f[POOL], poly_g[POOL], h, s, t;
static void pass_engine(enum service service, uint32_t n, int d)
{
    for (int r = 0; r < 10; r++)
        for (int p = 0; p < POOL; p++) {
            if (service == RESULTANT) sink = jingcobu_resultant(n, first[p], d + 1, second[p], d + 1, work, JINGCOBU_WORK).value;
            else sink = jingcobu_reduced_resultant(n, first[p], d + 1, second[p], d + 1, u, JINGCOBU_COFACTOR, v, JINGCOBU_COFACTOR, work,
                                                   JINGCOBU_WORK).value;
        }
}

static void pass_flint(enum service service)
{
    for (int r = 0; r < 10; r++)
        for (int p = 0; p < POOL; p++) {
            if (service == RESULTANT) sink = (uint32_t) nmod_poly_resultant(poly_f[p], poly_g[p]);
            else { nmod_poly_xgcd(h, s, t, poly_f[p], poly_g[p]); sink = (uint32_t) h->length; }
        }
}

static spread passes(enum service service, const char *ours, const char *theirs, uint32_t n, int d)
{
    double a[PASSES], b[PASSES];
    for (int pass = 0; pass < PASSES; pass++) {
        double c = now();
        pass_engine(service, n, d);
        a[pass] = (now() - c) / (10 * POOL);
        c = now();
        pass_flint(service);
        b[pass] = (now() - c) / (10 * POOL);
    }
    spread x = spread_of(a, PASSES), y = spread_of(b, PASSES);
    printf("n = %u, d = e = %2d: %s %7.2f us (%.2f to %.2f), FLINT %s %7.2f us (%.2f to %.2f), ratio %.2f\n", n, d, ours, x.median, x.least,
           x.most, theirs, y.median, y.least, y.most, x.median / y.median);
    return x;
}

/* PARI, by its own clock, on the pool as it stands: the median of five passes */
static void pari(uint32_t n, int d, double ours)
{
    char script[PATH_ROOM], command[PATH_ROOM + 100];
    FILE *out = temporary(script);
    if (!out) return;
    fprintf(out, "F=vector(%d);G=vector(%d);\n", POOL, POOL);
    for (int p = 0; p < POOL; p++)
        for (int side = 0; side < 2; side++) {
            fprintf(out, "%c[%d]=Mod(1,%u)*Polrev([", side ? 'G' : 'F', p + 1, n);
            for (int k = 0; k <= d; k++) fprintf(out, "%s%u", k ? "," : "", (side ? second : first)[p][k]);
            fprintf(out, "]);\n");
        }
    fprintf(out, "b=vector(5,s,gettime();for(r=1,20,for(i=1,%d,polresultant(F[i],G[i])));gettime());print(vecsort(b)[3]*1000./(20*%d));\n", POOL, POOL);
    fclose(out);
    snprintf(command, sizeof command, "gp -q -f '%s' < /dev/null 2> /dev/null", script);
    FILE *in = popen(command, "r");
    double theirs = 0;
    if (in && fscanf(in, "%lf", &theirs) == 1)
        printf("n = %u, d = e = %2d: resultant %7.2f us, PARI polresultant %7.2f us, ratio %.2f\n", n, d, ours, theirs, ours / theirs);
    else
        printf("n = %u: PARI (gp) did not answer\n", n);
    if (in) pclose(in);
    remove(script);
}

static void prime_modulus(uint32_t n, int d)
{
    fill(n, d + 1);
    nmod_poly_init(h, n); nmod_poly_init(s, n); nmod_poly_init(t, n);
    for (int p = 0; p < POOL; p++) {
        nmod_poly_init(poly_f[p], n); nmod_poly_init(poly_g[p], n);
        for (int k = 0; k <= d; k++) {
            nmod_poly_set_coeff_ui(poly_f[p], k, first[p][k]);
            nmod_poly_set_coeff_ui(poly_g[p], k, second[p][k]);
        }
        compare("FLINT nmod_poly_resultant", n, d, p, (uint32_t) nmod_poly_resultant(poly_f[p], poly_g[p]));
        nmod_poly_gcd(h, poly_f[p], poly_g[p]);
        compare_reduced(n, d, p, h->length > 1);
    }
    pari(n, d, passes(RESULTANT, "resultant", "nmod_poly_resultant", n, d).median);
    passes(REDUCED, "reduced  ", "nmod_poly_xgcd     ", n, d);
    for (int p = 0; p < POOL; p++) { nmod_poly_clear(poly_f[p]); nmod_poly_clear(poly_g[p]); }
    nmod_poly_clear(h); nmod_poly_clear(s); nmod_poly_clear(t);
}

static void composite(uint32_t n, const char *name, const uint32_t *primes, int count, int d)
{
    double ratio[POOL], a_time[POOL], b_time[POOL];
    fmpz_poly_t f, g;
    fmpz_t r;
    fill_divisors(n, primes, count, d + 1, 0);
    fmpz_poly_init(f); fmpz_poly_init(g); fmpz_init(r);
    for (int p = 0; p < POOL; p++) {
        fmpz_poly_zero(f); fmpz_poly_zero(g);
        for (int k = 0; k <= d; k++) {
            fmpz_poly_set_coeff_ui(f, k, first[p][k]);
            fmpz_poly_set_coeff_ui(g, k, second[p][k]);
        }
        double ours = 1e30, theirs = 1e30;
        uint32_t other = 0;
        for (int pass = 0; pass < 5; pass++) {
            double t = now();
            sink = jingcobu_resultant(n, first[p], d + 1, second[p], d + 1, work, JINGCOBU_WORK).value;
            t = now() - t;
            if (t < ours) ours = t;
            t = now();
            fmpz_poly_resultant(r, f, g);
            other = (uint32_t) fmpz_fdiv_ui(r, n);
            t = now() - t;
            if (t < theirs) theirs = t;
        }
        compare("FLINT fmpz_poly_resultant modulo n", n, d, p, other);
        ratio[p] = theirs / ours;
        a_time[p] = ours;
        b_time[p] = theirs;
    }
    print_zero_divisors(name, d, ratio, a_time, b_time, POOL);
    fmpz_poly_clear(f); fmpz_poly_clear(g); fmpz_clear(r);
}

/* FLINT's nmod_poly_resultant in a process of its own: the number, or -1 if it did not return one */
static long flint_resultant(uint32_t n, const uint32_t *f, int fl, const uint32_t *g, int gl)
{
    int ends[2];
    uint64_t r = 0;
    if (pipe(ends)) return -1;
    fflush(stdout);
    pid_t child = fork();
    if (child == 0) {
        nmod_poly_t a, b;
        if (!freopen("/dev/null", "w", stderr) || !freopen("/dev/null", "w", stdout)) _exit(1);
        nmod_poly_init(a, n); nmod_poly_init(b, n);
        for (int k = 0; k < fl; k++) nmod_poly_set_coeff_ui(a, k, f[k]);
        for (int k = 0; k < gl; k++) nmod_poly_set_coeff_ui(b, k, g[k]);
        r = nmod_poly_resultant(a, b);
        _exit(write(ends[1], &r, sizeof r) != sizeof r);
    }
    int status = 0;
    close(ends[1]);
    waitpid(child, &status, 0);
    long got = read(ends[0], &r, sizeof r) == sizeof r && WIFEXITED(status) && WEXITSTATUS(status) == 0 ? (long) r : -1;
    close(ends[0]);
    return got;
}

/* FLINT's integer resultant modulo n of pair p */
static uint32_t integer_resultant(uint32_t n, int d, int p)
{
    fmpz_poly_t f, g;
    fmpz_t r;
    fmpz_poly_init(f); fmpz_poly_init(g); fmpz_init(r);
    for (int k = 0; k <= d; k++) {
        fmpz_poly_set_coeff_ui(f, k, first[p][k]);
        fmpz_poly_set_coeff_ui(g, k, second[p][k]);
    }
    fmpz_poly_resultant(r, f, g);
    uint32_t value = (uint32_t) fmpz_fdiv_ui(r, n);
    fmpz_poly_clear(f); fmpz_poly_clear(g); fmpz_clear(r);
    return value;
}

static void where_others_fail(uint32_t n, const char *name, const uint32_t *primes, int count)
{
    int fails = 0, other = 0;
    fill_divisors(n, primes, count, 7, 0);
    for (int p = 0; p < POOL; p++) {
        uint32_t right = integer_resultant(n, 6, p);
        compare("FLINT fmpz_poly_resultant modulo n", n, 6, p, right);
        long r = flint_resultant(n, first[p], 7, second[p], 7);
        if (r < 0) fails++;
        else if ((uint32_t) r != right) other++;
    }
    printf("n = %s, d = e = 6, zero divisors: FLINT nmod_poly_resultant fails at %d and answers another number at %d of %d pairs\n", name, fails, other, POOL);
}

static void zero_top(void)
{
    const uint32_t f[] = { 2, 1, 0 }, g[] = { 1, 1 };
    jingcobu_answer a = jingcobu_resultant(5, f, 3, g, 2, work, JINGCOBU_WORK);
    printf("n = 5, f = 2,1,0, g = 1,1 (sent degrees 2 and 1): resultant %u, FLINT nmod_poly_resultant %ld\n", a.value, flint_resultant(5, f, 3, g, 2));
    check(a.status == JINGCOBU_OK && a.value == 1, "n = 5, f = 2,1,0, g = 1,1: value %u and status %u, the resultant is 1", a.value, a.status);
    fflush(stdout);
    if (system("printf 'print(\"PARI polresultant there: \", lift(polresultant(Mod(1,5)*Polrev([2,1,0]),Mod(1,5)*Polrev([1,1]))))\\nprint(\"PARI polresultant of 3+2x and 1+4x modulo 12: \", iferr(lift(polresultant(Mod(1,12)*Polrev([3,2]),Mod(1,12)*Polrev([1,4]))),E,E), \" (the resultant is 2)\")\\n' | gp -q -f 2> /dev/null")) printf("PARI (gp) did not answer\n");
}

int main(void)
{
    const uint32_t two[] = { 2 }, three[] = { 3 }, many[] = { 2, 3, 5, 7, 11, 13, 17, 19, 23 }, six[] = { 2, 3 };
    for (int d = 12; d <= 48; d *= 2) prime_modulus(4294967291u, d);
    for (int d = 12; d <= 48; d *= 2) prime_modulus(2147483647u, d);
    composite(2147483648u, "2^31", two, 1, 48);
    composite(3486784401u, "3^20", three, 1, 48);
    composite(223092870u, "223092870", many, 9, 48);
    composite(2176782336u, "6^12", six, 2, 48);
    where_others_fail(2147483648u, "2^31", two, 1);
    where_others_fail(3486784401u, "3^20", three, 1);
    where_others_fail(223092870u, "223092870", many, 9);
    where_others_fail(2176782336u, "6^12", six, 2);
    zero_top();
    printf("wrong values of the engine: %d\n", wrong);
    return wrong != 0;
}
