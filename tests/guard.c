/* Every function of the header, at both widths, with buffers of exact lengths between pages that cannot be touched and polynomials that
 * cannot be written (guarded.h), on drawn and on nasty calls (calls.h), compared with the header (checks.h) and with numbers computed
 * in the plainest way (naive.h). A length that is refused is lent at a place where nothing can be read.
 * It prints what failed and exits with 1, or prints how many calls were tried. The calls are the same in every run; the first argument
 * says how many of each function, 20000 by default, the second another seed.
 * Build and run: make -C tests guard */
#include "calls.h"
#include "checks.h"

static void print_words(const char *name, const uint64_t *w, size_t l)
{
    printf("  %s (%zu):", name, l);
    for (size_t i = 0; i < l && i < 60; i++) printf(" %llu", (unsigned long long) w[i]);
    printf("\n");
}

static void print_call(const trial *t, const char *what, long number)
{
    printf("FAILED: %s: %s, call %ld\n", names[t->function], what, number);
    printf("  status %u where %u is right; values %llu %llu %llu %llu\n", t->got.status, refusal(t), (unsigned long long) t->got.value[0],
           (unsigned long long) t->got.value[1], (unsigned long long) t->got.value[2], (unsigned long long) t->got.value[3]);
    printf("  n = %llu, number %u, claimed %llu, d a e b %zu %zu %zu %zu, k %zu, work %zu words, out %zu\n", (unsigned long long) t->n,
           t->number, (unsigned long long) t->claimed, t->d, t->a, t->e, t->b, t->k, buffer_work(t)->length, buffer_out(t)->length);
    print_words("f", t->f, buffer_f(t)->length);
    print_words("g", t->g, buffer_g(t)->length);
    print_words("u", t->u, t->in_u.length);
    print_words("v", t->v, t->in_v.length);
}

int main(int argc, char **argv)
{
    long calls = argc > 1 ? atol(argv[1]) : 20000, answered[FUNCTIONS] = { 0 };
    trial *t = new_trial();
    t->from.state = argc > 2 ? (uint64_t) atoll(argv[2]) : 20261115;
    tell_faults();
    for (long i = 0; i < calls; i++)
        for (int function = 0; function < FUNCTIONS; function++) {
            const char *what = tried(t, function, i);
            if (what) { print_call(t, what, i); return 1; }
            answered[function] += t->got.status == 0;
        }
    for (int function = 0; function < FUNCTIONS; function++)
        printf("%-20s %ld answered, %ld refused\n", names[function], answered[function], calls - answered[function]);
    printf("guard: %ld calls, all right\n", calls * FUNCTIONS);
    return 0;
}
