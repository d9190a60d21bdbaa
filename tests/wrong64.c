/* Wrong versions of the services with words of 64 bits, each of which tests/host64.c must detect; tests/wrong.c has those of 32 bits,
 * and says how they stand between the host and the library. Build and run: make -C tests wrong */
#include <stdlib.h>
#include <string.h>
#include "../include/jingcobu.h"

#define LIMIT ((uint64_t) 1 << 63)
#define NARROW(x) ((x) & 0xffffffffu)

jingcobu64_answer __real_jingcobu64_product(uint64_t, const uint64_t *, size_t, const uint64_t *, size_t, uint64_t *, size_t);
jingcobu64_answer __real_jingcobu64_resultant(uint64_t, const uint64_t *, size_t, const uint64_t *, size_t, uint64_t *, size_t);
jingcobu64_answer __real_jingcobu64_reduced_resultant(uint64_t, const uint64_t *, size_t, const uint64_t *, size_t, uint64_t *, size_t,
                                                      uint64_t *, size_t, uint64_t *, size_t);
jingcobu64_cofactors __real_jingcobu64_gcd(uint64_t, uint64_t, uint64_t);
jingcobu_degree __real_jingcobu64_true_degree(uint64_t, const uint64_t *, size_t);
jingcobu64_answer __real_jingcobu64_divisor(uint64_t, const uint64_t *, size_t, const uint64_t *, size_t, uint64_t *, size_t);

enum {
    RIGHT,
    RESULTANT_ONE_TOO_HIGH, RESULTANT_LOSES_THE_HIGH_HALF, RESULTANT_WITHOUT_ZERO_TOPS, RESULTANT_OF_EXCHANGED,
    RESULTANT_LEAVES_THE_LAST_WORKING_WORD, RESULTANT_WIPES_8192_WORDS, RESULTANT_WRITES_BEHIND_WORK, RESULTANT_TAKES_8192_WORDS,
    RESULTANT_TAKES_16383_WORDS, RESULTANT_REFUSES_16384_WORDS, RESULTANT_ANSWERS_2_TO_63, RESULTANT_ANSWERS_2_TO_64_LESS_1,
    RESULTANT_REFUSES_2_TO_63_LESS_1, RESULTANT_REFUSES_33_BITS, RESULTANT_WORK_BEFORE_WORDS, RESULTANT_LENGTHS_BEFORE_MODULUS,
    RESULTANT_COMPARES_32_BITS_OF_WORDS, RESULTANT_REFUSED_WIPES_WORK, RESULTANT_REFUSED_HAS_A_VALUE, RESULTANT_WRITES_F,
    REDUCED_ONE_TOO_HIGH, REDUCED_LOSES_THE_HIGH_HALF, REDUCED_OF_N_ALWAYS, REDUCED_OF_ONE_ALWAYS, REDUCED_DOUBLED,
    REDUCED_CHANGES_U_BEYOND_L, REDUCED_CHANGES_V_BEYOND_L, REDUCED_CHANGES_A_COFACTOR_WORD, REDUCED_EXCHANGES_COFACTORS,
    REDUCED_COFACTORS_ABOVE_N, REDUCED_K_OF_32_BITS, REDUCED_REFUSES_L_WORDS, REDUCED_TAKES_SHORT_V, REDUCED_WORK_BEFORE_RESULTS,
    REDUCED_RESULTS_BEFORE_WORDS, REDUCED_TAKES_8192_WORDS, REDUCED_ANSWERS_2_TO_63, REDUCED_LEAVES_THE_LAST_WORKING_WORD,
    REDUCED_WIPES_8192_WORDS, REDUCED_REFUSED_WIPES_U, REDUCED_REFUSED_WIPES_V, REDUCED_REFUSED_WIPES_WORK, REDUCED_REFUSED_HAS_A_VALUE,
    REDUCED_WRITES_G, CONSTANTS_GREATER_V,
    PRODUCT_ONE_TOO_HIGH, PRODUCT_LOSES_THE_HIGH_HALF, PRODUCT_OF_LOW_HALVES, PRODUCT_LEAVES_A_ZERO_TOP, PRODUCT_CHANGES_A_WORD_BEYOND,
    PRODUCT_HAS_A_VALUE, PRODUCT_TAKES_DEGREE_49, PRODUCT_WORDS_BEFORE_LENGTHS, PRODUCT_ANSWERS_2_TO_63, PRODUCT_REFUSES_ENOUGH_WORDS,
    PRODUCT_REFUSED_WIPES, PRODUCT_WRITES_F,
    DIVISOR_LOSES_THE_HIGH_HALF, DIVISOR_OF_N_ALWAYS, DIVISOR_0_FOR_N, DIVISOR_IS_GCD_WITH_RESULTANT, DIVISOR_TAKES_8192_WORDS,
    DIVISOR_ANSWERS_2_TO_63, DIVISOR_WORK_BEFORE_WORDS, DIVISOR_LEAVES_THE_LAST_WORKING_WORD, DIVISOR_REFUSED_WIPES_WORK,
    DIVISOR_REFUSED_HAS_A_VALUE, DIVISOR_WRITES_G,
    MANY_FIRST, MANY_LAST = MANY_FIRST + 45,
    GCD_EXCHANGED, GCD_GREATER_T, GCD_WITHOUT_N, GCD_TAKES_B_ABOVE_N, GCD_LOSES_THE_HIGH_HALF, GCD_ANSWERS_2_TO_63, GCD_REFUSED_HAS_VALUES,
    DEGREE_IS_SENT, DEGREE_0_FOR_ZERO, DEGREE_OF_LOW_HALVES, DEGREE_TAKES_LARGE_WORDS, DEGREE_ANSWERS_2_TO_63, DEGREE_REFUSED_HAS_SOME,
    RESULTANT_LOOKS_AT_F, REDUCED_LOOKS_AT_G, DEGREE_LOOKS_AT_F,
    VERSIONS
};

typedef uint64_t word;
#include "wrong.h"

/* a refusal with `from` becomes one with `to` */
static void becomes(int wrong, int meets, jingcobu64_answer *a, uint32_t from, uint32_t to)
{
    if (version() == wrong && meets && a->status == from) a->status = to;
}

jingcobu64_answer __wrap_jingcobu64_resultant(uint64_t n, const uint64_t *f, size_t fl, const uint64_t *g, size_t gl, uint64_t *work, size_t wl)
{
    int w = version();
    if (w == RESULTANT_LOOKS_AT_F && fl) seen = f[0];
    if (straight(w)) return __real_jingcobu64_resultant(n, f, fl, g, gl, work, wl);
    if (w == RESULTANT_WITHOUT_ZERO_TOPS) {
        fl = without_zeros(f, fl);
        gl = without_zeros(g, gl);
    }
    uint64_t kept = wl > 8192 ? work[8192] : 0;
    jingcobu64_answer a = w == RESULTANT_OF_EXCHANGED ? __real_jingcobu64_resultant(n, g, gl, f, fl, work, wl)
                                                      : __real_jingcobu64_resultant(n, f, fl, g, gl, work, wl);
    becomes(RESULTANT_WORK_BEFORE_WORDS, wl < 16384, &a, 3, 7);
    becomes(RESULTANT_LENGTHS_BEFORE_MODULUS, fl < 1 || fl > 49 || gl < 1 || gl > 49, &a, 1, 2);
    if ((w == RESULTANT_TAKES_8192_WORDS && a.status == 7 && wl == 8192) || (w == RESULTANT_TAKES_16383_WORDS && a.status == 7 && wl == 16383)
        || (w == RESULTANT_ANSWERS_2_TO_63 && a.status == 1 && n == LIMIT && wl >= 16384)
        || (w == RESULTANT_ANSWERS_2_TO_64_LESS_1 && a.status == 1 && n == UINT64_MAX && wl >= 16384)
        || (w == RESULTANT_COMPARES_32_BITS_OF_WORDS && a.status == 3 && wl >= 16384 && fl == 1 && NARROW(g[gl - 1]) < n)) {
        a.status = 0;
        wipe(work, wl);
        return a;
    }
    if (w == RESULTANT_REFUSED_WIPES_WORK && a.status) wipe(work, wl);
    if (w == RESULTANT_REFUSED_HAS_A_VALUE && a.status) a.value = 1;
    if (a.status) return a;
    if (w == RESULTANT_ONE_TOO_HIGH) a.value++;
    if (w == RESULTANT_LOSES_THE_HIGH_HALF) a.value = NARROW(a.value);
    if (w == RESULTANT_LEAVES_THE_LAST_WORKING_WORD) work[wl - 1] = 1;
    if (w == RESULTANT_WIPES_8192_WORDS) work[8192] = kept;
    if (w == RESULTANT_WRITES_BEHIND_WORK) work[wl] = 0;
    if (w == RESULTANT_REFUSES_16384_WORDS && wl == 16384) { a.value = 0; a.status = 7; }
    if (w == RESULTANT_REFUSES_2_TO_63_LESS_1 && n == LIMIT - 1) { a.value = 0; a.status = 1; }
    if (w == RESULTANT_REFUSES_33_BITS && n >> 32) { a.value = 0; a.status = 1; }
    if (w == RESULTANT_WRITES_F) ((uint64_t *) f)[0] = 0;
    return a;
}

jingcobu64_answer __wrap_jingcobu64_reduced_resultant(uint64_t n, const uint64_t *f, size_t fl, const uint64_t *g, size_t gl, uint64_t *u,
                                                      size_t ul, uint64_t *v, size_t vl, uint64_t *work, size_t wl)
{
    int w = version();
    if (w == REDUCED_LOOKS_AT_G && gl) seen = g[0];
    if (straight(w)) return __real_jingcobu64_reduced_resultant(n, f, fl, g, gl, u, ul, v, vl, work, wl);
    size_t l = 1, k = 0;
    for (uint64_t m = n; m > 1; m /= 2) k++;
    if (fl && gl) l += k * ((fl > gl ? fl : gl) - 1);
    uint64_t kept = wl > 8192 ? work[8192] : 0;
    jingcobu64_answer a = __real_jingcobu64_reduced_resultant(n, f, fl, g, gl, u, ul, v, vl, work, wl);
    becomes(REDUCED_WORK_BEFORE_RESULTS, wl < 16384, &a, 6, 7);
    becomes(REDUCED_RESULTS_BEFORE_WORDS, ul < l || vl < l, &a, 3, 6);
    if ((w == REDUCED_TAKES_8192_WORDS && a.status == 7 && wl == 8192) || (w == REDUCED_ANSWERS_2_TO_63 && a.status == 1 && n == LIMIT && wl >= 16384)
        || (w == REDUCED_TAKES_SHORT_V && a.status == 6 && ul >= l && wl >= 16384)
        || (w == REDUCED_K_OF_32_BITS && a.status == 6 && k > 31 && ul >= 31 * (l - 1) / k + 1 && vl >= 31 * (l - 1) / k + 1 && wl >= 16384)) {
        a.value = n;
        a.status = 0;
        wipe(u, ul < l ? ul : l);
        wipe(v, vl < l ? vl : l);
        wipe(work, wl);
        return a;
    }
    if (w == REDUCED_REFUSED_WIPES_U && a.status) wipe(u, ul);
    if (w == REDUCED_REFUSED_WIPES_V && a.status) wipe(v, vl);
    if (w == REDUCED_REFUSED_WIPES_WORK && a.status) wipe(work, wl);
    if (w == REDUCED_REFUSED_HAS_A_VALUE && a.status) a.value = n;
    if (a.status) return a;
    if (w == REDUCED_ONE_TOO_HIGH) a.value++;
    if (w == REDUCED_LOSES_THE_HIGH_HALF) a.value = NARROW(a.value);
    if (w == REDUCED_OF_N_ALWAYS) { a.value = n; wipe(u, l); wipe(v, l); }
    if (w == REDUCED_OF_ONE_ALWAYS) a.value = 1;
    if (w == REDUCED_DOUBLED && n % 2 == 0 && n / 2 % a.value == 0) {
        a.value *= 2;
        for (size_t i = 0; i < l; i++) { u[i] = 2 * u[i] % n; v[i] = 2 * v[i] % n; }
    }
    if (w == REDUCED_CHANGES_U_BEYOND_L && l < ul) u[l] = 0;
    if (w == REDUCED_CHANGES_V_BEYOND_L && l < vl) v[vl - 1]++;
    if (w == REDUCED_CHANGES_A_COFACTOR_WORD && l > 1000) u[l - 1] = (u[l - 1] + 1) % n;
    if (w == REDUCED_EXCHANGES_COFACTORS) for (size_t i = 0; i < l; i++) { uint64_t x = u[i]; u[i] = v[i]; v[i] = x; }
    if (w == REDUCED_COFACTORS_ABOVE_N) u[0] += n;
    if (w == REDUCED_REFUSES_L_WORDS && ul == l) { a.value = 0; a.status = 6; }
    if (w == REDUCED_LEAVES_THE_LAST_WORKING_WORD) work[wl - 1] = 1;
    if (w == REDUCED_WIPES_8192_WORDS) work[8192] = kept;
    if (w == REDUCED_WRITES_G) ((uint64_t *) g)[gl - 1] = 0;
    if (w == CONSTANTS_GREATER_V && fl == 1 && gl == 1) {
        uint64_t step = n / divisor(g[0], n);
        if (n - v[0] > step) v[0] += step;
    }
    return a;
}

jingcobu64_answer __wrap_jingcobu64_product(uint64_t n, const uint64_t *f, size_t fl, const uint64_t *g, size_t gl, uint64_t *out, size_t ol)
{
    int w = version();
    if (straight(w)) return __real_jingcobu64_product(n, f, fl, g, gl, out, ol);
    size_t l = fl && gl ? fl + gl - 1 : 0;
    uint64_t top = l && l <= ol ? out[l - 1] : 0;
    jingcobu64_answer a = __real_jingcobu64_product(n, f, fl, g, gl, out, ol);
    becomes(PRODUCT_WORDS_BEFORE_LENGTHS, large(n, f, fl), &a, 2, 3);
    becomes(PRODUCT_TAKES_DEGREE_49, fl && gl && fl < 50 && gl < 50 && l == 50, &a, 2, 0);
    becomes(PRODUCT_ANSWERS_2_TO_63, n == LIMIT, &a, 1, 0);
    if (w == PRODUCT_REFUSED_WIPES && a.status) wipe(out, ol);
    if (a.status || w == PRODUCT_TAKES_DEGREE_49 || w == PRODUCT_ANSWERS_2_TO_63) return a;
    if (w == PRODUCT_ONE_TOO_HIGH) out[l / 2]++;
    if (w == PRODUCT_LOSES_THE_HIGH_HALF) for (size_t i = 0; i < l; i++) out[i] = NARROW(out[i]);
    if (w == PRODUCT_OF_LOW_HALVES)
        for (size_t i = 0; i < l; i++) {
            uint64_t s = 0;
            for (size_t j = 0; j <= i && j < fl; j++) if (i - j < gl) s = (s + f[j] * g[i - j]) % n;
            out[i] = s;
        }
    if (w == PRODUCT_LEAVES_A_ZERO_TOP && out[l - 1] == 0) out[l - 1] = top;
    if (w == PRODUCT_CHANGES_A_WORD_BEYOND && l < ol) out[l] = 0;
    if (w == PRODUCT_HAS_A_VALUE) a.value = out[0];
    if (w == PRODUCT_REFUSES_ENOUGH_WORDS && ol == l) a.status = 6;
    if (w == PRODUCT_WRITES_F) ((uint64_t *) f)[0] = 0;
    return a;
}

jingcobu64_answer __wrap_jingcobu64_divisor(uint64_t n, const uint64_t *f, size_t fl, const uint64_t *g, size_t gl, uint64_t *work, size_t wl)
{
    int w = version();
    if (straight(w)) return __real_jingcobu64_divisor(n, f, fl, g, gl, work, wl);
    jingcobu64_answer a = __real_jingcobu64_divisor(n, f, fl, g, gl, work, wl);
    becomes(DIVISOR_WORK_BEFORE_WORDS, wl < 16384, &a, 3, 7);
    if ((w == DIVISOR_TAKES_8192_WORDS && a.status == 7 && wl == 8192)
        || (w == DIVISOR_ANSWERS_2_TO_63 && a.status == 1 && n == LIMIT && wl >= 16384)) {
        wipe(work, wl);
        return (jingcobu64_answer) { n, 0 };
    }
    if (w == DIVISOR_REFUSED_WIPES_WORK && a.status) wipe(work, wl);
    if (w == DIVISOR_REFUSED_HAS_A_VALUE && a.status) a.value = n;
    if (a.status) return a;
    if (w == DIVISOR_LOSES_THE_HIGH_HALF) a.value = NARROW(a.value);
    if (w == DIVISOR_OF_N_ALWAYS) a.value = n;
    if (w == DIVISOR_0_FOR_N) a.value %= n;
    if (w == DIVISOR_IS_GCD_WITH_RESULTANT) a.value = divisor(n, __real_jingcobu64_resultant(n, f, fl, g, gl, work, wl).value);
    if (w == DIVISOR_LEAVES_THE_LAST_WORKING_WORD) work[wl - 1] = 1;
    if (w == DIVISOR_WRITES_G) ((uint64_t *) g)[gl - 1] = g[gl - 1] ? 0 : 1;
    return a;
}

jingcobu64_cofactors __wrap_jingcobu64_gcd(uint64_t n, uint64_t a, uint64_t b)
{
    int w = version();
    jingcobu64_cofactors c = __real_jingcobu64_gcd(n, w == GCD_EXCHANGED ? b : a, w == GCD_EXCHANGED ? a : b);
    if (w == GCD_TAKES_B_ABOVE_N && c.status == 3 && a < n) c = __real_jingcobu64_gcd(n, a, b % n);
    if (w == GCD_ANSWERS_2_TO_63 && c.status == 1 && n == LIMIT) c = (jingcobu64_cofactors) { 1, 0, 0, 0 };
    if (w == GCD_REFUSED_HAS_VALUES && c.status) c.g = 1;
    if (c.status) return c;
    if (w == GCD_GREATER_T && n - c.t > n / divisor(b, n)) c.t += n / divisor(b, n);
    if (w == GCD_WITHOUT_N) c.g = divisor(a, b);
    if (w == GCD_LOSES_THE_HIGH_HALF) c.t = NARROW(c.t);
    return c;
}

jingcobu_degree __wrap_jingcobu64_true_degree(uint64_t n, const uint64_t *f, size_t fl)
{
    int w = version();
    if (w == DEGREE_LOOKS_AT_F && fl) seen = f[0];
    jingcobu_degree a = __real_jingcobu64_true_degree(n, f, fl);
    if ((w == DEGREE_TAKES_LARGE_WORDS && a.status == 3) || (w == DEGREE_ANSWERS_2_TO_63 && a.status == 1 && n == LIMIT)) a.status = 0;
    if (w == DEGREE_REFUSED_HAS_SOME && a.status) a.some = 1;
    if (a.status) return a;
    if (w == DEGREE_IS_SENT) a.degree = (uint32_t) fl - 1;
    if (w == DEGREE_0_FOR_ZERO) a.some = 1;
    while (w == DEGREE_OF_LOW_HALVES && a.some && a.degree && !NARROW(f[a.degree])) a.degree--;
    return a;
}

typedef jingcobu64_answer answer;
#define SERVICE(name) __wrap_jingcobu64_##name
#define REAL(name) __real_jingcobu64_##name
#define WORK_LEN JINGCOBU64_WORK
#include "wrong_batch.h"
