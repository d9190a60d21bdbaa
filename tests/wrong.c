/* Wrong versions of the services, each of which tests/host.c must detect. They stand between the host and the library (the
 * linker's --wrap); the number of the version is the first word of the environment's WRONG, and version 0 is the library itself.
 * Build and run: make -C tests wrong */
#include <stdlib.h>
#include <string.h>
#include "../include/jingcobu.h"

jingcobu_answer __real_jingcobu_product(uint32_t, const uint32_t *, size_t, const uint32_t *, size_t, uint32_t *, size_t);
jingcobu_answer __real_jingcobu_resultant(uint32_t, const uint32_t *, size_t, const uint32_t *, size_t, uint32_t *, size_t);
jingcobu_answer __real_jingcobu_reduced_resultant(uint32_t, const uint32_t *, size_t, const uint32_t *, size_t, uint32_t *, size_t,
                                                  uint32_t *, size_t, uint32_t *, size_t);
jingcobu_answer __real_jingcobu_product_word(uint32_t, const uint32_t *, size_t, const uint32_t *, size_t, uint32_t *, size_t, size_t);
jingcobu_degree __real_jingcobu_true_degree(uint32_t, const uint32_t *, size_t);
jingcobu_answer __real_jingcobu_read_text(uint32_t, const uint8_t *, size_t, uint32_t *, size_t);
jingcobu_answer __real_jingcobu_write_text(uint32_t, const uint32_t *, size_t, uint8_t *, size_t);
jingcobu_plan __real_jingcobu_shares(uint32_t, uint32_t, uint32_t, uint32_t, uint32_t);
jingcobu_cofactors __real_jingcobu_gcd(uint32_t, uint32_t, uint32_t);
jingcobu_factors_answer __real_jingcobu_factors_start(uint32_t, const uint32_t *, size_t);
jingcobu_factors_answer __real_jingcobu_factors_arrive(jingcobu_factors, uint16_t, const uint32_t *, size_t, uint32_t *, size_t);
jingcobu_factors_answer __real_jingcobu_factors_leave(jingcobu_factors, uint16_t);
jingcobu_answer __real_jingcobu_factors_read(jingcobu_factors);
jingcobu_answer __real_jingcobu_divisor(uint32_t, const uint32_t *, size_t, const uint32_t *, size_t, uint32_t *, size_t);
jingcobu_answer __real_jingcobu_resultant_cofactors(uint32_t, const uint32_t *, size_t, const uint32_t *, size_t, uint32_t *, size_t,
                                                    uint32_t *, size_t, uint32_t *, size_t);
jingcobu_reason __real_jingcobu_why(uint32_t, const uint32_t *, size_t, const uint32_t *, size_t, uint32_t *, size_t, uint32_t *, size_t);
jingcobu_answer __real_jingcobu_check_claim(uint32_t, const uint32_t *, size_t, const uint32_t *, size_t, uint32_t, const uint32_t *, size_t,
                                            const uint32_t *, size_t, uint32_t *, size_t);
jingcobu_answer __real_jingcobu_resultant_two(uint32_t, const uint32_t *, size_t, size_t, size_t, const uint32_t *, size_t, size_t, size_t,
                                              uint32_t *, size_t, uint32_t *, size_t);

enum {
    RIGHT,
    RESULTANT_OF_ONE_ALWAYS, RESULTANT_WITHOUT_ZERO_TOPS, RESULTANT_OF_EXCHANGED, RESULTANT_LEAVES_THE_LAST_WORKING_WORD,
    RESULTANT_WRITES_BEHIND_WORK, RESULTANT_TAKES_8191_WORDS, RESULTANT_REFUSES_8192_WORDS, RESULTANT_REFUSED_WIPES_WORK,
    RESULTANT_REFUSED_HAS_A_VALUE, RESULTANT_REFUSES_ALL_WITH_1, RESULTANT_REFUSES_DEGREE_48, RESULTANT_WRITES_F,
    REDUCED_OF_N_ALWAYS, REDUCED_OF_ONE_ALWAYS, REDUCED_DOUBLED, REDUCED_IS_GCD_WITH_RESULTANT, REDUCED_LEAVES_U, REDUCED_LEAVES_V,
    REDUCED_WIPES_BEYOND_L_IN_U, REDUCED_WIPES_BEYOND_L_IN_V, REDUCED_EXCHANGES_COFACTORS, REDUCED_COFACTORS_ABOVE_N,
    REDUCED_WORK_BEFORE_RESULTS, REDUCED_REFUSES_L_WORDS, REDUCED_TAKES_SHORT_V, REDUCED_REFUSED_WIPES_U, REDUCED_REFUSED_WIPES_V,
    REDUCED_REFUSED_WIPES_WORK, REDUCED_REFUSED_HAS_A_VALUE, REDUCED_LEAVES_THE_LAST_WORKING_WORD, REDUCED_WRITES_G,
    PRODUCT_LEAVES_A_ZERO_TOP, PRODUCT_WIPES_BEYOND, PRODUCT_HAS_A_VALUE, PRODUCT_TAKES_DEGREE_49, PRODUCT_WORDS_BEFORE_LENGTHS,
    PRODUCT_REFUSES_ENOUGH_WORDS, PRODUCT_REFUSED_WIPES, PRODUCT_OF_F_ALONE, PRODUCT_WRITES_F,
    WORD_IN_THE_NEXT_PLACE, WORD_OF_THE_NEXT_PLACE, WORD_WRITES_ALL, WORD_ADDED_TO_WHAT_IS_THERE, WORD_LEAVES_THE_TOP,
    WORD_ABOVE_IS_ZEROED, WORD_ABOVE_IS_REFUSED, WORD_BEFORE_OUT_FOR_THE_LAST_K, WORD_TAKES_K_PLUS_1_WORDS, WORD_HAS_A_VALUE,
    WORD_REFUSED_WIPES, WORD_TAKES_DEGREE_49, WORD_WRITES_G,
    DEGREE_0_FOR_ZERO, DEGREE_NONE_FOR_CONSTANTS, DEGREE_IS_SENT, DEGREE_OF_THE_LOWEST_WORD, DEGREE_COUNTS_WORDS,
    DEGREE_OF_ZERO_REFUSED, DEGREE_BESIDE_NONE, DEGREE_REFUSED_HAS_SOME, DEGREE_TAKES_LARGE_WORDS_BELOW, DEGREE_REFUSES_49_WORDS,
    DEGREE_WRITES_F,
    READS_A_LEADING_ZERO, READS_A_NEWLINE, READS_NO_TEXT_AS_ZERO, READS_UP_TO_A_ZERO_BYTE, READS_COEFFICIENT_N, READS_POWER_1,
    READS_X_ALONE, READS_LOW_TO_HIGH, READS_POWER_49_AS_NOTHING, READS_A_NUMBER_MODULO_2_TO_32, READ_COUNTS_THE_DEGREE,
    READ_COUNTS_NO_WORD_OF_ZERO, READ_LEAVES_WORDS_ABOVE, READ_WIPES_BEYOND_49, READ_SHORT_BEFORE_TEXT, READ_TEXT_BEFORE_MODULUS,
    READ_TAKES_48_WORDS, READ_REFUSES_49_WORDS, READ_REFUSED_WIPES, READ_REFUSED_HAS_A_VALUE,
    WRITES_NOTHING_FOR_ZERO, WRITES_A_ZERO_TOP, WRITES_X_ALONE, WRITES_POWER_1, WRITES_A_NEWLINE, WRITTEN_COUNTS_800,
    WRITTEN_LEAVES_BYTES_ABOVE, WRITTEN_WIPES_BEYOND_800, WRITTEN_TAKES_799_BYTES, WRITTEN_REFUSES_800_BYTES, WRITTEN_SHORT_BEFORE_WORDS,
    WRITTEN_REFUSED_WIPES, WRITTEN_REFUSED_HAS_A_VALUE, WRITTEN_WRITES_F,
    SHARES_ONE_FRAME_SHORT, SHARES_OF_A_FOURTH, SHARES_FIRST_COME, SHARES_BEGIN_WITH_2, SHARES_NO_GROUP_PASSED_OVER, SHARES_TAKE_0,
    SHARES_TAKE_1025, SHARES_REFUSE_1024, SHARES_REFUSED_HAVE_COUNTS, SHARES_OF_16_BITS,
    CONSTANTS_GREATER_U, CONSTANTS_GREATER_V, CONSTANTS_LEAST_V_FIRST, CONSTANTS_OF_ZEROS_NOT_0,
    GCD_GREATER_S, GCD_GREATER_T, GCD_LEAST_T_FIRST, GCD_EXCHANGED, GCD_S_FROM_1, GCD_WITHOUT_N, GCD_OF_ZEROS_IS_0, GCD_TAKES_A_ABOVE_N,
    GCD_TAKES_B_ABOVE_N, GCD_TAKES_N_1, GCD_WORDS_BEFORE_MODULUS, GCD_REFUSES_N_LESS_1, GCD_REFUSED_HAS_VALUES,
    START_READS_0, START_WITHOUT_ZERO_TOPS, START_REFUSED_HAS_N, START_REFUSED_READS_1, START_REFUSES_49_WORDS, START_WORDS_BEFORE_LENGTH,
    START_WRITES_H, START_FORGETS_H,
    ARRIVAL_TWO_UNDER_ONE_NUMBER, ARRIVAL_REPLACES_THE_HELD, ARRIVAL_TAKES_NUMBER_0, ARRIVAL_SEVENTEENTH_REPLACES, ARRIVAL_REFUSES_THE_16TH,
    ARRIVAL_TAKES_DEGREE_49, ARRIVAL_REFUSES_DEGREE_48, ARRIVAL_SUMS_32_BITS, ARRIVAL_WITHOUT_ZERO_TOP, ARRIVAL_OF_EXCHANGED,
    ARRIVAL_COUNTED_TWICE, ARRIVAL_NOT_COUNTED, ARRIVAL_OF_8_BITS, ARRIVAL_FULL_BEFORE_NUMBER, ARRIVAL_NUMBER_BEFORE_WORDS,
    ARRIVAL_WORK_BEFORE_FULL, ARRIVAL_NUMBER_BEFORE_MODULUS, ARRIVAL_REFUSED_IS_TAKEN, ARRIVAL_REFUSED_IS_ZEROS, ARRIVAL_REFUSED_WIPES_WORK,
    ARRIVAL_LEAVES_THE_LAST_WORKING_WORD, ARRIVAL_WRITES_BEHIND_WORK, ARRIVAL_TAKES_8191_WORDS, ARRIVAL_REFUSES_8192_WORDS, ARRIVAL_WRITES_F,
    LEFT_STILL_COUNTED, LEFT_DEGREE_STILL_COUNTED, LEFT_NUMBER_STILL_HELD, LEFT_IS_THE_NEXT, LEFT_ARE_ALL, LEAVING_ZERO_DIVISOR_REFUSED,
    LEAVING_UNHELD_ANSWERED, LEAVING_0_ANSWERED, LEAVING_NUMBER_BEFORE_MODULUS, LEAVING_REFUSED_IS_ZEROS, LEAVING_MODULO_1,
    READING_0_OF_NONE, READING_WITHOUT_THE_LAST_PLACE, READING_ABOVE_N, READING_MODULO_1, READING_REFUSED_HAS_A_VALUE, READING_OF_THE_SUM,
    READING_OF_DIVISORS,
    DIVISOR_OF_N_ALWAYS, DIVISOR_OF_ONE_ALWAYS, DIVISOR_0_FOR_N, DIVISOR_DOUBLED, DIVISOR_IS_GCD_WITH_RESULTANT, DIVISOR_OF_THE_CONTENT_OF_F,
    DIVISOR_OF_BOTH_CONTENTS, DIVISOR_LEAVES_THE_LAST_WORKING_WORD, DIVISOR_WRITES_BEHIND_WORK, DIVISOR_TAKES_8191_WORDS,
    DIVISOR_REFUSES_8192_WORDS, DIVISOR_WORK_BEFORE_WORDS, DIVISOR_TAKES_LARGE_WORDS_OF_G, DIVISOR_REFUSES_DEGREE_48,
    DIVISOR_REFUSED_WIPES_WORK, DIVISOR_REFUSED_HAS_A_VALUE, DIVISOR_WRITES_G,
    COFACTORS_OF_D, COFACTORS_EXCHANGED, COFACTORS_OF_EXCHANGED, COFACTORS_OF_ZERO_ALWAYS, COFACTORS_NEGATED, COFACTORS_WITHOUT_ZERO_TOPS,
    COFACTORS_LEAVE_THE_TOP_OF_U, COFACTORS_LEAVE_THE_TOP_OF_V, COFACTORS_WIPE_BEYOND_E, COFACTORS_WIPE_BEYOND_D, COFACTORS_ABOVE_N,
    COFACTORS_REFUSE_SUM_1, COFACTORS_TAKE_SUM_0, COFACTORS_9_BEFORE_3, COFACTORS_9_AFTER_7, COFACTORS_WORK_BEFORE_RESULTS,
    COFACTORS_NEED_D_AND_E, COFACTORS_TAKE_SHORT_U, COFACTORS_TAKE_SHORT_V, COFACTORS_REFUSE_NO_WORDS, COFACTORS_REFUSED_WIPE_U,
    COFACTORS_REFUSED_WIPE_V, COFACTORS_REFUSED_WIPE_WORK, COFACTORS_REFUSED_HAVE_A_VALUE, COFACTORS_LEAVE_THE_LAST_WORKING_WORD,
    COFACTORS_TAKE_8191_WORDS, COFACTORS_WRITE_F,
    WHY_COPRIME_ALWAYS, WHY_M_IS_N, WHY_M_IS_1, WHY_M_IS_D, WHY_ZERO_BY_F_ALONE, WHY_W_NOT_MONIC, WHY_W_OF_DEGREE_0, WHY_W_IS_F, WHY_W_TOP_FIRST,
    WHY_DEGREE_COUNTS_WORDS, WHY_SECOND_FOR_FIRST, WHY_M_WHERE_COPRIME, WHY_DEGREE_FOR_THE_FIRST, WHY_LEAVES_W_FOR_THE_FIRST,
    WHY_LEAVES_W_WHERE_COPRIME, WHY_LEAVES_WORDS_ABOVE, WHY_WIPES_BEYOND_49, WHY_TAKES_48_WORDS, WHY_REFUSES_49_WORDS, WHY_WORK_BEFORE_RESULT,
    WHY_TAKES_8191_WORDS, WHY_LEAVES_THE_LAST_WORKING_WORD, WHY_REFUSED_WIPES_W, WHY_REFUSED_WIPES_WORK, WHY_REFUSED_HAS_A_GROUND, WHY_WRITES_F,
    CLAIM_ALWAYS_ACCEPTED, CLAIM_0_FOR_N, CLAIM_OF_D_MODULO_N, CLAIM_D_OF_N_REFUSED, CLAIM_SECOND_BEFORE_FIRST, CLAIM_THIRD_BEFORE_SECOND,
    CLAIM_WITHOUT_THE_FIRST, CLAIM_WITHOUT_THE_SECOND, CLAIM_WITHOUT_THE_THIRD, CLAIM_THIRD_OF_GCD_WITH_RESULTANT, CLAIM_TOP_NOT_COMPARED,
    CLAIM_CONSTANT_ALONE_COMPARED, CLAIM_READS_1489_WORDS, CLAIM_OF_EXCHANGED, CLAIM_TAKES_4097_WORDS, CLAIM_TAKES_NO_WORD,
    CLAIM_REFUSES_4096_WORDS, CLAIM_16_AFTER_3, CLAIM_16_BEFORE_2, CLAIM_TAKES_LARGE_WORDS_OF_V, CLAIM_WORK_BEFORE_WORDS,
    CLAIM_TAKES_8191_WORDS, CLAIM_LEAVES_THE_LAST_WORKING_WORD, CLAIM_REFUSED_WIPES_WORK, CLAIM_REFUSED_HAS_A_VALUE, CLAIM_WRITES_V,
    TWO_POINTS_ONE_OFF, TWO_TOP_FIRST_IN_Y, TWO_TOP_FIRST_IN_Z, TWO_GROUPS_OF_Z, TWO_OF_EXCHANGED, TWO_WITHOUT_ZERO_TOPS, TWO_OF_CONSTANTS_IN_Z,
    TWO_B_FROM_D_A, TWO_LEAVES_THE_TOP, TWO_TOP_IS_0, TWO_WRITES_ONE_MORE, TWO_TAKES_B_WORDS, TWO_REFUSES_ENOUGH_WORDS, TWO_TAKES_B_61, TWO_REFUSES_B_60,
    TWO_11_BEFORE_12, TWO_12_BEFORE_3, TWO_WITHOUT_53, TWO_PRIMES_BELOW_B, TWO_PRIMES_UP_TO_59, TWO_TAKES_LONGER_F, TWO_TAKES_DEGREE_49,
    TWO_WORK_BEFORE_RESULT, TWO_TAKES_8191_WORDS, TWO_LEAVES_THE_LAST_WORKING_WORD, TWO_REFUSED_WIPES_OUT, TWO_REFUSED_WIPES_WORK,
    TWO_HAS_A_VALUE, TWO_WRITES_F,
    MANY_FIRST, MANY_LAST = MANY_FIRST + 45,
    RESULTANT_LOOKS_AT_F, CLAIM_LOOKS_AT_U, READ_LOOKS_AT_THE_TEXT, TWO_LOOKS_AT_G, START_LOOKS_AT_H,
    VERSIONS
};

typedef uint32_t word;
#include "wrong.h"

jingcobu_answer __wrap_jingcobu_resultant(uint32_t n, const uint32_t *f, size_t fl, const uint32_t *g, size_t gl, uint32_t *work, size_t wl)
{
    int w = version();
    if (w == RESULTANT_LOOKS_AT_F && fl) seen = f[0];
    if (straight(w)) return __real_jingcobu_resultant(n, f, fl, g, gl, work, wl);
    if (w == RESULTANT_WITHOUT_ZERO_TOPS) {
        fl = without_zeros(f, fl);
        gl = without_zeros(g, gl);
    }
    jingcobu_answer a = w == RESULTANT_OF_EXCHANGED ? __real_jingcobu_resultant(n, g, gl, f, fl, work, wl)
                                                    : __real_jingcobu_resultant(n, f, fl, g, gl, work, wl);
    if (w == RESULTANT_TAKES_8191_WORDS && a.status == 7 && wl == 8191) { a.status = 0; wipe(work, wl); }
    if (w == RESULTANT_REFUSED_WIPES_WORK && a.status) wipe(work, wl);
    if (w == RESULTANT_REFUSED_HAS_A_VALUE && a.status) a.value = 1;
    if (w == RESULTANT_REFUSES_ALL_WITH_1 && a.status) a.status = 1;
    if (a.status) return a;
    if (w == RESULTANT_OF_ONE_ALWAYS) a.value = 1;
    if (w == RESULTANT_LEAVES_THE_LAST_WORKING_WORD) work[wl - 1] = 1;
    if (w == RESULTANT_WRITES_BEHIND_WORK) work[wl] = 0;
    if (w == RESULTANT_REFUSES_8192_WORDS && wl == 8192) { a.value = 0; a.status = 7; }
    if (w == RESULTANT_REFUSES_DEGREE_48 && fl == 49) { a.value = 0; a.status = 2; }
    if (w == RESULTANT_WRITES_F) ((uint32_t *) f)[0] = 0;
    return a;
}

/* the least t that fits with s, where one does and s is below n */
static void fit(uint32_t n, uint32_t a, uint32_t b, uint32_t g, uint32_t *s, uint32_t *t, uint32_t other)
{
    if (other >= n) return;
    for (uint32_t x = 0; x < n; x++)
        if (((uint64_t) other * a + (uint64_t) x * b) % n == g % n) { *s = other; *t = x; return; }
}

jingcobu_answer __wrap_jingcobu_reduced_resultant(uint32_t n, const uint32_t *f, size_t fl, const uint32_t *g, size_t gl, uint32_t *u,
                                                  size_t ul, uint32_t *v, size_t vl, uint32_t *work, size_t wl)
{
    int w = version();
    if (straight(w)) return __real_jingcobu_reduced_resultant(n, f, fl, g, gl, u, ul, v, vl, work, wl);
    size_t l = 1;
    if (n > 1 && fl && gl) for (uint32_t m = n; m > 1; m /= 2) l += (fl > gl ? fl : gl) - 1;
    uint32_t first_u = ul ? u[0] : 0, first_v = vl ? v[0] : 0;
    jingcobu_answer a = __real_jingcobu_reduced_resultant(n, f, fl, g, gl, u, ul, v, vl, work, wl);
    if (w == REDUCED_WORK_BEFORE_RESULTS && a.status == 6 && wl < 8192) a.status = 7;
    if (w == REDUCED_TAKES_SHORT_V && a.status == 6 && ul >= l && wl >= 8192) { a.value = n; a.status = 0; }
    if (w == REDUCED_REFUSED_WIPES_U && a.status) wipe(u, ul);
    if (w == REDUCED_REFUSED_WIPES_V && a.status) wipe(v, vl);
    if (w == REDUCED_REFUSED_WIPES_WORK && a.status) wipe(work, wl);
    if (w == REDUCED_REFUSED_HAS_A_VALUE && a.status) a.value = n;
    if (a.status || w == REDUCED_TAKES_SHORT_V) return a;
    if (w == REDUCED_OF_N_ALWAYS) { a.value = n; wipe(u, l); wipe(v, l); }
    if (w == REDUCED_OF_ONE_ALWAYS) a.value = 1;
    if (w == REDUCED_DOUBLED && n % 2 == 0 && n / 2 % a.value == 0) {
        a.value *= 2;
        for (size_t i = 0; i < l; i++) { u[i] = (uint32_t) (2ull * u[i] % n); v[i] = (uint32_t) (2ull * v[i] % n); }
    }
    if (w == REDUCED_IS_GCD_WITH_RESULTANT) a.value = divisor(n, __real_jingcobu_resultant(n, f, fl, g, gl, work, wl).value);
    if (w == REDUCED_LEAVES_U) u[0] = first_u;
    if (w == REDUCED_LEAVES_V) v[0] = first_v;
    if (w == REDUCED_WIPES_BEYOND_L_IN_U && l < ul) u[l] = 0;
    if (w == REDUCED_WIPES_BEYOND_L_IN_V && l < vl) v[vl - 1] = 0;
    if (w == REDUCED_EXCHANGES_COFACTORS) for (size_t i = 0; i < l; i++) { uint32_t x = u[i]; u[i] = v[i]; v[i] = x; }
    if (w == REDUCED_COFACTORS_ABOVE_N && u[0] < n && u[0] <= 4294967295u - n) u[0] += n;
    if (w == REDUCED_REFUSES_L_WORDS && ul == l) { a.value = 0; a.status = 6; }
    if (w == REDUCED_LEAVES_THE_LAST_WORKING_WORD) work[wl - 1] = 1;
    if (w == REDUCED_WRITES_G) ((uint32_t *) g)[gl - 1] = 0;
    if (fl > 1 || gl > 1) return a;
    uint32_t h = divisor(g[0], n);
    if (w == CONSTANTS_GREATER_U && n < 65536) fit(n, f[0], g[0], a.value, u, v, u[0] + h / a.value);
    if (w == CONSTANTS_GREATER_V && n - v[0] > n / h) v[0] += n / h;
    if (w == CONSTANTS_LEAST_V_FIRST) {
        jingcobu_cofactors c = __real_jingcobu_gcd(n, g[0], f[0]);
        u[0] = c.t;
        v[0] = c.s;
    }
    if (w == CONSTANTS_OF_ZEROS_NOT_0 && a.value == n) { u[0] = n - 1; v[0] = n - 1; }
    return a;
}

jingcobu_answer __wrap_jingcobu_product(uint32_t n, const uint32_t *f, size_t fl, const uint32_t *g, size_t gl, uint32_t *out, size_t ol)
{
    int w = version();
    if (straight(w)) return __real_jingcobu_product(n, f, fl, g, gl, out, ol);
    uint32_t top = fl && gl && fl + gl - 1 <= ol ? out[fl + gl - 2] : 0;
    jingcobu_answer a = __real_jingcobu_product(n, f, fl, g, gl, out, ol);
    if (w == PRODUCT_TAKES_DEGREE_49 && a.status == 2 && fl && gl && fl < 50 && gl < 50 && fl + gl == 51) a.status = 0;
    if (w == PRODUCT_WORDS_BEFORE_LENGTHS && a.status == 2)
        for (size_t i = 0; i < fl; i++) if (f[i] >= n) a.status = 3;
    if (w == PRODUCT_REFUSED_WIPES && a.status) wipe(out, ol);
    if (a.status || w == PRODUCT_TAKES_DEGREE_49) return a;
    if (w == PRODUCT_LEAVES_A_ZERO_TOP && out[fl + gl - 2] == 0) out[fl + gl - 2] = top;
    if (w == PRODUCT_WIPES_BEYOND) wipe(out, ol);
    if (w == PRODUCT_WIPES_BEYOND) __real_jingcobu_product(n, f, fl, g, gl, out, ol);
    if (w == PRODUCT_HAS_A_VALUE) a.value = out[0];
    if (w == PRODUCT_REFUSES_ENOUGH_WORDS && ol == fl + gl - 1) a.status = 6;
    if (w == PRODUCT_OF_F_ALONE) { wipe(out, fl + gl - 1); memcpy(out, f, fl * sizeof *f); }
    if (w == PRODUCT_WRITES_F) ((uint32_t *) f)[0] = 0;
    return a;
}

jingcobu_answer __wrap_jingcobu_product_word(uint32_t n, const uint32_t *f, size_t fl, const uint32_t *g, size_t gl, uint32_t *out, size_t ol,
                                             size_t k)
{
    int w = version();
    if (straight(w)) return __real_jingcobu_product_word(n, f, fl, g, gl, out, ol, k);
    size_t l = fl && gl ? fl + gl - 1 : 0;
    uint32_t found = k < ol ? out[k] : 0;
    jingcobu_answer a = __real_jingcobu_product_word(n, f, fl, g, gl, out, ol, w == WORD_IN_THE_NEXT_PLACE ? k + 1 : k);
    if (w == WORD_TAKES_K_PLUS_1_WORDS && a.status == 6 && k < ol) a.status = 0;
    if (w == WORD_TAKES_DEGREE_49 && a.status == 2 && fl && gl && fl < 50 && gl < 50 && l == 50) a.status = 0;
    if (w == WORD_REFUSED_WIPES && a.status) wipe(out, ol);
    if (a.status || w == WORD_TAKES_K_PLUS_1_WORDS || w == WORD_TAKES_DEGREE_49) return a;
    if (w == WORD_OF_THE_NEXT_PLACE && k < l) {
        uint32_t whole[49];
        __real_jingcobu_product(n, f, fl, g, gl, whole, 49);
        out[k] = k + 1 < l ? whole[k + 1] : 0;
    }
    if (w == WORD_WRITES_ALL) __real_jingcobu_product(n, f, fl, g, gl, out, ol);
    if (w == WORD_ADDED_TO_WHAT_IS_THERE && k < l) out[k] = (uint32_t) (((uint64_t) found + out[k]) % n);
    if (w == WORD_LEAVES_THE_TOP && k + 1 == l) out[k] = found;
    if (w == WORD_ABOVE_IS_ZEROED && k >= l && k < ol) out[k] = 0;
    if (w == WORD_ABOVE_IS_REFUSED && k >= l) a.status = 2;
    if (w == WORD_BEFORE_OUT_FOR_THE_LAST_K && k == SIZE_MAX) *(out - 1) = 0;
    if (w == WORD_HAS_A_VALUE && k < l) a.value = out[k];
    if (w == WORD_WRITES_G) ((uint32_t *) g)[0] = 0;
    return a;
}

jingcobu_degree __wrap_jingcobu_true_degree(uint32_t n, const uint32_t *f, size_t fl)
{
    int w = version();
    if (straight(w)) return __real_jingcobu_true_degree(n, f, fl);
    jingcobu_degree a = __real_jingcobu_true_degree(n, f, fl);
    if (w == DEGREE_REFUSED_HAS_SOME && a.status) a.some = 1;
    if (w == DEGREE_TAKES_LARGE_WORDS_BELOW && a.status == 3 && f[fl - 1] < n && f[fl - 1]) {
        a.some = 1; a.degree = (uint32_t) fl - 1; a.status = 0;
    }
    if (a.status) return a;
    if (w == DEGREE_0_FOR_ZERO) a.some = 1;
    if (w == DEGREE_NONE_FOR_CONSTANTS && a.degree == 0) a.some = 0;
    if (w == DEGREE_IS_SENT && a.some) a.degree = (uint32_t) fl - 1;
    if (w == DEGREE_OF_THE_LOWEST_WORD && a.some) for (a.degree = 0; !f[a.degree];) a.degree++;
    if (w == DEGREE_COUNTS_WORDS && a.some) a.degree++;
    if (w == DEGREE_OF_ZERO_REFUSED && !a.some) a.status = 2;
    if (w == DEGREE_BESIDE_NONE && !a.some) a.degree = (uint32_t) fl - 1;
    if (w == DEGREE_REFUSES_49_WORDS && fl == 49) { a.some = 0; a.degree = 0; a.status = 2; }
    if (w == DEGREE_WRITES_F) ((uint32_t *) f)[0] = 0;
    return a;
}

static int ends_with(const uint8_t *text, size_t length, const char *end)
{
    size_t l = strlen(end);
    return length >= l && !memcmp(text + length - l, end, l);
}

jingcobu_answer __wrap_jingcobu_read_text(uint32_t n, const uint8_t *text, size_t tl, uint32_t *words, size_t wl)
{
    int w = version();
    if (w == READ_LOOKS_AT_THE_TEXT && tl) seen = text[0];
    if (straight(w)) return __real_jingcobu_read_text(n, text, tl, words, wl);
    uint8_t other[3010];
    uint32_t found[60];
    size_t kept = wl < 60 ? wl : 60;
    if (kept) memcpy(found, words, kept * sizeof *found);
    jingcobu_answer a = __real_jingcobu_read_text(n, text, tl, words, wl);
    if (a.status == 17) {
        size_t l = 0;                                                                       /* of the text that is read in its place */
        if (tl) memcpy(other, text, tl);
        if (w == READS_A_LEADING_ZERO && tl > 1 && text[0] == '0') { l = tl - 1; memcpy(other, text + 1, l); }
        if (w == READS_A_NEWLINE && ends_with(text, tl, "\n")) l = tl - 1;
        if (w == READS_NO_TEXT_AS_ZERO && tl == 0) { l = 1; other[0] = '0'; }
        if (w == READS_UP_TO_A_ZERO_BYTE) while (l < tl && text[l]) l++;
        if (w == READS_POWER_1 && ends_with(text, tl, "*x^1")) l = tl - 2;
        if (w == READS_X_ALONE && tl && text[0] == 'x') { l = tl + 2; memcpy(other + 2, text, tl); memcpy(other, "1*", 2); }
        if (w == READS_POWER_49_AS_NOTHING && ends_with(text, tl, "*x^49")) { l = 1; other[0] = '0'; }
        if (w == READS_A_NUMBER_MODULO_2_TO_32 && tl == 10 && !memcmp(text, "4294967297", 10)) { l = 1; other[0] = '1'; }
        const uint8_t *plus = tl ? memchr(text, '+', tl) : NULL;
        if (w == READS_LOW_TO_HIGH && plus) {
            size_t first = (size_t) (plus - text), second = tl - first - 1;
            memcpy(other, plus + 1, second);
            other[second] = '+';
            memcpy(other + second + 1, text, first);
            l = tl;
        }
        if (l) a = __real_jingcobu_read_text(n, other, l, words, wl);
        if (w == READS_COEFFICIENT_N && n < 4294967295u) a = __real_jingcobu_read_text(n + 1, text, tl, words, wl);
        if (w == READ_SHORT_BEFORE_TEXT && wl < 49) a.status = 6;
    }
    if (w == READ_TEXT_BEFORE_MODULUS && a.status == 1 && __real_jingcobu_read_text(4294967295u, text, tl, NULL, 0).status == 17) a.status = 17;
    if (w == READ_TAKES_48_WORDS && a.status == 6 && wl == 48) a.status = 0;
    if (w == READ_REFUSED_WIPES && a.status) wipe(words, wl);
    if (w == READ_REFUSED_HAS_A_VALUE && a.status) a.value = 1;
    if (a.status || w == READ_TAKES_48_WORDS) return a;
    if (w == READ_LEAVES_WORDS_ABOVE) memcpy(words + a.value, found + a.value, (kept - a.value) * sizeof *found);
    if (w == READ_WIPES_BEYOND_49 && wl > 49) words[wl - 1] = 0;
    if (w == READ_COUNTS_NO_WORD_OF_ZERO && tl == 1 && text[0] == '0') a.value = 0;
    if (w == READ_COUNTS_THE_DEGREE) a.value--;
    if (w == READ_REFUSES_49_WORDS && wl == 49) { memcpy(words, found, wl * sizeof *found); a.value = 0; a.status = 6; }
    return a;
}

jingcobu_answer __wrap_jingcobu_write_text(uint32_t n, const uint32_t *f, size_t fl, uint8_t *text, size_t tl)
{
    int w = version();
    if (straight(w)) return __real_jingcobu_write_text(n, f, fl, text, tl);
    uint8_t found[900], other[900];
    size_t kept = tl < 900 ? tl : 900;
    if (kept) memcpy(found, text, kept);
    jingcobu_answer a = __real_jingcobu_write_text(n, f, fl, text, tl);
    if (w == WRITTEN_TAKES_799_BYTES && a.status == 6 && tl == 799) {
        a = __real_jingcobu_write_text(n, f, fl, other, 800);
        memcpy(text, other, 799);
    }
    if (w == WRITTEN_SHORT_BEFORE_WORDS && a.status == 3 && tl < 800) a.status = 6;
    if (w == WRITTEN_REFUSED_WIPES && a.status && tl) memset(text, 0, tl);
    if (w == WRITTEN_REFUSED_HAS_A_VALUE && a.status) a.value = 1;
    if (a.status || w == WRITTEN_TAKES_799_BYTES) return a;
    if (w == WRITES_NOTHING_FOR_ZERO && text[0] == '0') { text[0] = 0; a.value = 0; }
    if (w == WRITES_A_ZERO_TOP && fl == 2 && f[1] == 0) { memmove(text + 4, text, a.value); memcpy(text, "0*x+", 4); a.value += 4; }
    if (w == WRITES_X_ALONE && !memcmp(text, "1*x", 3)) { memmove(text, text + 2, 798); a.value -= 2; }
    if (w == WRITES_POWER_1 && ends_with(text, a.value, "*x")) { memcpy(text + a.value, "^1", 2); a.value += 2; }
    if (w == WRITES_A_NEWLINE) text[a.value++] = '\n';
    if (w == WRITTEN_COUNTS_800) a.value = 800;
    if (w == WRITTEN_LEAVES_BYTES_ABOVE) memcpy(text + a.value, found + a.value, kept - a.value);
    if (w == WRITTEN_WIPES_BEYOND_800 && tl > 800) text[tl - 1] = 0;
    if (w == WRITTEN_REFUSES_800_BYTES && tl == 800) { memcpy(text, found, kept); a.value = 0; a.status = 6; }
    if (w == WRITTEN_WRITES_F) ((uint32_t *) f)[fl - 1] = 0;
    return a;
}

jingcobu_plan __wrap_jingcobu_shares(uint32_t frames, uint32_t w1, uint32_t w2, uint32_t w3, uint32_t w4)
{
    int w = version();
    if (straight(w)) return __real_jingcobu_shares(frames, w1, w2, w3, w4);
    uint32_t waiting[] = { w1, w2, w3, w4 };
    jingcobu_plan p = __real_jingcobu_shares(frames, w1, w2, w3, w4);
    if (w == SHARES_TAKE_0 && frames == 0) p.status = 0;
    if (w == SHARES_TAKE_1025 && frames == 1025) p = __real_jingcobu_shares(1024, w1, w2, w3, w4);
    if (w == SHARES_REFUSED_HAVE_COUNTS && p.status) memcpy(p.share, waiting, sizeof waiting);
    if (p.status) return p;
    if (w == SHARES_ONE_FRAME_SHORT && frames > 1) p = __real_jingcobu_shares(frames - 1, w1, w2, w3, w4);
    if (w == SHARES_OF_A_FOURTH) for (int i = 0; i < 4; i++) p.share[i] = waiting[i] < frames / 4 ? waiting[i] : frames / 4;
    if (w == SHARES_FIRST_COME) {
        uint32_t left = frames;
        for (int i = 0; i < 4; i++) { p.share[i] = waiting[i] < left ? waiting[i] : left; left -= p.share[i]; }
    }
    if (w == SHARES_BEGIN_WITH_2) {
        jingcobu_plan q = __real_jingcobu_shares(frames, w2, w3, w4, w1);
        for (int i = 0; i < 4; i++) p.share[(i + 1) % 4] = q.share[i];
    }
    if (w == SHARES_NO_GROUP_PASSED_OVER) {
        memset(p.share, 0, sizeof p.share);
        for (uint32_t i = 0; i < frames; i++) if (p.share[i % 4] < waiting[i % 4]) p.share[i % 4]++;
    }
    if (w == SHARES_REFUSE_1024 && frames == 1024) { memset(p.share, 0, sizeof p.share); p.status = 15; }
    if (w == SHARES_OF_16_BITS) p = __real_jingcobu_shares(frames, w1 % 65536, w2 % 65536, w3 % 65536, w4 % 65536);
    return p;
}

jingcobu_cofactors __wrap_jingcobu_gcd(uint32_t n, uint32_t a, uint32_t b)
{
    int w = version();
    if (straight(w)) return __real_jingcobu_gcd(n, a, b);
    jingcobu_cofactors c = __real_jingcobu_gcd(n, a, b);
    if (w == GCD_TAKES_A_ABOVE_N && c.status == 3 && b < n) c = __real_jingcobu_gcd(n, a % n, b);
    if (w == GCD_TAKES_B_ABOVE_N && c.status == 3 && a < n) c = __real_jingcobu_gcd(n, a, b % n);
    if (w == GCD_TAKES_N_1 && n == 1 && a == 0 && b == 0) { c.g = 1; c.status = 0; }
    if (w == GCD_WORDS_BEFORE_MODULUS && c.status == 1 && (a >= n || b >= n)) c.status = 3;
    if (w == GCD_REFUSED_HAS_VALUES && c.status) c.g = n;
    if (c.status || n < 2) return c;
    uint32_t h = divisor(b, n);
    if (w == GCD_GREATER_S && n < 65536) fit(n, a, b, c.g, &c.s, &c.t, c.s + h / c.g);
    if (w == GCD_GREATER_T && n - c.t > n / h) c.t += n / h;
    if (w == GCD_LEAST_T_FIRST || w == GCD_EXCHANGED) {
        if (w == GCD_LEAST_T_FIRST) c = __real_jingcobu_gcd(n, b, a);
        uint32_t x = c.s;
        c.s = c.t;
        c.t = x;
    }
    if (w == GCD_S_FROM_1 && c.s == 0 && n < 65536) fit(n, a, b, c.g, &c.s, &c.t, h / c.g);
    if (w == GCD_WITHOUT_N && (a || b)) c.g = divisor(a, b);
    if (w == GCD_OF_ZEROS_IS_0) c.g %= n;
    if (w == GCD_REFUSES_N_LESS_1 && a == n - 1) { c.g = c.s = c.t = 0; c.status = 3; }
    return c;
}

/* ---- factors. Some of these look at the state's fields. */

static int at(const jingcobu_factors *s, uint16_t number)
{
    int i = 0;
    while (i < 16 && s->number[i] != number) i++;
    return i;
}

static uint32_t degrees(const jingcobu_factors *s)
{
    uint32_t sum = 0;
    for (int i = 0; i < 16; i++) sum += s->degree[i];
    return sum;
}

jingcobu_factors_answer __wrap_jingcobu_factors_start(uint32_t n, const uint32_t *h, size_t hl)
{
    int w = version();
    if (w == START_LOOKS_AT_H && hl) seen = h[0];
    if (straight(w)) return __real_jingcobu_factors_start(n, h, hl);
    size_t l = hl;
    if (w == START_WITHOUT_ZERO_TOPS) while (l > 1 && l < 50 && h[l - 1] == 0) l--;
    jingcobu_factors_answer a = __real_jingcobu_factors_start(n, h, l);
    if (w == START_WORDS_BEFORE_LENGTH && a.status == 2 && large(n, h, hl)) a.status = 3;
    if (w == START_REFUSED_HAS_N && a.status) a.factors.n = n;
    if (w == START_REFUSED_READS_1 && a.status) for (int i = 0; i < 16; i++) a.factors.resultant[i] = 1;
    if (a.status) return a;
    if (w == START_READS_0) a.factors.resultant[15] = 0;
    if (w == START_REFUSES_49_WORDS && hl == 49) { memset(&a, 0, sizeof a); a.status = 2; }
    if (w == START_WRITES_H) ((uint32_t *) h)[0] = 0;
    if (w == START_FORGETS_H) wipe(a.factors.h, 49);
    return a;
}

jingcobu_factors_answer __wrap_jingcobu_factors_arrive(jingcobu_factors s, uint16_t number, const uint32_t *f, size_t fl, uint32_t *work, size_t wl)
{
    int w = version(), i = number ? at(&s, number) : 16;
    if (straight(w)) return __real_jingcobu_factors_arrive(s, number, f, fl, work, wl);
    static uint32_t other[8192];
    size_t l = fl;
    if (w == ARRIVAL_WITHOUT_ZERO_TOP) while (l > 1 && l < 50 && f[l - 1] == 0) l--;
    if (w == ARRIVAL_OF_8_BITS && number > 255) number %= 256;
    jingcobu_factors_answer a = __real_jingcobu_factors_arrive(s, number, f, l, work, wl);
    if (a.status == 14 && i < 16) {
        jingcobu_factors t = s;
        t.number[i] = 54321;                                                                /* the number of no factor of the host */
        if (w == ARRIVAL_TWO_UNDER_ONE_NUMBER) {
            a = __real_jingcobu_factors_arrive(t, number, f, fl, work, wl);
            a.factors.number[i] = number;
        }
        if (w == ARRIVAL_REPLACES_THE_HELD)
            a = __real_jingcobu_factors_arrive(__real_jingcobu_factors_leave(s, number).factors, number, f, fl, work, wl);
    }
    if (w == ARRIVAL_TAKES_NUMBER_0 && a.status == 14 && number == 0) a = __real_jingcobu_factors_arrive(s, 54321, f, fl, work, wl);
    if (w == ARRIVAL_SEVENTEENTH_REPLACES && a.status == 13 && at(&s, 0) == 16)
        a = __real_jingcobu_factors_arrive(__real_jingcobu_factors_leave(s, s.number[0]).factors, number, f, fl, work, wl);
    if (w == ARRIVAL_TAKES_DEGREE_49 && a.status == 13 && degrees(&s) + fl - 1 == 49) {
        jingcobu_factors t = s;
        for (i = 0; i < 16 && !t.degree[i];) i++;
        t.degree[i]--;
        a = __real_jingcobu_factors_arrive(t, number, f, fl, work, wl);
        a.factors.degree[i]++;
    }
    if (w == ARRIVAL_SUMS_32_BITS && a.status == 13 && degrees(&s) == 0) {
        jingcobu_factors t = s;
        wipe(t.degree, 16);
        a = __real_jingcobu_factors_arrive(t, number, f, fl, work, wl);
    }
    if (w == ARRIVAL_FULL_BEFORE_NUMBER && a.status == 14 && (at(&s, 0) == 16 || degrees(&s) + fl - 1 > 48)) a.status = 13;
    if (w == ARRIVAL_NUMBER_BEFORE_WORDS && a.status == 3 && number == 0) a.status = 14;
    if (w == ARRIVAL_NUMBER_BEFORE_MODULUS && a.status == 1 && number == 0) a.status = 14;
    if (w == ARRIVAL_WORK_BEFORE_FULL && a.status == 13 && wl < 8192) a.status = 7;
    if (w == ARRIVAL_TAKES_8191_WORDS && a.status == 7 && wl == 8191) {
        a = __real_jingcobu_factors_arrive(s, number, f, fl, other, 8192);
        wipe(work, wl);
        return a;
    }
    if (w == ARRIVAL_REFUSED_IS_TAKEN && a.status == 7) a.factors = __real_jingcobu_factors_arrive(s, number, f, fl, other, 8192).factors;
    if (w == ARRIVAL_REFUSED_IS_ZEROS && a.status) memset(&a.factors, 0, sizeof a.factors);
    if (w == ARRIVAL_REFUSED_WIPES_WORK && a.status) wipe(work, wl);
    if (a.status) return a;
    i = at(&a.factors, number);
    if (w == ARRIVAL_OF_EXCHANGED) a.factors.resultant[i] = __real_jingcobu_resultant(s.n, s.h, s.h_len, f, fl, other, 8192).value;
    if (w == ARRIVAL_COUNTED_TWICE) a.factors.resultant[i] = (uint32_t) ((uint64_t) a.factors.resultant[i] * a.factors.resultant[i] % s.n);
    if (w == ARRIVAL_NOT_COUNTED) a.factors.resultant[i] = 1;
    if (w == ARRIVAL_LEAVES_THE_LAST_WORKING_WORD) work[wl - 1] = 1;
    if (w == ARRIVAL_WRITES_BEHIND_WORK) work[wl] = 0;
    if (w == ARRIVAL_WRITES_F) ((uint32_t *) f)[0] = 0;
    if (w == ARRIVAL_REFUSES_8192_WORDS && wl == 8192) { a.factors = s; a.status = 7; }
    if (w == ARRIVAL_REFUSES_THE_16TH && at(&a.factors, 0) == 16) { a.factors = s; a.status = 13; }
    if (w == ARRIVAL_REFUSES_DEGREE_48 && degrees(&a.factors) == 48) { a.factors = s; a.status = 13; }
    return a;
}

jingcobu_factors_answer __wrap_jingcobu_factors_leave(jingcobu_factors s, uint16_t number)
{
    int w = version(), i = number ? at(&s, number) : 16;
    if (straight(w)) return __real_jingcobu_factors_leave(s, number);
    jingcobu_factors_answer a = __real_jingcobu_factors_leave(s, number);
    if (w == LEAVING_UNHELD_ANSWERED && a.status == 14 && number) a.status = 0;
    if (w == LEAVING_0_ANSWERED && a.status == 14 && !number) a.status = 0;
    if (w == LEAVING_NUMBER_BEFORE_MODULUS && a.status == 1 && i == 16) a.status = 14;
    if (w == LEAVING_MODULO_1 && s.n == 1 && i < 16) a.status = 0;
    if (w == LEAVING_REFUSED_IS_ZEROS && a.status) memset(&a.factors, 0, sizeof a.factors);
    if (a.status || i == 16) return a;
    if (w == LEFT_STILL_COUNTED) a.factors.resultant[i] = s.resultant[i];
    if (w == LEFT_DEGREE_STILL_COUNTED) a.factors.degree[i] = s.degree[i];
    if (w == LEFT_NUMBER_STILL_HELD) a.factors.number[i] = number;
    if (w == LEFT_IS_THE_NEXT && i < 15 && s.number[i + 1]) {
        a = __real_jingcobu_factors_leave(s, s.number[i + 1]);
        a.factors.number[i] = s.number[i + 1];
    }
    if (w == LEFT_ARE_ALL)
        for (int j = 0; j < 16; j++) if (s.number[j]) a.factors = __real_jingcobu_factors_leave(a.factors, s.number[j]).factors;
    if (w == LEAVING_ZERO_DIVISOR_REFUSED && divisor(s.resultant[i], s.n) > 1) { a.factors = s; a.status = 14; }
    return a;
}

jingcobu_answer __wrap_jingcobu_factors_read(jingcobu_factors s)
{
    int w = version(), held = 0;
    if (straight(w)) return __real_jingcobu_factors_read(s);
    uint64_t sum = 0;
    jingcobu_answer a = __real_jingcobu_factors_read(s);
    for (int i = 0; i < 16; i++) if (s.number[i]) { held++; sum += s.resultant[i]; }
    if (w == READING_MODULO_1 && s.n == 1) a.status = 0;
    if (w == READING_REFUSED_HAS_A_VALUE && a.status) a.value = 1;
    if (a.status || s.n < 2) return a;
    if (w == READING_0_OF_NONE && !held) a.value = 0;
    if (w == READING_WITHOUT_THE_LAST_PLACE) { s.resultant[15] = 1; a = __real_jingcobu_factors_read(s); }
    if (w == READING_ABOVE_N && a.value <= 4294967295u - s.n) a.value += s.n;
    if (w == READING_OF_THE_SUM && held) a.value = (uint32_t) (sum % s.n);
    if (w == READING_OF_DIVISORS && held) a.value = divisor(a.value, s.n) % s.n;
    return a;
}

/* ---- D alone, and cofactors of the resultant */

static uint32_t spare[8192];                                                                /* working words beside the host's */

/* the greatest common divisor of n and the words of f */
static uint32_t content(uint32_t n, const uint32_t *f, size_t fl)
{
    for (size_t i = 0; i < fl; i++) n = divisor(n, f[i]);
    return n;
}

jingcobu_answer __wrap_jingcobu_divisor(uint32_t n, const uint32_t *f, size_t fl, const uint32_t *g, size_t gl, uint32_t *work, size_t wl)
{
    int w = version();
    if (straight(w)) return __real_jingcobu_divisor(n, f, fl, g, gl, work, wl);
    jingcobu_answer a = __real_jingcobu_divisor(n, f, fl, g, gl, work, wl);
    if (w == DIVISOR_TAKES_8191_WORDS && a.status == 7 && wl == 8191) {
        wipe(work, wl);
        return __real_jingcobu_divisor(n, f, fl, g, gl, spare, 8192);
    }
    if (w == DIVISOR_WORK_BEFORE_WORDS && a.status == 3 && wl < 8192) a.status = 7;
    if (w == DIVISOR_TAKES_LARGE_WORDS_OF_G && a.status == 3 && !large(n, f, fl)) { a.value = n; a.status = 0; return a; }
    if (w == DIVISOR_REFUSED_WIPES_WORK && a.status) wipe(work, wl);
    if (w == DIVISOR_REFUSED_HAS_A_VALUE && a.status) a.value = 1;
    if (a.status) return a;
    if (w == DIVISOR_OF_N_ALWAYS) a.value = n;
    if (w == DIVISOR_OF_ONE_ALWAYS) a.value = 1;
    if (w == DIVISOR_0_FOR_N) a.value %= n;
    if (w == DIVISOR_DOUBLED && n % 2 == 0 && n / 2 % a.value == 0) a.value *= 2;
    if (w == DIVISOR_IS_GCD_WITH_RESULTANT) a.value = divisor(n, __real_jingcobu_resultant(n, f, fl, g, gl, work, wl).value);
    if (w == DIVISOR_OF_THE_CONTENT_OF_F) a.value = content(n, f, fl);
    if (w == DIVISOR_OF_BOTH_CONTENTS) a.value = content(content(n, f, fl), g, gl);
    if (w == DIVISOR_LEAVES_THE_LAST_WORKING_WORD) work[wl - 1] = 1;
    if (w == DIVISOR_WRITES_BEHIND_WORK) work[wl] = 0;
    if (w == DIVISOR_REFUSES_8192_WORDS && wl == 8192) { a.value = 0; a.status = 7; }
    if (w == DIVISOR_REFUSES_DEGREE_48 && gl == 49) { a.value = 0; a.status = 2; }
    if (w == DIVISOR_WRITES_G) ((uint32_t *) g)[0] = 0;
    return a;
}

jingcobu_answer __wrap_jingcobu_resultant_cofactors(uint32_t n, const uint32_t *f, size_t fl, const uint32_t *g, size_t gl, uint32_t *u,
                                                    size_t ul, uint32_t *v, size_t vl, uint32_t *work, size_t wl)
{
    int w = version();
    if (straight(w)) return __real_jingcobu_resultant_cofactors(n, f, fl, g, gl, u, ul, v, vl, work, wl);
    size_t d = fl ? fl - 1 : 0, e = gl ? gl - 1 : 0, l = fl, m = gl;
    uint32_t top_u = e && e <= ul ? u[e - 1] : 0, top_v = d && d <= vl ? v[d - 1] : 0;
    jingcobu_answer a = w == COFACTORS_OF_EXCHANGED ? __real_jingcobu_resultant_cofactors(n, g, gl, f, fl, v, vl, u, ul, work, wl)
                                                    : __real_jingcobu_resultant_cofactors(n, f, fl, g, gl, u, ul, v, vl, work, wl);
    if (w == COFACTORS_TAKE_SUM_0 && a.status == 9 && wl >= 8192) { wipe(work, wl); a.value = 1; a.status = 0; return a; }
    if (w == COFACTORS_TAKE_SHORT_U && a.status == 6 && vl >= d && wl >= 8192) { wipe(work, wl); a.status = 0; return a; }
    if (w == COFACTORS_TAKE_SHORT_V && a.status == 6 && ul >= e && wl >= 8192) { wipe(work, wl); a.status = 0; return a; }
    if (w == COFACTORS_TAKE_8191_WORDS && a.status == 7 && wl == 8191) {
        wipe(work, wl);
        return __real_jingcobu_resultant_cofactors(n, f, fl, g, gl, u, ul, v, vl, spare, 8192);
    }
    if (w == COFACTORS_9_BEFORE_3 && a.status == 3 && d + e == 0) a.status = 9;
    if (w == COFACTORS_9_AFTER_7 && a.status == 9 && wl < 8192) a.status = 7;
    if (w == COFACTORS_WORK_BEFORE_RESULTS && a.status == 6 && wl < 8192) a.status = 7;
    if (w == COFACTORS_REFUSED_WIPE_U && a.status) wipe(u, ul);
    if (w == COFACTORS_REFUSED_WIPE_V && a.status) wipe(v, vl);
    if (w == COFACTORS_REFUSED_WIPE_WORK && a.status) wipe(work, wl);
    if (w == COFACTORS_REFUSED_HAVE_A_VALUE && a.status) a.value = 1;
    if (a.status) return a;
    if (w == COFACTORS_OF_D) a.value = __real_jingcobu_divisor(n, f, fl, g, gl, work, wl).value % n;
    if (w == COFACTORS_EXCHANGED) for (size_t i = 0; i < d && i < e; i++) { uint32_t x = u[i]; u[i] = v[i]; v[i] = x; }
    if (w == COFACTORS_OF_ZERO_ALWAYS) { wipe(u, e); wipe(v, d); a.value = 0; }
    if (w == COFACTORS_NEGATED) {
        for (size_t i = 0; i < e; i++) u[i] = (n - u[i]) % n;
        for (size_t i = 0; i < d; i++) v[i] = (n - v[i]) % n;
    }
    if (w == COFACTORS_WITHOUT_ZERO_TOPS) {
        while (l > 1 && f[l - 1] == 0) l--;
        while (m > 1 && g[m - 1] == 0) m--;
        a.value = __real_jingcobu_resultant(n, f, l, g, m, work, wl).value;
    }
    if (w == COFACTORS_LEAVE_THE_TOP_OF_U && e) u[e - 1] = top_u;
    if (w == COFACTORS_LEAVE_THE_TOP_OF_V && d) v[d - 1] = top_v;
    if (w == COFACTORS_WIPE_BEYOND_E && e < ul) u[e] = 0;
    if (w == COFACTORS_WIPE_BEYOND_D && d < vl) v[vl - 1] = 0;
    if (w == COFACTORS_ABOVE_N && e && u[0] <= 4294967295u - n) u[0] += n;
    if (w == COFACTORS_REFUSE_SUM_1 && d + e == 1) { a.value = 0; a.status = 9; }
    if (w == COFACTORS_NEED_D_AND_E && (ul < d || vl < e)) { a.value = 0; a.status = 6; }
    if (w == COFACTORS_REFUSE_NO_WORDS && !ul) { a.value = 0; a.status = 6; }
    if (w == COFACTORS_LEAVE_THE_LAST_WORKING_WORD) work[wl - 1] = 1;
    if (w == COFACTORS_WRITE_F) ((uint32_t *) f)[fl - 1] = 0;
    return a;
}

/* ---- grounds */

jingcobu_reason __wrap_jingcobu_why(uint32_t n, const uint32_t *f, size_t fl, const uint32_t *g, size_t gl, uint32_t *out, size_t ol,
                                    uint32_t *work, size_t wl)
{
    int w = version();
    if (straight(w)) return __real_jingcobu_why(n, f, fl, g, gl, out, ol, work, wl);
    uint32_t found[49], other[49];
    size_t kept = ol < 49 ? ol : 49;
    if (kept) memcpy(found, out, kept * sizeof *found);
    jingcobu_reason a = __real_jingcobu_why(n, f, fl, g, gl, out, ol, work, wl);
    if (w == WHY_TAKES_48_WORDS && a.status == 6 && ol == 48) {
        a = __real_jingcobu_why(n, f, fl, g, gl, other, 49, work, wl);
        if (!a.status) memcpy(out, other, 48 * sizeof *other);
        return a;
    }
    if (w == WHY_TAKES_8191_WORDS && a.status == 7 && wl == 8191) {
        wipe(work, wl);
        return __real_jingcobu_why(n, f, fl, g, gl, out, ol, spare, 8192);
    }
    if (w == WHY_WORK_BEFORE_RESULT && a.status == 6 && wl < 8192) a.status = 7;
    if (w == WHY_REFUSED_WIPES_W && a.status) wipe(out, ol);
    if (w == WHY_REFUSED_WIPES_WORK && a.status) wipe(work, wl);
    if (w == WHY_REFUSED_HAS_A_GROUND && a.status) a.ground = 1;
    if (a.status) return a;
    uint32_t zero = content(n, f, fl);
    if (w == WHY_COPRIME_ALWAYS) { wipe(out, 49); a.ground = a.m = a.degree = 0; }
    if (w == WHY_M_IS_N && a.ground) a.m = n;
    if (w == WHY_M_IS_1 && a.ground) a.m = 1;
    if (w == WHY_M_IS_D && a.ground) a.m = __real_jingcobu_divisor(n, f, fl, g, gl, work, wl).value;
    if (w == WHY_ZERO_BY_F_ALONE && a.ground && zero > 1) { wipe(out, 49); a.ground = 1; a.m = zero; a.degree = 0; }
    if (w == WHY_W_NOT_MONIC && a.ground == 2) for (size_t i = 0; i <= a.degree; i++) out[i] = (a.m - out[i] % a.m) % a.m;
    if (w == WHY_W_OF_DEGREE_0 && a.ground == 2) { wipe(out, 49); out[0] = 1; a.degree = 0; }
    if (w == WHY_W_IS_F && a.ground == 2 && fl > 1 && f[fl - 1] == 1) { memcpy(out, f, fl * sizeof *f); a.degree = (uint32_t) fl - 1; }
    if (w == WHY_W_TOP_FIRST && a.ground == 2)
        for (size_t i = 0; 2 * i < a.degree; i++) { uint32_t x = out[i]; out[i] = out[a.degree - i]; out[a.degree - i] = x; }
    if (w == WHY_DEGREE_COUNTS_WORDS && a.ground == 2) a.degree++;
    if (w == WHY_SECOND_FOR_FIRST && a.ground == 1) { out[0] = 1; a.ground = 2; }
    if (w == WHY_M_WHERE_COPRIME && !a.ground) a.m = 1;
    if (w == WHY_DEGREE_FOR_THE_FIRST && a.ground == 1) a.degree = (uint32_t) fl;
    if (w == WHY_LEAVES_W_FOR_THE_FIRST && a.ground == 1) memcpy(out, found, sizeof found);
    if (w == WHY_LEAVES_W_WHERE_COPRIME && !a.ground) memcpy(out, found, sizeof found);
    if (w == WHY_LEAVES_WORDS_ABOVE && a.ground == 2) memcpy(out + a.degree + 1, found + a.degree + 1, (48 - a.degree) * sizeof *found);
    if (w == WHY_WIPES_BEYOND_49 && ol > 49) out[ol - 1] = 0;
    if (w == WHY_REFUSES_49_WORDS && ol == 49) { a.ground = a.m = a.degree = 0; a.status = 6; }
    if (w == WHY_LEAVES_THE_LAST_WORKING_WORD) work[wl - 1] = 1;
    if (w == WHY_WRITES_F) ((uint32_t *) f)[0] = 0;
    return a;
}

/* ---- claims */

/* whether the first `count` words of u f + v g are those of the constant d modulo n */
static int combines(uint32_t n, const uint32_t *f, size_t fl, const uint32_t *g, size_t gl, uint32_t d, const uint32_t *u, size_t ul,
                    const uint32_t *v, size_t vl, size_t count)
{
    for (size_t k = 0; k < count; k++) {
        uint64_t s = 0;
        for (size_t i = 0; i < fl && i <= k; i++) if (k - i < ul) s = (s + (uint64_t) f[i] * u[k - i]) % n;
        for (size_t i = 0; i < gl && i <= k; i++) if (k - i < vl) s = (s + (uint64_t) g[i] * v[k - i]) % n;
        if (s != (k ? 0 : d % n)) return 0;
    }
    return 1;
}

jingcobu_answer __wrap_jingcobu_check_claim(uint32_t n, const uint32_t *f, size_t fl, const uint32_t *g, size_t gl, uint32_t d,
                                            const uint32_t *u, size_t ul, const uint32_t *v, size_t vl, uint32_t *work, size_t wl)
{
    int w = version();
    if (w == CLAIM_LOOKS_AT_U && ul) seen = u[0];
    if (straight(w)) return __real_jingcobu_check_claim(n, f, fl, g, gl, d, u, ul, v, vl, work, wl);
    static uint32_t zeros[4096];
    uint32_t D = d;
    size_t count = ul + fl > vl + gl ? ul + fl - 1 : vl + gl - 1;
    if (w == CLAIM_0_FOR_N && !d) D = n;
    if (w == CLAIM_OF_D_MODULO_N && n > 1 && d > n) D = d % n;
    jingcobu_answer a = w == CLAIM_OF_EXCHANGED ? __real_jingcobu_check_claim(n, f, fl, g, gl, D, v, vl, u, ul, work, wl)
                                                : __real_jingcobu_check_claim(n, f, fl, g, gl, D, u, ul, v, vl, work, wl);
    if (a.status == 16) {
        if (w == CLAIM_TAKES_4097_WORDS && ul && vl)
            a = __real_jingcobu_check_claim(n, f, fl, g, gl, d, u, ul > 4096 ? 4096 : ul, v, vl > 4096 ? 4096 : vl, work, wl);
        if (w == CLAIM_TAKES_NO_WORD && ul < 4097 && vl < 4097)
            a = __real_jingcobu_check_claim(n, f, fl, g, gl, d, ul ? u : zeros, ul ? ul : 1, vl ? v : zeros, vl ? vl : 1, work, wl);
        if (w == CLAIM_16_AFTER_3 && (large(n, f, fl) || large(n, g, gl))) a.status = 3;
    }
    if (w == CLAIM_16_BEFORE_2 && a.status == 2 && (ul < 1 || ul > 4096 || vl < 1 || vl > 4096)) a.status = 16;
    if (w == CLAIM_TAKES_LARGE_WORDS_OF_V && a.status == 3 && !large(n, f, fl) && !large(n, g, gl) && !large(n, u, ul))
        a = __real_jingcobu_check_claim(n, f, fl, g, gl, d, u, ul, zeros, vl, work, wl);
    if (w == CLAIM_WORK_BEFORE_WORDS && a.status == 3 && wl < 8192) a.status = 7;
    if (w == CLAIM_TAKES_8191_WORDS && a.status == 7 && wl == 8191) {
        wipe(work, wl);
        return __real_jingcobu_check_claim(n, f, fl, g, gl, d, u, ul, v, vl, spare, 8192);
    }
    if (w == CLAIM_REFUSED_WIPES_WORK && a.status) wipe(work, wl);
    if (w == CLAIM_REFUSED_HAS_A_VALUE && a.status) a.value = 1;
    if (a.status) return a;
    if (w == CLAIM_ALWAYS_ACCEPTED) a.value = 0;
    if (w == CLAIM_SECOND_BEFORE_FIRST && a.value == 1 && !combines(n, f, fl, g, gl, d, u, ul, v, vl, count)) a.value = 2;
    if (w == CLAIM_WITHOUT_THE_FIRST && a.value == 1) a.value = combines(n, f, fl, g, gl, d, u, ul, v, vl, count) ? 3 : 2;
    if (w == CLAIM_READS_1489_WORDS)
        a = __real_jingcobu_check_claim(n, f, fl, g, gl, d, u, ul > 1489 ? 1489 : ul, v, vl > 1489 ? 1489 : vl, work, wl);
    if (w == CLAIM_TOP_NOT_COMPARED && a.value == 2 && count > 1 && combines(n, f, fl, g, gl, d, u, ul, v, vl, count - 1)) a.value = 0;
    if (w == CLAIM_CONSTANT_ALONE_COMPARED && a.value == 2 && combines(n, f, fl, g, gl, d, u, ul, v, vl, 1)) a.value = 0;
    if (w == CLAIM_WITHOUT_THE_SECOND && a.value == 2) a.value = __real_jingcobu_divisor(n, f, fl, g, gl, work, wl).value == d ? 0 : 3;
    if (w == CLAIM_THIRD_BEFORE_SECOND && a.value == 2 && __real_jingcobu_divisor(n, f, fl, g, gl, work, wl).value != d) a.value = 3;
    if (w == CLAIM_WITHOUT_THE_THIRD && a.value == 3) a.value = 0;
    if (w == CLAIM_THIRD_OF_GCD_WITH_RESULTANT && (a.value == 0 || a.value == 3))
        a.value = divisor(n, __real_jingcobu_resultant(n, f, fl, g, gl, work, wl).value) == d ? 0 : 3;
    if (w == CLAIM_D_OF_N_REFUSED && d == n) { a.value = 0; a.status = 3; }
    if (w == CLAIM_REFUSES_4096_WORDS && (ul == 4096 || vl == 4096)) { a.value = 0; a.status = 16; }
    if (w == CLAIM_LEAVES_THE_LAST_WORKING_WORD) work[wl - 1] = 1;
    if (w == CLAIM_WRITES_V) ((uint32_t *) v)[vl - 1] = (v[vl - 1] + 1) % n;
    return a;
}

/* ---- two variables */

/* whether a prime from `from` to `to` divides n */
static int prime_between(uint32_t n, size_t from, size_t to)
{
    static const uint32_t primes[] = { 2, 3, 5, 7, 11, 13, 17, 19, 23, 29, 31, 37, 41, 43, 47, 53, 59 };
    for (size_t i = 0; i < 17; i++) if (primes[i] >= from && primes[i] <= to && n % primes[i] == 0) return 1;
    return 0;
}

/* the words of a polynomial of degrees d in y and a in z in another order */
enum { AS_SENT, TOP_FIRST_IN_Y, TOP_FIRST_IN_Z, GROUPS_OF_Z, CONSTANTS_IN_Z };
static void ordered(int order, const uint32_t *f, size_t d, size_t a, uint32_t *other)
{
    for (size_t i = 0; i <= d; i++)
        for (size_t k = 0; k <= a; k++)
            other[i * (a + 1) + k] = order == TOP_FIRST_IN_Y ? f[(d - i) * (a + 1) + k] : order == TOP_FIRST_IN_Z ? f[i * (a + 1) + a - k]
                : order == GROUPS_OF_Z ? f[k * (d + 1) + i] : order == CONSTANTS_IN_Z && k ? 0 : f[i * (a + 1) + k];
}

/* the degree in y without the top groups of zeros */
static size_t without_zero_tops(const uint32_t *f, size_t d, size_t a)
{
    while (d && content(0, f + d * (a + 1), a + 1) == 0) d--;
    return d;
}

jingcobu_answer __wrap_jingcobu_resultant_two(uint32_t n, const uint32_t *f, size_t fl, size_t d, size_t a, const uint32_t *g, size_t gl,
                                              size_t e, size_t b, uint32_t *out, size_t ol, uint32_t *work, size_t wl)
{
    int w = version();
    if (w == TWO_LOOKS_AT_G && gl) seen = g[0];
    if (straight(w)) return __real_jingcobu_resultant_two(n, f, fl, d, a, g, gl, e, b, out, ol, work, wl);
    int order = w == TWO_TOP_FIRST_IN_Y ? TOP_FIRST_IN_Y : w == TWO_TOP_FIRST_IN_Z ? TOP_FIRST_IN_Z : w == TWO_GROUPS_OF_Z ? GROUPS_OF_Z
        : w == TWO_OF_CONSTANTS_IN_Z ? CONSTANTS_IN_Z : AS_SENT;
    static uint32_t f_other[2500], g_other[2500], longer[61];
    size_t B = e * a + d * b;                                                               /* right where no degree is above 48 */
    uint32_t top = B < ol ? out[B] : 0;
    jingcobu_answer r = __real_jingcobu_resultant_two(n, f, fl, d, a, g, gl, e, b, out, ol, work, wl);
    if (r.status == 2) {
        if (w == TWO_TAKES_LONGER_F && d < 49 && a < 49 && fl > (d + 1) * (a + 1))
            return __real_jingcobu_resultant_two(n, f, (d + 1) * (a + 1), d, a, g, gl, e, b, out, ol, work, wl);
        if (w == TWO_TAKES_DEGREE_49 && d < 50 && a < 50 && fl == (d + 1) * (a + 1) && e < 49 && b < 49 && gl == (e + 1) * (b + 1)) r.status = 12;
    }
    if (w == TWO_12_BEFORE_3 && r.status == 3 && B > 60) r.status = 12;
    if (w == TWO_11_BEFORE_12 && r.status == 12 && prime_between(n, 2, 59)) r.status = 11;
    if (w == TWO_TAKES_B_61 && r.status == 12 && B == 61) r.status = prime_between(n, 2, 59) ? 11 : 0;
    if (w == TWO_WITHOUT_53 && r.status == 11 && n % 53 == 0 && !prime_between(n, 2, 47) && (B < 59 || n % 59)) r.status = 0;
    if (w == TWO_PRIMES_BELOW_B && r.status == 11 && !prime_between(n, 2, B - 1)) r.status = 0;
    if (w == TWO_TAKES_B_WORDS && r.status == 6 && ol == B && wl >= 8192) {
        r = __real_jingcobu_resultant_two(n, f, fl, d, a, g, gl, e, b, longer, 61, work, wl);
        if (ol) memcpy(out, longer, ol * sizeof *out);
        return r;
    }
    if (w == TWO_WORK_BEFORE_RESULT && r.status == 6 && wl < 8192) r.status = 7;
    if (w == TWO_TAKES_8191_WORDS && r.status == 7 && wl == 8191) {
        wipe(work, wl);
        return __real_jingcobu_resultant_two(n, f, fl, d, a, g, gl, e, b, out, ol, spare, 8192);
    }
    if (w == TWO_REFUSED_WIPES_OUT && r.status) wipe(out, ol);
    if (w == TWO_REFUSED_WIPES_WORK && r.status) wipe(work, wl);
    if (w == TWO_HAS_A_VALUE) r.value = 1;
    if (r.status || w == TWO_TAKES_B_61 || w == TWO_WITHOUT_53 || w == TWO_PRIMES_BELOW_B) return r;
    if (order != AS_SENT) {
        ordered(order, f, d, a, f_other);
        ordered(order, g, e, b, g_other);
        __real_jingcobu_resultant_two(n, f_other, fl, d, a, g_other, gl, e, b, out, ol, work, wl);
    }
    if (w == TWO_OF_EXCHANGED) __real_jingcobu_resultant_two(n, g, gl, e, b, f, fl, d, a, out, ol, work, wl);
    if (w == TWO_WITHOUT_ZERO_TOPS) {
        size_t k = without_zero_tops(f, d, a), l = without_zero_tops(g, e, b);
        wipe(out, B + 1);
        __real_jingcobu_resultant_two(n, f, (k + 1) * (a + 1), k, a, g, (l + 1) * (b + 1), l, b, out, ol, work, wl);
    }
    /* the answer at z + 1 */
    if (w == TWO_POINTS_ONE_OFF)
        for (size_t i = 0; i < B; i++) for (size_t k = B; k-- > i;) out[k] = (uint32_t) (((uint64_t) out[k] + out[k + 1]) % n);
    if (w == TWO_LEAVES_THE_TOP) out[B] = top;
    if (w == TWO_TOP_IS_0) out[B] = 0;
    if (w == TWO_WRITES_ONE_MORE && B + 1 < ol) out[B + 1] = 0;
    if (w == TWO_B_FROM_D_A && ol < d * a + e * b + 1) r.status = 6;
    if (w == TWO_REFUSES_ENOUGH_WORDS && ol == B + 1) r.status = 6;
    if (w == TWO_REFUSES_B_60 && B == 60) r.status = 12;
    if (w == TWO_PRIMES_UP_TO_59 && prime_between(n, 2, 59)) r.status = 11;
    if (w == TWO_LEAVES_THE_LAST_WORKING_WORD) work[wl - 1] = 1;
    if (w == TWO_WRITES_F) ((uint32_t *) f)[0] = 0;
    return r;
}

typedef jingcobu_answer answer;
#define SERVICE(name) __wrap_jingcobu_##name
#define REAL(name) __real_jingcobu_##name
#define WORK_LEN JINGCOBU_WORK
#include "wrong_batch.h"
