/* jingcobu.h: products, true degrees, resultants and reduced resultants of polynomials over Z/nZ, n from 2 to 4294967295, with
 * cofactors of both, and of many pairs in one call; why two polynomials are not coprime, and whether a claim about them is true;
 * resultants of polynomials in two variables; the gcd of two residues with cofactors; a product whose factors come and go; polynomials
 * as text; the shares of four groups in a run of frames. Products, true degrees, resultants and reduced resultants, also of many pairs,
 * and the gcd with words of 64 bits too, n up to 9223372036854775807: the functions that begin with jingcobu64_, at the end.
 *
 * A polynomial of sent degree d is d + 1 words, constant first, each below n, d from 0 to 48. The top word may be zero and
 * counts: the resultant is the determinant of the Sylvester matrix in the sent degrees, modulo n. Below, f has the sent degree
 * d = f_len - 1 and g has e = g_len - 1.
 *
 * Every call returns a status and one or more values. Status JINGCOBU_OK: the values are the answer. Any other status is a refusal:
 * every value is 0 (a state of factors is the one that was sent) and every buffer is unchanged (S23). The refusals are tested
 * in the order in which the function lists them, and the first that applies is the status (S22).
 *
 * Buffers: a length counts words, that of a text bytes. What is const is read only, so two const buffers of one call may overlap: f and
 * g may be the same words. What is written (results and work) may overlap nothing else of the call, const or not. NULL
 * is accepted if the length is 0. A buffer may be longer than required (S25). Nothing is kept between calls and no memory is
 * allocated (S26); calls on different buffers may run at the same time. A call never needs more than 64 KiB of stack.
 *
 * Lengths that are refused before a word is read, however large they are and whatever the pointers are: no word or more than 49 of f,
 * g or h; for a product also d + e above 48; in two variables a degree above 48, or a length that is not that of the degrees; of many
 * pairs a degree above 48, or a length that is not that of the degree and the count (all these with 2); no word or more than
 * JINGCOBU_MULTIPLIER of a claimed multiplier (16); more than 767 bytes of a text (17). A call that is refused with 1, 2 or 16 has not
 * read any buffer.
 */
#ifndef JINGCOBU_H
#define JINGCOBU_H

#include <stddef.h>
#include <stdint.h>

/* The version of this header. A program can be run with a shared library whose first number is the same. */
#define JINGCOBU_VERSION "1.0.0"

#ifdef __cplusplus
extern "C" {
#endif

typedef struct { uint32_t value; uint32_t status; } jingcobu_answer;

/* some is 1 if there is a degree. some = 0 with status 0 means none; some and degree are 0 then, and after a refusal. */
typedef struct { uint32_t some; uint32_t degree; uint32_t status; } jingcobu_degree;

/* ground 0: coprime. 1: both are zero modulo m. 2: w of that degree divides both modulo m. m and degree are 0 if the ground
 * does not use them. */
typedef struct { uint32_t ground; uint32_t m; uint32_t degree; uint32_t status; } jingcobu_reason;

/* g = gcd(a, b, n) and its cofactors. */
typedef struct { uint32_t g; uint32_t s; uint32_t t; uint32_t status; } jingcobu_cofactors;

/* An h and its factors: a plain value, which the caller may keep, copy and drop. Its fields are
 * private: a state is made by jingcobu_factors_start and changed by jingcobu_factors_arrive and _leave alone. */
typedef struct {
    uint32_t n;
    uint32_t h_len;
    uint32_t h[49];
    uint16_t number[16];
    uint32_t degree[16];
    uint32_t resultant[16];
} jingcobu_factors;

/* A state that is returned. */
typedef struct { jingcobu_factors factors; uint32_t status; } jingcobu_factors_answer;
typedef jingcobu_factors_answer jingcobu_held;      /* its name in version 1.0.0 */

/* share[0] to share[3] belong to the groups 1 to 4. */
typedef struct { uint32_t share[4]; uint32_t status; } jingcobu_plan;

/* The statuses. 4 and 5 belong to services that C programs do not call, 8 and 10 to the frame program: no function below returns
 * them. */
enum jingcobu_status {
    JINGCOBU_OK = 0,
    JINGCOBU_BAD_MODULUS = 1,       /* n is 0 or 1; with words of 64 bits also 2^63 or more */
    JINGCOBU_BAD_LENGTH = 2,        /* f, g or h has no word or more than 49; for a product also d + e above 48; in two variables, and
                                       for many pairs, a degree is above 48, or the length is not that of the degrees */
    JINGCOBU_BAD_WORD = 3,          /* a word of f, g, h, or of a claimed multiplier, or a residue a or b, is n or more */
    JINGCOBU_LEAD_NO_UNIT = 4,      /* division: the divisor's top word is not a unit */
    JINGCOBU_NO_UNIT_FACTOR = 5,    /* not a unit polynomial times a monic one; inverse: not a unit polynomial */
    JINGCOBU_SHORT_RESULT = 6,      /* a result buffer (out, u or v, the words read, the text written) is too short */
    JINGCOBU_SHORT_WORK = 7,        /* work has fewer than JINGCOBU_WORK words; of 64 bits: than JINGCOBU64_WORK */
    JINGCOBU_NO_FRAME = 8,          /* the line is not a frame */
    JINGCOBU_NO_COFACTORS = 9,      /* cofactors of the resultant: d = e = 0 */
    JINGCOBU_EMPTY_TOP = 10,        /* frames only: the top word of f or g is zero */
    JINGCOBU_PRIME_DIVIDES = 11,    /* two variables: a prime up to e a + d b divides n */
    JINGCOBU_TOO_MANY_POINTS = 12,  /* two variables: e a + d b is above 60 */
    JINGCOBU_FACTORS_FULL = 13,     /* factors: 16 are present, or the sent degrees would add up to more than 48 */
    JINGCOBU_BAD_NUMBER = 14,       /* factors: the number is 0, or is present already on arrival, or is not present on leaving */
    JINGCOBU_BAD_FRAMES = 15,       /* shares: the number of frames is 0 or above 1024 */
    JINGCOBU_BAD_MULTIPLIER = 16,   /* claims: a multiplier has no word or more than 4096 */
    JINGCOBU_NO_TEXT = 17           /* the text is not one of the notation, or has a power above 48 */
};

/* The words that work needs. After an answer ALL words of work are zero, however many there are. */
#define JINGCOBU_WORK 8192

/* Words that always suffice for a cofactor of D: 31 * 48 + 1. */
#define JINGCOBU_COFACTOR 1489

/* The words that a common divisor needs, the most words of a claimed multiplier, and the most words of a resultant in two
 * variables. */
#define JINGCOBU_COMMON 49
#define JINGCOBU_MULTIPLIER 4096
#define JINGCOBU_TWO 61

/* The words that a polynomial read from text needs, and the bytes that a text to be written needs. */
#define JINGCOBU_WORDS 49
#define JINGCOBU_TEXT 800

/* The product of f and g, of sent degree d + e, even if its top word is zero: word k, for k from 0 to d + e, is the sum
 * modulo n of f[i] * g[j] over all i and j that add to k.
 *
 * out needs d + e + 1 words. After an answer its first d + e + 1 words hold the product, and the words beyond are left as they
 * were found; the value is 0. Refusals: 1, 2 (also if d + e is above 48), 3, 6. */
jingcobu_answer jingcobu_product(uint32_t n, const uint32_t *f, size_t f_len, const uint32_t *g, size_t g_len,
                                 uint32_t *out, size_t out_len);

/* Word k of that product alone, for a host that writes a product out while it is made: called with k from 0 to d + e it leaves
 * the whole product.
 *
 * out needs d + e + 1 words, whatever k is. After an answer out[k] is word k of the product, and every other word is left as it
 * was found; a k above d + e writes nothing and is not a refusal. The value is 0. Refusals: 1, 2 (also if d + e is above 48), 3, 6. */
jingcobu_answer jingcobu_product_word(uint32_t n, const uint32_t *f, size_t f_len, const uint32_t *g, size_t g_len,
                                      uint32_t *out, size_t out_len, size_t k);

/* The true degree of f: the place of its highest word that is not zero. A zero polynomial, of any length, has none: some = 0,
 * degree = 0 and status 0; a constant that is not zero has some = 1 and degree = 0. Refusals: 1, 2, 3. */
jingcobu_degree jingcobu_true_degree(uint32_t n, const uint32_t *f, size_t f_len);

/* The resultant of f and g, from 0 to n - 1. Refusals: 1, 2, 3, 7. */
jingcobu_answer jingcobu_resultant(uint32_t n, const uint32_t *f, size_t f_len, const uint32_t *g, size_t g_len,
                                   uint32_t *work, size_t work_len);

/* The reduced resultant D of f and g: the divisor of n, from 1 to n, whose multiples are exactly the constants that
 * u f + v g can be, with polynomials u and v of any degree. D = n means that only 0 is reached.
 *
 * u and v need L = K * max(d, e) + 1 words each, where 2^K is the largest power of 2 that is at most n. After an answer the first
 * L words of u and of v hold cofactors, constant first, zeros above them: u f + v g is the constant D modulo n. Words beyond the
 * first L are left as they were found. The cofactors are determined only if d = e = 0: then L is 1, and u[0] and v[0] are
 * the s and t of jingcobu_gcd(n, f[0], g[0]). Refusals: 1, 2, 3, 6, 7. */
jingcobu_answer jingcobu_reduced_resultant(uint32_t n, const uint32_t *f, size_t f_len, const uint32_t *g, size_t g_len,
                                           uint32_t *u, size_t u_len, uint32_t *v, size_t v_len, uint32_t *work, size_t work_len);

/* D alone, as jingcobu_reduced_resultant returns it, in less time. Refusals: 1, 2, 3, 7. */
jingcobu_answer jingcobu_divisor(uint32_t n, const uint32_t *f, size_t f_len, const uint32_t *g, size_t g_len,
                                 uint32_t *work, size_t work_len);

/* The resultants of many pairs of one modulus and one pair of sent degrees in one call: what count calls of jingcobu_resultant answer, in
 * less time, since the working words are wiped once. f holds count polynomials of sent degree d one after the other, and g as many of
 * sent degree e: pair i is f[i (d + 1)] to f[i (d + 1) + d] and g[i (e + 1)] to g[i (e + 1) + e].
 *
 * So f_len is count (d + 1), and g_len is count (e + 1); out needs count words. After an answer out[i] is the resultant of pair i, for i
 * from 0 to count - 1, and the words beyond are left as they were found; the value is 0. A count of 0 is answered, and writes nothing into
 * out. All or nothing: where one word of one pair is n or more, no pair is answered.
 *
 * Refusals: 1, 2 (d is above 48 or f_len is not count (d + 1), then the same of g; a product too large for a size_t does not match any
 * length), 3 (f before g), 6, 7. A call that is refused with 1 or 2 has not read any buffer, however large the lengths are. */
jingcobu_answer jingcobu_resultants(uint32_t n, const uint32_t *f, size_t f_len, size_t d, const uint32_t *g, size_t g_len, size_t e,
                                    size_t count, uint32_t *out, size_t out_len, uint32_t *work, size_t work_len);

/* D alone of many pairs: what count calls of jingcobu_divisor answer. All else, the refusals too, is as for jingcobu_resultants. */
jingcobu_answer jingcobu_divisors(uint32_t n, const uint32_t *f, size_t f_len, size_t d, const uint32_t *g, size_t g_len, size_t e,
                                  size_t count, uint32_t *out, size_t out_len, uint32_t *work, size_t work_len);

/* The resultant of f and g, as jingcobu_resultant returns it, with cofactors: u of e words and v of d words with u f + v g equal to
 * the resultant modulo n, for every pair with d + e at least 1.
 *
 * u needs e words and v needs d: none if e or d is 0. After an answer the first e words of u and the first d of v hold
 * residues, constant first, and the words beyond are left as they were found. Which cofactors are returned is not determined if
 * there are several. Refusals: 1, 2, 3, 9 (d = e = 0), 6 (u before v), 7. */
jingcobu_answer jingcobu_resultant_cofactors(uint32_t n, const uint32_t *f, size_t f_len, const uint32_t *g, size_t g_len,
                                             uint32_t *u, size_t u_len, uint32_t *v, size_t v_len, uint32_t *work, size_t work_len);

/* Why f and g are not coprime. ground 0: they are, D is 1. Otherwise m is a divisor of n, above 1, that divides D, and
 * ground 1: both polynomials are zero modulo m;
 * ground 2: a monic w of that degree, 1 to 48, divides both modulo m.
 *
 * w needs JINGCOBU_COMMON words. After an answer its first 49 words hold w, constant first, zeros above it; they are all zero for
 * the grounds 0 and 1. The words beyond are left as they were found. Which m and w are returned is not determined.
 * Refusals: 1, 2, 3, 6, 7. */
jingcobu_reason jingcobu_why(uint32_t n, const uint32_t *f, size_t f_len, const uint32_t *g, size_t g_len,
                             uint32_t *w, size_t w_len, uint32_t *work, size_t work_len);

/* Whether a claim from elsewhere is true: that D is d, and that the multipliers u and v make it. d may be any word. The value is 0
 * if it is, otherwise the number of the first that fails of
 * 1: d divides n (0 divides no n);
 * 2: u f + v g is the constant d modulo n;
 * 3: d is the reduced resultant of f and g.
 *
 * u and v have 1 to JINGCOBU_MULTIPLIER words each, whatever n, f and g are. Refusals: 1, 2, 16 (u before v), 3 (f, g, u, v), 7. */
jingcobu_answer jingcobu_check_claim(uint32_t n, const uint32_t *f, size_t f_len, const uint32_t *g, size_t g_len, uint32_t d,
                                     const uint32_t *u, size_t u_len, const uint32_t *v, size_t v_len, uint32_t *work, size_t work_len);

/* The resultant in y of two polynomials in y and z, itself a polynomial in z. f has the sent degrees d in y and a in z, g has e and
 * b; each is at most 48. The words of f stand in d + 1 groups of a + 1, one group for each power of y, both constant first:
 *
 *     f[0]            f[1]            ..  f[a]                  y^0 times  1, z, .., z^a
 *     f[a + 1]        f[a + 2]        ..  f[2 a + 1]            y^1
 *     ..
 *     f[d (a + 1)]    ..              ..  f[(d + 1)(a + 1) - 1] y^d
 *
 * So f_len is (d + 1)(a + 1), and g_len is (e + 1)(b + 1). The answer has B + 1 words, B = e a + d b, at most 61: the Sylvester
 * determinant in the sent degrees d and e, worked with polynomials in z, modulo n; constant first. It is found from its values at
 * 0 to B, so no prime up to B may divide n.
 *
 * out needs B + 1 words. After an answer its first B + 1 words hold the resultant, and the words beyond are left as they were
 * found. The value is 0. Refusals: 1, 2 (f before g), 3, 12 (B is above 60), 11 (a prime up to B divides n), 6, 7. */
jingcobu_answer jingcobu_resultant_two(uint32_t n, const uint32_t *f, size_t f_len, size_t d, size_t a,
                                       const uint32_t *g, size_t g_len, size_t e, size_t b,
                                       uint32_t *out, size_t out_len, uint32_t *work, size_t work_len);

/* The greatest common divisor g of a, b and n, from 1 to n, for residues a and b, each below n; it is n if both are 0. s and t
 * are its least cofactors, each below n: s is the least number from 0 upward for which some t makes s a + t b equal to g modulo n,
 * and t is then the least that does. Refusals: 1, 3 (a or b is n or more). */
jingcobu_cofactors jingcobu_gcd(uint32_t n, uint32_t a, uint32_t b);

/* A product whose factors come and go: one h, and beside it at most 16 factors, each under a number from 1 to 65535 that the host
 * chooses. The resultant of the product of the factors present with h can be read at any time.
 *
 * States are passed and returned by value; after a refusal the state that is returned is the one that was sent. What is
 * said here of the factors present and of readings holds for a state that an answered start made and only these calls changed. A
 * call on any other state answers or refuses, and does no harm; if its n is 0 or 1, every call refuses it with 1. */

/* The state with n and h and no factor. A refused start returns zeros in every field. Refusals: 1, 2, 3. */
jingcobu_factors_answer jingcobu_factors_start(uint32_t n, const uint32_t *h, size_t h_len);

/* The state with one more factor, f, under its number. Only f's sent degree and its resultant with h are kept.
 *
 * Refusals: 1, 2, 3, 14 (the number is 0 or is present already), 13 (16 factors are present, or the sent degrees of those and of f add up
 * to more than 48), 7. */
jingcobu_factors_answer jingcobu_factors_arrive(jingcobu_factors state, uint16_t number, const uint32_t *f, size_t f_len,
                                      uint32_t *work, size_t work_len);

/* The state without the factor under that number, which is free again; also if its resultant with h is a zero divisor.
 * Refusals: 1, 14 (the number is 0 or is not present). */
jingcobu_factors_answer jingcobu_factors_leave(jingcobu_factors state, uint16_t number);

/* The resultant of the product of the factors present with h, the product in its summed sent degree: what jingcobu_resultant returns
 * for the multiplied factors and h. With no factor present the product is the constant 1, and the value is 1. Refusals: 1. */
jingcobu_answer jingcobu_factors_read(jingcobu_factors state);

/* Polynomials as text, without blanks: terms from high power to low, joined by +, each power at most once. A term is a coefficient
 * from 1 to n - 1, then nothing for power 0, *x for power 1, *x^k for a higher k. Numbers are decimal without leading zeros. The
 * zero polynomial is 0. So the words 5,1,0,3 are 3*x^3+1*x+5; x, 1*x^1, 5+1*x and 1*x+0 are not texts.
 *
 * A text is text_len bytes and needs no zero byte at its end; a zero byte among them is a character that no text has. */

/* The polynomial that a text spells. Only the text that jingcobu_write_text would write for it is read.
 *
 * words needs JINGCOBU_WORDS words. After an answer its first 49 words hold the polynomial, constant first, zeros above it, and
 * the words beyond are left as they were found. The value is the number of words up to the top one, from 1 to 49; the text 0 is
 * the single word 0. Refusals: 1, 17, 6. */
jingcobu_answer jingcobu_read_text(uint32_t n, const uint8_t *text, size_t text_len, uint32_t *words, size_t words_len);

/* The text of f; zero top words leave no trace in it.
 *
 * text needs JINGCOBU_TEXT bytes. After an answer its first 800 bytes hold the text, zeros above it, and the bytes beyond are left
 * as they were found. The value is the number of characters, from 1 to 767. Refusals: 1, 2, 3, 6. */
jingcobu_answer jingcobu_write_text(uint32_t n, const uint32_t *f, size_t f_len, uint8_t *text, size_t text_len);

/* How many jobs of each of four groups go into a run of so many frames, 1 to 1024, if waiting1 to waiting4 jobs wait. Frames
 * are given out one at a time in the order 1, 2, 3, 4 and round again, passing over a group with none left waiting, until all are
 * given or nothing waits. Refusals: 15. */
jingcobu_plan jingcobu_shares(uint32_t frames, uint32_t waiting1, uint32_t waiting2, uint32_t waiting3, uint32_t waiting4);

/* Words of 64 bits. n is from 2 to 2^63 - 1 = 9223372036854775807; degrees, statuses and what is said of buffers are as above. If n
 * and all words fit 32 bits, the values and the product are those of the functions above. */

typedef struct { uint64_t value; uint32_t status; } jingcobu64_answer;

/* g = gcd(a, b, n) and its cofactors. */
typedef struct { uint64_t g; uint64_t s; uint64_t t; uint32_t status; } jingcobu64_cofactors;

/* The words that work needs. After an answer ALL words of work are zero, however many there are. */
#define JINGCOBU64_WORK 16384

/* Words that always suffice for a cofactor of D: 62 * 48 + 1. */
#define JINGCOBU64_COFACTOR 2977

/* The product of f and g, as jingcobu_product returns it: out needs d + e + 1 words, and the value is 0.
 * Refusals: 1 (n is 0 or 1, or 2^63 or more), 2 (also if d + e is above 48), 3, 6. */
jingcobu64_answer jingcobu64_product(uint64_t n, const uint64_t *f, size_t f_len, const uint64_t *g, size_t g_len,
                                     uint64_t *out, size_t out_len);

/* The resultant of f and g, from 0 to n - 1. Refusals: 1 (n is 0 or 1, or 2^63 or more), 2, 3, 7. */
jingcobu64_answer jingcobu64_resultant(uint64_t n, const uint64_t *f, size_t f_len, const uint64_t *g, size_t g_len,
                                       uint64_t *work, size_t work_len);

/* The reduced resultant D of f and g with cofactors, as jingcobu_reduced_resultant returns it: u and v need L = K * max(d, e) + 1 words
 * each, where 2^K is the largest power of 2 that is at most n. For d = e = 0 u[0] and v[0] are the least cofactors, u[0] first.
 * Refusals: 1 (n is 0 or 1, or 2^63 or more), 2, 3, 6, 7. */
jingcobu64_answer jingcobu64_reduced_resultant(uint64_t n, const uint64_t *f, size_t f_len, const uint64_t *g, size_t g_len,
                                               uint64_t *u, size_t u_len, uint64_t *v, size_t v_len, uint64_t *work, size_t work_len);

/* D alone, as jingcobu64_reduced_resultant returns it, in less time. Refusals: 1 (n is 0 or 1, or 2^63 or more), 2, 3, 7. */
jingcobu64_answer jingcobu64_divisor(uint64_t n, const uint64_t *f, size_t f_len, const uint64_t *g, size_t g_len,
                                     uint64_t *work, size_t work_len);

/* The resultants, and D alone, of many pairs in one call, as jingcobu_resultants and jingcobu_divisors answer them: what count calls of
 * jingcobu64_resultant and of jingcobu64_divisor answer. Refusals: 1 (n is 0 or 1, or 2^63 or more), 2, 3, 6, 7. */
jingcobu64_answer jingcobu64_resultants(uint64_t n, const uint64_t *f, size_t f_len, size_t d, const uint64_t *g, size_t g_len, size_t e,
                                        size_t count, uint64_t *out, size_t out_len, uint64_t *work, size_t work_len);
jingcobu64_answer jingcobu64_divisors(uint64_t n, const uint64_t *f, size_t f_len, size_t d, const uint64_t *g, size_t g_len, size_t e,
                                      size_t count, uint64_t *out, size_t out_len, uint64_t *work, size_t work_len);

/* The true degree of f, as jingcobu_true_degree returns it. Refusals: 1 (n is 0 or 1, or 2^63 or more), 2, 3. */
jingcobu_degree jingcobu64_true_degree(uint64_t n, const uint64_t *f, size_t f_len);

/* The greatest common divisor of a, b and n with its least cofactors, as jingcobu_gcd returns it.
 * Refusals: 1 (n is 0 or 1, or 2^63 or more), 3 (a or b is n or more). */
jingcobu64_cofactors jingcobu64_gcd(uint64_t n, uint64_t a, uint64_t b);

/* ---- defined in this header only: the library does not export these names */

/* The version of the header that the program was built with. */
static inline const char *jingcobu_version(void) { return JINGCOBU_VERSION; }

/* The meaning of a status, a constant string; a status from 18 on is unknown. */
static inline const char *jingcobu_status_text(unsigned status)
{
    switch (status) {
    case JINGCOBU_OK: return "answered";
    case JINGCOBU_BAD_MODULUS: return "the modulus n is 0 or 1, or with words of 64 bits 2^63 or more";
    case JINGCOBU_BAD_LENGTH: return "a polynomial has no word or more than 49, or the sent degrees do not fit";
    case JINGCOBU_BAD_WORD: return "a word or a residue is n or more";
    case JINGCOBU_LEAD_NO_UNIT: return "the divisor's top word is not a unit";
    case JINGCOBU_NO_UNIT_FACTOR: return "not a unit polynomial times a monic one";
    case JINGCOBU_SHORT_RESULT: return "a result buffer is too short";
    case JINGCOBU_SHORT_WORK: return "too few working words";
    case JINGCOBU_NO_FRAME: return "the line is not a frame";
    case JINGCOBU_NO_COFACTORS: return "both sent degrees are 0: the resultant has no cofactors";
    case JINGCOBU_EMPTY_TOP: return "the top word of f or g is zero";
    case JINGCOBU_PRIME_DIVIDES: return "a prime up to e a + d b divides n";
    case JINGCOBU_TOO_MANY_POINTS: return "e a + d b is above 60";
    case JINGCOBU_FACTORS_FULL: return "16 factors are present, or the sent degrees would add up to more than 48";
    case JINGCOBU_BAD_NUMBER: return "the number of a factor is 0, present already, or not present";
    case JINGCOBU_BAD_FRAMES: return "the number of frames is 0 or above 1024";
    case JINGCOBU_BAD_MULTIPLIER: return "a multiplier has no word or more than 4096";
    case JINGCOBU_NO_TEXT: return "not a text of the notation";
    default: return "unknown status";
    }
}

#ifdef __cplusplus
}
#endif

#endif
