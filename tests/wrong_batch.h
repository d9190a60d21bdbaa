/* Wrong versions of the calls for many pairs, for both widths. Before it stand wrong.h, `answer`, the type of an answer, SERVICE(name) and
 * REAL(name), the function that the host calls and that of the library, WORK_LEN, and MANY_FIRST and MANY_LAST, the numbers of these
 * versions: those of the resultants, then those of D. */
enum {
    SECOND_PAIR_HAS_THE_FIRST_F, LAST_PAIR_LEFT_OUT, OUT_SHIFTED_BY_ONE, LAST_WORD_OF_F_UNTESTED, LAST_WORD_OF_G_UNTESTED,
    MANY_OF_EXCHANGED, MANY_OF_THE_OTHER_SERVICE, MANY_WRITE_BEYOND_COUNT, MANY_LEAVE_THE_LAST_WORKING_WORD, MANY_HAVE_A_VALUE, MANY_WORK_BEFORE_OUT,
    MANY_OUT_BEFORE_WORDS, MANY_LENGTHS_BEFORE_MODULUS, MANY_WRAP_THE_LENGTH, MANY_REFUSE_NO_PAIRS, MANY_TAKE_DEGREE_49,
    MANY_TAKE_LONGER_G, MANY_REFUSE_COUNT_WORDS, MANY_REFUSED_WIPE_OUT, MANY_REFUSED_WIPE_WORK, MANY_ANSWER_UP_TO_THE_REFUSED, MANY_WRITE_F,
    MANY_LOOK_AT_F, MANY_COUNT
};
_Static_assert(MANY_LAST - MANY_FIRST + 1 == 2 * MANY_COUNT, "the numbers of the versions");

#define MANY_SENT word n, const word *f, size_t fl, size_t d, const word *g, size_t gl, size_t e, size_t count, word *out, size_t ol, \
    word *work, size_t wl
typedef answer many(MANY_SENT);
many REAL(resultants), REAL(divisors);
answer SERVICE(resultants)(MANY_SENT);
answer SERVICE(divisors)(MANY_SENT);

/* the version of this service, or MANY_COUNT where it is the library itself */
static int many_version(int divisors)
{
    int w = version() - MANY_FIRST - (divisors ? MANY_COUNT : 0);
    return w >= 0 && w < MANY_COUNT ? w : MANY_COUNT;
}

/* what is refused, or answered, otherwise than it should */
static void other_status(int w, answer *a, word n, size_t fl, size_t d, const word *g, size_t gl, size_t e, size_t count, size_t ol,
                         size_t wl)
{
    size_t f_words = count * (d + 1), g_words = count * (e + 1);
    if (w == MANY_WORK_BEFORE_OUT && a->status == 6 && wl < WORK_LEN) a->status = 7;
    if (w == MANY_OUT_BEFORE_WORDS && a->status == 3 && ol < count) a->status = 6;
    if (w == MANY_LENGTHS_BEFORE_MODULUS && a->status == 1 && (fl != f_words || gl != g_words)) a->status = 2;
    if (w == MANY_WRAP_THE_LENGTH && a->status == 2 && d < 49 && e < 49 && fl == f_words && gl == g_words) a->status = 0;
    if (w == MANY_TAKE_DEGREE_49 && a->status == 2 && d == 49) a->status = 0;
    if (w == MANY_TAKE_LONGER_G && a->status == 2 && fl == f_words && d < 49 && e < 49 && gl > g_words) a->status = 0;
    if (w == LAST_WORD_OF_G_UNTESTED && a->status == 3 && !large(n, g, gl - 1)) a->status = 0;
}

static answer wrong_many(many *real, many *other, int w, MANY_SENT)
{
    static word before[4096];
    if (w == MANY_LOOK_AT_F && fl) seen = f[0];
    if (w == MANY_REFUSE_NO_PAIRS && count == 0 && n > 1) return (answer) { 0, 2 };
    if (out && w == OUT_SHIFTED_BY_ONE) memcpy(before, out, (ol < 4096 ? ol : 4096) * sizeof *out);
    answer a = w == MANY_OF_EXCHANGED ? real(n, g, gl, e, f, fl, d, count, out, ol, work, wl)
        : (w == MANY_OF_THE_OTHER_SERVICE ? other : real)(n, f, fl, d, g, gl, e, count, out, ol, work, wl);
    uint32_t found = a.status;
    other_status(w, &a, n, fl, d, g, gl, e, count, ol, wl);
    if (w == LAST_WORD_OF_F_UNTESTED && found == 3 && !large(n, f, fl - 1) && !large(n, g, gl)) a.status = 0;
    if (found && (w == MANY_REFUSED_WIPE_OUT || (w == MANY_ANSWER_UP_TO_THE_REFUSED && found == 3))) wipe(out, ol < count ? ol : count);
    if (found && w == MANY_REFUSED_WIPE_WORK) wipe(work, wl);
    if (found) return a;
    if (w == MANY_HAVE_A_VALUE) a.value = 1;
    if (w == MANY_REFUSE_COUNT_WORDS && ol == count) a.status = 6;
    if (w == MANY_LEAVE_THE_LAST_WORKING_WORD) work[wl - 1] = 1;
    if (w == MANY_WRITE_BEYOND_COUNT && ol > count) out[count] = 0;
    if (w == MANY_WRITE_F && count) ((word *) f)[0] = (word) (f[0] ? 0 : 1);
    if (w == LAST_PAIR_LEFT_OUT && count) out[count - 1] = (word) -1;
    if (w == OUT_SHIFTED_BY_ONE && count > 1) memmove(out, out + 1, (count - 1) * sizeof *out), out[count - 1] = before[0];
    if (w == SECOND_PAIR_HAS_THE_FIRST_F && count > 1) real(n, f, d + 1, d, g + e + 1, e + 1, e, 1, out + 1, 1, work, wl);
    return a;
}

answer SERVICE(resultants)(MANY_SENT)
{
    return wrong_many(REAL(resultants), REAL(divisors), many_version(0), n, f, fl, d, g, gl, e, count, out, ol, work, wl);
}

answer SERVICE(divisors)(MANY_SENT)
{
    return wrong_many(REAL(divisors), REAL(resultants), many_version(1), n, f, fl, d, g, gl, e, count, out, ol, work, wl);
}
