/* What both hosts share: counting what was tried, lent buffers with words before and after what is lent, polynomials that must only
 * be read, and calls that must refuse a length without a look at what is there. Defined before it: `word`, the type of a word; MARK,
 * what a word holds before a call; MOST, the words of a polynomial at the most. */
#include <setjmp.h>
#include <signal.h>
#define MARGIN 64       /* a call is lent `length` words from place MARGIN on */

static long tried, failed, most_failed = 100;

static void expect(int ok, const char *what, const char *where)
{
    tried++;
    if (!ok) {
        failed++;
        if (failed <= 20) printf("FAILED: %s (%s)\n", what, where);
        if (failed == most_failed) { printf("%ld failed, the rest is not tried\n", failed); exit(1); }
    }
}

static void mark(word *b, size_t room) { for (size_t i = 0; i < room; i++) b[i] = MARK; }
static word *lent(word *b, size_t length) { return length ? b + MARGIN : NULL; }

/* whether all words but the first `length` that are lent are as they were */
static int kept_but(const word *b, size_t room, size_t length)
{
    for (size_t i = 0; i < room; i++) if ((i < MARGIN || i >= MARGIN + length) && b[i] != MARK) return 0;
    return 1;
}

/* whether all words from `from` up to `to`, counted from the first that is lent, are x */
static int all(const word *b, size_t from, size_t to, word x)
{
    for (size_t i = from; i < to; i++) if (b[MARGIN + i] != x) return 0;
    return 1;
}

static int below(const word *b, size_t l, word n)
{
    for (size_t i = 0; i < l; i++) if (b[MARGIN + i] >= n) return 0;
    return 1;
}

static size_t larger(size_t a, size_t b) { return a > b ? a : b; }
static size_t cofactor_length(word n, size_t fl, size_t gl)
{
    size_t k = 0;
    while (n > 1) { n /= 2; k++; }
    return k * (larger(fl, gl) - 1) + 1;
}

static word common_divisor(word a, word b)
{
    while (b) { word c = a % b; a = b; b = c; }
    return a;
}

static word first_copy[MOST + 11], second_copy[MOST + 11];
static void copy(const word *f, size_t fl, const word *g, size_t gl)
{
    if (fl) memcpy(first_copy, f, fl * sizeof *f);
    if (gl) memcpy(second_copy, g, gl * sizeof *g);
}
static int same(const word *f, size_t fl, const word *g, size_t gl)
{
    return (!fl || !memcmp(first_copy, f, fl * sizeof *f)) && (!gl || !memcmp(second_copy, g, gl * sizeof *g));
}

/* ---- lengths that are refused unread: nothing stands at NOWHERE, and a call that looks there is brought back and has failed */

#define NOWHERE ((word *) 16)
static const size_t refused_lengths[] = { 50, 4097, SIZE_MAX };
static sigjmp_buf back;
static long unread_calls;

static void looked(int signal)
{
    (void) signal;
    siglongjmp(back, 1);
}

static void watch(void)
{
    struct sigaction action = { .sa_handler = looked };
    sigaction(SIGSEGV, &action, NULL);
    sigaction(SIGBUS, &action, NULL);
}

/* the call returns, with this status */
#define REFUSED(call, should, what, where) do { \
        volatile uint32_t answered_ = 99; \
        unread_calls++; \
        if (!sigsetjmp(back, 1)) answered_ = (call).status; \
        expect(answered_ == (should), what, where); \
    } while (0)
