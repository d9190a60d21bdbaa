/* What the wrong versions of both hosts share. Defined before it: `word`, the type of a word, and the numbers of the versions: RIGHT,
 * RESULTANT_LOOKS_AT_F, the first of those that are the library itself except for a read, and VERSIONS, their count. */
static int version(void)
{
    static int found = -1;
    if (found < 0) found = getenv("WRONG") ? atoi(getenv("WRONG")) : RIGHT;
    if (found >= VERSIONS) exit(99);
    return found;
}

/* The library itself, but for a look: what the last versions do before the length is tested. */
static volatile uint64_t seen;
static int straight(int w) { return w == RIGHT || w >= RESULTANT_LOOKS_AT_F; }

static void wipe(word *b, size_t length) { if (length) memset(b, 0, length * sizeof *b); }

static word divisor(word a, word b)
{
    while (b) { word c = a % b; a = b; b = c; }
    return a;
}

/* whether a word of f is n or more */
static int large(word n, const word *f, size_t fl)
{
    for (size_t i = 0; i < fl; i++) if (f[i] >= n) return 1;
    return 0;
}

/* without the zero words at the top, where the length is one that is answered */
static size_t without_zeros(const word *f, size_t fl)
{
    while (fl > 1 && fl < 50 && f[fl - 1] == 0) fl--;
    return fl;
}
