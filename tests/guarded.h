/* Drawn numbers, and buffers between two pages that cannot be touched. A buffer is lent at its exact length, so that its last element
 * ends where one of these pages begins, or its first stands where the other ends: one step outside stops the program. What a
 * call may only read is lent through a view of the memory that cannot be written; the test fills it through a view of its own. */
#include <signal.h>
#include <stdint.h>
#include <stdio.h>
#include <stdlib.h>
#include <string.h>
#include <sys/mman.h>
#include <unistd.h>

#define PAGE 4096
#define MARK 0xa7               /* what every byte of a buffer holds that a call may write */

/* ---- drawn numbers: from a seed, or, for a fuzzer, from given bytes as long as there are some. `longest` asks for long polynomials,
 * `trouble` for several reasons to refuse at once. */

typedef struct { uint64_t state; const uint8_t *bytes; size_t left; int longest, trouble; } source;

static uint64_t given(source *s)
{
    uint64_t x = 0;
    for (int i = 0; i < 4 && s->left; i++, s->left--) x = x << 8 | *s->bytes++;
    return x | x << 32;
}

static uint64_t draw(source *s)
{
    if (s->left) return given(s);
    s->state ^= s->state << 13; s->state ^= s->state >> 7; s->state ^= s->state << 17;
    return s->state * 0x2545f4914f6cdd1du;
}

static uint64_t below(source *s, uint64_t n) { return (draw(s) >> 16) % n; }
static int once_in(source *s, uint64_t n) { return below(s, n) == 0; }
static int bad(source *s) { return once_in(s, s->trouble ? 3 : 80); }

/* ---- memory */

/* `own` and `lent` are two views of the same pages, or one; no page beside `lent` can be touched */
typedef struct { uint8_t *own, *lent; size_t room; } region;

static void *mapped(void *at, size_t bytes, int protection, int flags, int file)
{
    void *p = mmap(at, bytes, protection, flags, file, 0);
    if (p == MAP_FAILED) { perror("mmap"); exit(1); }
    return p;
}

static region new_region(size_t bytes, int read_only)
{
    region r;
    r.room = (bytes + PAGE - 1) / PAGE * PAGE;
    uint8_t *outer = mapped(NULL, r.room + 2 * PAGE, PROT_NONE, MAP_PRIVATE | MAP_ANONYMOUS, -1);
    int file = memfd_create("buffer", 0);
    if (file < 0 || ftruncate(file, (off_t) r.room)) { perror("memfd_create"); exit(1); }
    r.lent = mapped(outer + PAGE, r.room, read_only ? PROT_READ : PROT_READ | PROT_WRITE, MAP_SHARED | MAP_FIXED, file);
    r.own = read_only ? mapped(NULL, r.room, PROT_READ | PROT_WRITE, MAP_SHARED, file) : r.lent;
    close(file);
    return r;
}

/* A buffer of a region: `length` elements of `size` bytes each, from the byte `at` of the region on. `pointer` is what a call is given. */
typedef struct { region r; size_t size, length, at; void *pointer; } buffer;

static void lend(source *s, buffer *b, size_t length)
{
    size_t bytes = length * b->size;
    b->length = length;
    b->at = once_in(s, 2) ? 0 : b->r.room - bytes;
    b->pointer = length || once_in(s, 2) ? b->r.lent + b->at : NULL;
}

/* A length that is refused without a look: the pointer is to a page that cannot be read. */
static void lend_nothing(buffer *b, size_t length)
{
    b->length = length;
    b->at = 0;
    b->pointer = b->r.lent - PAGE / 2;
}

static uint64_t get(const buffer *b, size_t i)
{
    const uint8_t *p = b->r.own + b->at;
    return b->size == 8 ? ((const uint64_t *) p)[i] : b->size == 4 ? ((const uint32_t *) p)[i] : p[i];
}

static void put(buffer *b, size_t i, uint64_t x)
{
    uint8_t *p = b->r.own + b->at;
    if (b->size == 8) ((uint64_t *) p)[i] = x;
    else if (b->size == 4) ((uint32_t *) p)[i] = (uint32_t) x;
    else p[i] = (uint8_t) x;
}

static void mark(buffer *b) { memset(b->r.own, MARK, b->r.room); }

/* whether all bytes from one place of the region up to another are x */
static int all_bytes(const buffer *b, size_t from, size_t to, uint8_t x)
{
    const uint8_t *p = b->r.own + from;
    return from >= to || (*p == x && !memcmp(p, p + 1, to - from - 1));
}

/* whether the elements from number `from` on are as they were found, and all bytes of the region that were not lent */
static int kept_from(const buffer *b, size_t from)
{
    return all_bytes(b, 0, b->at, MARK) && all_bytes(b, b->at + from * b->size, b->r.room, MARK);
}

/* whether all elements are zero, and the bytes that were not lent are as they were found */
static int zeroed(const buffer *b)
{
    return all_bytes(b, b->at, b->at + b->length * b->size, 0) && kept_from(b, b->length);
}

/* ---- what is said when a call touches what it must not */

static _Thread_local const char *running = "";
static _Thread_local long running_number;

static void touched(int signal, siginfo_t *info, void *context)
{
    char line[200];
    (void) context;
    int l = snprintf(line, sizeof line, "FAILED: signal %d at address %p in %s, call %ld\n", signal, info->si_addr, running,
                     running_number);
    if (write(1, line, (size_t) l) != l) _exit(2);
    _exit(1);
}

/* the handler has a stack of its own, so that a call that runs out of stack is reported too */
static inline void tell_faults(void)
{
    static uint8_t room[65536];
    stack_t stack = { .ss_sp = room, .ss_size = sizeof room };
    struct sigaction action = { .sa_sigaction = touched, .sa_flags = SA_SIGINFO | SA_ONSTACK };
    static const int signals[] = { SIGSEGV, SIGBUS, SIGILL, SIGFPE };
    sigaltstack(&stack, NULL);
    for (int i = 0; i < 4; i++) sigaction(signals[i], &action, NULL);
}
