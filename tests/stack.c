/* How much stack a call takes. Every function of the header is called on a stack of 64 KiB, which the header promises to be enough,
 * with a page below it that cannot be touched, on drawn calls and on calls of the longest polynomials (calls.h). Before each call the
 * stack is painted; how much of the paint is gone is what the call took, with the frame that makes it (some hundreds of bytes).
 * It prints the most of each function and exits with 1 if a call is wrong or does not return.
 * The first argument says how many calls of each function, 2000 by default. Build and run: make -C tests stack */
#include "calls.h"
#include "checks.h"
#include <ucontext.h>

#define STACK 65536
#define PAINT 0x5c

static uint8_t *stack;
static ucontext_t host, called;
static trial *t;

static void call_there(void) { t->got = make_call(t); }

/* makes the call on the painted stack; how many bytes from its top on are not as they were painted */
static size_t taken(void)
{
    size_t untouched = 0;
    memset(stack, PAINT, STACK);
    getcontext(&called);
    called.uc_stack.ss_sp = stack;
    called.uc_stack.ss_size = STACK;
    called.uc_link = &host;
    makecontext(&called, call_there, 0);
    swapcontext(&host, &called);
    while (untouched < STACK && stack[untouched] == PAINT) untouched++;
    return STACK - untouched;
}

/* one drawn call; its answer is compared with the header */
static size_t one_call(enum function function, long number)
{
    running = names[function];
    running_number = number;
    draw_call(t, function);
    size_t bytes = taken();
    const char *what = wrong_call(t);
    if (!what) return bytes;
    printf("FAILED: %s: %s, call %ld\n", names[function], what, number);
    exit(1);
}

int main(int argc, char **argv)
{
    long calls = argc > 1 ? atol(argv[1]) : 2000;
    size_t most[FUNCTIONS] = { 0 }, all[2] = { 0, 0 };
    t = new_trial();
    t->from.state = 20261115;
    stack = new_region(STACK, 0).lent;
    tell_faults();
    for (long i = 0; i < calls; i++)
        for (int function = 0; function < FUNCTIONS; function++) {
            t->from.longest = i % 10 == 0;
            size_t bytes = one_call(function, i);
            if (bytes > most[function]) most[function] = bytes;
        }
    for (int function = 0; function < FUNCTIONS; function++) {
        printf("%-20s %6zu bytes of stack\n", names[function], most[function]);
        if (most[function] > all[is_wide(function)]) all[is_wide(function)] = most[function];
    }
    printf("stack: %ld calls on %d bytes, the most seen is %zu bytes with words of 32 bits, %zu with words of 64\n", calls * FUNCTIONS,
           STACK, all[0], all[1]);
    return 0;
}
