/* A coverage-guided fuzzer (clang's libFuzzer): the given bytes are the drawn numbers of calls.h, so each input is a row of calls of any
 * functions, and each call is compared with the header and with the naive numbers as in guard.c. Not in the gate.
 *
 * The library is compiled without clang's counters. So the first byte of each of its blocks, whose addresses are in the file
 * fuzz_blocks (fuzz_blocks.sh writes it), is replaced by a breakpoint: the first call that gets there puts the byte back and tells
 * libFuzzer that its input reached something new. At the end it says how many blocks were reached.
 * Build and run: make -C tests fuzz (FUZZ_SECONDS=60) */
#include "calls.h"
#include "checks.h"
#include <ucontext.h>

#define BLOCKS 20000
#define BREAKPOINT 0xcc

int LLVMFuzzerInitialize(int *argc, char ***argv);
int LLVMFuzzerTestOneInput(const uint8_t *data, size_t size);

__attribute__((section("__libfuzzer_extra_counters"))) static uint8_t counters[BLOCKS];
static uint8_t *block[BLOCKS], first_byte[BLOCKS];
static size_t blocks, reached;

/* the number of the block that begins there; the addresses are in order */
static size_t block_at(const uint8_t *address)
{
    size_t from = 0, to = blocks;
    while (from < to) {
        size_t middle = (from + to) / 2;
        if (block[middle] < address) from = middle + 1; else to = middle;
    }
    return from;
}

static void came(int signal, siginfo_t *info, void *context)
{
    greg_t *next = &((ucontext_t *) context)->uc_mcontext.gregs[REG_RIP];
    uint8_t *address = (uint8_t *) *next - 1;
    size_t i = block_at(address);
    (void) signal;
    (void) info;
    if (i == blocks || block[i] != address) abort();
    *address = first_byte[i];
    counters[i] = 1;
    reached++;
    *next = (greg_t) address;
}

static void say_reached(void) { printf("blocks of the library that were reached: %zu of %zu\n", reached, blocks); }

/* a line is the address of a block, in hexadecimal digits; the program is linked to stand at fixed addresses */
static void read_blocks(const char *path)
{
    unsigned long address;
    FILE *in = fopen(path, "r");
    while (in && blocks < BLOCKS && fscanf(in, "%lx", &address) == 1) block[blocks++] = (uint8_t *) address;
    if (in) fclose(in);
    if (!blocks) { printf("no blocks in %s\n", path); exit(1); }
}

int LLVMFuzzerInitialize(int *argc, char ***argv)
{
    struct sigaction action = { .sa_sigaction = came, .sa_flags = SA_SIGINFO };
    (void) argc;
    (void) argv;
    read_blocks("fuzz_blocks");
    uintptr_t from = (uintptr_t) block[0] / PAGE * PAGE, to = ((uintptr_t) block[blocks - 1] / PAGE + 1) * PAGE;
    if (mprotect((void *) from, to - from, PROT_READ | PROT_WRITE | PROT_EXEC)) { perror("mprotect"); exit(1); }
    sigaction(SIGTRAP, &action, NULL);
    for (size_t i = 0; i < blocks; i++) {
        first_byte[i] = *block[i];
        *block[i] = BREAKPOINT;
    }
    atexit(say_reached);
    return 0;
}

int LLVMFuzzerTestOneInput(const uint8_t *data, size_t size)
{
    static trial *t;
    if (!t) t = new_trial();
    memset(&t->held, 0, sizeof t->held);
    t->from = (source) { .state = 20261115, .bytes = data, .left = size };
    for (long i = 0; i < 8 && t->from.left; i++) {
        const char *what = tried(t, (enum function) (draw(&t->from) % FUNCTIONS), i);
        if (!what) continue;
        printf("FAILED: %s: %s, call %ld\n", running, what, i);
        abort();
    }
    return 0;
}
