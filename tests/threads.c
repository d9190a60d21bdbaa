/* Eight threads against a serial run. Eight rows of drawn calls (calls.h) are made one after the other, and of each call a sum is kept of
 * all that it answered and left in its buffers. Then eight threads make all rows at the same time, each with buffers of its own and from
 * another row on: every sum must be the same. It prints which is not and exits with 1, or prints how many calls were compared.
 * The first argument says how many rounds of all functions a row has, 250 by default.
 * Build and run: make -C tests threads */
#include "calls.h"
#include "checks.h"
#include <pthread.h>

#define THREADS 8
static long rounds = 250;
static uint64_t *sums[THREADS];

static uint64_t add(uint64_t sum, const void *bytes, size_t count)
{
    const uint8_t *p = bytes;
    for (size_t i = 0; i < count; i++) sum = (sum ^ p[i]) * 0x100000001b3u;
    return sum;
}

/* the answer and the words of the buffers; of `work`, which is zero or unchanged, whether it is unchanged */
static uint64_t sum_of(const trial *t)
{
    const answer *a = &t->got;
    const jingcobu_factors *s = &a->state;
    const buffer *list[2];
    int count = results(t, list);
    uint64_t sum = add(add(0xcbf29ce484222325u, a->value, sizeof a->value), &a->status, sizeof a->status);
    sum = add(add(add(sum, &s->n, sizeof s->n), s->h, sizeof s->h), s->number, sizeof s->number);
    sum = add(add(add(sum, &s->h_len, sizeof s->h_len), s->degree, sizeof s->degree), s->resultant, sizeof s->resultant);
    for (int i = 0; i < count; i++) sum = add(sum, list[i]->r.own + list[i]->at, list[i]->length * list[i]->size);
    return 4 * sum + 2 * (uint64_t) kept_from(buffer_work(t), 0) + (uint64_t) zeroed(buffer_work(t));
}

/* A row, call by call. `first`: its sums are kept. Otherwise they are compared: the number of a call that differs, or -1. */
static long run_row(trial *t, int row, int first)
{
    memset(&t->held, 0, sizeof t->held);
    t->from.state = 20261115 + 977 * (uint64_t) row;
    for (long i = 0; i < rounds * FUNCTIONS; i++) {
        running = names[i % FUNCTIONS];
        running_number = i;
        draw_call(t, (enum function) (i % FUNCTIONS));
        t->got = make_call(t);
        uint64_t sum = sum_of(t);
        if (t->got.status == 0 && !t->any_state) keep_state(t);
        if (first) sums[row][i] = sum;
        else if (sums[row][i] != sum) return i;
    }
    return -1;
}

static void *all_rows(void *first_row)
{
    trial *t = new_trial();
    for (int i = 0; i < THREADS; i++) {
        int row = ((int) (intptr_t) first_row + i) % THREADS;
        long at = run_row(t, row, 0);
        if (at < 0) continue;
        printf("FAILED: %s: another answer in a thread, call %ld of row %d\n", names[at % FUNCTIONS], at, row);
        return "failed";
    }
    return NULL;
}

int main(int argc, char **argv)
{
    pthread_t threads[THREADS];
    trial *t = new_trial();
    int failed = 0;
    if (argc > 1) rounds = atol(argv[1]);
    tell_faults();
    for (int row = 0; row < THREADS; row++) {
        sums[row] = calloc((size_t) rounds * FUNCTIONS, sizeof *sums[row]);
        if (!sums[row]) return 1;
        run_row(t, row, 1);
    }
    for (int i = 0; i < THREADS; i++) if (pthread_create(&threads[i], NULL, all_rows, (void *) (intptr_t) i)) return 1;
    for (int i = 0; i < THREADS; i++) {
        void *answer = "failed";
        if (pthread_join(threads[i], &answer) || answer) failed = 1;
    }
    if (!failed) printf("threads: %ld calls in each of %d threads, answered as in a serial run\n", THREADS * rounds * FUNCTIONS, THREADS);
    return failed;
}
