/* Frames per second through the frame program, beside the time that the engine itself takes on the same pairs: by a call a pair, which wipes
 * 8192 working words each time, and by one call for all pairs, which wipes them once, as little as the frame program does. Of each kind
 * 100,000 frames of degree 8 and 10,000 of degree 48, modulo 4294967291. It exits with 1 if an answer of the frame program is not the
 * engine's, or the frame program fails. The frame program is ../crates/desk/out/desk, or the one that the first argument names. Build and
 * run: make -C bench */
#include <stdio.h>
#include <stdlib.h>
#include <string.h>
#include "../include/jingcobu.h"
#include "common.h"
#include "temporary.h"

#define MODULUS 4294967291u
static uint32_t work[JINGCOBU_WORK];

static jingcobu_answer engine_answer(int kind, const uint32_t *w, int d)
{
    if (kind == 1) return jingcobu_resultant(MODULUS, w, d + 1, w + d + 1, d + 1, work, JINGCOBU_WORK);
    return jingcobu_divisor(MODULUS, w, d + 1, w + d + 1, d + 1, work, JINGCOBU_WORK);
}

/* All pairs in one call. */
static jingcobu_answer engine_answers(int kind, const uint32_t *f, const uint32_t *g, int d, int count, uint32_t *out)
{
    size_t length = (size_t) count * (d + 1);
    if (kind == 1) return jingcobu_resultants(MODULUS, f, length, d, g, length, d, count, out, count, work, JINGCOBU_WORK);
    return jingcobu_divisors(MODULUS, f, length, d, g, length, d, count, out, count, work, JINGCOBU_WORK);
}

static void measure(const char *desk, int kind, int count, int d)
{
    char command[3 * PATH_ROOM], in[PATH_ROOM], out[PATH_ROOM];
    uint32_t *words = malloc((size_t) count * 2 * (d + 1) * sizeof *words), *values = malloc((size_t) count * sizeof *values);
    uint32_t *first = malloc((size_t) count * (d + 1) * sizeof *first), *second = malloc((size_t) count * (d + 1) * sizeof *second);
    uint32_t *together = malloc((size_t) count * sizeof *together);
    FILE *file = temporary(in), *answers = temporary(out);
    if (!words || !values || !first || !second || !together || !file || !answers) exit(1);
    fclose(answers);
    snprintf(command, sizeof command, "'%s' < '%s' > '%s'", desk, in, out);
    for (int i = 0; i < count; i++) {
        uint32_t *w = words + (size_t) i * 2 * (d + 1);
        fprintf(file, "%02x%08x%02x%02x", kind, MODULUS, d, d);
        for (int k = 0; k < 2 * (d + 1); k++) fprintf(file, "%08x", w[k] = draw() % MODULUS);
        fputc('\n', file);
        memcpy(first + (size_t) i * (d + 1), w, (d + 1) * sizeof *w);
        memcpy(second + (size_t) i * (d + 1), w + d + 1, (d + 1) * sizeof *w);
    }
    fclose(file);
    double engine = 1e30, batch = 1e30, program = 1e30;
    for (int pass = 0; pass < 5; pass++) {
        double t = now();
        for (int i = 0; i < count; i++) {
            uint32_t *w = words + (size_t) i * 2 * (d + 1);
            jingcobu_answer a = engine_answer(kind, w, d);
            if (a.status != JINGCOBU_OK) {
                printf("WRONG: kind %02x, degree %d, pair %d: refused with %u\n", kind, d, i, a.status);
                exit(1);
            }
            values[i] = a.value;
        }
        t = now() - t;
        if (t < engine) engine = t;
        t = now();
        if (engine_answers(kind, first, second, d, count, together).status != JINGCOBU_OK || memcmp(together, values, count * sizeof *values)) {
            printf("WRONG: kind %02x, degree %d: one call for all pairs does not answer what single calls answer\n", kind, d);
            exit(1);
        }
        t = now() - t;
        if (t < batch) batch = t;
        t = now();
        if (system(command)) {
            printf("WRONG: the frame program did not exit with 0\n");
            exit(1);
        }
        t = now() - t;
        if (t < program) program = t;
    }
    char line[20], should[20];
    file = fopen(out, "r");
    for (int i = 0; i <= count; i++) {
        char *got = file ? fgets(line, sizeof line, file) : NULL;
        snprintf(should, sizeof should, "%02x00%08x\n", kind, i < count ? values[i] : 0);
        if (i < count ? got && !strcmp(line, should) : !got) continue;
        if (!wrong++) printf("WRONG: kind %02x, degree %d, answer %d is %s", kind, d, i, got ? line : "not there\n");
    }
    if (file) fclose(file);
    remove(in);
    remove(out);
    printf("kind %02x, degree %2d: %d frames, %.0f frames a second, %.3f us each; the engine %.3f us by single calls, %.3f in one call; "
           "reading and writing cost %.2f of the engine's work in one call (beside single calls %.2f)\n",
           kind, d, count, 1e6 * count / program, program / count, engine / count, batch / count, program / batch - 1, program / engine - 1);
    free(first);
    free(second);
    free(together);
    free(words);
    free(values);
}

int main(int argc, char **argv)
{
    const char *desk = argc > 1 ? argv[1] : "../crates/desk/out/desk";
    for (int kind = 1; kind <= 2; kind++) {
        measure(desk, kind, 100000, 8);
        measure(desk, kind, 10000, 48);
    }
    printf("wrong answers of the frame program: %d\n", wrong);
    return wrong != 0;
}
