/*
 * The factor and solve calls of several builds of the library beside each other in one process. usage: against
 * LIBRARY.., each a shared object; where one has no solve, none is timed. On a node the builds take turns, over and
 * over, at each of several depths of the stack, since where a call's own numbers lie moves its time; the best time at
 * each depth counts. Prints a line for each call and shape: the call's name, the node's columns, rows and panel width,
 * then the mean ticks of the processor's clock of each build.
 */
#include "misuktaan.h"

#include <alloca.h>
#include <dlfcn.h>
#include <stdio.h>
#include <stdlib.h>
#include <string.h>
#include <x86intrin.h>

enum { BUILDS = 8, NODES = 3, DEPTHS = 8, DEEPER = 528 };

struct build {
    __typeof__(&misuktaan_factor) factor;
    __typeof__(&misuktaan_solve) solve;
};

struct shape {
    size_t ncol, nrow, nb;
    int runs;
};

/* The benchmark's shapes, heads of one panel and of several, and panels of few columns; root nodes to solve. */
static const struct shape FACTORS[] = {
    {128, 1024, 64, 3}, {128, 512, 32, 5}, {128, 128, 64, 20}, {64, 64, 16, 60}, {32, 256, 32, 60}, {16, 128, 16, 200},
    {8, 64, 8, 400}, {1, 1, 1, 800}, {4, 4, 4, 800}, {8, 8, 8, 800}, {16, 16, 16, 400}, {32, 32, 32, 150},
    {64, 64, 64, 40}, {128, 128, 32, 15}, {64, 64, 1, 40}, {16, 16, 4, 400}, {2, 40, 2, 800},
};

static const struct shape SOLVES[] = {
    {1, 1, 1, 800}, {2, 2, 2, 800}, {4, 4, 4, 800}, {8, 8, 8, 800}, {16, 16, 16, 800}, {32, 32, 32, 400},
    {64, 64, 64, 200}, {128, 128, 64, 100},
};

static double input[128 * 1024], panel[128 * 1024], work[3 * 1024 * 65 + 64 * 64];
static double d[128], sub[128], amounts[128], vector[128];
static uint8_t blocks[128], lifted[128], tests[128], marks[1024];
static size_t order[1024];

/* From -1 to 1. */
static double number(void)
{
    static uint64_t state = 88172645463325252u;
    state ^= state << 13;
    state ^= state >> 7;
    state ^= state << 17;
    return (double)(state >> 11) / (double)(1ull << 52) - 1.0;
}

/* Every other diagonal is a hundredth of the rest, so that 1x1 pivots and blocks both come up. */
static void fill(const struct shape *s)
{
    for (size_t i = 0; i < s->nrow * s->ncol; i++) {
        input[i] = number();
    }
    for (size_t j = 0; j < s->ncol; j += 2) {
        input[j * s->nrow + j] *= 0.01;
    }
}

static void accept(struct misuktaan_outcome o)
{
    if (o.number != 0) {
        fprintf(stderr, "against: refused %zu\n", o.number);
        exit(1);
    }
}

/* The ticks of one call, so many bytes further down the stack. */
typedef unsigned long long ticks(const struct build *of, const struct shape *s, size_t deeper);

__attribute__((noinline)) static unsigned long long factor(const struct build *of, const struct shape *s, size_t deeper)
{
    volatile char *below = alloca(deeper + 1);
    below[0] = 0;
    size_t size = s->nrow * s->ncol;
    unsigned long long from = __rdtsc();
    struct misuktaan_outcome o = of->factor(s->ncol, s->nrow, s->nb, true, 1e-8, 64, input, size, panel, size, d,
        s->ncol, sub, s->ncol, blocks, s->ncol, lifted, s->ncol, amounts, s->ncol, tests, s->ncol, order, s->nrow,
        marks, s->nrow - s->ncol, work, misuktaan_work_len(s->nrow, s->nb));
    unsigned long long taken = __rdtsc() - from;
    accept(o);
    return taken;
}

/* Of what the last factor call left. */
__attribute__((noinline)) static unsigned long long solve(const struct build *of, const struct shape *s, size_t deeper)
{
    volatile char *below = alloca(deeper + 1);
    below[0] = 0;
    size_t n = s->ncol;
    memcpy(vector, input, n * sizeof *vector);
    unsigned long long from = __rdtsc();
    struct misuktaan_outcome o =
        of->solve(n, n, panel, n * n, d, n, sub, n, blocks, n, order, n, vector, n);
    unsigned long long taken = __rdtsc() - from;
    accept(o);
    return taken;
}

static void compare(const char *name, ticks *call, const struct shape *s, const struct build *builds, int n)
{
    double total[BUILDS] = {0};
    for (int node = 0; node < NODES; node++) {
        fill(s);
        factor(&builds[0], s, 0);
        for (size_t depth = 0; depth < DEPTHS; depth++) {
            unsigned long long best[BUILDS];
            for (int run = 0; run < s->runs; run++) {
                for (int b = 0; b < n; b++) {
                    unsigned long long t = call(&builds[b], s, depth * DEEPER);
                    best[b] = run == 0 || t < best[b] ? t : best[b];
                }
            }
            for (int b = 0; b < n; b++) {
                total[b] += (double)best[b];
            }
        }
    }
    printf("%s\t%zu\t%zu\t%zu", name, s->ncol, s->nrow, s->nb);
    for (int b = 0; b < n; b++) {
        printf("\t%.0f", total[b] / (NODES * DEPTHS));
    }
    printf("\n");
}

int main(int count, char **names)
{
    struct build builds[BUILDS];
    bool solves = true;
    int n = count - 1;
    if (n < 1 || n > BUILDS) {
        fprintf(stderr, "usage: against LIBRARY..\n");
        return 2;
    }
    for (int b = 0; b < n; b++) {
        void *library = dlopen(names[b + 1], RTLD_NOW | RTLD_LOCAL);
        if (library == NULL) {
            fprintf(stderr, "against: %s\n", dlerror());
            return 2;
        }
        *(void **)&builds[b].factor = dlsym(library, "misuktaan_factor");
        *(void **)&builds[b].solve = dlsym(library, "misuktaan_solve");
        solves = solves && builds[b].solve != NULL;
    }
    for (size_t i = 0; i < sizeof FACTORS / sizeof *FACTORS; i++) {
        compare("factor", factor, &FACTORS[i], builds, n);
    }
    for (size_t i = 0; solves && i < sizeof SOLVES / sizeof *SOLVES; i++) {
        compare("solve", solve, &SOLVES[i], builds, n);
    }
}
