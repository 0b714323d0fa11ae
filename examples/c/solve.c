/*
 * Solving at the root: a node that is a root is factored, and its system solved for a right side and for one that is
 * refused. `run` beside this file compiles it and compares what it prints with solve.stdout.
 */
#include "misuktaan.h"

#include <math.h>
#include <stdio.h>

/* The root's columns, which are its rows too, and its panel width. */
enum { COLUMNS = 2, WIDTH = 2 };

/* What solve reads of a factor. */
struct factors {
    double panel[COLUMNS * COLUMNS];
    double d[COLUMNS];
    double sub[COLUMNS];
    uint8_t blocks[COLUMNS];
    size_t order[COLUMNS];
};

/* Whether the call was accepted; a refusal is printed. */
static bool accepted(struct misuktaan_outcome o)
{
    if (o.number != 0) {
        printf("refused %zu %zu %zu\n", o.number, o.a, o.b);
    }
    return o.number == 0;
}

/* Factors the root without lifts. A root has no tail rows, and so no marks, but still no pointer may be null. */
static bool factor(const double *input, struct factors *f)
{
    uint8_t lifted[COLUMNS], tests[COLUMNS];
    uint8_t no_marks[1];
    double amounts[COLUMNS];
    double work[3 * COLUMNS * (WIDTH + 1) + WIDTH * WIDTH];
    return accepted(misuktaan_factor(
        COLUMNS, COLUMNS, WIDTH, false, 0.0, 0, input, COLUMNS * COLUMNS, f->panel, COLUMNS * COLUMNS, f->d, COLUMNS,
        f->sub, COLUMNS, f->blocks, COLUMNS, lifted, COLUMNS, amounts, COLUMNS, tests, COLUMNS, f->order, COLUMNS,
        no_marks, 0, work, misuktaan_work_len(COLUMNS, WIDTH)));
}

/* Solves the root's system, and prints the vector: the solution, or after a refusal the right side as it was. */
static void solve(const struct factors *f, double *vector)
{
    accepted(misuktaan_solve(COLUMNS, COLUMNS, f->panel, COLUMNS * COLUMNS, f->d, COLUMNS, f->sub, COLUMNS, f->blocks,
                             COLUMNS, f->order, COLUMNS, vector, COLUMNS));
    printf("vector");
    for (size_t i = 0; i < COLUMNS; i++) {
        printf(" %g", vector[i]);
    }
    printf("\n");
}

int main(void)
{
    /* [1, 2; 8] by its lower triangle; the 0 is an upper position, which is not read. */
    const double square[] = {1.0, 2.0, 0.0, 8.0};
    struct factors f;
    if (factor(square, &f)) {
        printf("-- x0 + 2 x1 = 5, 2 x0 + 8 x1 = 18\n");
        solve(&f, (double[]){5.0, 18.0});
        printf("-- a right side that is not finite in row 1\n");
        solve(&f, (double[]){5.0, INFINITY});
    }
    return 0;
}
