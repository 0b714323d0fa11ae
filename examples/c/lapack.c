/*
 * LAPACK's list of pivots: a node is factored, the pivots of its head are listed as dsytf2 lists them and turned back;
 * the head is laid out as dsytf2 leaves it, and taken over from there. docs/GUIDE.md shows this program; `run` beside
 * it compiles it, compares what it prints with lapack.stdout, and both with what the guide shows.
 */
#include "misuktaan.h"

#include <stdio.h>
#include <stdlib.h>
#include <string.h>

/* Four columns over one tail row, in one panel. */
enum { NCOL = 4, NROW = 5, NB = 4 };

/* Whether the call was accepted; a refusal is printed. */
static bool accepted(struct misuktaan_outcome o)
{
    if (o.number != 0) {
        printf("refused %zu at %zu, %zu\n", o.number, o.a, o.b);
    }
    return o.number == 0;
}

static void print_pivots(const char *what, const size_t *order, const uint8_t *blocks)
{
    printf("%s order", what);
    for (size_t k = 0; k < NCOL; k++) {
        printf(" %zu", order[k]);
    }
    printf(", blocks");
    for (size_t k = 0; k < NCOL; k++) {
        printf(" %u", blocks[k]);
    }
    printf("\n");
}

/* The exchange that the list has at column `moved`, in the columns of L before k. */
static void exchange(double *panel, const int32_t *list, size_t moved, size_t k)
{
    const size_t p = (size_t)abs(list[moved]) - 1;
    for (size_t j = 0; j < k; j++) {
        const double x = panel[moved + j * NROW];
        panel[moved + j * NROW] = panel[p + j * NROW];
        panel[p + j * NROW] = x;
    }
}

/*
 * Lays the panel's head out as dsytf2 leaves it, with LDA = NROW. The diagonal becomes D's, lifts included. In each
 * column of L the exchanges of later pivots are undone, the last first: its rows then stand as they stood when the
 * column was eliminated.
 */
static void lay_out(double *panel, const double *d, const int32_t *list)
{
    for (size_t k = 0; k < NCOL; k++) {
        panel[k + k * NROW] = d[k];
    }
    for (size_t k = NCOL; k > 0;) {
        const size_t moved = k - 1;
        k -= list[moved] < 0 ? 2 : 1; /* now the pivot's first column */
        exchange(panel, list, moved, k);
    }
}

/*
 * The other way: of a head as dsytf2 leaves it L and D as a factor call leaves them. In each column of L the exchanges
 * of later pivots are made, the first first. The panel keeps D's numbers beside d and sub. The list must have been
 * accepted.
 */
static void take_over(double *panel, double *d, double *sub, const uint8_t *blocks, const int32_t *list)
{
    for (size_t k = 0; k < NCOL; k++) {
        d[k] = panel[k + k * NROW];
        sub[k] = blocks[k] == 1 ? panel[k + 1 + k * NROW] : 0.0;
    }
    for (size_t k = 0; k < NCOL;) {
        const size_t moved = k + blocks[k];
        exchange(panel, list, moved, k);
        k = moved + 1;
    }
}

int main(void)
{
    /* The lower triangle by columns, each with the tail row's number at its end; the 0.0s are upper positions. */
    const double input[NROW * NCOL] = {2.0, 6.0, 8.0, -2.0, 8.0, 0.0, 2.0, 4.0, 2.0, 4.0,
                                       0.0, 0.0, 8.0, -4.0, 2.0, 0.0, 0.0, 0.0, 2.0, -6.0};
    double panel[NROW * NCOL], d[NCOL], sub[NCOL], amounts[NCOL], work[3 * NROW * (NB + 1) + NB * NB];
    double factored[NROW * NCOL], d_back[NCOL], sub_back[NCOL];
    uint8_t blocks[NCOL], lifted[NCOL], tests[NCOL], marks[NROW - NCOL], blocks_back[NCOL];
    size_t order[NROW], order_back[NCOL];
    int32_t list[NCOL];

    /* the head's order is the first NCOL places of the node's */
    if (!accepted(misuktaan_factor(
            NCOL, NROW, NB, false, 0.0, 0, input, NROW * NCOL, panel, NROW * NCOL, d, NCOL, sub, NCOL, blocks, NCOL,
            lifted, NCOL, amounts, NCOL, tests, NCOL, order, NROW, marks, NROW - NCOL, work,
            misuktaan_work_len(NROW, NB)))
        || !accepted(misuktaan_to_lapack(NCOL, order, NCOL, blocks, NCOL, list, NCOL))
        || !accepted(misuktaan_from_lapack(NCOL, list, NCOL, order_back, NCOL, blocks_back, NCOL))) {
        return 1;
    }
    print_pivots("factored:", order, blocks);
    printf("list:");
    for (size_t k = 0; k < NCOL; k++) {
        printf(" %d", (int)list[k]);
    }
    printf("\n");
    print_pivots("turned back:", order_back, blocks_back);

    memcpy(factored, panel, sizeof panel);
    lay_out(panel, d, list);
    for (size_t i = 0; i < NCOL; i++) {
        printf("row %zu:", i);
        for (size_t j = 0; j <= i; j++) {
            printf(" %g", panel[i + j * NROW]);
        }
        printf("\n");
    }

    take_over(panel, d_back, sub_back, blocks_back, list);
    const bool same = memcmp(panel, factored, sizeof panel) == 0 && memcmp(d_back, d, sizeof d) == 0
                      && memcmp(sub_back, sub, sizeof sub) == 0;
    printf("taken over: %s\n", same ? "L and D as factored" : "something else");
    return same ? 0 : 1;
}
