/*
 * A whole use of the library: a node is factored, the tests that decided on its pivots are named, and its inertia is
 * counted; then a target is assembled, updated by a factored descendant, and factored; then an update is refused. `run`
 * beside this file compiles it and compares what it prints with example.stdout. Numbers of a factor are printed by
 * their bits, as the program node prints them.
 */
#include "misuktaan.h"

#include <inttypes.h>
#include <stdio.h>
#include <string.h>

/* The most columns and rows of this example's nodes, and its panel width. */
enum { COLUMNS = 2, ROWS = 3, WIDTH = 2 };

/* What a factor call writes. The lengths passed are those of the node, not those of the arrays. */
struct factors {
    double panel[ROWS * COLUMNS];
    double d[COLUMNS];
    double sub[COLUMNS];
    uint8_t blocks[COLUMNS];
    uint8_t lifted[COLUMNS];
    double amounts[COLUMNS];
    uint8_t tests[COLUMNS];
    size_t order[ROWS];
    uint8_t marks[ROWS];
    double work[3 * ROWS * (WIDTH + 1) + WIDTH * WIDTH];
};

/* The bits of x; one value for every not-a-number. */
static uint64_t bits(double x)
{
    uint64_t u = UINT64_C(0x7FF8000000000000);
    if (x == x) {
        memcpy(&u, &x, sizeof u);
    }
    return u;
}

/* Which of the pivot tests has this number. */
static const char *test_named(uint8_t test)
{
    switch (test) {
    case MISUKTAAN_TEST_ZERO_COLUMN:
        return "zero column";
    case MISUKTAAN_TEST_OWN_DIAGONAL:
        return "own diagonal";
    case MISUKTAAN_TEST_ROW:
        return "row test";
    case MISUKTAAN_TEST_EXCHANGED_DIAGONAL:
        return "exchanged diagonal";
    case MISUKTAAN_TEST_BLOCK:
        return "block";
    default:
        return "a test that this program does not know";
    }
}

/* Whether the call was accepted; a refusal is printed. */
static bool accepted(struct misuktaan_outcome o)
{
    if (o.number != 0) {
        printf("refused %zu %zu %zu\n", o.number, o.a, o.b);
    }
    return o.number == 0;
}

static void print_factors(size_t ncol, size_t nrow, const struct factors *f, struct misuktaan_outcome o)
{
    printf("accepted rounds %zu\norder", o.rounds);
    for (size_t i = 0; i < nrow; i++) {
        printf(" %zu", f->order[i]);
    }
    printf("\n");
    for (size_t k = 0; k < ncol; k++) {
        printf("pivot %zu %u %016" PRIX64 " %016" PRIX64 " %u %016" PRIX64 " %u\n", k, f->blocks[k], bits(f->d[k]),
               bits(f->sub[k]), f->lifted[k], bits(f->amounts[k]), f->tests[k]);
    }
    printf("inertia %zu %zu %zu\n", o.positive, o.negative, o.zero);
    for (size_t i = 0; i < nrow; i++) {
        printf("row %zu", i);
        for (size_t j = 0; j < ncol; j++) {
            printf(" %016" PRIX64, bits(f->panel[i + j * nrow]));
        }
        if (i >= ncol) {
            printf(" %u", f->marks[i - ncol]);
        }
        printf("\n");
    }
}

/* Factors a node without lifts, and prints what it gives. */
static struct misuktaan_outcome factor(size_t ncol, size_t nrow, const double *input, struct factors *f)
{
    struct misuktaan_outcome o = misuktaan_factor(
        ncol, nrow, WIDTH, false, 0.0, 0, input, nrow * ncol, f->panel, nrow * ncol, f->d, ncol, f->sub, ncol,
        f->blocks, ncol, f->lifted, ncol, f->amounts, ncol, f->tests, ncol, f->order, nrow, f->marks, nrow - ncol,
        f->work, misuktaan_work_len(nrow, WIDTH));
    if (accepted(o)) {
        print_factors(ncol, nrow, f, o);
    }
    return o;
}

static void print_panel(const char *what, const double *panel, size_t n)
{
    printf("%s", what);
    for (size_t i = 0; i < n; i++) {
        printf(" %g", panel[i]);
    }
    printf("\n");
}

/* [1, 2; 8] by its lower triangle; the 0 is an upper position, which is not read. */
static void factor_square(void)
{
    const double square[] = {1.0, 2.0, 0.0, 8.0};
    struct factors f;
    printf("-- a node of two columns\n");
    factor(2, 2, square, &f);

    printf("-- which tests decided on its pivots\n");
    for (size_t k = 0; k < 2; k++) {
        printf("position %zu, row %zu: %s\n", k, f.order[k], test_named(f.tests[k]));
    }

    printf("-- its inertia, from D alone\n");
    struct misuktaan_outcome o = misuktaan_inertia(f.d, 2, f.sub, 2, f.blocks, 2);
    printf("inertia %zu %zu %zu\n", o.positive, o.negative, o.zero);
}

/* The descendant k of one column, over the rows 5 and 7 of the system, updates a target of one column and two rows. */
static struct misuktaan_outcome update(const uint32_t *rows, double *panel, const struct factors *k)
{
    const uint32_t below[] = {5, 7};
    return misuktaan_update(1, 2, 5, rows, 2, panel, 2, 1, 2, k->panel, 3, k->d, 1, k->sub, 1, k->blocks, 1, below, 2);
}

static void update_target(void)
{
    const double column[] = {1.0, 2.0, 3.0};
    struct factors k, f;
    printf("-- a descendant of one column and two tail rows\n");
    factor(1, 3, column, &k);

    /* The target is row 5 of the system, with row 7 below it. Its first place is listed twice. */
    const size_t rows[] = {0, 1, 0};
    const size_t cols[] = {0, 0, 0};
    const double numbers[] = {4.0, 20.0, 6.0};
    double panel[] = {0.0, 0.0};
    printf("-- a target assembled, updated and factored\n");
    if (accepted(misuktaan_assemble(1, 2, rows, 3, cols, 3, numbers, 3, panel, 2))) {
        print_panel("assembled", panel, 2);
    }
    if (accepted(update((const uint32_t[]){5, 7}, panel, &k))) {
        print_panel("updated", panel, 2);
    }
    factor(1, 2, panel, &f);

    printf("-- a target that lacks row 7\n");
    accepted(update((const uint32_t[]){5, 6}, panel, &k));
}

int main(void)
{
    factor_square();
    update_target();
    return 0;
}
