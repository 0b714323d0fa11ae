/*
 * Upper positions (row < column) of a factor call's input are copied and never read as numbers, and what the working
 * buffer holds on entry is not read as a number either. A solve reads neither the upper positions of its panel, nor the
 * diagonal, nor d21 of a block, nor the subdiagonal beside a 1x1. No contract can say what is not read, so two runs of
 * this program do.
 *
 *   upper             Each call is made with zeros in these places, and then with signalling not-a-numbers, infinities
 *                     and the greatest numbers: the floating-point flags, the answer and every output come out the
 *                     same, and after an accepted factor call the upper positions come back bit for bit.
 *   upper untouched   Each call is made with such places, and with output buffers, that nothing was written to. Under
 *                     valgrind no decision may rest on them, and no number of a solution, on each of which this program
 *                     decides.
 *   upper read        A decision on such a position, which valgrind must report: else the run before tells nothing.
 *
 * Prints `N passed, 0 failed`; exits 1 if a check failed.
 */
#include "misuktaan.h"

#include <fenv.h>
#include <float.h>
#include <math.h>
#include <stdio.h>
#include <stdlib.h>
#include <string.h>

static size_t passed, failed;

static void check(bool ok, const char *what, const char *of)
{
    if (ok) {
        passed++;
    } else {
        failed++;
        printf("FAILED %s: %s\n", what, of);
    }
}

/* ---- the lower positions */

/* A number in [-1, 1) that depends on the place alone. */
static double any(size_t i, size_t j)
{
    uint64_t u = (i * 1024 + j + 1) * UINT64_C(0x9E3779B97F4A7C15);
    u = (u ^ (u >> 29)) * UINT64_C(0xBF58476D1CE4E5B9);
    return (double)(u >> 12) * 0x1p-51 - 1.0;
}

/* 1x1 pivots where they stand. */
static double dominant(size_t i, size_t j)
{
    return i == j ? 1000.0 + (double)i : any(i, j);
}

/* Exchanges, and blocks among the 1x1s. */
static double mixed(size_t i, size_t j)
{
    return i == j ? any(i, j) * 0x1p-3 : any(i, j);
}

/* Blocks alone. */
static double hollow(size_t i, size_t j)
{
    return i == j ? 0.0 : any(i, j);
}

/* Pivots to be lifted. */
static double faint(size_t i, size_t j)
{
    return i == j ? 0x1p-20 : 0.0;
}

/* Finite numbers whose sum is not. */
static double great(size_t i, size_t j)
{
    return i == j ? 0x1p1023 : 0.0;
}

/* A tail that overflows. */
static double long_tail(size_t i, size_t j)
{
    return i == j ? 0.25 : i > 20 ? 1.5e308 : 0.0;
}

/* One number that is not finite: above it stand columns of every kind. */
static double not_finite(size_t i, size_t j)
{
    return i == 30 && j == 21 ? NAN : dominant(i, j);
}

static double infinite_last(size_t i, size_t j)
{
    return i == 20 && j == 20 ? INFINITY : dominant(i, j);
}

/* A last column of zeros, which is refused without lifts; and one whose pivot has no finite reciprocal. */
static double zero_last(size_t i, size_t j)
{
    return i != j ? 0.0 : i == 20 ? 0.0 : 1.0;
}

static double least_last(size_t i, size_t j)
{
    return i != j ? 0.0 : i == 20 ? 0x1p-1074 : 1.0;
}

/* A last block that takes rounds to lift. */
static double block_last(size_t i, size_t j)
{
    return i == j ? (i < 19 ? 9.0 : 0.0) : i == 20 && j == 19 ? 1.0 : 0.0;
}

/* ---- the calls */

struct call {
    const char *what;
    size_t ncol, nrow, nb;
    bool lift_mode;
    double floor;
    size_t limit;
    double (*lower)(size_t i, size_t j);
    size_t number;
};

enum { COLS = MISUKTAAN_COLUMNS_MAX, ROWS = MISUKTAAN_ROWS_MAX, WIDTH = MISUKTAAN_WIDTH_MAX };

#define FAIL false, 0.0, 0
#define LIFT(floor, limit) true, floor, limit

static const struct call calls[] = {
    {"2 x 2", 2, 2, 2, FAIL, dominant, 0},
    {"3 x 3 in panels of 2", 3, 3, 2, FAIL, mixed, 0},
    {"5 x 7 in panels of 1", 5, 7, 1, FAIL, dominant, 0},
    {"8 x 64", 8, 64, 8, FAIL, mixed, 0},
    {"16 x 128", 16, 128, 16, FAIL, mixed, 0},
    {"17 x 17 in panels of 5", 17, 17, 5, FAIL, mixed, 0},
    {"20 x 20: blocks", 20, 20, 20, FAIL, hollow, 0},
    {"20 x 33: blocks", 20, 33, 20, FAIL, hollow, 0},
    {"20 x 50: blocks in panels of 10", 20, 50, 10, FAIL, hollow, 0},
    {"31 x 47 in panels of 8", 31, 47, 8, FAIL, mixed, 0},
    {"32 x 256", 32, 256, 32, FAIL, dominant, 0},
    {"the largest head", COLS, COLS, WIDTH, FAIL, mixed, 0},
    {"the largest node", COLS, ROWS, WIDTH, FAIL, dominant, 0},
    {"21 x 40: lifts", 21, 40, 6, LIFT(0.5, MISUKTAAN_LIMIT_MAX), faint, 0},
    {"21 x 40: lifts of blocks", 21, 40, 21, LIFT(3.0, MISUKTAAN_LIMIT_MAX), block_last, 0},
    {"21 x 50: a column of zeros, lifted", 21, 50, 8, LIFT(0.5, MISUKTAAN_LIMIT_MAX), zero_last, 0},
    {"21 x 21: a sum that overflows", 21, 21, 8, FAIL, great, 0},
    {"21 x 60: marks", 21, 60, 21, FAIL, long_tail, 0},
    {"6: a not-a-number", 40, 60, 16, FAIL, not_finite, 6},
    {"6: an infinity", 21, 21, 16, FAIL, infinite_last, 6},
    {"7: a column of zeros", 21, 50, 8, FAIL, zero_last, 7},
    {"8: too many rounds", 21, 50, 21, LIFT(3.0, 1), block_last, 8},
    {"9: an infinite reciprocal", 21, 21, 8, FAIL, least_last, 9},
};

enum { CALLS = sizeof calls / sizeof calls[0] };

enum { PANEL, D, SUB, BLOCKS, LIFTED, AMOUNTS, TESTS, ORDER, MARKS, WORK, BUFFERS };

static const size_t width[BUFFERS] = {8, 8, 8, 1, 1, 8, 1, sizeof(size_t), 1, 8};

/* A call's buffers, and what it left. */
struct made {
    double *input;
    void *at[BUFFERS];
    size_t len[BUFFERS];
    struct misuktaan_outcome outcome;
    int flags;
};

static void *memory(size_t n, size_t size)
{
    void *at = malloc(n * size + 1);
    if (at == NULL) {
        abort();
    }
    return at;
}

/* The buffers of a call. Its lower positions are written, and nothing else. */
static struct made lent(const struct call *c)
{
    const size_t len[BUFFERS] = {c->nrow * c->ncol, c->ncol, c->ncol, c->ncol, c->ncol, c->ncol, c->ncol, c->nrow,
                                 c->nrow - c->ncol, misuktaan_work_len(c->nrow, c->nb)};
    struct made m = {.input = memory(c->nrow * c->ncol, 8)};
    for (int b = 0; b < BUFFERS; b++) {
        m.len[b] = len[b];
        m.at[b] = memory(len[b], width[b]);
    }
    for (size_t j = 0; j < c->ncol; j++) {
        for (size_t i = j; i < c->nrow; i++) {
            m.input[i + j * c->nrow] = c->lower(i, j);
        }
    }
    return m;
}

static void given_back(struct made *m)
{
    free(m->input);
    for (int b = 0; b < BUFFERS; b++) {
        free(m->at[b]);
    }
}

/* The call, from clear flags on. */
static void make(const struct call *c, struct made *m)
{
    void *const *at = m->at;
    const size_t *len = m->len;
    feclearexcept(FE_ALL_EXCEPT);
    m->outcome = misuktaan_factor(c->ncol, c->nrow, c->nb, c->lift_mode, c->floor, c->limit, m->input, len[PANEL],
                                  at[PANEL], len[PANEL], at[D], len[D], at[SUB], len[SUB], at[BLOCKS], len[BLOCKS],
                                  at[LIFTED], len[LIFTED], at[AMOUNTS], len[AMOUNTS], at[TESTS], len[TESTS],
                                  at[ORDER], len[ORDER], at[MARKS], len[MARKS], at[WORK], len[WORK]);
    m->flags = fetestexcept(FE_ALL_EXCEPT);
}

/* ---- what the upper positions and the working buffer hold */

enum { ZEROS, SIGNALLING, INFINITE, GREATEST, FILLS };

static const char *const filled[FILLS] = {"zeros", "signalling not-a-numbers", "infinities", "the greatest numbers"};

/* The bits at a place: a signalling not-a-number has a payload of its own. */
static uint64_t bits(int fill, size_t place)
{
    const uint64_t sign = (uint64_t)(place & 1) << 63;
    switch (fill) {
    case SIGNALLING:
        return sign | (UINT64_C(0x7FF0000000000000) + 1 + place);
    case INFINITE:
        return sign | UINT64_C(0x7FF0000000000000);
    case GREATEST:
        return UINT64_C(0x7FEFFFFFFFFFFFFF);
    default:
        return 0;
    }
}

static void fill_upper(const struct call *c, struct made *m, int fill)
{
    for (size_t j = 0; j < c->ncol; j++) {
        for (size_t i = 0; i < j; i++) {
            const uint64_t u = bits(fill, i + j * c->nrow);
            memcpy(m->input + i + j * c->nrow, &u, sizeof u);
        }
    }
}

/* The same for the working buffer, unless the call is refused with 6 and leaves it as it is. */
static void fill_work(const struct call *c, struct made *m, int fill)
{
    double *work = m->at[WORK];
    for (size_t i = 0; c->number != 6 && i < m->len[WORK]; i++) {
        const uint64_t u = bits(fill, i);
        memcpy(work + i, &u, sizeof u);
    }
}

/* Whether the panel's upper positions are the input's. */
static bool upper_back(const struct call *c, const struct made *m)
{
    const double *panel = m->at[PANEL];
    for (size_t j = 0; j < c->ncol; j++) {
        if (memcmp(panel + j * c->nrow, m->input + j * c->nrow, j * sizeof(double)) != 0) {
            return false;
        }
    }
    return true;
}

/* Whether two calls left the same, the panel's upper positions aside. */
static bool same(const struct call *c, const struct made *m, const struct made *n)
{
    const double *p = m->at[PANEL], *q = n->at[PANEL];
    for (size_t j = 0; j < c->ncol; j++) {
        const size_t diagonal = j + j * c->nrow;
        if (memcmp(p + diagonal, q + diagonal, (c->nrow - j) * sizeof(double)) != 0) {
            return false;
        }
    }
    for (int b = D; b < BUFFERS; b++) {
        if (memcmp(m->at[b], n->at[b], m->len[b] * width[b]) != 0) {
            return false;
        }
    }
    return memcmp(&m->outcome, &n->outcome, sizeof m->outcome) == 0;
}

/* ---- what the accepted calls had among them, and the solves */

static bool blocks, lifts, marks, exchanges, panels, inexact;
static bool solved_blocks, solved_exchanges, solved_ones;

/* By whether the call had lifts: which bytes stood among its test numbers. */
static bool decided[2][UINT8_MAX + 1];

static bool holds(const void *at, size_t n)
{
    const uint8_t *bytes = at;
    for (size_t i = 0; i < n; i++) {
        if (bytes[i] == 1) {
            return true;
        }
    }
    return false;
}

static void noted(const struct call *c, const struct made *m)
{
    const size_t *order = m->at[ORDER];
    const uint8_t *tests = m->at[TESTS];
    blocks |= holds(m->at[BLOCKS], m->len[BLOCKS]);
    lifts |= holds(m->at[LIFTED], m->len[LIFTED]);
    marks |= holds(m->at[MARKS], m->len[MARKS]);
    panels |= c->nb < c->ncol;
    inexact |= (m->flags & FE_INEXACT) != 0;
    for (size_t i = 0; i < c->nrow; i++) {
        exchanges |= order[i] != i;
    }
    for (size_t k = 0; k < c->ncol; k++) {
        decided[c->lift_mode][tests[k]] = true;
    }
}

/* Whether the accepted calls had every test number and no other byte: that of a zero column with lifts alone, the four
 * others without lifts. */
static bool every_test(void)
{
    bool all = decided[true][MISUKTAAN_TEST_ZERO_COLUMN] && !decided[false][MISUKTAAN_TEST_ZERO_COLUMN];
    for (size_t test = MISUKTAAN_TEST_OWN_DIAGONAL; test <= UINT8_MAX; test++) {
        const bool is_test = test <= MISUKTAAN_TEST_BLOCK;
        all = all && decided[false][test] == is_test && (is_test || !decided[true][test]);
    }
    return all;
}

/* ---- the solve of a root node that was factored */

enum { UNTOUCHED = FILLS };

struct solution {
    double *x;
    struct misuktaan_outcome outcome;
    int flags;
};

static bool is_root(const struct call *c)
{
    return c->number == 0 && c->nrow == c->ncol;
}

/* A number that is read; at a place that is not, the fill, or nothing. */
static void put(double *to, const double *number, bool is_read, int fill, size_t place)
{
    const uint64_t u = bits(fill, place);
    if (is_read) {
        *to = *number;
    } else if (fill != UNTOUCHED) {
        memcpy(to, &u, sizeof u);
    }
}

/* The solve, from clear flags on, with a fill wherever it does not read. */
static struct solution solve(const struct call *c, const struct made *m, int fill)
{
    const size_t n = c->ncol;
    const double *l = m->at[PANEL], *d21 = m->at[SUB];
    const uint8_t *begins = m->at[BLOCKS];
    double *panel = memory(n * n, 8), *sub = memory(n, 8);
    struct solution s = {.x = memory(n, 8)};
    for (size_t j = 0; j < n; j++) {
        for (size_t i = 0; i < n; i++) {
            const size_t place = i + j * n;
            put(panel + place, l + place, i > j + (begins[j] == 1), fill, place);
        }
        put(sub + j, d21 + j, begins[j] == 1, fill, j);
        s.x[j] = any(j, n);
    }
    feclearexcept(FE_ALL_EXCEPT);
    s.outcome = misuktaan_solve(n, n, panel, n * n, m->at[D], n, sub, n, begins, n, m->at[ORDER], n, s.x, n);
    s.flags = fetestexcept(FE_ALL_EXCEPT);
    free(panel);
    free(sub);
    return s;
}

/* Solves with this fill and with zeros have the same answer, solution and flags. */
static void compare_solve(const struct call *c, const struct made *m, int fill)
{
    struct solution plain = solve(c, m, ZEROS), s = solve(c, m, fill);
    check(plain.outcome.number == 0 && s.outcome.number == 0, c->what, "answer of the solve");
    check((plain.flags & FE_INVALID) == 0, c->what, "a flag that is left to raise by the solve");
    check(memcmp(s.x, plain.x, c->ncol * sizeof(double)) == 0, c->what, "solution");
    check(s.flags == plain.flags, c->what, "flags of the solve");
    free(plain.x);
    free(s.x);
}

static void noted_solve(const struct call *c, const struct made *m)
{
    const size_t *order = m->at[ORDER];
    const uint8_t *begins = m->at[BLOCKS];
    for (size_t k = 0; k < c->ncol; k++) {
        solved_blocks |= begins[k] == 1;
        solved_exchanges |= order[k] != k;
        solved_ones |= begins[k] == 0 && (k == 0 || begins[k - 1] == 0);
    }
}

/* ---- the runs */

/* The flags of an addition to a signalling not-a-number: that they are raised at all. */
static void flags_are_raised(void)
{
    const uint64_t u = bits(SIGNALLING, 0);
    volatile double x;
    feclearexcept(FE_ALL_EXCEPT);
    memcpy((void *)&x, &u, sizeof u);
    x = x + 1.0;
    check(fetestexcept(FE_INVALID) != 0, "an addition", "raises a flag");
}

static struct made made_with(const struct call *c, int fill)
{
    struct made m = lent(c);
    fill_upper(c, &m, fill);
    for (int b = 0; b < BUFFERS; b++) {
        memset(m.at[b], 0x5A, m.len[b] * width[b]);
    }
    fill_work(c, &m, fill);
    make(c, &m);
    return m;
}

/*
 * The flag by which a read of an upper position would show: that of an operation on a signalling not-a-number; where
 * the call may raise that flag itself, that of a sum of the greatest numbers. It may where it looks at a not-a-number
 * of its own (the compiler picks the comparison), and where it lifts a zero (the compiler works out the quotient by it,
 * too).
 */
static int left_to_raise(const struct call *c)
{
    const bool by_itself = c->lower == not_finite || (c->lower == zero_last && c->lift_mode);
    return by_itself ? FE_OVERFLOW : FE_INVALID;
}

static void compare(const struct call *c)
{
    struct made plain = made_with(c, ZEROS);
    check(c->ncol > 1 && plain.outcome.number == c->number, c->what, "answer");
    check((plain.flags & left_to_raise(c)) == 0, c->what, "a flag that is left to raise");
    if (c->number == 0) {
        noted(c, &plain);
    }
    for (int fill = SIGNALLING; fill < FILLS; fill++) {
        struct made m = made_with(c, fill);
        check(m.flags == plain.flags, c->what, filled[fill]);
        check(same(c, &m, &plain), c->what, "outputs");
        check(c->number != 0 || upper_back(c, &m), c->what, "upper positions");
        if (is_root(c)) {
            compare_solve(c, &m, fill);
            noted_solve(c, &m);
        }
        given_back(&m);
    }
    given_back(&plain);
}

static void compare_all(void)
{
    flags_are_raised();
    for (size_t i = 0; i < CALLS; i++) {
        compare(&calls[i]);
    }
    check(blocks && lifts && marks && exchanges && panels && inexact, "the accepted calls", "every kind");
    check(every_test(), "the accepted calls", "every test number");
    check(solved_blocks && solved_exchanges && solved_ones, "the solves", "every kind");
}

static void leave_untouched(void)
{
    for (size_t i = 0; i < CALLS; i++) {
        struct made m = lent(&calls[i]);
        make(&calls[i], &m);
        check(m.outcome.number == calls[i].number, calls[i].what, "answer");
        if (is_root(&calls[i])) {
            compare_solve(&calls[i], &m, UNTOUCHED);
        }
        given_back(&m);
    }
}

static void read_one(void)
{
    struct made m = lent(&calls[0]);
    const volatile double *upper = m.input + calls[0].nrow;
    puts(isfinite(*upper) ? "finite" : "not finite");
    given_back(&m);
}

int main(int argc, char **argv)
{
    if (argc < 2) {
        compare_all();
    } else if (strcmp(argv[1], "untouched") == 0) {
        leave_untouched();
    } else {
        read_one();
        return 0;
    }
    printf("%zu passed, %zu failed\n", passed, failed);
    return failed != 0;
}
