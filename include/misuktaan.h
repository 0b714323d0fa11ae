/*
 * Misuktaan: the real f64 LDL^T factorization of one supernode (Bunch-Kaufman, blocked, with tail rows), its inertia,
 * assembly and update, the solve of a root node, and a head's pivots as LAPACK's list and back. Every function of the
 * library is proved to answer as the definitions in crates/model/specs say, whatever numbers and lengths it is given;
 * those few that are written out here are tested. C11 or later, or C++11 or later; Linux on x86-64 processors, from
 * x86-64-v2 on.
 *
 * THE NODE. A node has ncol columns and nrow rows, ncol <= nrow. Its panel is column-major: row i of column j stands
 * at i + j * nrow. The head is rows 0 to ncol - 1, the tail the rest; a root node has no tail. Upper positions (row <
 * column) are never read as numbers.
 *
 * ARGUMENTS. Sizes and settings first, then buffers that are read, then buffers that are written, then work. An
 * update has its target whole (sizes, rows, panel) before its descendant. A buffer is a pointer and, right after it,
 * its length in elements, not in bytes.
 *
 * POINTERS. Each must be aligned for its type, not null, and point to as many elements as its length says; with
 * length 0 it is never followed, but must still not be null. A buffer that a call writes must not overlap any other
 * buffer of the call; buffers that are only read may overlap. No pointer is kept after the call. Calls on buffers of
 * their own may run at the same time.
 *
 * FLOATING POINT. The calling thread rounds to nearest, ties to even, keeps subnormal numbers, and has the traps of all
 * floating-point exceptions masked, as at a program's start: the numbers of a call may well be inexact, underflow,
 * overflow, divide by zero or be not-a-numbers. A call may raise the exceptions' flags; it reads and clears none.
 *
 * Pointers and floating point are all that a caller must see to: the rest is checked, and refused by number. No call
 * allocates, waits, or ends the program.
 *
 * REFUSALS. A call tests in the order in which its Returns lists the numbers; the first condition that is met is the
 * answer. Numbers never shift. Places count from 0, and are 0, 0 where none is named. COLUMNS_MAX, ROWS_MAX, WIDTH_MAX
 * and LIMIT_MAX are the constants MISUKTAAN_COLUMNS_MAX and so on below, here and wherever a size is stated.
 *
 *   number  call               condition                                                      place a, b
 *   1       factor, solve,     ncol > COLUMNS_MAX, nrow > ROWS_MAX or nrow < ncol; in solve,  0, 0
 *           to_lapack,         nrow > ncol too; to and from LAPACK, the first alone
 *           from_lapack
 *   2       factor             nb is 0 or above WIDTH_MAX                                     0, 0
 *   3       factor             a buffer's length differs from its stated one                  0, 0
 *   4       factor             with lifts: the floor is not finite or not above zero          0, 0
 *   5       factor             with lifts: the round limit is 0 or above LIMIT_MAX            0, 0
 *   6       factor             a lower or tail number of the input is not finite              least such column, its
 *                                                                                             least such row
 *   7       factor             without lifts: the column test finds zero                      elimination position, 0
 *   8       factor             with lifts: a block needs more rounds than the limit           elimination position, 0
 *   9       factor             after the last column: a column holds a d, subdiagonal, lower  least such column, 0
 *                              head number, block determinant, or reciprocal of a 1x1 pivot
 *                              or determinant that is not finite; a block's determinant
 *                              belongs to its first column
 *   10      assemble           the shape fails as in 1, or a list's or the panel's length is  0, 0
 *                              wrong
 *   11      assemble           an entry has row >= nrow, column >= ncol or row < column       first such entry, 0
 *   12      assemble           an entry is not finite                                         first such entry, 0
 *   13      update             the target's shape fails as in 1, nk > COLUMNS_MAX, nk + mk >  0, 0
 *                              ROWS_MAX, or a length is wrong
 *   14      update             target rows do not rise strictly, or do not begin first,       0, 0
 *                              first + 1, .. for ncol rows
 *   15      update             descendant rows do not rise strictly                           0, 0
 *   16      update, inertia,   a block byte is not 0 or 1, or a 1 stands last or right        least such place, 0
 *           solve, to_lapack   before another 1
 *   17      update             nk > 0, a descendant row lands on the target's columns, and    place of the first such
 *                              it or a later row is absent from the target                    descendant row, 0
 *   18      update             a descendant column has a number below its head, or a d, or a  least such column, 0
 *                              subdiagonal under a 1, that is not finite
 *   19      inertia            the three lists differ in length or exceed COLUMNS_MAX         0, 0
 *   23      factor             without lifts: the chosen 1x1 pivot is zero                    elimination position, 0
 *   24      factor             without lifts: a block's |det| is at most its growth floor     elimination position, 0
 *   25      solve, to_lapack,  a buffer's length differs from its stated one                  0, 0
 *           from_lapack
 *   26      solve, to_lapack   the order is no permutation: a row in it is >= ncol, or        least such position, 0
 *                              stands at an earlier position too
 *   27      solve              a number of the right side is not finite                       least such row, 0
 *   28      to_lapack          a block's first row is not in its place after the exchanges    first such block's
 *                              of the pivots before                                           position, 0
 *   29      from_lapack        a number is 0, or names, counting from 1, a row beyond ncol    least column with a
 *                              or before the column that it moves: its own, or the second     fault, 0
 *                              of a pair
 *   30      from_lapack        a negative number stands last or differs from the one after    least column with a
 *                              it                                                             fault, 0
 *
 * (20 to 22 are those of the program node.) An elimination position is a pivot's turn, a block's first, and not a row
 * or column of the input.
 *
 * What is written:
 *   1 to 6, 10 to 19, 25 to 30   nothing: every buffer is as it was, bit for bit.
 *   7, 8, 9, 23, 24              zeros in every buffer of the factor call but its input.
 */
#ifndef MISUKTAAN_H
#define MISUKTAAN_H

#include <stdbool.h>
#include <stddef.h>
#include <stdint.h>
#include <string.h>

#ifdef __cplusplus
extern "C" {
#endif

/* The most columns and rows of a node, the widest panel, the most rounds that a block's lift may be given. */
#define MISUKTAAN_COLUMNS_MAX 128
#define MISUKTAAN_ROWS_MAX 1024
#define MISUKTAAN_WIDTH_MAX 64
#define MISUKTAAN_LIMIT_MAX 64

/*
 * Test numbers: which of the pivot tests decided on a pivot. They compare numbers of the head as it stands when the
 * position has its turn, from the position on up to the end of its panel. colmax is the greatest magnitude in the
 * position's column, its diagonal left out, and imax the row that has it; rowmax is the greatest in row imax of the
 * symmetric matrix, its diagonal left out; alpha is (1 + the root of 17) / 8, some 0.64. The greatest is found by
 * squares: what vanishes when squared counts as zero, and what overflows as infinite. The first test that holds
 * decides:
 *
 *   ZERO_COLUMN          |diagonal| and colmax are zero: a 1x1, with lifts alone; without, refusal 7.
 *   OWN_DIAGONAL         |diagonal| >= alpha * colmax: a 1x1, nothing exchanged.
 *   ROW                  |diagonal| >= (alpha * colmax) * (colmax / rowmax): a 1x1, nothing exchanged.
 *   EXCHANGED_DIAGONAL   |diagonal of imax| >= alpha * rowmax: a 1x1 from row imax, exchanged with the position's row.
 *   BLOCK                none of these: a block of the position's row and imax; both of its positions have the number.
 *
 * A lift changes no number. Later versions may have more tests, with numbers of their own.
 */
#define MISUKTAAN_TEST_ZERO_COLUMN 0
#define MISUKTAAN_TEST_OWN_DIAGONAL 1
#define MISUKTAAN_TEST_ROW 2
#define MISUKTAAN_TEST_EXCHANGED_DIAGONAL 3
#define MISUKTAAN_TEST_BLOCK 4

/*
 * The most of the stack, in bytes, that an update takes, and any other call: measured, with room to spare
 * (tests/stack.c). If memcpy and memset are looked up at their first use and not at the program's start, that takes up
 * to 4 KiB more, once.
 */
#define MISUKTAAN_UPDATE_STACK 12288
#define MISUKTAAN_STACK 8192

/*
 * What a call answers. number 0 is acceptance; any other is the refusal's, and a, b its place.
 * rounds: after an accepted factor call the rounds of all block lifts, else 0.
 * positive, negative, zero: after an accepted factor or inertia call the counts of eigenvalues of D by sign, else 0.
 */
struct misuktaan_outcome {
    size_t number;
    size_t a;
    size_t b;
    size_t rounds;
    size_t positive;
    size_t negative;
    size_t zero;
};

/* The length of a factor call's working buffer, for nrow and nb within the bounds above. */
static inline size_t misuktaan_work_len(size_t nrow, size_t nb)
{
    return 3 * nrow * (nb + 1) + nb * nb;
}

/*
 * Factors one node.
 *
 * Returns: number 0 with rounds and counts; or a refusal of 1 to 7, 23, 24, 8, 9.
 * In:   ncol, nrow    the node's columns and rows, 0 <= ncol <= COLUMNS_MAX, ncol <= nrow <= ROWS_MAX.
 *       nb            the panel width, 1 to WIDTH_MAX; used as min(nb, max(ncol, 1)).
 *       lift          whether a pivot below the floor is lifted to it; if not, floor and limit are not read, and a
 *                     pivot that cannot be taken is refused with 7, 23 or 24.
 *       floor         the floor, finite and above zero.
 *       limit         the rounds that a block's lift may take, 1 to LIMIT_MAX.
 *       input         nrow * ncol: the node's panel. Upper positions may hold anything.
 * Out:  panel         nrow * ncol: L below the diagonal. On it the pivot as used of a 1x1, the unlifted diagonal of a
 *                     block, whose d21 stands below it. Upper positions are those of the input, bit for bit.
 *       d             ncol: the diagonal of D, lifts included.
 *       sub           ncol: its subdiagonal, d21 at a block's first position, else +0.0.
 *       blocks        ncol: 1 at a block's first position, else 0.
 *       lifted        ncol: 1 where a pivot was lifted (both positions of a block), else 0.
 *       amounts       ncol: what the lift added (both positions of a block), else +0.0.
 *       tests         ncol: the test number of the pivot, MISUKTAAN_TEST_ZERO_COLUMN and so on; of a block at both
 *                     positions. It belongs to the position, as d does, and not to a row of the input.
 *       order         nrow: the input row that each row of the output stands for; a tail row keeps its place.
 *       marks         nrow - ncol: 1 if the tail row holds a number that is not finite, else 0.
 * Work: work          misuktaan_work_len(nrow, nb): +0.0 after acceptance.
 * On entry the buffers of Out and Work may hold anything. After acceptance they hold what is said above; after 1 to 6
 * what they held on entry, bit for bit; after 7, 8, 9, 23 and 24 zeros, which are then no test numbers.
 */
struct misuktaan_outcome misuktaan_factor(
    size_t ncol, size_t nrow, size_t nb, bool lift, double floor, size_t limit,
    const double *input, size_t input_len,
    double *panel, size_t panel_len,
    double *d, size_t d_len,
    double *sub, size_t sub_len,
    uint8_t *blocks, size_t blocks_len,
    uint8_t *lifted, size_t lifted_len,
    double *amounts, size_t amounts_len,
    uint8_t *tests, size_t tests_len,
    size_t *order, size_t order_len,
    uint8_t *marks, size_t marks_len,
    double *work, size_t work_len);

/*
 * Counts the eigenvalues of D by sign.
 *
 * Returns: number 0 with the counts, rounds 0; or a refusal of 19, 16.
 * In:   d, sub, blocks  D as a factor call gives it, one length of at most COLUMNS_MAX. Numbers may be anything: a 1x1
 *                       that is a zero or a not-a-number counts as zero.
 */
struct misuktaan_outcome misuktaan_inertia(
    const double *d, size_t d_len,
    const double *sub, size_t sub_len,
    const uint8_t *blocks, size_t blocks_len);

/*
 * Adds entries to a node's panel, in the order in which they are listed; a place may be listed again.
 *
 * Returns: number 0, nothing counted; or a refusal of 10 to 12.
 * In:   ncol, nrow          the node's columns and rows.
 *       rows, cols, numbers the entries' rows and columns within the node, and their numbers; one length, of any size.
 * In and out: panel         nrow * ncol, any on entry. After acceptance each listed place has its entries added, and
 *                           all others are as they were; after a refusal the panel is as it was, bit for bit.
 */
struct misuktaan_outcome misuktaan_assemble(
    size_t ncol, size_t nrow,
    const size_t *rows, size_t rows_len,
    const size_t *cols, size_t cols_len,
    const double *numbers, size_t numbers_len,
    double *panel, size_t panel_len);

/*
 * Subtracts from a target node what a factored descendant has for it: a row of the descendant lands if it is one of the
 * target's columns; from the column on which row c lands, each row from c on loses its part of L D L^T.
 *
 * Returns: number 0, nothing counted; or a refusal of 13 to 18.
 * In:   ncol, nrow    the target's columns and rows.
 *       first         the global row of the target's first column.
 *       rows          nrow: the target's global rows, strictly rising, the first ncol of them first, first + 1, ..
 * In and out: panel   nrow * ncol: the target's panel, any on entry. After acceptance it is updated, in the lower
 *                     triangle and the tail only; if no row lands, and after a refusal, it is as it was, bit for bit.
 * In:   nk, mk        the descendant's columns, at most COLUMNS_MAX, and rows below them, nk + mk at most ROWS_MAX.
 *       kpanel        (nk + mk) * nk: its factored panel, column-major, the nk head rows first. The head is not read.
 *       kd, ksub      nk each: the diagonal and the subdiagonal of its D.
 *       kblocks       nk: its block bytes.
 *       krows         mk: the global rows below its columns, strictly rising.
 */
struct misuktaan_outcome misuktaan_update(
    size_t ncol, size_t nrow, uint32_t first,
    const uint32_t *rows, size_t rows_len,
    double *panel, size_t panel_len,
    size_t nk, size_t mk,
    const double *kpanel, size_t kpanel_len,
    const double *kd, size_t kd_len,
    const double *ksub, size_t ksub_len,
    const uint8_t *kblocks, size_t kblocks_len,
    const uint32_t *krows, size_t krows_len);

/*
 * Solves A x = b at a root node, nrow = ncol, by what a factor call wrote. A is the node's symmetric matrix as it was
 * factored, lifts included.
 *
 * Returns: number 0, nothing counted; or a refusal of 1, 25, 26, 16, 27.
 * In:   ncol, nrow    the node's columns and rows, 0 <= ncol <= COLUMNS_MAX, nrow = ncol.
 *       panel         nrow * ncol: the factored panel. Only L is read, which stands below the diagonal: neither the
 *                     diagonal, nor d21 of a block, nor upper positions, all of which may hold anything.
 *       d, sub        ncol each: the diagonal and the subdiagonal of D; sub is read at a block's first position alone.
 *       blocks        ncol: the block bytes.
 *       order         ncol: the order, a permutation of the node's rows.
 * In and out: vector  ncol, by the rows of the factor call's input: b on entry, finite. After acceptance x; after a
 *                     refusal as it was, bit for bit.
 * The numbers of L and D are not checked: x is what the steps make of them, and may not be finite.
 */
struct misuktaan_outcome misuktaan_solve(
    size_t ncol, size_t nrow,
    const double *panel, size_t panel_len,
    const double *d, size_t d_len,
    const double *sub, size_t sub_len,
    const uint8_t *blocks, size_t blocks_len,
    const size_t *order, size_t order_len,
    double *vector, size_t vector_len);

/*
 * Turns a head's order and block bytes into the list of pivots that LAPACK's xSYTF2 has for a lower triangle. There is
 * a number for each column, and rows and columns are counted from 1: p > 0 at k is a 1x1 at k, for which rows k and p
 * were exchanged; -p at k and at k + 1 is a block there, for which rows k + 1 and p were.
 *
 * Returns: number 0, nothing counted; or a refusal of 1, 25, 26, 16, 28.
 * In:   ncol          the head's columns, 0 <= ncol <= COLUMNS_MAX.
 *       order         ncol: the head's order, a permutation of its rows: the first ncol places of a factor call's.
 *       blocks        ncol: the block bytes.
 * Out:  list          ncol, any on entry. After acceptance the list; after a refusal as it was, bit for bit.
 * What an accepted factor call leaves is never refused with 26, 16 or 28.
 */
struct misuktaan_outcome misuktaan_to_lapack(
    size_t ncol,
    const size_t *order, size_t order_len,
    const uint8_t *blocks, size_t blocks_len,
    int32_t *list, size_t list_len);

/*
 * Turns LAPACK's list of pivots for a lower triangle back into an order and block bytes. What the one of the two calls
 * accepts, the other turns back into the very same.
 *
 * Returns: number 0, nothing counted; or a refusal of 1, 25, 30, 29.
 * In:   ncol          the list's columns, 0 <= ncol <= COLUMNS_MAX.
 *       list          ncol: the list, as xSYTF2 leaves it; any numbers.
 * Out:  order         ncol, any on entry. After acceptance the input row that each row stands for.
 *       blocks        ncol, any on entry. After acceptance 1 at a block's first position, else 0.
 * The list is gone through by rising column, the two of a pair as one, and its first fault is the refusal. After a
 * refusal the buffers of Out are as they were, bit for bit.
 */
struct misuktaan_outcome misuktaan_from_lapack(
    size_t ncol,
    const int32_t *list, size_t list_len,
    size_t *order, size_t order_len,
    uint8_t *blocks, size_t blocks_len);

/*
 * ---- The leaves that the calls are made of, for tests and for those who compare. They refuse nothing.
 * A not-a-number that is worked out has any bits that are a not-a-number's; only the magnitude's are promised.
 */

/* Whether x is neither a not-a-number nor an infinity. */
bool misuktaan_is_finite(double x);

/* The bits of a number with the sign's, bit 63, cleared and every other kept; those of a not-a-number likewise. */
uint64_t misuktaan_magnitude_bits(uint64_t bits);

/* x with its sign cleared, that of a zero too. A not-a-number loses its sign and keeps its payload; a signalling one
 * stays signalling. */
static inline double misuktaan_magnitude(double x)
{
    uint64_t bits;
    memcpy(&bits, &x, sizeof bits);
    bits = misuktaan_magnitude_bits(bits);
    memcpy(&x, &bits, sizeof x);
    return x;
}

/* x * x, rounded once. */
double misuktaan_square(double x);

/* The greater of a and b, the first of equals; of a number and a not-a-number the number. */
double misuktaan_maximum(double a, double b);

/* 1 / x, rounded once. */
double misuktaan_reciprocal(double x);

/* d if |d| >= floor; floor if d is a zero; else d * (floor / |d|). */
double misuktaan_lift(double floor, double d);

/* The square root, correctly rounded: -0.0 of -0.0, a not-a-number below zero and of a not-a-number. */
double misuktaan_sqrt(double x);

#ifdef __cplusplus
}
#endif

#endif
