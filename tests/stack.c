/*
 * How much of the stack the calls take. Each call is made on a thread of its own, whose stack is a buffer with a
 * forbidden page below it, painted first: the lowest byte that changed tells how far down the call went, counted from
 * the frame that makes it. No call may go further than the header states, and each must work on a thread whose whole
 * stack is the least that the system allows. Prints what was measured, and `N passed, 0 failed` last; exits 1 if a check
 * failed.
 */
#define _DEFAULT_SOURCE
#include "misuktaan.h"

#include <limits.h>
#include <math.h>
#include <pthread.h>
#include <stdio.h>
#include <stdlib.h>
#include <string.h>
#include <sys/mman.h>
#include <unistd.h>

static size_t passed, failed;

static void check(bool ok, const char *what, const char *of)
{
    if (ok) {
        passed++;
    } else {
        failed++;
        printf("FAILED %s: %s\n", what, of);
    }
}

/* ---- a call on a painted stack */

enum { PAINT = 0xA5, ROOMY = 256 * 1024 };

struct job {
    struct misuktaan_outcome (*call)(void);
    const unsigned char *bottom;
    struct misuktaan_outcome outcome;
    size_t used;
};

static void *make_call(void *arg)
{
    struct job *job = arg;
    const unsigned char *frame = __builtin_frame_address(0);
    job->outcome = job->call();
    const unsigned char *lowest = job->bottom;
    while (*lowest == PAINT) {
        lowest++;
    }
    job->used = (size_t)(frame - lowest);
    return NULL;
}

/* Makes the call on a new thread, whose whole stack is `size` bytes. */
static struct job on_stack(struct misuktaan_outcome (*call)(void), size_t size)
{
    size_t page = (size_t)sysconf(_SC_PAGESIZE);
    unsigned char *memory = mmap(NULL, page + size, PROT_READ | PROT_WRITE, MAP_PRIVATE | MAP_ANONYMOUS, -1, 0);
    if (memory == MAP_FAILED || mprotect(memory, page, PROT_NONE) != 0) {
        abort();
    }
    struct job job = {.call = call, .bottom = memory + page};
    memset(memory + page, PAINT, size);
    pthread_attr_t attr;
    pthread_t thread;
    if (pthread_attr_init(&attr) != 0 || pthread_attr_setstack(&attr, memory + page, size) != 0
        || pthread_create(&thread, &attr, make_call, &job) != 0 || pthread_join(thread, NULL) != 0) {
        abort();
    }
    pthread_attr_destroy(&attr);
    munmap(memory, page + size);
    return job;
}

/* The call answers `number` and takes at most `most` bytes; it answers so, too, on the least stack that there is. */
static void within(const char *what, struct misuktaan_outcome (*call)(void), size_t number, size_t most)
{
    struct job job = on_stack(call, ROOMY);
    printf("%-44s %6zu bytes\n", what, job.used);
    check(job.outcome.number == number, what, "number");
    check(job.used <= most, what, "stack");
    check(on_stack(call, PTHREAD_STACK_MIN).outcome.number == number, what, "number on a small stack");
}

static void measure(const char *what, struct misuktaan_outcome (*call)(void), size_t number)
{
    within(what, call, number, MISUKTAAN_STACK);
}

/* ---- the factor call, of the largest shape */

enum { COLS = MISUKTAAN_COLUMNS_MAX, ROWS = MISUKTAAN_ROWS_MAX, WIDTH = MISUKTAAN_WIDTH_MAX };
enum { NUMBERS = ROWS * COLS, WORK = 3 * ROWS * (WIDTH + 1) + WIDTH * WIDTH };

static double input[NUMBERS], panel[NUMBERS], d[COLS], sub[COLS], amounts[COLS], work[WORK];
static uint8_t blocks[COLS], lifted[COLS], tests[COLS], marks[ROWS - COLS];
static size_t order[ROWS];

/* The settings of the next call. */
static size_t nb, limit;
static bool lift_mode;
static double least;

static struct misuktaan_outcome factor(void)
{
    return misuktaan_factor(COLS, ROWS, nb, lift_mode, least, limit, input, NUMBERS, panel, NUMBERS, d, COLS, sub, COLS,
                            blocks, COLS, lifted, COLS, amounts, COLS, tests, COLS, order, ROWS, marks, ROWS - COLS,
                            work, misuktaan_work_len(ROWS, nb));
}

/* Row i, column j of the input, i >= j. */
static double *at(size_t i, size_t j)
{
    return &input[i + j * ROWS];
}

/* The unit matrix over a tail of ones, with not-a-numbers above the diagonal; no lifts. */
static void unit(size_t of_width)
{
    nb = of_width;
    lift_mode = false;
    least = NAN;
    limit = 1;
    for (size_t j = 0; j < COLS; j++) {
        for (size_t i = 0; i < ROWS; i++) {
            *at(i, j) = i < j ? NAN : i == j || i >= COLS ? 1.0 : 0.0;
        }
    }
}

/* Pairs of columns that only a block can take: a zero diagonal with 1 below. */
static void pairs(void)
{
    unit(WIDTH);
    for (size_t j = 0; j < COLS; j += 2) {
        *at(j, j) = 0.0;
        *at(j + 1, j) = 1.0;
        *at(j + 1, j + 1) = 0.0;
    }
}

/* Lifts with floor 1 and this limit. */
static void with_lifts(size_t most)
{
    lift_mode = true;
    least = 1.0;
    limit = most;
}

/* A block in the first two of three columns whose lift takes three rounds. */
static void three_rounds(size_t most)
{
    unit(WIDTH);
    with_lifts(most);
    *at(0, 0) = 0.0;
    *at(1, 0) = 0.75;
    *at(1, 1) = -1.25;
    *at(2, 1) = 2.0;
    *at(2, 2) = 0.0;
}

static void measure_factor(void)
{
    pairs();
    measure("largest factor, blocks", factor, 0);
    check(blocks[0] == 1 && blocks[COLS - 2] == 1, "blocks", "taken");
    three_rounds(MISUKTAAN_LIMIT_MAX);
    measure("largest factor, a block lifted", factor, 0);
    check(blocks[0] == 1 && lifted[0] == 1, "lifted block", "taken");
    three_rounds(2);
    measure("largest factor, refusal 8", factor, 8);
    pairs();
    *at(1, 0) = 1e160;
    measure("largest factor, refusal 9", factor, 9);
    for (size_t of_width = 1; of_width <= WIDTH; of_width += WIDTH - 1) {
        char what[80];
        int prefix = snprintf(what, sizeof what, "largest factor, nb %zu, ", of_width);
        char *rest = what + prefix;
        size_t room = sizeof what - (size_t)prefix;

        unit(of_width);
        snprintf(rest, room, "%s", "accepted");
        measure(what, factor, 0);
        *at(COLS - 1, COLS - 1) = 0.0;
        snprintf(rest, room, "%s", "refusal 7");
        measure(what, factor, 7);
        with_lifts(MISUKTAAN_LIMIT_MAX);
        snprintf(rest, room, "%s", "lifts");
        measure(what, factor, 0);
        check(lifted[COLS - 1] == 1, what, "lifted");
        *at(ROWS - 1, COLS - 1) = INFINITY;
        snprintf(rest, room, "%s", "refusal 6");
        measure(what, factor, 6);
        unit(of_width);
        *at(COLS - 1, COLS - 1) = 0x1p-1074;
        snprintf(rest, room, "%s", "refusal 9");
        measure(what, factor, 9);
    }
}

/* ---- the other calls */

static struct misuktaan_outcome inertia(void)
{
    return misuktaan_inertia(d, COLS, sub, COLS, blocks, COLS);
}

enum { ENTRIES = 1000 };

static size_t entry_rows[ENTRIES], entry_cols[ENTRIES];
static double entries[ENTRIES];

static struct misuktaan_outcome assemble(void)
{
    return misuktaan_assemble(COLS, ROWS, entry_rows, ENTRIES, entry_cols, ENTRIES, entries, ENTRIES, panel, NUMBERS);
}

/* The descendant has as many columns and rows as a node may have; its rows below are the target's first. */
enum { BELOW = ROWS - COLS };

static double descendant[NUMBERS];
static uint32_t rows[ROWS], below[BELOW];

static struct misuktaan_outcome update(void)
{
    return misuktaan_update(COLS, ROWS, 0, rows, ROWS, panel, NUMBERS, COLS, BELOW, descendant, NUMBERS, d, COLS, sub,
                            COLS, blocks, COLS, below, BELOW);
}

/* The largest root node. L is numbers of the panel, wherever they stood in it; zeros are solved to zeros. */
static double vector[COLS];

static struct misuktaan_outcome solve(void)
{
    return misuktaan_solve(COLS, COLS, panel, COLS * COLS, d, COLS, sub, COLS, blocks, COLS, order, COLS, vector, COLS);
}

static void measure_solve(void)
{
    unit(WIDTH);
    (void)factor();
    measure("largest solve, 1x1s", solve, 0);
    pairs();
    (void)factor();
    measure("largest solve, blocks", solve, 0);
    vector[COLS - 1] = INFINITY;
    measure("largest solve, refusal 27", solve, 27);
    order[COLS - 1] = order[0];
    measure("largest solve, refusal 26", solve, 26);
}

/* The longest lists. The order of a factor call begins with its head's. */
static int32_t list[COLS];

static struct misuktaan_outcome to_lapack(void)
{
    return misuktaan_to_lapack(COLS, order, COLS, blocks, COLS, list, COLS);
}

static struct misuktaan_outcome from_lapack(void)
{
    return misuktaan_from_lapack(COLS, list, COLS, order, COLS, blocks, COLS);
}

static void measure_lists(void)
{
    pairs();
    (void)factor();
    measure("longest list to LAPACK, blocks", to_lapack, 0);
    check(list[0] == -2 && list[COLS - 1] == -COLS, "blocks", "listed");
    measure("longest list from LAPACK, blocks", from_lapack, 0);
    order[COLS - 2] = COLS - 1;
    order[COLS - 1] = COLS - 2;
    measure("longest list to LAPACK, refusal 28", to_lapack, 28);
    order[COLS - 1] = order[0];
    measure("longest list to LAPACK, refusal 26", to_lapack, 26);
    memset(blocks, 0, sizeof blocks);
    for (size_t i = 0; i < COLS; i++) {
        order[i] = COLS - 1 - i;
    }
    measure("longest list to LAPACK, 1x1s", to_lapack, 0);
    measure("longest list from LAPACK, 1x1s", from_lapack, 0);
    list[COLS - 1] = 1;
    measure("longest list from LAPACK, refusal 29", from_lapack, 29);
    list[COLS - 1] = -COLS;
    measure("longest list from LAPACK, refusal 30", from_lapack, 30);
}

static void measure_others(void)
{
    pairs();
    (void)factor();
    memcpy(descendant, panel, sizeof panel);
    measure("largest inertia", inertia, 0);
    for (size_t i = 0; i < ENTRIES; i++) {
        entry_rows[i] = ROWS - 1 - i % BELOW;
        entry_cols[i] = i % COLS;
        entries[i] = 1.0;
    }
    measure("assemble 1000 entries in the largest node", assemble, 0);
    for (uint32_t i = 0; i < ROWS; i++) {
        rows[i] = i;
    }
    memcpy(below, rows, sizeof below);
    within("update of the largest by the largest", update, 0, MISUKTAAN_UPDATE_STACK);
}

int main(void)
{
    setvbuf(stdout, NULL, _IOLBF, 0); /* each line is out before the next call is made */
    measure_factor();
    measure_solve();
    measure_lists();
    measure_others();
    printf("%zu passed, %zu failed\n", passed, failed);
    return failed != 0;
}
