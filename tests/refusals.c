/*
 * Every line of tests/refusals.txt from C; that file says what its lines mean. All buffers of a call, those that it
 * only reads too, lie in one block of memory with gaps between them. The block is filled with signalling
 * not-a-numbers, each with a payload of its own, and is compared byte for byte after the call. A buffer of length 0
 * points nowhere.
 * Argument: the file. Prints `N passed, 0 failed`; exits 1 if a line failed.
 */
#include "misuktaan.h"

#include <math.h>
#include <stdio.h>
#include <stdlib.h>
#include <string.h>

/* ---- the block of memory, with room for the buffers of the largest node */

enum { WORD = 8, GAP = 4 * WORD, BYTES = 4 * WORD * MISUKTAAN_ROWS_MAX * MISUKTAAN_COLUMNS_MAX };

static unsigned char *memory, *expected;

static void fill(void)
{
    for (size_t w = 0; w < BYTES / WORD; w++) {
        uint64_t u = UINT64_C(0x7FF0000000000001) + w;
        memcpy(memory + w * WORD, &u, WORD);
    }
}

/* ---- the case at hand */

enum type { F64, BYTE, SIZE, U32, I32 };

static const size_t width[] = {8, 1, sizeof(size_t), 4, 4};
static const size_t greatest[] = {0, UINT8_MAX, SIZE_MAX, UINT32_MAX, INT32_MAX};

/* Buffers that are as they were unless an answer says more; buffers for output alone; working buffers. */
enum role { KEPT, WRITTEN, WORK };

enum { SETTINGS = 8, BUFFERS = 16 };

/* A call: its settings and its buffers by their names, in the order of its arguments; how it is made; the lengths of
 * buffers that have no list, if they need none; and what else is expected of its buffers once it is accepted. */
struct call {
    const char *name;
    const char *settings[SETTINGS];
    struct {
        const char *name;
        enum type type;
        enum role role;
    } buffers[BUFFERS];
    struct misuktaan_outcome (*make)(void);
    size_t (*stated)(size_t buffer);
    void (*also)(void);
};

static const struct call *call;
static size_t size[SETTINGS];
static bool lift_mode;
static double lift;
static struct {
    const char *list; /* as its line has it */
    size_t at, len;
    bool left; /* whether the answer says what it holds */
} lent[BUFFERS];

static void *pointer(size_t buffer)
{
    return lent[buffer].len == 0 ? (void *)(uintptr_t)WORD : memory + lent[buffer].at;
}

#define LENT(type, buffer) (type *)pointer(buffer), lent[buffer].len

/* ---- the calls */

static struct misuktaan_outcome factor(void)
{
    return misuktaan_factor(size[0], size[1], size[2], lift_mode, lift, size[4], LENT(double, 0), LENT(double, 1),
                            LENT(double, 2), LENT(double, 3), LENT(uint8_t, 4), LENT(uint8_t, 5), LENT(double, 6),
                            LENT(uint8_t, 7), LENT(size_t, 8), LENT(uint8_t, 9), LENT(double, 10));
}

static size_t factor_stated(size_t buffer)
{
    size_t ncol = size[0], nrow = size[1], tail = nrow < ncol ? 0 : nrow - ncol;
    const size_t len[] = {nrow * ncol, nrow * ncol, ncol, ncol, ncol, ncol, ncol, ncol, nrow, tail,
                          misuktaan_work_len(nrow, size[2])};
    return len[buffer];
}

/* Upper positions are the input's, bit for bit. */
static void factor_also(void)
{
    for (size_t j = 0; j < size[0]; j++) {
        memcpy(expected + lent[1].at + j * size[1] * WORD, memory + lent[0].at + j * size[1] * WORD, j * WORD);
    }
}

static struct misuktaan_outcome inertia(void)
{
    return misuktaan_inertia(LENT(double, 0), LENT(double, 1), LENT(uint8_t, 2));
}

static struct misuktaan_outcome assemble(void)
{
    return misuktaan_assemble(size[0], size[1], LENT(size_t, 0), LENT(size_t, 1), LENT(double, 2), LENT(double, 3));
}

static struct misuktaan_outcome update(void)
{
    return misuktaan_update(size[0], size[1], (uint32_t)size[2], LENT(uint32_t, 0), LENT(double, 1), size[3], size[4],
                            LENT(double, 2), LENT(double, 3), LENT(double, 4), LENT(uint8_t, 5), LENT(uint32_t, 6));
}

static struct misuktaan_outcome solve(void)
{
    return misuktaan_solve(size[0], size[1], LENT(double, 0), LENT(double, 1), LENT(double, 2), LENT(uint8_t, 3),
                           LENT(size_t, 4), LENT(double, 5));
}

static size_t solve_stated(size_t buffer)
{
    return buffer == 0 ? size[0] * size[1] : size[0];
}

static struct misuktaan_outcome to_lapack(void)
{
    return misuktaan_to_lapack(size[0], LENT(size_t, 0), LENT(uint8_t, 1), LENT(int32_t, 2));
}

static struct misuktaan_outcome from_lapack(void)
{
    return misuktaan_from_lapack(size[0], LENT(int32_t, 0), LENT(size_t, 1), LENT(uint8_t, 2));
}

static const struct call calls[] = {
    {"factor",
     {"ncol", "nrow", "nb", "lift", "limit"},
     {{"input", F64, KEPT}, {"panel", F64, WRITTEN}, {"d", F64, WRITTEN}, {"sub", F64, WRITTEN},
      {"blocks", BYTE, WRITTEN}, {"lifted", BYTE, WRITTEN}, {"amounts", F64, WRITTEN}, {"tests", BYTE, WRITTEN},
      {"order", SIZE, WRITTEN}, {"marks", BYTE, WRITTEN}, {"work", F64, WORK}},
     factor, factor_stated, factor_also},
    {"inertia", {NULL}, {{"d", F64, KEPT}, {"sub", F64, KEPT}, {"blocks", BYTE, KEPT}}, inertia, NULL, NULL},
    {"assemble",
     {"ncol", "nrow"},
     {{"rows", SIZE, KEPT}, {"cols", SIZE, KEPT}, {"numbers", F64, KEPT}, {"panel", F64, KEPT}},
     assemble, NULL, NULL},
    {"update",
     {"ncol", "nrow", "first", "nk", "mk"},
     {{"rows", U32, KEPT}, {"panel", F64, KEPT}, {"kpanel", F64, KEPT}, {"kd", F64, KEPT}, {"ksub", F64, KEPT},
      {"kblocks", BYTE, KEPT}, {"krows", U32, KEPT}},
     update, NULL, NULL},
    {"solve",
     {"ncol", "nrow"},
     {{"panel", F64, KEPT}, {"d", F64, KEPT}, {"sub", F64, KEPT}, {"blocks", BYTE, KEPT}, {"order", SIZE, KEPT},
      {"vector", F64, KEPT}},
     solve, solve_stated, NULL},
    {"to_lapack",
     {"ncol"},
     {{"order", SIZE, KEPT}, {"blocks", BYTE, KEPT}, {"list", I32, KEPT}},
     to_lapack, NULL, NULL},
    {"from_lapack",
     {"ncol"},
     {{"list", I32, KEPT}, {"order", SIZE, KEPT}, {"blocks", BYTE, KEPT}},
     from_lapack, NULL, NULL},
};

enum { CALLS = sizeof calls / sizeof calls[0], LINE = 512 };

/* ---- values and words; each function says whether it could read */

static bool named(const char *word, size_t len, const char *name)
{
    return name != NULL && strncmp(word, name, len) == 0 && name[len] == '\0';
}

static bool whole(const char *text, size_t *n)
{
    static const struct {
        const char *name;
        size_t n;
    } names[] = {{"COLUMNS_MAX", MISUKTAAN_COLUMNS_MAX}, {"ROWS_MAX", MISUKTAAN_ROWS_MAX},
                 {"WIDTH_MAX", MISUKTAAN_WIDTH_MAX}, {"LIMIT_MAX", MISUKTAAN_LIMIT_MAX}, {"SIZE_MAX", SIZE_MAX}};
    size_t len = strcspn(text, "+-");
    char *end;
    *n = strtoull(text, &end, 10);
    bool read = len > 0 && end == text + len;
    for (size_t i = 0; i < sizeof names / sizeof names[0] && !read; i++) {
        read = named(text, len, names[i].name);
        *n = names[i].n;
    }
    *n += (size_t)strtoll(text + len, &end, 10);
    return read && *end == '\0';
}

static bool real(const char *text, double *x)
{
    char *end;
    *x = strtod(text, &end);
    return end != text && *end == '\0';
}

/* An element, which is written to `to`, unless it is ?. Of an I32 it may be a whole number after a minus; its bits are
 * then those of 2^32 less the number. */
static bool element(const char *text, enum type type, unsigned char *to)
{
    double x = 0.0;
    size_t n = 0;
    if (strcmp(text, "?") == 0) {
        return true;
    }
    bool minus = type == I32 && *text == '-';
    bool read = type == F64 ? real(text, &x) : whole(text + minus, &n) && n <= greatest[type] + minus;
    const uint32_t four = (uint32_t)(minus ? 0 - n : n);
    const void *const from[] = {&x, &(uint8_t){(uint8_t)n}, &n, &four, &four};
    memcpy(to, from[type], width[type]);
    return read;
}

/* An item of a list: how many elements it has; and the first of them, where they are whole numbers one after another,
 * else SIZE_MAX, and the item is cut to its value. */
static bool item_is(char *item, size_t *times, size_t *first)
{
    char *count = strchr(item, '*'), *end = strstr(item, "..");
    *times = 1;
    *first = SIZE_MAX;
    if (count != NULL) {
        *count = '\0';
        return end == NULL && whole(count + 1, times);
    }
    if (end == NULL) {
        return true;
    }
    *end = '\0';
    bool read = whole(item, first) && whole(end + 2, times) && *first <= *times;
    *times -= *first;
    return read;
}

/* A list, which is written to `to`, where there is room for as many bytes; and how many elements it has. */
static bool elements(const char *text, enum type type, unsigned char *to, size_t room, size_t *count)
{
    *count = 0;
    if (*text == '\0') {
        return true;
    }
    do {
        char item[LINE];
        size_t len = strcspn(text, ","), times, first;
        memcpy(item, text, len);
        item[len] = '\0';
        if (!item_is(item, &times, &first)) {
            return false;
        }
        for (size_t i = 0; i < times; i++, ++*count) {
            if (first != SIZE_MAX) {
                snprintf(item, LINE, "%zu", first + i);
            }
            if ((*count + 1) * width[type] > room || !element(item, type, to + *count * width[type])) {
                return false;
            }
        }
        text += len;
    } while (*text++ == ',');
    return true;
}

/* A word about a buffer: a list to lend it with; once lent, a change of its length; in an answer what it holds. */
static bool buffer_is(size_t b, const char *rest, const unsigned char *block)
{
    if (block == memory) {
        bool longer = strcmp(rest, ":+1") == 0, shorter = strcmp(rest, ":-1") == 0 && lent[b].len > 0;
        lent[b].len += longer;
        lent[b].len -= shorter;
        return longer || shorter;
    }
    lent[b].list = rest + 1;
    if (block == expected) {
        enum type type = call->buffers[b].type;
        size_t count, room = lent[b].len * width[type];
        lent[b].left = true;
        return *rest == '=' && elements(rest + 1, type, expected + lent[b].at, room, &count) && count == lent[b].len;
    }
    return *rest == '=';
}

static bool setting_is(size_t s, const char *rest)
{
    bool is_lift = strcmp(call->settings[s], "lift") == 0;
    lift_mode = lift_mode || is_lift;
    return *rest == '=' && (is_lift ? real(rest + 1, &lift) : whole(rest + 1, &size[s]));
}

/* Words before the buffers are lent, where there is no block; of `memory`, changes; of `expected`, an answer's.
 * Without a text, those that strtok has left. */
static bool words(char *text, const unsigned char *block)
{
    bool read = true;
    for (char *word = strtok(text, " "); read && word != NULL; word = strtok(NULL, " ")) {
        size_t len = strcspn(word, "=:"), s = 0, b = 0;
        while (s < SETTINGS && !named(word, len, call->settings[s])) {
            s++;
        }
        while (b < BUFFERS && !named(word, len, call->buffers[b].name)) {
            b++;
        }
        read = s < SETTINGS && block != expected ? setting_is(s, word + len)
                                                 : b < BUFFERS && buffer_is(b, word + len, block);
    }
    return read;
}

/* ---- a case */

static void unit(unsigned char *at)
{
    size_t ncol = size[0], nrow = size[1];
    for (size_t j = 0; j < ncol; j++) {
        for (size_t i = j; i < nrow; i++) {
            const double x = i == j || i >= ncol ? 1.0 : 0.0;
            memcpy(at + (i + j * nrow) * WORD, &x, WORD);
        }
    }
}

/* The buffers, in the block of memory, which is filled anew, with what their lists say. */
static bool lend(void)
{
    fill();
    for (size_t b = 0, used = GAP; b < BUFFERS && call->buffers[b].name != NULL; b++) {
        const char *list = lent[b].list;
        size_t each = width[call->buffers[b].type];
        bool is_unit = b == 0 && list != NULL && strcmp(list, "unit") == 0, stated = is_unit || list == NULL;
        lent[b].at = used;
        lent[b].len = stated && call->stated != NULL ? call->stated(b) : 0;
        if (stated ? call->stated == NULL || lent[b].len * each > BYTES - used
                   : !elements(list, call->buffers[b].type, memory + used, BYTES - used, &lent[b].len)) {
            return false;
        }
        if (is_unit) {
            unit(memory + used);
        }
        used += (lent[b].len * each + WORD - 1) / WORD * WORD + GAP;
    }
    return true;
}

/* The answer: number, a, b, rounds and counts; and the block of memory as it is expected, so far as the line says. */
static bool answer_is(char *text, size_t want[7])
{
    char *word = strtok(text, " ");
    bool accepted = word != NULL && strcmp(word, "accepted") == 0;
    for (size_t i = accepted ? 3 : 0; i < (accepted ? 7 : 3); i++) {
        word = i == 0 ? word : strtok(NULL, " ");
        if (word == NULL || !whole(word, &want[i])) {
            return false;
        }
    }
    if (accepted) {
        return words(NULL, expected);
    }
    word = strtok(NULL, " ");
    bool zeros = word != NULL && strcmp(word, "zeros") == 0;
    for (size_t b = 0; zeros && b < BUFFERS; b++) {
        if (call->buffers[b].role >= WRITTEN) {
            memset(expected + lent[b].at, 0, lent[b].len * width[call->buffers[b].type]);
        }
    }
    return want[0] != 0 && word != NULL && (zeros || strcmp(word, "nothing") == 0) && strtok(NULL, " ") == NULL;
}

/* Where an answer has nan, any not-a-number is as expected. What ? stands for is signalling, and not taken for it. */
static void expect_any_nan(size_t at, size_t count)
{
    const double nan = NAN;
    for (; count > 0; count--, at += WORD) {
        double left;
        memcpy(&left, memory + at, WORD);
        if (memcmp(expected + at, &nan, WORD) == 0 && isnan(left)) {
            memcpy(expected + at, &left, WORD);
        }
    }
}

/* What an accepted call leaves beside what its line names, and not-a-numbers that it names. */
static void expect_accepted(void)
{
    for (size_t b = 0; b < BUFFERS; b++) {
        size_t at = lent[b].at, bytes = lent[b].len * width[call->buffers[b].type];
        if (call->buffers[b].role == WORK) {
            memset(expected + at, 0, bytes);
        } else if (call->buffers[b].role == WRITTEN && !lent[b].left) {
            memcpy(expected + at, memory + at, bytes);
        } else if (call->buffers[b].type == F64 && lent[b].left) {
            expect_any_nan(at, lent[b].len);
        }
    }
    if (call->also != NULL) {
        call->also();
    }
}

enum verdict { UNREAD, DIFFERS, HOLDS };

static char note[LINE];

/* The line, after what stands in `sound` for its call; and a note of what came of it. */
static enum verdict judge(char *line, const char *sound)
{
    char settings[LINE], *answer = strstr(line, " -> "), *changes;
    strcpy(note, "cannot be read");
    if (answer == NULL) {
        return UNREAD;
    }
    *answer = '\0';
    changes = strchr(line, '|');
    if (changes != NULL) {
        *changes = '\0';
    }
    lift_mode = false;
    lift = NAN;
    memset(size, 0xFF, sizeof size);
    memset(lent, 0, sizeof lent);
    strcpy(settings, sound);
    if (!words(settings, NULL) || !words(line, NULL) || !lend() || (changes != NULL && !words(changes + 1, memory))) {
        return UNREAD;
    }
    memcpy(expected, memory, BYTES);
    size_t want[7] = {0};
    if (!answer_is(answer + 4, want)) {
        return UNREAD;
    }
    struct misuktaan_outcome o = call->make();
    const size_t said[7] = {o.number, o.a, o.b, o.rounds, o.positive, o.negative, o.zero};
    if (want[0] == 0 && o.number == 0) {
        expect_accepted();
    }
    bool same = memcmp(memory, expected, BYTES) == 0;
    snprintf(note, LINE, "answers %zu %zu %zu, counts %zu %zu %zu %zu, memory %s", o.number, o.a, o.b, o.rounds,
             o.positive, o.negative, o.zero, same ? "as stated" : "otherwise");
    return same && memcmp(said, want, sizeof said) == 0 ? HOLDS : DIFFERS;
}

/* ---- lines */

static bool begins(char **line, const char *word)
{
    bool does = strncmp(*line, word, strlen(word)) == 0;
    *line += does ? strlen(word) : 0;
    return does;
}

/* Whether a line is as it says. */
static bool passes(char *line)
{
    static char sound[CALLS][LINE];
    bool is_sound = begins(&line, "sound ");
    enum verdict expects = begins(&line, "wrong: ") ? DIFFERS : begins(&line, "unread: ") ? UNREAD : HOLDS;
    size_t len = strcspn(line, " "), c = 0;
    while (c < CALLS && !named(line, len, calls[c].name)) {
        c++;
    }
    if (c == CALLS) {
        strcpy(note, "names no call");
        return expects == UNREAD;
    }
    if (is_sound) {
        strcpy(sound[c], line + len);
        return true;
    }
    call = &calls[c];
    return judge(line + len, sound[c]) == expects;
}

int main(int argc, char **argv)
{
    FILE *file = argc == 2 ? fopen(argv[1], "r") : NULL;
    memory = malloc(BYTES);
    expected = malloc(BYTES);
    if (file == NULL || memory == NULL || expected == NULL) {
        fprintf(stderr, "usage: refusals FILE\n");
        return 1;
    }
    size_t passed = 0, failed = 0;
    char line[LINE], text[LINE];
    for (size_t number = 1; fgets(line, LINE, file) != NULL; number++) {
        line[strcspn(line, "\n")] = '\0';
        if (line[0] == '#' || line[0] == '\0') {
            continue;
        }
        bool ok = passes(strcpy(text, line));
        passed += ok;
        failed += !ok;
        if (!ok) {
            printf("FAILED %s:%zu %s: %s\n", argv[1], number, note, line);
        }
    }
    fclose(file);
    free(memory);
    free(expected);
    printf("%zu passed, %zu failed\n", passed, failed);
    return failed == 0 && passed > 0 ? 0 : 1;
}
