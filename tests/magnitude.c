/*
 * misuktaan_magnitude_bits, and misuktaan_magnitude by the bits of its number: the sign's bit is 0, and every other is
 * what it was. The special bits first: every exponent with the fractions at its ends and its middle and either sign,
 * and, with each of the bits of a fraction by itself, what stands beside zero and beside infinity, which are all the
 * payloads of one bit, signalling and quiet; then ten million at random. No contract names a not-a-number's bits where
 * they are an f64's. Wrong answers, each in one thing, must be told from the right one by the special bits alone.
 * Prints the seed, the first wrong answer of each check that fails, and `N passed, 0 failed`; exits 1 if one failed.
 */
#include "misuktaan.h"

#include <inttypes.h>
#include <stdio.h>
#include <string.h>

typedef uint64_t magnitude(uint64_t bits);

#define SIGN (UINT64_C(1) << 63)
#define INFINITY_BITS (UINT64_C(0x7FF) << 52)
#define FRACTION ((UINT64_C(1) << 52) - 1)
#define MIDDLE (UINT64_C(1) << 51)

static size_t passed, failed;

static void check(bool ok, const char *what)
{
    if (ok) {
        passed++;
    } else {
        failed++;
        printf("FAILED %s\n", what);
    }
}

/* ---- the bits */

enum { SEED = 1, RANDOM = 10000000 };

static uint64_t random_bits(uint64_t *state)
{
    *state += UINT64_C(0x9E3779B97F4A7C15);
    uint64_t u = (*state ^ (*state >> 30)) * UINT64_C(0xBF58476D1CE4E5B9);
    u = (u ^ (u >> 27)) * UINT64_C(0x94D049BB133111EB);
    return u ^ (u >> 31);
}

/* Told by shifts, so that it shares no mask with the leaf. */
static bool right(magnitude *of, uint64_t bits)
{
    uint64_t is = of(bits);
    return is >> 63 == 0 && is << 1 == bits << 1;
}

static bool right_of_both_signs(magnitude *of, uint64_t bits, uint64_t *at)
{
    *at = right(of, bits) ? bits | SIGN : bits;
    return right(of, *at);
}

/* Whether all special bits have the right answer. `at`: the last ones looked at, those of a wrong one. */
static bool right_special(magnitude *of, uint64_t *at)
{
    const uint64_t fractions[] = {0, 1, 2, MIDDLE - 1, MIDDLE, MIDDLE + 1, FRACTION - 1, FRACTION};
    for (uint64_t exponent = 0; exponent <= INFINITY_BITS >> 52; exponent++) {
        for (size_t i = 0; i < sizeof fractions / sizeof *fractions; i++) {
            if (!right_of_both_signs(of, exponent << 52 | fractions[i], at)) {
                return false;
            }
        }
    }
    for (uint64_t bit = 1; bit <= FRACTION; bit <<= 1) {
        if (!right_of_both_signs(of, bit, at) || !right_of_both_signs(of, INFINITY_BITS | bit, at)) {
            return false;
        }
    }
    return true;
}

static bool right_random(magnitude *of, uint64_t *at)
{
    uint64_t state = SEED;
    for (size_t i = 0; i < RANDOM; i++) {
        *at = random_bits(&state);
        if (!right(of, *at)) {
            return false;
        }
    }
    return true;
}

/* A check of one of the library's two over some bits. */
static void all_right(bool (*over)(magnitude *, uint64_t *), magnitude *of, const char *what)
{
    uint64_t at;
    bool ok = over(of, &at);
    if (!ok) {
        printf("%016" PRIX64 " has %016" PRIX64 "\n", at, of(at));
    }
    check(ok, what);
}

/* ---- the library's two */

static double number_of(uint64_t bits)
{
    double x;
    memcpy(&x, &bits, sizeof x);
    return x;
}

static uint64_t bits_of(double x)
{
    uint64_t bits;
    memcpy(&bits, &x, sizeof bits);
    return bits;
}

/* By way of memory: else the compiler would make no double of them. */
static uint64_t by_number(uint64_t bits)
{
    volatile double x = number_of(bits);
    volatile double y = misuktaan_magnitude(x);
    return bits_of(y);
}

/* ---- wrong answers */

static bool not_a_number(uint64_t bits)
{
    return bits << 1 > INFINITY_BITS << 1;
}

static uint64_t nan_kept(uint64_t bits)
{
    return not_a_number(bits) ? bits : bits & ~SIGN;
}

static uint64_t nan_made_quiet(uint64_t bits)
{
    return not_a_number(bits) ? (bits & ~SIGN) | MIDDLE : bits & ~SIGN;
}

static uint64_t nan_made_one(uint64_t bits)
{
    return not_a_number(bits) ? INFINITY_BITS | MIDDLE : bits & ~SIGN;
}

static uint64_t zero_kept(uint64_t bits)
{
    return bits << 1 == 0 ? bits : bits & ~SIGN;
}

static uint64_t another_bit(uint64_t bits)
{
    return bits & ~(SIGN >> 1);
}

static uint64_t a_bit_more(uint64_t bits)
{
    return bits & ~(SIGN | SIGN >> 1);
}

static uint64_t odd_made_even(uint64_t bits)
{
    return bits & ~(SIGN | 1);
}

static uint64_t turned_about(uint64_t bits)
{
    return bits ^ SIGN;
}

static const struct {
    const char *what;
    magnitude *of;
} wrong_answers[] = {
    {"a not-a-number keeps its sign", nan_kept},
    {"a signalling not-a-number is made quiet", nan_made_quiet},
    {"every not-a-number is made one", nan_made_one},
    {"a zero keeps its sign", zero_kept},
    {"the exponent's first bit for the sign's", another_bit},
    {"the exponent's first bit too", a_bit_more},
    {"the last bit too", odd_made_even},
    {"the sign turned about", turned_about},
};

int main(void)
{
    printf("seed %d\n", SEED);
    all_right(right_special, misuktaan_magnitude_bits, "special bits");
    all_right(right_random, misuktaan_magnitude_bits, "random bits");
    all_right(right_special, by_number, "special numbers");
    all_right(right_random, by_number, "random numbers");
    for (size_t i = 0; i < sizeof wrong_answers / sizeof *wrong_answers; i++) {
        uint64_t at;
        check(!right_special(wrong_answers[i].of, &at), wrong_answers[i].what);
    }
    printf("%zu passed, %zu failed\n", passed, failed);
    return failed == 0 ? 0 : 1;
}
