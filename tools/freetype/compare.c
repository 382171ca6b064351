/* Holds fixed multiply and divide to FreeType's FT_MulFix and FT_DivFix where the answer fits 32 bits, beyond which FreeType's wraps around:
   on every pair of a list of extremes and halves, then on random pairs of every size. Then multiply-divide to FT_MulDiv, wherever there is a divisor, since
   FT_Long has 64 bits here: on every triple of the list, then on as many random ones. */
#include <ft2build.h>
#include FT_FREETYPE_H
#include <stdint.h>
#include <stdio.h>
#include <stdlib.h>

int64_t fixed_c_mul(int32_t a, int32_t b);
int64_t fixed_c_div(int32_t a, int32_t b);
int64_t fixed_c_mul_div(int32_t a, int32_t b, int32_t c);

_Static_assert(sizeof(FT_Long) == 8, "FT_MulDiv answers in 64 bits");

static const int32_t edges[] = {
    0, 1, -1, 2, -2, 3, -3, 63, 64, -64, 32766, 32767, -32767, 32768, -32768, 32769, -32769, 65535, 65536, -65536, 65537,
    98304, -98304, 131071, 131072, -131072, 131073, 16383, -16383, 16777215, 16777216, -16777216,
    2147483646, 2147483647, -2147483646, -2147483647, INT32_MIN};
enum { EDGES = sizeof edges / sizeof *edges };

static uint64_t state;
static long pairs, products, quotients, triples, ratios, halves, differences;

/* The next number of a splitmix64 stream. */
static uint64_t next(void) {
    uint64_t z = (state += 0x9E3779B97F4A7C15u);
    z = (z ^ (z >> 30)) * 0xBF58476D1CE4E5B9u;
    z = (z ^ (z >> 27)) * 0x94D049BB133111EBu;
    return z ^ (z >> 31);
}

/* A number of 1 to 32 bits, of either sign. */
static int32_t number(void) {
    uint32_t bits = (uint32_t)next() >> (next() % 32);
    return next() & 1 ? (int32_t)bits : (int32_t)(0u - bits);
}

static void differ(const char *what, int32_t a, int32_t b, int64_t ours, long theirs) {
    if (differences++ < 10)
        printf("%s(%d, %d): ours %lld, FreeType's %ld\n", what, a, b, (long long)ours, theirs);
}

/* Whether a·b / 65,536, rounded, fits 32 bits. */
static int product_fits(int64_t a, int64_t b) { return llabs(a * b) < (1LL << 47) - 32768; }

/* Whether there is a divisor and a·65,536 / b, rounded, fits 32 bits. */
static int quotient_fits(int64_t a, int64_t b) { return llabs(a) * 65536 < llabs(b) * 2147483647; }

static void compare(int32_t a, int32_t b) {
    pairs++;
    if (product_fits(a, b)) {
        long product = FT_MulFix(a, b);
        products++;
        if (fixed_c_mul(a, b) != product) differ("multiply", a, b, fixed_c_mul(a, b), product);
    }
    if (quotient_fits(a, b)) {
        long quotient = FT_DivFix(a, b);
        quotients++;
        if (fixed_c_div(a, b) != quotient) differ("divide", a, b, fixed_c_div(a, b), quotient);
    }
}

static void compare_ratio(int32_t a, int32_t b, int32_t c) {
    triples++;
    if (!c) return;
    long ratio = FT_MulDiv(a, b, c);
    int64_t ours = fixed_c_mul_div(a, b, c), rest = (int64_t)a * b % c;
    ratios++;
    halves += llabs(rest) * 2 == llabs((int64_t)c);
    if (ours != ratio && differences++ < 10)
        printf("multiply-divide(%d, %d, %d): ours %lld, FreeType's %ld\n", a, b, c, (long long)ours, ratio);
}

/* A number of the list, or one of 1 to 32 bits. */
static int32_t limit_or_number(void) { return next() & 1 ? edges[next() % EDGES] : number(); }

/* A number from 1 to 2^bits, of either sign. */
static int32_t part(int bits) {
    int32_t size = (int32_t)(next() % (1u << (1 + next() % bits)));
    return next() & 1 ? size + 1 : -size - 1;
}

/* Random triples in turn: numbers of every size, limits among them, a half exactly, a divisor one off that, and the numbers that remaining edges ask for. */
static void compare_random_ratio(long turn) {
    if (turn % 4 == 0) compare_ratio(number(), number(), number());
    else if (turn % 4 == 1) compare_ratio(limit_or_number(), limit_or_number(), limit_or_number());
    else if (turn % 4 == 2) {
        int32_t p = part(14), q = part(14), c = 2 * p * q;
        compare_ratio(p * (part(14) * 2 + 1), q * (part(14) * 2 + 1), turn % 8 == 2 ? c : next() & 1 ? c - 1 : c + 1);
    } else compare_ratio(part(16) + part(16), part(24) + part(24), part(16) + part(16));
}

int main(int argc, char **argv) {
    long count = argc > 1 ? atol(argv[1]) : 2000000;
    state = argc > 2 ? strtoull(argv[2], NULL, 10) : 1;
    for (int i = 0; i < EDGES; i++)
        for (int j = 0; j < EDGES; j++) compare(edges[i], edges[j]);
    for (long i = pairs; i < count; i++) {
        int32_t a = number(), b = number();
        /* every fourth product ends in a half, every eighth quotient too */
        if (i % 4 == 0) b = (int32_t)((uint32_t)b << 15), a |= 1;
        else if (i % 8 == 1) b = (int32_t)(1u << (next() % 31)) * 2, a |= 1;
        compare(a, b);
    }
    for (int i = 0; i < EDGES; i++)
        for (int j = 0; j < EDGES; j++)
            for (int k = 0; k < EDGES; k++) compare_ratio(edges[i], edges[j], edges[k]);
    for (long i = triples; i < count; i++) compare_random_ratio(i);
    printf("%ld pairs: %ld products, %ld quotients; %ld triples: %ld ratios, %ld of them halves; %ld differences\n",
        pairs, products, quotients, triples, ratios, halves, differences);
    return differences != 0;
}
