/*
 * Prints a checksum of each operation on doubles, floats and integers of 64 bits, over many operands. It prints the same on
 * every machine whose arithmetic is that of IEEE 754 and of C.
 */
#include <inttypes.h>
#include <stdint.h>
#include <stdio.h>
#include <string.h>

enum { ROUNDS = 4000 };

static uint64_t state = 1;
static uint64_t sum;

static uint64_t chance(void)
{
    state ^= state << 13;
    state ^= state >> 7;
    state ^= state << 17;
    return state;
}

static void add(uint64_t value)
{
    sum = (sum ^ value) * UINT64_C(1099511628211);
}

static void show(const char *name)
{
    printf("%-24s %016" PRIx64 "\n", name, sum);
    sum = UINT64_C(14695981039346656037);
}

/* A double of any kind: near others, far from them, with few digits, subnormal, infinite, no number. */
static double any_double(void)
{
    static const uint64_t special[] = {0, 1, UINT64_C(0x000fffffffffffff), UINT64_C(0x0010000000000000),
        UINT64_C(0x3ff0000000000000), UINT64_C(0x7fefffffffffffff), UINT64_C(0x7ff0000000000000),
        UINT64_C(0x7ff8000000000001), UINT64_C(0x43e0000000000000), UINT64_C(0x41f0000000000000)};
    uint64_t bits = chance(), kind = chance() % 8;
    double value;

    if (kind == 0)
        bits = special[bits % 10] | (bits & UINT64_C(1) << 63);
    else if (kind < 5)
        bits = (bits & UINT64_C(0x800fffffffffffff)) | (UINT64_C(1000) + chance() % 60) << 52;
    else if (kind == 5)
        bits &= UINT64_C(0xfffff00000000000);
    memcpy(&value, &bits, sizeof value);
    return value;
}

/* A number that is none has many forms, and counts as one. */
static void add_double(double value)
{
    uint64_t bits;

    memcpy(&bits, &value, sizeof bits);
    add(value != value ? UINT64_C(0x7ff8000000000000) : bits);
}

static void add_float(float value)
{
    uint32_t bits;

    memcpy(&bits, &value, sizeof bits);
    add(value != value ? UINT32_C(0x7fc00000) : bits);
}

#define EACH(name, action)                                                                                               \
    do {                                                                                                                 \
        for (int round = 0; round < ROUNDS; round++) {                                                                   \
            volatile double a = any_double(), b = any_double();                                                          \
            volatile float c = (float)a, d = (float)b;                                                                   \
            volatile uint64_t u = chance() >> chance() % 64, v = chance() >> chance() % 63;                              \
            volatile int64_t i = (int64_t)u, j = (int64_t)v;                                                             \
            (void)a, (void)b, (void)c, (void)d, (void)u, (void)v, (void)i, (void)j;                                      \
            action;                                                                                                      \
        }                                                                                                                \
        show(name);                                                                                                      \
    } while (0)

int main(void)
{
    sum = UINT64_C(14695981039346656037);
    EACH("double +", add_double(a + b));
    EACH("double -", add_double(a - b));
    EACH("double *", add_double(a * b));
    EACH("double /", add_double(a / b));
    EACH("double < <= == >= >", add((a < b) + 2 * (a <= b) + 4 * (a == b) + 8 * (a >= b) + 16 * (a > b) + 32 * (a != b)));
    EACH("float +", add_float(c + d));
    EACH("float -", add_float(c - d));
    EACH("float *", add_float(c * d));
    EACH("float /", add_float(c / d));
    EACH("float < <= == >= >", add((c < d) + 2 * (c <= d) + 4 * (c == d) + 8 * (c >= d) + 16 * (c > d) + 32 * (c != d)));
    EACH("float of double", add_float(c));
    EACH("double of float", add_double(c));
    EACH("double of int64", add_double((double)i));
    EACH("double of uint64", add_double((double)u));
    EACH("float of int64", add_float((float)i));
    EACH("float of uint64", add_float((float)u));
    EACH("double of int32", add_double((double)(int32_t)i));
    EACH("double of uint32", add_double((double)(uint32_t)u));
    EACH("float of int32", add_float((float)(int32_t)i));
    EACH("float of uint32", add_float((float)(uint32_t)u));
    EACH("int64 of double", add(a > -9e18 && a < 9e18 ? (uint64_t)(int64_t)a : 0));
    EACH("uint64 of double", add(a > -1 && a < 1.8e19 ? (uint64_t)a : 0));
    EACH("int32 of double", add(a > -2e9 && a < 2e9 ? (uint64_t)(int32_t)a : 0));
    EACH("uint32 of double", add(a > -1 && a < 4e9 ? (uint32_t)a : 0));
    EACH("int64 of float", add(c > -9e18f && c < 9e18f ? (uint64_t)(int64_t)c : 0));
    EACH("uint64 of float", add(c > -1 && c < 1.8e19f ? (uint64_t)c : 0));
    EACH("int32 of float", add(c > -2e9f && c < 2e9f ? (uint64_t)(int32_t)c : 0));
    EACH("uint32 of float", add(c > -1 && c < 4e9f ? (uint32_t)c : 0));
    EACH("uint64 /", add(v ? u / v : 0));
    EACH("uint64 %", add(v ? u % v : 0));
    EACH("int64 /", add(j ? (uint64_t)(i / j) : 0));
    EACH("int64 %", add(j ? (uint64_t)(i % j) : 0));
    EACH("uint64 << >>", add((u << v % 64) ^ (u >> v % 64)));
    EACH("int64 >>", add((uint64_t)(i >> v % 64)));
    EACH("bits of uint64", add(v ? (unsigned)(__builtin_clzll(v) + 64 * __builtin_ctzll(v)) + 4096u * __builtin_popcountll(v) : 0));
    return 0;
}
