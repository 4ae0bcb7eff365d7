/*
 * The routines on integers of 64 bits that compilers call on 32-bit processors, under the names and with the results that
 * the manual of GCC's internals gives them ("The GCC low-level runtime library"). A division by zero raises SIGFPE, as the
 * compilers' own divisions of 32 bits do.
 */
#include <stdint.h>

enum { WORD = 32, HALF = 16 };

struct quotient {
    uint64_t value;
    uint64_t rest;
};

/* The number of zero bits above the highest one. */
static int leading_zeros(uint64_t value)
{
    uint32_t high = value >> WORD;

    return high ? __builtin_clz(high) : WORD + __builtin_clz((uint32_t)value);
}

/* The next half of a word of a quotient, whose rest is in `high`: Knuth's algorithm D. The divisor's highest bit is set. */
static uint32_t next_half(uint32_t *high, uint32_t half, uint32_t divisor)
{
    uint32_t upper = divisor >> HALF, lower = divisor & 0xffff;
    uint32_t digit = *high / upper, rest = *high % upper;

    while (digit >> HALF || digit * lower > (rest << HALF | half)) {
        digit--;
        rest += upper;
        if (rest >> HALF)
            break;
    }
    *high = (*high << HALF | half) - digit * divisor;
    return digit;
}

/* The quotient and the rest of two words by one that is greater than the high one. */
static uint32_t divide_words(uint32_t high, uint32_t low, uint32_t divisor, uint32_t *rest)
{
    int shift = __builtin_clz(divisor);
    uint32_t quotient;

    divisor <<= shift;
    if (shift > 0)
        high = high << shift | low >> (WORD - shift);
    low <<= shift;
    quotient = next_half(&high, low >> HALF, divisor) << HALF;
    quotient |= next_half(&high, low & 0xffff, divisor);
    *rest = high >> shift;
    return quotient;
}

/* Divides by what has one word. */
static struct quotient divide_by_word(uint64_t value, uint32_t divisor)
{
    uint32_t high = value >> WORD, upper = high / divisor, rest;
    uint32_t lower = divide_words(high % divisor, (uint32_t)value, divisor, &rest);
    struct quotient result = {(uint64_t)upper << WORD | lower, rest};

    return result;
}

/* Divides by what has two words: the quotient by the divisor's highest 32 bits is right or one too great. */
static struct quotient divide_by_two_words(uint64_t value, uint64_t divisor)
{
    int shift = __builtin_clz((uint32_t)(divisor >> WORD));
    uint32_t highest = (divisor << shift) >> WORD, rest;
    uint32_t quotient = divide_words(value >> (WORD + 1), (uint32_t)(value >> 1), highest, &rest);
    struct quotient result;

    quotient = (uint64_t)quotient << shift >> (WORD - 1);
    result.value = quotient ? quotient - 1 : 0;
    result.rest = value - result.value * divisor;
    if (result.rest >= divisor) {
        result.value++;
        result.rest -= divisor;
    }
    return result;
}

static struct quotient divide(uint64_t value, uint64_t divisor)
{
    struct quotient result = {0, value};

    if (divisor == 0)
        __asm__ volatile("teq $0, $0, 7");
    if (value < divisor)
        return result;
    if (value >> WORD == 0) {
        result.value = (uint32_t)value / (uint32_t)divisor;
        result.rest = (uint32_t)value % (uint32_t)divisor;
        return result;
    }
    return divisor >> WORD == 0 ? divide_by_word(value, divisor) : divide_by_two_words(value, divisor);
}

static uint64_t magnitude(int64_t value)
{
    return value < 0 ? -(uint64_t)value : (uint64_t)value;
}

uint64_t __udivdi3(uint64_t value, uint64_t divisor)
{
    return divide(value, divisor).value;
}

uint64_t __umoddi3(uint64_t value, uint64_t divisor)
{
    return divide(value, divisor).rest;
}

uint64_t __udivmoddi4(uint64_t value, uint64_t divisor, uint64_t *rest)
{
    struct quotient result = divide(value, divisor);

    if (rest)
        *rest = result.rest;
    return result.value;
}

int64_t __divdi3(int64_t value, int64_t divisor)
{
    uint64_t result = divide(magnitude(value), magnitude(divisor)).value;

    return (value < 0) != (divisor < 0) ? -result : result;
}

int64_t __moddi3(int64_t value, int64_t divisor)
{
    uint64_t rest = divide(magnitude(value), magnitude(divisor)).rest;

    return value < 0 ? -rest : rest;
}

/* A value of 64 bits as its two words. */
union words {
    uint64_t value;
    struct {
        uint32_t high;
        uint32_t low;
    } word;
};

uint64_t __ashldi3(uint64_t value, int shift)
{
    union words from = {value}, to;

    if (shift >= WORD) {
        to.word.high = from.word.low << (shift - WORD);
        to.word.low = 0;
    } else if (shift > 0) {
        to.word.high = from.word.high << shift | from.word.low >> (WORD - shift);
        to.word.low = from.word.low << shift;
    } else {
        return value;
    }
    return to.value;
}

uint64_t __lshrdi3(uint64_t value, int shift)
{
    union words from = {value}, to;

    if (shift >= WORD) {
        to.word.high = 0;
        to.word.low = from.word.high >> (shift - WORD);
    } else if (shift > 0) {
        to.word.high = from.word.high >> shift;
        to.word.low = from.word.low >> shift | from.word.high << (WORD - shift);
    } else {
        return value;
    }
    return to.value;
}

int64_t __ashrdi3(int64_t value, int shift)
{
    union words from = {(uint64_t)value}, to;
    int32_t high = (int32_t)from.word.high;

    if (shift >= WORD) {
        to.word.high = (uint32_t)(high >> (WORD - 1));
        to.word.low = (uint32_t)(high >> (shift - WORD));
    } else if (shift > 0) {
        to.word.high = (uint32_t)(high >> shift);
        to.word.low = from.word.low >> shift | from.word.high << (WORD - shift);
    } else {
        return value;
    }
    return (int64_t)to.value;
}

int __clzsi2(uint32_t value)
{
    return __builtin_clz(value);
}

int __clzdi2(uint64_t value)
{
    return leading_zeros(value);
}

int __ctzsi2(uint32_t value)
{
    return WORD - 1 - __builtin_clz(value & -value);
}

int __ctzdi2(uint64_t value)
{
    uint32_t low = (uint32_t)value;

    return low ? __ctzsi2(low) : WORD + __ctzsi2(value >> WORD);
}

int __ffsdi2(uint64_t value)
{
    return value ? __ctzdi2(value) + 1 : 0;
}

int __popcountsi2(uint32_t value)
{
    int count = 0;

    for (; value; value &= value - 1)
        count++;
    return count;
}

int __popcountdi2(uint64_t value)
{
    return __popcountsi2(value >> WORD) + __popcountsi2((uint32_t)value);
}
