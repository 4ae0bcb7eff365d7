/*
 * Sorts a million numbers, in memory of an allocator of its own.
 *
 * A block of at most 64 KiB is cut off the memory that brk(2) adds, and is kept for the next of its size when it is
 * released. A larger one is a mapping of its own, from mmap2(2), which mremap(2) makes larger and munmap(2) takes away.
 *
 * Prints the least number, the one in the middle and the greatest, one a line. Exits with 0; with 1 where memory ran out
 * or a write failed; with 2 where the numbers are not in order, or are others than they were.
 */
#include "o32.h"

/* asm/mman.h of MIPS Linux. */
enum { PROT_READ = 1, PROT_WRITE = 2, MAP_PRIVATE = 0x2, MAP_ANONYMOUS = 0x800, MREMAP_MAYMOVE = 1 };

enum { NUMBERS = 1000000, PAGE = 4096 };

/* The size of a small block is a power of two from 2^5 to 2^16, that of a large one a number of pages. */
enum { LEAST_POWER = 5, GREATEST_POWER = 16 };

/* By how much the break moves. */
enum { BREAK_STEP = 1 << 20 };

/* So many numbers are sorted by insertion. */
enum { FEW = 16 };

/* What stands before the memory that is given out: the size of the block with this, and the next released block. */
struct block {
    unsigned long size;
    struct block *next;
};

/* The released blocks of each power of two. */
static struct block *released[GREATEST_POWER + 1];

/* The memory below the break that was not given out yet. */
static char *unused, *unused_end;

/* Numbers that were pushed one after the other, and for how many there is room. */
struct numbers {
    unsigned *items;
    unsigned long count;
    unsigned long room;
};

/* The power of two of the smallest small block that has so many bytes. */
static int power_of(unsigned long size)
{
    int power = LEAST_POWER;

    while (1ul << power < size)
        power++;
    return power;
}

static int is_small(unsigned long size)
{
    return size <= 1ul << GREATEST_POWER;
}

static unsigned long whole_pages(unsigned long size)
{
    return (size + PAGE - 1) / PAGE * PAGE;
}

/* Moves the break to `end`; whether there is memory. brk(2) gives the break as it then is. */
static int move_break(char *end)
{
    return (char *)short_call(CALL_BRK, (long)end, 0, 0).result == end;
}

/* A block off the memory below the break, which no block was before; null where there is no memory. */
static struct block *fresh_block(unsigned long size)
{
    struct block *block;

    if (!unused)
        unused = unused_end = (char *)short_call(CALL_BRK, 0, 0, 0).result;
    if ((unsigned long)(unused_end - unused) < size) {
        if (!move_break(unused_end + BREAK_STEP))
            return 0;
        unused_end += BREAK_STEP;
    }
    block = (struct block *)unused;
    unused += size;
    block->size = size;
    return block;
}

static struct block *small_block(unsigned long size)
{
    int power = power_of(size);
    struct block *block = released[power];

    if (!block)
        return fresh_block(1ul << power);
    released[power] = block->next;
    return block;
}

static struct block *large_block(unsigned long size)
{
    struct reply reply = system_call(CALL_MMAP2, 0, (long)size, PROT_READ | PROT_WRITE, MAP_PRIVATE | MAP_ANONYMOUS, -1, 0);
    struct block *block = (struct block *)reply.result;

    if (reply.failed)
        return 0;
    block->size = size;
    return block;
}

/* Memory of so many bytes; null where there is none. */
static void *allocate(unsigned long count)
{
    unsigned long size = count + sizeof(struct block);
    struct block *block = is_small(size) ? small_block(size) : large_block(whole_pages(size));

    return block ? block + 1 : 0;
}

/* Gives memory back. */
static void release(void *memory)
{
    struct block *block = (struct block *)memory - 1;

    if (is_small(block->size)) {
        int power = power_of(block->size);

        block->next = released[power];
        released[power] = block;
    } else {
        short_call(CALL_MUNMAP, (long)block, (long)block->size, 0);
    }
}

static void copy_numbers(unsigned *to, const unsigned *from, unsigned long count)
{
    for (unsigned long place = 0; place < count; place++)
        to[place] = from[place];
}

/* Makes a large block larger, where it stands or at another place; its memory, or null where there is no more. */
static void *grow_mapping(struct block *block, unsigned long size)
{
    struct reply reply = system_call(CALL_MREMAP, (long)block, (long)block->size, (long)size, MREMAP_MAYMOVE, 0, 0);

    if (reply.failed)
        return 0;
    block = (struct block *)reply.result;
    block->size = size;
    return block + 1;
}

/* Memory for twice as many numbers, with those that there are; null where there is no memory. */
static unsigned *twice_the_room(const struct numbers *numbers)
{
    unsigned long bytes = 2 * numbers->room * sizeof(unsigned);
    struct block *block = (struct block *)numbers->items - 1;
    unsigned *items;

    if (!is_small(block->size))
        return grow_mapping(block, whole_pages(bytes + sizeof(struct block)));
    items = allocate(bytes);
    if (!items)
        return 0;
    copy_numbers(items, numbers->items, numbers->count);
    release(numbers->items);
    return items;
}

/* Adds a number; whether there is memory. */
static int push(struct numbers *numbers, unsigned number)
{
    if (numbers->count == numbers->room) {
        unsigned *items = twice_the_room(numbers);

        if (!items)
            return 0;
        numbers->items = items;
        numbers->room *= 2;
    }
    numbers->items[numbers->count++] = number;
    return 1;
}

/* The numbers of a linear congruential generator; whether there is memory. */
static int fill(struct numbers *numbers)
{
    unsigned number = 0;

    numbers->count = 0;
    numbers->room = FEW;
    numbers->items = allocate(FEW * sizeof(unsigned));
    if (!numbers->items)
        return 0;
    while (numbers->count < NUMBERS) {
        number = 1664525 * number + 1013904223;
        if (!push(numbers, number))
            return 0;
    }
    return 1;
}

static void sort_by_insertion(unsigned *items, unsigned long count)
{
    for (unsigned long place = 1; place < count; place++) {
        unsigned number = items[place];
        unsigned long at = place;

        for (; at > 0 && items[at - 1] > number; at--)
            items[at] = items[at - 1];
        items[at] = number;
    }
}

/* Merges `first`, and `second` which lies at the end of the room for both, into that room. */
static void merge(unsigned *into, const unsigned *first, unsigned long first_count, const unsigned *second,
                  unsigned long second_count)
{
    while (first_count > 0) {
        if (second_count > 0 && *second < *first) {
            *into++ = *second++;
            second_count--;
        } else {
            *into++ = *first++;
            first_count--;
        }
    }
}

/* Sorts by merging; whether there is memory for a copy of the first half. */
static int sort(unsigned *items, unsigned long count)
{
    unsigned long half = count / 2;
    unsigned *first;

    if (count <= FEW) {
        sort_by_insertion(items, count);
        return 1;
    }
    if (!sort(items, half) || !sort(items + half, count - half))
        return 0;
    first = allocate(half * sizeof(unsigned));
    if (!first)
        return 0;
    copy_numbers(first, items, half);
    merge(items, first, half, items + half, count - half);
    release(first);
    return 1;
}

static unsigned sum_of(const struct numbers *numbers)
{
    unsigned sum = 0;

    for (unsigned long place = 0; place < numbers->count; place++)
        sum += numbers->items[place];
    return sum;
}

static int is_in_order(const struct numbers *numbers)
{
    for (unsigned long place = 1; place < numbers->count; place++)
        if (numbers->items[place - 1] > numbers->items[place])
            return 0;
    return 1;
}

/* Prints a number in decimal, on a line; whether that could be done. */
static int print_number(unsigned number)
{
    char line[11];
    char *end = line + sizeof line;
    char *start = end;

    *--start = '\n';
    do
        *--start = (char)('0' + number % 10);
    while (number /= 10);
    return write_bytes(STANDARD_OUTPUT, start, end - start);
}

int main(int count, char **arguments, char **environment)
{
    struct numbers numbers;
    unsigned sum;

    (void)count, (void)arguments, (void)environment;
    if (!fill(&numbers))
        return 1;
    sum = sum_of(&numbers);
    if (!sort(numbers.items, numbers.count))
        return 1;
    if (!is_in_order(&numbers) || sum_of(&numbers) != sum)
        return 2;
    if (!print_number(numbers.items[0]) || !print_number(numbers.items[NUMBERS / 2]) ||
        !print_number(numbers.items[NUMBERS - 1]))
        return 1;
    release(numbers.items);
    return 0;
}
