/* A plain interpreter for big-endian MIPS32 programs: the yardstick that bench/run.py holds the emulator against.
 *
 *     yardstick [--budget N] PROGRAM
 *
 * It has the emulator's design, written as an interpreter in C is written: a turn fetches the word at the program
 * counter, finds its operation by nested switches on the opcode and the function, and carries it out on the spot.
 * Memory is a table of two levels by page number, with a protection for each page and a frame from the first write on.
 * A turn tests the alignment of the program counter, the end of user space and the page's protection; branches have
 * their delay slots, and a fault in a slot is one of its branch.
 *
 * It knows the usual instructions of user programs, about seventy, and one system call, exit; it reads the same
 * ELF-32 executables, without arguments or environment. It ends with the guest's status, with 128 and the number of
 * the signal that a fault gives, with 124 when the budget's turns are done, and with 125 where the file can't be run.
 */
#include <stdbool.h>
#include <stdint.h>
#include <stdio.h>
#include <stdlib.h>
#include <string.h>

enum {
    PAGE_SIZE = 4096,
    READ = 1,
    WRITE = 2,
    EXECUTE = 4,
    STACK_PAGES = 2048,
};

#define USER_END 0x7FFF8000u
#define USER_PAGES (USER_END / PAGE_SIZE)
#define DEFAULT_BUDGET 1000000000u

enum status { BUDGET_DONE = 124, REFUSED = 125 };

enum signal { SIGILL = 4, SIGTRAP = 5, SIGFPE = 8, SIGBUS = 10, SIGSEGV = 11 };

enum call { EXIT_CALL = 4001 };

enum { ENOSYS = 89 };

/* $v0, $a0, $a3, $sp and $ra */
enum { V0 = 2, A0 = 4, A3 = 7, SP = 29, RA = 31 };

/* ---- memory */

struct page {
    uint8_t *frame; /* none before the first write */
    uint8_t protection;
    bool mapped;
};

struct table {
    struct page pages[1024];
};

struct memory {
    struct table *tables[1024];
};

static const uint8_t ZEROS[PAGE_SIZE];

static void *zeroed(size_t size)
{
    void *bytes = calloc(1, size);
    if (!bytes)
        exit(121);
    return bytes;
}

static inline struct page *page_at(const struct memory *memory, uint32_t address)
{
    struct table *table = memory->tables[address >> 22];
    return table ? &table->pages[address >> 12 & 1023] : NULL;
}

static void map(struct memory *memory, uint32_t address, uint8_t protection)
{
    struct table **table = &memory->tables[address >> 22];
    if (!*table)
        *table = zeroed(sizeof **table);
    struct page *page = &(*table)->pages[address >> 12 & 1023];
    page->mapped = true;
    page->protection |= protection;
}

/* The bytes from an address on, to be loaded, which stand in one page; NULL where they may not be. */
static inline const uint8_t *to_load(const struct memory *memory, uint32_t address)
{
    const struct page *page = address < USER_END ? page_at(memory, address) : NULL;
    if (!page || !page->mapped || !page->protection)
        return NULL;
    return (page->frame ? page->frame : ZEROS) + address % PAGE_SIZE;
}

/* The same, to be stored to. */
static inline uint8_t *to_store(struct memory *memory, uint32_t address)
{
    struct page *page = address < USER_END ? page_at(memory, address) : NULL;
    if (!page || !page->mapped || !(page->protection & WRITE))
        return NULL;
    if (!page->frame)
        page->frame = zeroed(PAGE_SIZE);
    return page->frame + address % PAGE_SIZE;
}

static inline uint32_t number(const uint8_t *bytes, uint32_t size)
{
    uint32_t word;
    uint16_t half;
    switch (size) {
    case 1:
        return bytes[0];
    case 2:
        memcpy(&half, bytes, 2);
        return __builtin_bswap16(half);
    default:
        memcpy(&word, bytes, 4);
        return __builtin_bswap32(word);
    }
}

static inline void put(uint8_t *bytes, uint32_t size, uint32_t value)
{
    uint32_t word = __builtin_bswap32(value);
    uint16_t half = __builtin_bswap16((uint16_t)value);
    switch (size) {
    case 1:
        bytes[0] = (uint8_t)value;
        break;
    case 2:
        memcpy(bytes, &half, 2);
        break;
    default:
        memcpy(bytes, &word, 4);
    }
}

static inline bool in_one_page(uint32_t address, uint32_t size)
{
    return address % PAGE_SIZE + size <= PAGE_SIZE;
}

static bool load_across(const struct memory *memory, uint32_t address, uint32_t size, uint32_t *value)
{
    uint32_t sum = 0;
    for (uint32_t i = 0; i < size; i++) {
        const uint8_t *byte = to_load(memory, address + i);
        if (!byte)
            return false;
        sum = sum << 8 | *byte;
    }
    *value = sum;
    return true;
}

static inline bool load(const struct memory *memory, uint32_t address, uint32_t size, uint32_t *value)
{
    if (!in_one_page(address, size))
        return load_across(memory, address, size, value);
    const uint8_t *bytes = to_load(memory, address);
    if (!bytes)
        return false;
    *value = number(bytes, size);
    return true;
}

static bool store_across(struct memory *memory, uint32_t address, uint32_t size, uint32_t value)
{
    for (uint32_t i = 0; i < size; i++)
        if (!to_store(memory, address + i))
            return false;
    for (uint32_t i = 0; i < size; i++)
        *to_store(memory, address + i) = (uint8_t)(value >> 8 * (size - 1 - i));
    return true;
}

static inline bool store(struct memory *memory, uint32_t address, uint32_t size, uint32_t value)
{
    if (!in_one_page(address, size))
        return store_across(memory, address, size, value);
    uint8_t *bytes = to_store(memory, address);
    if (!bytes)
        return false;
    put(bytes, size, value);
    return true;
}

/* ---- the processor */

struct slot {
    bool here; /* the instruction at the program counter stands behind a branch */
    uint32_t branch;
    uint32_t target;
};

struct processor {
    uint32_t registers[32];
    uint32_t high, low;
    uint32_t pc;
    struct slot slot;
    bool linked;
    uint32_t link;
};

struct machine {
    struct processor processor;
    struct memory memory;
    bool ended;
    int status;
};

static void end(struct machine *machine, int status)
{
    machine->ended = true;
    machine->status = status;
}

static void fault(struct machine *machine, enum signal signal)
{
    struct processor *p = &machine->processor;
    if (p->slot.here)
        p->pc = p->slot.branch;
    p->slot.here = false;
    end(machine, 128 + signal);
}

static inline void set(struct processor *p, uint32_t number, uint32_t value)
{
    if (number)
        p->registers[number] = value;
}

static inline void proceed(struct processor *p)
{
    p->pc = p->slot.here ? p->slot.target : p->pc + 4;
    p->slot.here = false;
}

/* The slot comes next and then the target. */
static inline void branch(struct machine *machine, uint32_t link, uint32_t target)
{
    struct processor *p = &machine->processor;
    if (p->slot.here) {
        fault(machine, SIGILL);
        return;
    }
    set(p, link, p->pc + 8);
    p->slot = (struct slot){.here = true, .branch = p->pc, .target = target};
    p->pc += 4;
}

static inline uint32_t rs(uint32_t word) { return word >> 21 & 31; }
static inline uint32_t rt(uint32_t word) { return word >> 16 & 31; }
static inline uint32_t rd(uint32_t word) { return word >> 11 & 31; }
static inline uint32_t sa(uint32_t word) { return word >> 6 & 31; }
static inline uint32_t immediate(uint32_t word) { return word & 0xFFFF; }
static inline uint32_t offset(uint32_t word) { return (uint32_t)(int32_t)(int16_t)word; }

static inline void branch_if(struct machine *machine, uint32_t link, uint32_t word, bool taken)
{
    uint32_t pc = machine->processor.pc;
    branch(machine, link, taken ? pc + 4 + 4 * offset(word) : pc + 8);
}

static inline void load_into(struct machine *machine, uint32_t word, uint32_t size, bool is_signed)
{
    struct processor *p = &machine->processor;
    uint32_t value;
    if (!load(&machine->memory, p->registers[rs(word)] + offset(word), size, &value)) {
        fault(machine, SIGSEGV);
        return;
    }
    if (is_signed)
        value = size == 1 ? (uint32_t)(int32_t)(int8_t)value : (uint32_t)(int32_t)(int16_t)value;
    set(p, rt(word), value);
    proceed(p);
}

static inline void store_from(struct machine *machine, uint32_t word, uint32_t size)
{
    struct processor *p = &machine->processor;
    if (!store(&machine->memory, p->registers[rs(word)] + offset(word), size, p->registers[rt(word)])) {
        fault(machine, SIGSEGV);
        return;
    }
    proceed(p);
}

/* LWL, LWR, SWL and SWR: the bytes of an aligned word from the address on, or up to it. */
static void part_of_word(struct machine *machine, uint32_t word)
{
    struct processor *p = &machine->processor;
    uint32_t address = p->registers[rs(word)] + offset(word), place = address % 4;
    uint32_t old = p->registers[rt(word)], value;
    bool done;
    switch (word >> 26) {
    case 0x22:
        done = load(&machine->memory, address - place, 4, &value);
        if (done)
            set(p, rt(word), place ? value << 8 * place | (old & ((1u << 8 * place) - 1)) : value);
        break;
    case 0x26:
        done = load(&machine->memory, address - place, 4, &value);
        if (done)
            set(p, rt(word), place < 3 ? value >> (24 - 8 * place) | (old & ~0u << (8 * place + 8)) : value);
        break;
    case 0x2A:
        done = true;
        for (uint32_t i = place; done && i < 4; i++)
            done = store(&machine->memory, address - place + i, 1, old >> 8 * (3 - i + place));
        break;
    default:
        done = true;
        for (uint32_t i = 0; done && i <= place; i++)
            done = store(&machine->memory, address - place + i, 1, old >> 8 * (place - i));
        break;
    }
    if (done)
        proceed(p);
    else
        fault(machine, SIGSEGV);
}

static void load_linked(struct machine *machine, uint32_t word)
{
    struct processor *p = &machine->processor;
    uint32_t address = p->registers[rs(word)] + offset(word);
    if (address % 4) {
        fault(machine, SIGBUS);
        return;
    }
    load_into(machine, word, 4, false);
    p->linked = true;
    p->link = address;
}

static void store_conditional(struct machine *machine, uint32_t word)
{
    struct processor *p = &machine->processor;
    uint32_t address = p->registers[rs(word)] + offset(word);
    bool linked = p->linked && p->link == address;
    p->linked = false;
    if (address % 4) {
        fault(machine, SIGBUS);
        return;
    }
    if (!to_store(&machine->memory, address)) {
        fault(machine, SIGSEGV);
        return;
    }
    if (linked)
        store(&machine->memory, address, 4, p->registers[rt(word)]);
    set(p, rt(word), linked);
    proceed(p);
}

static void system_call(struct machine *machine)
{
    struct processor *p = &machine->processor;
    if (p->slot.here) {
        fault(machine, SIGILL);
        return;
    }
    p->linked = false;
    p->pc += 4;
    if (p->registers[V0] == EXIT_CALL) {
        end(machine, p->registers[A0] & 0xFF);
        return;
    }
    p->registers[V0] = ENOSYS;
    p->registers[A3] = 1;
}

static inline void set_accumulator(struct processor *p, uint64_t value)
{
    p->high = (uint32_t)(value >> 32);
    p->low = (uint32_t)value;
}

static inline uint64_t signed_product(uint32_t a, uint32_t b)
{
    return (uint64_t)((int64_t)(int32_t)a * (int32_t)b);
}

static inline void divide(struct processor *p, uint32_t a, uint32_t b)
{
    if (b == 0xFFFFFFFF) {
        p->low = 0 - a;
        p->high = 0;
    } else if (b) {
        p->low = (uint32_t)((int32_t)a / (int32_t)b);
        p->high = (uint32_t)((int32_t)a % (int32_t)b);
    }
}

static inline uint32_t shifted_arithmetically(uint32_t a, uint32_t amount)
{
    return (uint32_t)((int32_t)a >> amount);
}

static inline void special(struct machine *machine, uint32_t word)
{
    struct processor *p = &machine->processor;
    uint32_t a = p->registers[rs(word)], b = p->registers[rt(word)], value;
    switch (word & 63) {
    case 0x00: set(p, rd(word), b << sa(word)); break;
    case 0x02:
        value = rs(word) == 1 && sa(word) ? b >> sa(word) | b << (32 - sa(word)) : b >> sa(word);
        set(p, rd(word), value);
        break;
    case 0x03: set(p, rd(word), shifted_arithmetically(b, sa(word))); break;
    case 0x04: set(p, rd(word), b << (a & 31)); break;
    case 0x06: set(p, rd(word), b >> (a & 31)); break;
    case 0x07: set(p, rd(word), shifted_arithmetically(b, a & 31)); break;
    case 0x08: branch(machine, 0, a); return;
    case 0x09: branch(machine, rd(word), a); return;
    case 0x0A:
        if (!b)
            set(p, rd(word), a);
        break;
    case 0x0B:
        if (b)
            set(p, rd(word), a);
        break;
    case 0x0C: system_call(machine); return;
    case 0x0D: fault(machine, SIGTRAP); return;
    case 0x0F: break;
    case 0x10: set(p, rd(word), p->high); break;
    case 0x11: p->high = a; break;
    case 0x12: set(p, rd(word), p->low); break;
    case 0x13: p->low = a; break;
    case 0x18: set_accumulator(p, signed_product(a, b)); break;
    case 0x19: set_accumulator(p, (uint64_t)a * b); break;
    case 0x1A: divide(p, a, b); break;
    case 0x1B:
        if (b) {
            p->low = a / b;
            p->high = a % b;
        }
        break;
    case 0x20:
        value = a + b;
        if ((a ^ value) & (b ^ value) & 0x80000000) {
            fault(machine, SIGFPE);
            return;
        }
        set(p, rd(word), value);
        break;
    case 0x21: set(p, rd(word), a + b); break;
    case 0x23: set(p, rd(word), a - b); break;
    case 0x24: set(p, rd(word), a & b); break;
    case 0x25: set(p, rd(word), a | b); break;
    case 0x26: set(p, rd(word), a ^ b); break;
    case 0x27: set(p, rd(word), ~(a | b)); break;
    case 0x2A: set(p, rd(word), (int32_t)a < (int32_t)b); break;
    case 0x2B: set(p, rd(word), a < b); break;
    case 0x34:
        if (a == b) {
            fault(machine, SIGTRAP);
            return;
        }
        break;
    default: fault(machine, SIGILL); return;
    }
    proceed(p);
}

static inline void regimm(struct machine *machine, uint32_t word)
{
    bool negative = machine->processor.registers[rs(word)] >> 31;
    switch (rt(word)) {
    case 0x00: branch_if(machine, 0, word, negative); break;
    case 0x01: branch_if(machine, 0, word, !negative); break;
    case 0x10: branch_if(machine, RA, word, negative); break;
    case 0x11: branch_if(machine, RA, word, !negative); break;
    default: fault(machine, SIGILL);
    }
}

static inline void special2(struct machine *machine, uint32_t word)
{
    struct processor *p = &machine->processor;
    uint32_t a = p->registers[rs(word)], b = p->registers[rt(word)];
    uint64_t accumulator = (uint64_t)p->high << 32 | p->low;
    switch (word & 63) {
    case 0x00: set_accumulator(p, accumulator + signed_product(a, b)); break;
    case 0x01: set_accumulator(p, accumulator + (uint64_t)a * b); break;
    case 0x02: set(p, rd(word), a * b); break;
    case 0x20: set(p, rd(word), a ? (uint32_t)__builtin_clz(a) : 32); break;
    default: fault(machine, SIGILL); return;
    }
    proceed(p);
}

static inline void special3(struct machine *machine, uint32_t word)
{
    struct processor *p = &machine->processor;
    uint32_t a = p->registers[rs(word)], b = p->registers[rt(word)];
    uint32_t low = sa(word), mask;
    switch (word & 63) {
    case 0x00:
        mask = rd(word) == 31 ? ~0u : (1u << (rd(word) + 1)) - 1;
        set(p, rt(word), a >> low & mask);
        break;
    case 0x04:
        mask = (rd(word) - low == 31 ? ~0u : (1u << (rd(word) - low + 1)) - 1) << low;
        set(p, rt(word), (b & ~mask) | (a << low & mask));
        break;
    case 0x20:
        switch (low) {
        case 0x02: set(p, rd(word), (b & 0x00FF00FF) << 8 | (b >> 8 & 0x00FF00FF)); break;
        case 0x10: set(p, rd(word), (uint32_t)(int32_t)(int8_t)b); break;
        case 0x18: set(p, rd(word), (uint32_t)(int32_t)(int16_t)b); break;
        default: fault(machine, SIGILL); return;
        }
        break;
    default: fault(machine, SIGILL); return;
    }
    proceed(p);
}

static inline void jump(struct machine *machine, uint32_t link, uint32_t word)
{
    branch(machine, link, ((machine->processor.pc + 4) & 0xF0000000) | (word & 0x03FFFFFF) << 2);
}

static inline void turn(struct machine *machine)
{
    struct processor *p = &machine->processor;
    uint32_t word;
    if (p->pc % 4) {
        fault(machine, SIGBUS);
        return;
    }
    if (!load(&machine->memory, p->pc, 4, &word)) {
        fault(machine, SIGSEGV);
        return;
    }
    uint32_t a = p->registers[rs(word)], b = p->registers[rt(word)], value;
    switch (word >> 26) {
    case 0x00: special(machine, word); return;
    case 0x01: regimm(machine, word); return;
    case 0x02: jump(machine, 0, word); return;
    case 0x03: jump(machine, RA, word); return;
    case 0x04: branch_if(machine, 0, word, a == b); return;
    case 0x05: branch_if(machine, 0, word, a != b); return;
    case 0x06: branch_if(machine, 0, word, (int32_t)a <= 0); return;
    case 0x07: branch_if(machine, 0, word, (int32_t)a > 0); return;
    case 0x08:
        value = a + offset(word);
        if ((a ^ value) & (offset(word) ^ value) & 0x80000000) {
            fault(machine, SIGFPE);
            return;
        }
        set(p, rt(word), value);
        break;
    case 0x09: set(p, rt(word), a + offset(word)); break;
    case 0x0A: set(p, rt(word), (int32_t)a < (int32_t)offset(word)); break;
    case 0x0B: set(p, rt(word), a < offset(word)); break;
    case 0x0C: set(p, rt(word), a & immediate(word)); break;
    case 0x0D: set(p, rt(word), a | immediate(word)); break;
    case 0x0E: set(p, rt(word), a ^ immediate(word)); break;
    case 0x0F: set(p, rt(word), immediate(word) << 16); break;
    case 0x1C: special2(machine, word); return;
    case 0x1F: special3(machine, word); return;
    case 0x20: load_into(machine, word, 1, true); return;
    case 0x21: load_into(machine, word, 2, true); return;
    case 0x23: load_into(machine, word, 4, false); return;
    case 0x24: load_into(machine, word, 1, false); return;
    case 0x25: load_into(machine, word, 2, false); return;
    case 0x28: store_from(machine, word, 1); return;
    case 0x29: store_from(machine, word, 2); return;
    case 0x2B: store_from(machine, word, 4); return;
    case 0x22:
    case 0x26:
    case 0x2A:
    case 0x2E: part_of_word(machine, word); return;
    case 0x30: load_linked(machine, word); return;
    case 0x38: store_conditional(machine, word); return;
    default: fault(machine, SIGILL); return;
    }
    proceed(p);
}

/* ---- the executable */

static uint32_t word_at(const uint8_t *bytes) { return number(bytes, 4); }
static uint32_t half_at(const uint8_t *bytes) { return number(bytes, 2); }

static void refuse(const char *why)
{
    fprintf(stderr, "yardstick: %s\n", why);
    exit(REFUSED);
}

static uint8_t *read_file(const char *name, size_t *size)
{
    FILE *file = fopen(name, "rb");
    if (!file || fseek(file, 0, SEEK_END))
        refuse("no such program");
    long length = ftell(file);
    rewind(file);
    uint8_t *bytes = zeroed(length > 0 ? (size_t)length : 1);
    if (length < 52 || fread(bytes, 1, (size_t)length, file) != (size_t)length)
        refuse("no executable");
    fclose(file);
    *size = (size_t)length;
    return bytes;
}

static void load_segment(struct machine *machine, const uint8_t *file, size_t size, const uint8_t *header)
{
    uint32_t from = word_at(header + 4), at = word_at(header + 8);
    uint32_t in_file = word_at(header + 16), in_memory = word_at(header + 20), flags = word_at(header + 24);
    if ((uint64_t)from + in_file > size || in_file > in_memory || (uint64_t)at + in_memory > USER_END)
        refuse("a segment lies outside");
    uint8_t protection = (uint8_t)((flags & 4 ? READ : 0) | (flags & 2 ? WRITE : 0) | (flags & 1 ? EXECUTE : 0));
    if (!in_memory)
        return;
    for (uint32_t page = at / PAGE_SIZE; page <= (at + in_memory - 1) / PAGE_SIZE; page++)
        map(&machine->memory, page * PAGE_SIZE, protection);
    for (uint32_t i = 0; i < in_file; i++) {
        struct page *page = page_at(&machine->memory, at + i);
        if (!page->frame)
            page->frame = zeroed(PAGE_SIZE);
        page->frame[(at + i) % PAGE_SIZE] = file[from + i];
    }
}

static void load_program(struct machine *machine, const char *name)
{
    static const uint8_t ident[] = {0x7F, 'E', 'L', 'F', 1, 2, 1};
    size_t size;
    uint8_t *file = read_file(name, &size);
    if (memcmp(file, ident, sizeof ident) || half_at(file + 16) != 2 || half_at(file + 18) != 8)
        refuse("not a big-endian MIPS executable");
    uint32_t headers = word_at(file + 28), count = half_at(file + 44);
    if ((uint64_t)headers + 32 * count > size)
        refuse("the headers lie outside");
    for (uint32_t i = 0; i < count; i++) {
        const uint8_t *header = file + headers + 32 * i;
        if (word_at(header) == 1)
            load_segment(machine, file, size, header);
    }
    for (uint32_t i = 1; i <= STACK_PAGES; i++)
        map(&machine->memory, (USER_PAGES - i) * PAGE_SIZE, READ | WRITE);
    machine->processor.pc = word_at(file + 24);
    machine->processor.registers[SP] = USER_END - 64;
    free(file);
}

int main(int count, char **words)
{
    uint64_t budget = DEFAULT_BUDGET;
    int next = 1;
    if (count > 2 && !strcmp(words[1], "--budget")) {
        budget = strtoull(words[2], NULL, 10);
        next = 3;
    }
    if (next + 1 != count) {
        fprintf(stderr, "usage: yardstick [--budget N] PROGRAM\n");
        return REFUSED;
    }
    struct machine *machine = zeroed(sizeof *machine);
    load_program(machine, words[next]);
    for (uint64_t turns = 0; turns < budget; turns++) {
        turn(machine);
        if (machine->ended)
            return machine->status;
    }
    return BUDGET_DONE;
}
