/*
 * The first instructions of a program that uses no C library, and its system calls on Linux for MIPS o32.
 *
 * A program includes this once and defines `main`. Its exit status is the low byte of what `main` returns.
 */
#ifndef O32_H
#define O32_H

/* asm/unistd.h of MIPS Linux, o32. */
enum {
    CALL_EXIT = 4001,
    CALL_READ = 4003,
    CALL_WRITE = 4004,
    CALL_CLOSE = 4006,
    CALL_RENAME = 4038,
    CALL_PIPE = 4042,
    CALL_BRK = 4045,
    CALL_IOCTL = 4054,
    CALL_MUNMAP = 4091,
    CALL_WRITEV = 4146,
    CALL_NANOSLEEP = 4166,
    CALL_MREMAP = 4167,
    CALL_POLL = 4188,
    CALL_MMAP2 = 4210,
    CALL_FSTAT64 = 4215,
    CALL_GETDENTS64 = 4219,
    CALL_SET_TID_ADDRESS = 4252,
    CALL_CLOCK_GETTIME = 4263,
    CALL_SET_THREAD_AREA = 4283,
    CALL_OPENAT = 4288,
    CALL_FSTATAT64 = 4293
};

enum { STANDARD_INPUT = 0, STANDARD_OUTPUT = 1 };

/* What a call gives: whether it failed, its result or else its errno, and the second result that pipe(2) has. */
struct reply {
    long failed;
    long result;
    long second;
};

/*
 * A system call. Registers 4 to 7 have its first four arguments, and the words at 16 and 20 bytes from the stack pointer
 * the others. Register 2 has its number, and then its result; register 3 the second result; register 7 whether it failed.
 */
static inline struct reply system_call(long number, long first, long second, long third, long fourth, long fifth,
                                       long sixth)
{
    register long result __asm__("$2") = number;
    register long other __asm__("$3");
    register long a __asm__("$4") = first;
    register long b __asm__("$5") = second;
    register long c __asm__("$6") = third;
    register long d __asm__("$7") = fourth;

    __asm__ volatile("addiu $29, $29, -32\n\t"
                     "sw %[fifth], 16($29)\n\t"
                     "sw %[sixth], 20($29)\n\t"
                     "syscall\n\t"
                     "addiu $29, $29, 32"
                     : "+r"(result), "=&r"(other), "+r"(d)
                     : "r"(a), "r"(b), "r"(c), [fifth] "r"(fifth), [sixth] "r"(sixth)
                     : "$1", "$8", "$9", "$10", "$11", "$12", "$13", "$14", "$15", "$24", "$25", "hi", "lo", "memory");
    return (struct reply){d, result, other};
}

/* A system call of at most three arguments. */
static inline struct reply short_call(long number, long first, long second, long third)
{
    return system_call(number, first, second, third, 0, 0, 0);
}

/* How many bytes were read, 0 at the end; -1 where the call failed. */
static inline long read_bytes(long descriptor, char *bytes, long count)
{
    struct reply reply = short_call(CALL_READ, descriptor, (long)bytes, count);

    return reply.failed ? -1 : reply.result;
}

/* Writes all of the bytes; whether that could be done. */
static inline int write_bytes(long descriptor, const char *bytes, long count)
{
    while (count > 0) {
        struct reply reply = short_call(CALL_WRITE, descriptor, (long)bytes, count);

        if (reply.failed || reply.result == 0)
            return 0;
        bytes += reply.result;
        count -= reply.result;
    }
    return 1;
}

int main(int count, char **arguments, char **environment);

/*
 * The stack pointer is at the number of arguments, with their addresses and a null address behind it, and then those of
 * the environment. It becomes what `start` is given. A function's caller leaves 16 bytes for the function at its stack
 * pointer.
 */
__asm__(".set push\n"
        ".set noreorder\n"
        ".globl __start\n"
        "__start:\n"
        "  move $4, $29\n"
        "  jal start\n"
        "  addiu $29, $29, -16\n"
        ".set pop\n");

__attribute__((noreturn, used)) void start(long *stack)
{
    char **arguments = (char **)(stack + 1);

    short_call(CALL_EXIT, main((int)stack[0], arguments, arguments + stack[0] + 1), 0, 0);
    __builtin_unreachable();
}

#endif
