/*
 * Files on Linux for MIPS o32, for programs that use no C library: flags, structures and calls.
 */
#ifndef O32_FILES_H
#define O32_FILES_H

#include "o32.h"

/* asm/fcntl.h of MIPS Linux, and linux/fcntl.h. */
enum {
    O_RDONLY = 0,
    O_WRONLY = 1,
    O_CREAT = 0x100,
    O_TRUNC = 0x200,
    O_LARGEFILE = 0x2000,
    O_DIRECTORY = 0x10000,
    O_NOFOLLOW = 0x20000
};

enum { AT_FDCWD = -100, AT_SYMLINK_NOFOLLOW = 0x100 };

/* The type of an entry that is a directory (readdir(3)). */
enum { DT_DIR = 4 };

/* struct stat64 of asm/stat.h of MIPS Linux. */
struct status {
    unsigned device;
    unsigned unused[3];
    unsigned long long number;
    unsigned mode;
    unsigned links;
    unsigned user;
    unsigned group;
    unsigned kept_device;
    unsigned more_unused[3];
    long long size;
    unsigned times[6];
    unsigned block_size;
    unsigned still_more_unused;
    unsigned long long blocks;
};

_Static_assert(sizeof(struct status) == 104, "struct stat64 has 104 bytes");

/* struct linux_dirent64 of getdents64(2). The name ends with a NUL. */
struct entry {
    unsigned long long number;
    long long offset;
    unsigned short length;
    unsigned char type;
    char name[];
};

static inline long length_of(const char *text)
{
    long length = 0;

    while (text[length])
        length++;
    return length;
}

static inline int print(const char *text)
{
    return write_bytes(STANDARD_OUTPUT, text, length_of(text));
}

/* Prints a number in decimal digits; whether no write failed. */
static inline int print_number(unsigned long long number)
{
    /* 2^64 - 1 has twenty digits. There is no division of 64 bits without a library. */
    static const unsigned long long powers[] = {
        10000000000000000000ull, 1000000000000000000ull, 100000000000000000ull, 10000000000000000ull, 1000000000000000ull,
        100000000000000ull,      10000000000000ull,      1000000000000ull,      100000000000ull,      10000000000ull,
        1000000000ull,           100000000ull,           10000000ull,           1000000ull,           100000ull,
        10000ull,                1000ull,                100ull,                10ull,                1ull};
    char digits[20];
    long count = 0;

    for (int place = 0; place < 20; place++) {
        char digit = '0';

        for (; number >= powers[place]; number -= powers[place])
            digit++;
        if (count > 0 || digit != '0' || place == 19)
            digits[count++] = digit;
    }
    return write_bytes(STANDARD_OUTPUT, digits, count);
}

/* A new descriptor of the file at a path, from the working directory on where it doesn't begin with a slash; -1 where there is none. */
static inline long open_at(const char *path, long flags, long mode)
{
    struct reply reply = system_call(CALL_OPENAT, AT_FDCWD, (long)path, flags | O_LARGEFILE, mode, 0, 0);

    return reply.failed ? -1 : reply.result;
}

#endif
