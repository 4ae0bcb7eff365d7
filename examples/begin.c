/*
 * Makes the calls that a C library makes before and around a small `main`: the thread pointer, the address of the thread's id,
 * whether standard output is a terminal, the break, a mapping for its buffers. Then it counts the entries of the directory
 * that its first word names, or else of the root, and prints their number by one writev(2).
 * Exits with 0, or with 1 where a call fails that has to work.
 */
#include "o32_files.h"

/* asm/mman.h and asm/ioctls.h of MIPS Linux. */
enum { PROT_READ = 1, PROT_WRITE = 2, MAP_PRIVATE = 0x2, MAP_ANONYMOUS = 0x800, TIOCGWINSZ = 0x40087468 };

enum { BUFFER = 8192, MORE_MEMORY = 8192 };

/* struct iovec of readv(2). */
struct piece {
    const char *bytes;
    unsigned long length;
};

static char thread_block[64];
static int thread_id;

/* Sets up thread, break and terminal; whether no call failed. That standard output is no terminal is no failure. */
static int set_up(void)
{
    unsigned short window[4];
    struct reply first;

    if (short_call(CALL_SET_THREAD_AREA, (long)thread_block, 0, 0).failed)
        return 0;
    if (short_call(CALL_SET_TID_ADDRESS, (long)&thread_id, 0, 0).failed)
        return 0;
    short_call(CALL_IOCTL, STANDARD_OUTPUT, TIOCGWINSZ, (long)window);
    first = short_call(CALL_BRK, 0, 0, 0);
    return short_call(CALL_BRK, first.result + MORE_MEMORY, 0, 0).result == first.result + MORE_MEMORY;
}

/* How many entries a piece of a directory has, without `.` and `..`. */
static int entries_in(const char *piece, long length)
{
    int count = 0;

    for (long place = 0; place < length;) {
        const struct entry *entry = (const struct entry *)(piece + place);
        const char *name = entry->name;

        count += !(name[0] == '.' && (!name[1] || (name[1] == '.' && !name[2])));
        place += entry->length;
    }
    return count;
}

/* How many entries a directory has; -1 where a call fails. */
static int entries_of(const char *path, char *buffer)
{
    struct status status;
    long directory = open_at(path, O_RDONLY | O_DIRECTORY, 0);
    int count = 0;

    if (directory < 0 || short_call(CALL_FSTAT64, directory, (long)&status, 0).failed)
        return -1;
    for (;;) {
        struct reply reply = short_call(CALL_GETDENTS64, directory, (long)buffer, BUFFER);

        if (reply.failed)
            return -1;
        if (reply.result == 0)
            return count;
        count += entries_in(buffer, reply.result);
    }
}

/* Prints the number of entries by one call; whether all of it was written. */
static int print_count(int count)
{
    static const char ending[] = " files\n";
    char digits[12];
    int place = sizeof digits;
    struct piece pieces[2];
    unsigned long length;

    do
        digits[--place] = (char)('0' + count % 10);
    while ((count /= 10) > 0);
    length = sizeof digits - (unsigned long)place;
    pieces[0] = (struct piece){digits + place, length};
    pieces[1] = (struct piece){ending, sizeof ending - 1};
    return short_call(CALL_WRITEV, STANDARD_OUTPUT, (long)pieces, 2).result == (long)(length + sizeof ending - 1);
}

int main(int count, char **arguments, char **environment)
{
    struct reply buffer;
    int entries;

    (void)environment;
    if (!set_up())
        return 1;
    buffer = system_call(CALL_MMAP2, 0, BUFFER, PROT_READ | PROT_WRITE, MAP_PRIVATE | MAP_ANONYMOUS, -1, 0);
    if (buffer.failed)
        return 1;
    entries = entries_of(count > 1 ? arguments[1] : "/", (char *)buffer.result);
    return entries >= 0 && print_count(entries) ? 0 : 1;
}
