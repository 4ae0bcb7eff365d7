/*
 * Lists the root directory by getdents64(2) in pieces of 32 KiB, as often as its first word says in decimal digits, and prints how
 * many entries that gave. Exits with 0, or with 1 where a call fails.
 */
#include "../examples/o32_files.h"

enum { CALL_LSEEK = 4019, PIECE = 32768 };

static _Alignas(8) char piece[PIECE];

static unsigned number_of(const char *text)
{
    unsigned number = 0;

    for (; *text; text++)
        number = 10 * number + (unsigned)(*text - '0');
    return number;
}

/* How many entries a piece has. */
static unsigned entries_in(long length)
{
    unsigned count = 0;

    for (long place = 0; place < length; place += ((const struct entry *)(piece + place))->length)
        count++;
    return count;
}

/* Adds the entries of one listing; whether no call failed. */
static int list(long directory, unsigned *count)
{
    if (short_call(CALL_LSEEK, directory, 0, 0).failed)
        return 0;
    for (;;) {
        struct reply reply = short_call(CALL_GETDENTS64, directory, (long)piece, PIECE);

        if (reply.failed || reply.result == 0)
            return !reply.failed;
        *count += entries_in(reply.result);
    }
}

int main(int count, char **arguments, char **environment)
{
    long directory = open_at("/", O_RDONLY | O_DIRECTORY, 0);
    unsigned entries = 0;

    (void)environment;
    if (count < 2 || directory < 0)
        return 1;
    for (unsigned rounds = number_of(arguments[1]); rounds > 0; rounds--)
        if (!list(directory, &entries))
            return 1;
    return print_number(entries) && print("\n") ? 0 : 1;
}
