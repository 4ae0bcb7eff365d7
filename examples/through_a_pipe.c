/*
 * Copies standard input to standard output through a pipe of its own: each piece that is read goes into the pipe, and
 * comes out of it in smaller ones. At the end the pipe's writing end is closed, and what is left in the pipe has to be
 * nothing. Exits with 0, or with 1 where a call fails or anything is left.
 */
#include "o32.h"

/* No piece is greater than a pipe's room, 65,536 bytes, so no write into the pipe waits. */
enum { PIECE = 4096, SMALLER_PIECE = 1000 };

static char buffer[PIECE];

/* Reads so many bytes from the pipe and writes them to standard output; whether no call failed. */
static int drain(long reading_end, long count)
{
    while (count > 0) {
        long length = read_bytes(reading_end, buffer, count < SMALLER_PIECE ? count : SMALLER_PIECE);

        if (length <= 0 || !write_bytes(STANDARD_OUTPUT, buffer, length))
            return 0;
        count -= length;
    }
    return 1;
}

/* Passes standard input on to its end; whether no call failed. */
static int pass(long reading_end, long writing_end)
{
    for (;;) {
        long length = read_bytes(STANDARD_INPUT, buffer, PIECE);

        if (length <= 0)
            return length == 0;
        if (!write_bytes(writing_end, buffer, length) || !drain(reading_end, length))
            return 0;
    }
}

int main(int count, char **arguments, char **environment)
{
    struct reply ends = short_call(CALL_PIPE, 0, 0, 0);

    (void)count, (void)arguments, (void)environment;
    if (ends.failed || !pass(ends.result, ends.second))
        return 1;
    if (short_call(CALL_CLOSE, ends.second, 0, 0).failed)
        return 1;
    return read_bytes(ends.result, buffer, PIECE) == 0 ? 0 : 1;
}
