/*
 * Keeps standard input in a file that its first word names, or else in `kept`: writes it to a file of another name, gives that
 * its name only when all is there (rename(2)), and reads it back to standard output. Exits with 0, or with 1 where a call fails.
 */
#include "o32_files.h"

enum { PIECE = 4096 };

static const char part[] = "part";

static char buffer[PIECE];

/* Copies what is left of one descriptor to another; whether no call failed. */
static int copy(long from, long to)
{
    for (;;) {
        long length = read_bytes(from, buffer, PIECE);

        if (length <= 0)
            return length == 0;
        if (!write_bytes(to, buffer, length))
            return 0;
    }
}

static int close(long descriptor)
{
    return !short_call(CALL_CLOSE, descriptor, 0, 0).failed;
}

static int keep(const char *name)
{
    long file = open_at(part, O_WRONLY | O_CREAT | O_TRUNC, 0644);

    if (file < 0 || !copy(STANDARD_INPUT, file) || !close(file))
        return 0;
    return !short_call(CALL_RENAME, (long)part, (long)name, 0).failed;
}

static int show(const char *name)
{
    long file = open_at(name, O_RDONLY, 0);

    return file >= 0 && copy(file, STANDARD_OUTPUT) && close(file);
}

int main(int count, char **arguments, char **environment)
{
    const char *name = count > 1 ? arguments[1] : "kept";

    (void)environment;
    return keep(name) && show(name) ? 0 : 1;
}
