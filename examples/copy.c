/* Copies standard input to standard output. Exits with 0, or with 1 where a read or a write fails. */
#include "o32.h"

enum { ROOM = 65536 };

static char buffer[ROOM];

int main(int count, char **arguments, char **environment)
{
    (void)count, (void)arguments, (void)environment;
    for (;;) {
        long length = read_bytes(STANDARD_INPUT, buffer, ROOM);

        if (length == 0)
            return 0;
        if (length < 0 || !write_bytes(STANDARD_OUTPUT, buffer, length))
            return 1;
    }
}
