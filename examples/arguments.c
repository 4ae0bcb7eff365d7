/*
 * Prints its arguments and its environment, one a line, and exits with the number of its arguments, of which its own
 * name is the first; with 255 where a write fails.
 */
#include "o32.h"

enum { FAILED = 255 };

/* Prints the strings up to the null address, one a line; whether no write failed. */
static int print_lines(char **strings)
{
    for (; *strings; strings++) {
        long length = 0;

        while ((*strings)[length])
            length++;
        if (!write_bytes(STANDARD_OUTPUT, *strings, length) || !write_bytes(STANDARD_OUTPUT, "\n", 1))
            return 0;
    }
    return 1;
}

int main(int count, char **arguments, char **environment)
{
    return print_lines(arguments) && print_lines(environment) ? count : FAILED;
}
