/*
 * Sleeps a quarter of a second, one second and a half, and an hour, and prints after each how long it has run by the clock
 * (CLOCK_MONOTONIC), in seconds with two decimal places; then the same by the clock of CPU time (CLOCK_PROCESS_CPUTIME_ID).
 * Exits with 0, or with 1 where a call fails.
 */
#include "o32_files.h"

/* linux/time.h. */
enum { CLOCK_MONOTONIC = 1, CLOCK_PROCESS_CPUTIME_ID = 2 };

/* struct timespec of o32. */
struct time {
    long seconds;
    long nanoseconds;
};

enum { HUNDREDTH = 10000000 };

static const struct time lengths[] = {{0, 250000000}, {1, 500000000}, {3600, 0}};

/* Prints the time of a clock; whether no call failed. */
static int print_time(long clock)
{
    struct time time;

    if (short_call(CALL_CLOCK_GETTIME, clock, (long)&time, 0).failed)
        return 0;
    return print_number((unsigned long)time.seconds) && print(time.nanoseconds < 10 * HUNDREDTH ? ".0" : ".") &&
           print_number((unsigned long)(time.nanoseconds / HUNDREDTH)) && print("\n");
}

int main(int count, char **arguments, char **environment)
{
    (void)count, (void)arguments, (void)environment;
    for (unsigned place = 0; place < sizeof lengths / sizeof *lengths; place++)
        if (short_call(CALL_NANOSLEEP, (long)&lengths[place], 0, 0).failed || !print_time(CLOCK_MONOTONIC))
            return 1;
    return print_time(CLOCK_PROCESS_CPUTIME_ID) ? 0 : 1;
}
