/*
 * Profiles itself: the interval timer sends SIGALRM every 10 ms of the clock, and its handler counts in which of three
 * parts of the program it came. Prints the three counts. Exits with 0, or with 1 where a call fails.
 */
#include "o32_signals.h"

enum { PARTS = 3, WORDS = 4096, PERIOD = 10000 };

static volatile unsigned part;
static volatile unsigned long ticks[PARTS];
static unsigned words[WORDS];

static void on_alarm(int number, struct information *information, void *context)
{
    (void)number, (void)information, (void)context;
    ticks[part]++;
}

/* Arms the timer for so many microseconds, again and again, or disarms it for 0; whether the call succeeded. */
static int arm(long period)
{
    struct interval interval = {{0, period}, {0, period}};

    return !short_call(CALL_SETITIMER, ITIMER_REAL, (long)&interval, 0).failed;
}

/* Fills the words with numbers that look like chance. */
static void fill(void)
{
    unsigned number = 1;

    for (unsigned round = 0; round < 100; round++)
        for (unsigned place = 0; place < WORDS; place++)
            words[place] = number = number * 1664525 + 1013904223;
}

/* Sorts them by insertion. */
static void sort(void)
{
    for (unsigned end = 1; end < WORDS; end++) {
        unsigned word = words[end], place = end;

        for (; place > 0 && words[place - 1] > word; place--)
            words[place] = words[place - 1];
        words[place] = word;
    }
}

/* Adds up the distances of neighbours. */
static unsigned add(void)
{
    unsigned sum = 0;

    for (unsigned round = 0; round < 300; round++)
        for (unsigned place = 1; place < WORDS; place++)
            sum += words[place] - words[place - 1];
    return sum;
}

int main(int count, char **arguments, char **environment)
{
    static const char *const names[PARTS] = {"fill ", "sort ", "add "};

    (void)count, (void)arguments, (void)environment;
    if (!handle(SIGALRM, on_alarm, 0) || !arm(PERIOD))
        return 1;
    fill();
    part = 1;
    sort();
    part = 2;
    words[0] = add();
    if (!arm(0))
        return 1;
    for (unsigned place = 0; place < PARTS; place++)
        if (!print(names[place]) || !print_number(ticks[place]) || !print("\n"))
            return 1;
    return 0;
}
