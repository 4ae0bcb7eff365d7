/*
 * Counts until SIGTERM comes. Each signal that arrives before is told with the count at which it did: SIGUSR1, and signal
 * 34 with the value that was sent with it. Exits with 0, or with 1 where a call fails.
 */
#include "o32_signals.h"

enum { SIGNAL_WITH_A_VALUE = SIGRTMIN + 2 };

static volatile unsigned long counted;
static volatile int is_over, failed;

static void tell(const char *what, unsigned long number, const char *then)
{
    if (!print(what) || !print_number(number) || !print(then))
        failed = 1;
}

static void on_user_signal(int number, struct information *information, void *context)
{
    (void)information, (void)context;
    tell("signal ", (unsigned long)number, " ");
    tell("at ", counted, "\n");
}

static void on_value(int number, struct information *information, void *context)
{
    (void)context;
    tell("signal ", (unsigned long)number, " ");
    tell("with ", (unsigned long)information->value, " ");
    tell("at ", counted, "\n");
}

static void on_end(int number, struct information *information, void *context)
{
    (void)number, (void)information, (void)context;
    is_over = 1;
}

int main(int count, char **arguments, char **environment)
{
    (void)count, (void)arguments, (void)environment;
    if (!handle(SIGUSR1, on_user_signal, 0) || !handle(SIGNAL_WITH_A_VALUE, on_value, 0) || !handle(SIGTERM, on_end, 0))
        return 1;
    while (!is_over)
        counted++;
    tell("over at ", counted, "\n");
    return failed;
}
