/*
 * Waits with poll(2) for a pipe that its own signal handler fills: the interval timer sends SIGALRM after 250 ms of the
 * clock, and the handler writes a byte. Prints what each call tells: that nothing is there within 100 ms; that the signal
 * interrupts the next, which has no end; that the pipe has the byte; that it has none once that is read; and that nobody
 * can write to it any more once its writing end is closed. Exits with 0, or with 1 where a call fails otherwise.
 */
#include "o32_signals.h"

/* asm/poll.h and asm/errno.h of MIPS Linux. */
enum { POLLIN = 1, POLLHUP = 0x10, EINTR = 4 };

enum { NO_END = -1, DELAY = 250000 };

/* struct pollfd of linux/poll.h. */
struct polled {
    int descriptor;
    short asked;
    short told;
};

static long writing_end;

static void on_alarm(int number, struct information *information, void *context)
{
    (void)number, (void)information, (void)context;
    write_bytes(writing_end, "!", 1);
}

/* Waits for so many milliseconds, and prints what came; whether no call failed but by a signal. */
static int wait_for(long reading_end, long milliseconds)
{
    struct polled polled = {(int)reading_end, POLLIN, 0};
    struct reply reply = short_call(CALL_POLL, (long)&polled, 1, milliseconds);

    if (reply.failed)
        return reply.result == EINTR && print("interrupted\n");
    if (reply.result == 0)
        return print("nothing\n");
    return print(polled.told & POLLIN ? "bytes\n" : polled.told & POLLHUP ? "the end\n" : "an error\n");
}

/* Reads one byte and prints it; whether no call failed. */
static int take(long reading_end)
{
    char byte;

    return read_bytes(reading_end, &byte, 1) == 1 && write_bytes(STANDARD_OUTPUT, &byte, 1) && print("\n");
}

/* Arms the timer, once; whether the call succeeded. */
static int arm(void)
{
    struct interval interval = {{0, 0}, {0, DELAY}};

    return !short_call(CALL_SETITIMER, ITIMER_REAL, (long)&interval, 0).failed;
}

int main(int count, char **arguments, char **environment)
{
    struct reply ends = short_call(CALL_PIPE, 0, 0, 0);

    (void)count, (void)arguments, (void)environment;
    writing_end = ends.second;
    if (ends.failed || !handle(SIGALRM, on_alarm, 0) || !arm())
        return 1;
    if (!wait_for(ends.result, 100) || !wait_for(ends.result, NO_END) || !wait_for(ends.result, NO_END))
        return 1;
    if (!take(ends.result) || !wait_for(ends.result, 0) || short_call(CALL_CLOSE, writing_end, 0, 0).failed)
        return 1;
    return wait_for(ends.result, NO_END) ? 0 : 1;
}
