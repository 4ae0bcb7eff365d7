/*
 * Signals and the interval timer on Linux for MIPS o32, for programs that use no C library: numbers, structures and calls.
 */
#ifndef O32_SIGNALS_H
#define O32_SIGNALS_H

#include "o32_files.h"

/* asm/unistd.h of MIPS Linux, o32. */
enum { CALL_PAUSE = 4029, CALL_SETITIMER = 4104, CALL_RT_SIGACTION = 4194 };

/* asm/signal.h of MIPS Linux. */
enum { SIGALRM = 14, SIGTERM = 15, SIGUSR1 = 16, SIGRTMIN = 32 };

enum { SA_SIGINFO = 8 };

/* struct sigaction of asm/signal.h, and what the kernel tells a handler of a signal that was sent (asm/siginfo.h). */
struct information {
    int number;
    int code;
    int error;
    int process;
    int user;
    int value;
};

struct action {
    unsigned flags;
    void (*handler)(int number, struct information *information, void *context);
    unsigned mask[4];
};

/* struct timeval and struct itimerval of linux/time.h. */
struct moment {
    long seconds;
    long microseconds;
};

struct interval {
    struct moment period;
    struct moment value;
};

enum { ITIMER_REAL = 0 };

/* Has a signal handled with what is known of it, while no signal of `mask` comes; whether the call succeeded. */
static inline int handle(long number, void (*handler)(int, struct information *, void *), unsigned mask)
{
    struct action action = {SA_SIGINFO, handler, {mask, 0, 0, 0}};

    return !system_call(CALL_RT_SIGACTION, number, (long)&action, 0, sizeof action.mask, 0, 0).failed;
}

#endif
