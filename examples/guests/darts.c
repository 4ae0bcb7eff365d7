/*
 * Throws darts at a square, and prints how near the circle in it comes to pi, at which time, and how long it took. Its
 * chance is getrandom(2), its times are clock_gettime(2): all of them are the schedule's.
 */
#include <stdint.h>
#include <stdio.h>
#include <sys/random.h>
#include <time.h>

enum { DARTS = 10000 };

int main(void)
{
    uint32_t seed = 0;
    int inside = 0;
    time_t now = time(NULL);

    if (getrandom(&seed, sizeof seed, 0) != sizeof seed)
        return 1;
    for (int dart = 0; dart < DARTS; dart++) {
        int32_t x = (seed = seed * 1664525u + 1013904223u) >> 17;
        int32_t y = (seed = seed * 1664525u + 1013904223u) >> 17;
        inside += x * x + y * y < 1 << 30;
    }
    printf("%.4f on %.24s in %ld microseconds\n", 4.0 * inside / DARTS, asctime(gmtime(&now)), clock());
    return 0;
}
