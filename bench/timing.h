// What the programs of this folder share.
#include <stdio.h>
#include <stdlib.h>
#include <time.h>

// The processor time of the process, in nanoseconds.
static double now(void) {
    struct timespec t;
    clock_gettime(CLOCK_PROCESS_CPUTIME_ID, &t);
    return (double)t.tv_sec * 1e9 + (double)t.tv_nsec;
}

// The best time so far, where 0 is none.
static void least(double *best, double time) {
    if (*best == 0 || time < *best) *best = time;
}

// Ends the program.
static void differ(const char *what) {
    printf("%s: the proved answers and the plain ones differ\n", what);
    exit(1);
}
