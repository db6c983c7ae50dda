/* What bench.c and double.c time by. */
#define _POSIX_C_SOURCE 200809L /* clock_gettime */
#include "bench.h"

#include <stdio.h>
#include <stdlib.h>
#include <time.h>

enum { CELL_STEPS = 300000 }; /* of one timing, so that short reaches are timed as long as long ones */

const size_t lengths[LENGTHS] = {16, 64, 128, 1024};

static uint64_t seed = 88172645463325252u;

int64_t drawn(int64_t least, int64_t most)
{
    seed ^= seed << 13;
    seed ^= seed >> 7;
    seed ^= seed << 17;
    return least + (int64_t)(seed % (uint64_t)(most - least + 1));
}

double seconds(void)
{
    struct timespec t;
    clock_gettime(CLOCK_PROCESS_CPUTIME_ID, &t);
    return (double)t.tv_sec + 1e-9 * (double)t.tv_nsec;
}

static int by_size(const void *a, const void *b)
{
    double x = *(const double *)a, y = *(const double *)b;
    return (x > y) - (x < y);
}

double sorted_median(double *values)
{
    qsort(values, ROUNDS, sizeof values[0], by_size);
    return values[ROUNDS / 2];
}

/* Seconds of one step. */
static double timed(Run *run, int who, const void *a_case, size_t n)
{
    static volatile int64_t sink;
    int runs = 1 + CELL_STEPS / STEPS / (int)n;
    double before = seconds();
    for (int k = 0; k < runs; k++)
        sink = run(who, a_case);
    (void)sink;
    return (seconds() - before) / runs / STEPS;
}

/* Which writings are held against each other; the last where there are sums. */
enum { RATIOS = 3 };
static const int ratio_of[RATIOS][2] = {{LIBRARY, PLAIN}, {LIBRARY, PLAIN_ROOT}, {WITH_SUMS, LIBRARY}};

static int ratios_of(int writings) { return writings > WITH_SUMS ? RATIOS : RATIOS - 1; }

void write_heads(int writings)
{
    int sums = ratios_of(writings) == RATIOS;
    printf("| case | cells | library (steps/s) | plain C | plain C, processor's root | library (ns a cell a step) "
           "| library / plain C | library / plain C, processor's root |%s\n|---|---|---|---|---|---|---|---|%s\n",
           sums ? " with sums / without |" : "", sums ? "---|" : "");
}

void time_case(const char *name, size_t n, int writings, Run *run, const void *a_case, double *step)
{
    int shown = ratios_of(writings);
    double times[WRITINGS][ROUNDS], ratios[RATIOS][ROUNDS];
    for (int round = 0; round < ROUNDS; round++) {
        for (int k = 0; k < writings; k++)
            times[k][round] = timed(run, k, a_case, n);
        for (int k = 0; k < shown; k++)
            ratios[k][round] = times[ratio_of[k][0]][round] / times[ratio_of[k][1]][round];
    }
    printf("| %s | %zu |", name, n);
    for (int k = 0; k < writings; k++) {
        times[k][0] = sorted_median(times[k]);
        if (step != NULL)
            step[k] = times[k][0];
    }
    for (int k = LIBRARY; k <= PLAIN_ROOT; k++)
        printf(" %.0f |", 1 / times[k][0]);
    printf(" %.1f |", 1e9 * times[LIBRARY][0] / (double)n);
    for (int k = 0; k < shown; k++) {
        double middle = sorted_median(ratios[k]);
        printf(" %.2f (%.2f\u2013%.2f) |", middle, ratios[k][0], ratios[k][ROUNDS - 1]);
    }
    putchar('\n');
}
