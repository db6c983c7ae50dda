/* What the bench of the whole-number steps, bench.c, and that of the step in doubles, double.c, have in common. */
#ifndef BENCH_H
#define BENCH_H

#include <stddef.h>
#include <stdint.h>

enum {
    MOST_CELLS = 1024,
    STEPS = 200, /* of one run, always from the same start */
    ROUNDS = 21, /* in each, all are timed one after the other */
    RANDOM_CALLS = 20000,
    LENGTHS = 4
};

extern const size_t lengths[LENGTHS]; /* of what is timed, in cells */

/* The writings of a step; those of doubles and over a stepped bed are the first three. */
enum { LIBRARY, PLAIN, PLAIN_ROOT, WITH_SUMS, WRITINGS, WITHOUT_SUMS = WITH_SUMS };

/* A random number of this range; the same ones in every run of the bench. */
int64_t drawn(int64_t least, int64_t most);

/* The processor's time so far. */
double seconds(void);

/* The median of ROUNDS values, which are sorted. */
double sorted_median(double *values);

/* One run of STEPS steps by one writing; gives a number that depends on the last state, so that none is left out. */
typedef int64_t Run(int who, const void *a_case);

/* The heads of the table that time_case writes the lines of. */
void write_heads(int writings);

/* Times the writings on a case of n cells and writes a line of that table. Where `step` is not NULL, it is given the
 * seconds that a step of each takes. */
void time_case(const char *name, size_t n, int writings, Run *run, const void *a_case, double *step);

/* The step in doubles. Both give 0 where the writings differ. */
int compare_random_doubles(void);
int time_doubles(void);

/* As `bench count` does; gives the exit status. */
int count_doubles(int who, const char *name, size_t n, long runs);

#endif
