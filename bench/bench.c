/* Times the library beside two plain writings of the same step in C, its step that keeps the sums beside the one that
 * does not, its step over a stepped bed (E10) beside two plain writings of that one, and questions of the water between
 * two faces beside a sum over the cells.
 *
 *     bench                        compares the answers, then times; exit status 1 where any differ
 *     bench count WHO CASE N RUNS  only runs WHO (0 library, 1 plain, 2 plain with the processor's root, 3 library
 *                                  with sums) RUNS times on CASE (wave or lake; sill-wave or sill-lake, over a stepped
 *                                  bed, where there is no 3), for counting instructions from outside
 *
 * What is timed is first run by all and compared step for step. */
#define _POSIX_C_SOURCE 200809L /* clock_gettime */
#include "plain.h"

#include <bassoonsun.h>
#include <stdio.h>
#include <stdlib.h>
#include <string.h>
#include <time.h>

enum {
    METRE = 4096,
    MOST_CELLS = 1024,
    DRY = 4, /* the dry depth of what is timed */
    MOST_DRY = 64,
    INFLOW = 2, /* the kind of an end that is given a discharge */
    MOST_DISCHARGE = 8388608,
    DEEPEST = 262144,
    STEPS = 200, /* of one run, always from the same start */
    ROUNDS = 21, /* in each, all are timed one after the other */
    RANDOM_CALLS = 20000,
    CELL_STEPS = 300000, /* of one timing, so that short reaches are timed as long as long ones */
    QUESTIONS = 20000 /* of one timing */
};

typedef uint32_t Step(const int32_t *, size_t, int32_t *, size_t, const int32_t *, size_t,
                      const uint16_t *, size_t, uint32_t, uint32_t, uint32_t, uint32_t, uint32_t,
                      uint32_t, uint32_t, uint32_t, int64_t *, uint32_t *);

/* Those of the last state that step_with_sums has written. */
static int32_t sums[BASSOONSUN_SUMS(MOST_CELLS + 1)];

/* The library's step that keeps the sums, as one of these. */
static uint32_t step_with_sums(const int32_t *now, size_t now_len, int32_t *next, size_t next_len, const int32_t *bed,
                               size_t bed_len, const uint16_t *friction, size_t friction_len, uint32_t dx, uint32_t dt,
                               uint32_t jump, uint32_t dry, uint32_t left, uint32_t right, uint32_t left_q,
                               uint32_t right_q, int64_t *volumes, uint32_t *place)
{
    return bassoonsun_step_sums(now, now_len, next, next_len, bed, bed_len, friction, friction_len, sums,
                                BASSOONSUN_SUMS(friction_len), dx, dt, jump, dry, left, right, left_q, right_q, volumes,
                                place);
}

enum { LIBRARY, PLAIN, PLAIN_ROOT, WITH_SUMS, WRITINGS };
static Step *const writings[WRITINGS] = {bassoonsun_step, plain_step, plain_root_step, step_with_sums};

typedef uint32_t SillStep(const int32_t *, size_t, int32_t *, size_t, const int32_t *, size_t, const uint16_t *, size_t,
                          uint32_t, uint32_t, uint32_t, uint32_t, uint32_t, int64_t *, uint32_t *);

enum { SILL_WRITINGS = 3 }; /* the first three: none keeps sums over a stepped bed */
static SillStep *const sill_writings[SILL_WRITINGS] = {bassoonsun_sill_step, plain_sill_step, plain_root_sill_step};

typedef uint32_t Question(const int32_t *, size_t, const int32_t *, size_t, const int32_t *, size_t, uint32_t, uint32_t,
                          int64_t *);

enum { BY_SUMS, BY_CELLS, WAYS };
static Question *const ways[WAYS] = {bassoonsun_between, plain_between};

/* Over a stepped bed there is a bed value for each cell, a column of levels and one of discharges; no J and no Q. */
typedef struct {
    int stepped;
    size_t n;
    uint32_t dx, dt, jump, dry, left, right, left_q, right_q;
    int32_t bed[MOST_CELLS + 1];
    uint16_t friction[MOST_CELLS];
    int32_t start[4 * MOST_CELLS];
} Case;

typedef struct {
    uint32_t refusal, place;
    int64_t volumes[2];
    int32_t next[4 * MOST_CELLS];
} Given;

static int writings_of(const Case *c) { return c->stepped ? SILL_WRITINGS : WRITINGS; }

/* The numbers of a state, and where in it the (mean) discharges begin. */
static size_t state_of(const Case *c) { return c->stepped ? 2 * c->n : 4 * c->n; }

static size_t flows_of(const Case *c) { return state_of(c) / 2; }

/* Level mean and slope, discharge mean and slope of cell i: a number in each column of the start. */
static void put_cell(Case *c, size_t i, int32_t e0, int32_t e1, int32_t q0, int32_t q1)
{
    c->start[i] = e0;
    c->start[c->n + i] = e1;
    c->start[2 * c->n + i] = q0;
    c->start[3 * c->n + i] = q1;
}

/* ---- The cases that are timed */

/* How far cell face i is up a hill between faces a and b: METRE at its middle, 0 at its foot. */
static int32_t hill(int64_t i, int64_t a, int64_t b)
{
    int64_t up = i <= a || i >= b ? 0 : 4 * METRE * (i - a) * (b - i) / ((b - a) * (b - a));
    return (int32_t)(up * up / METRE);
}

/* Cells of 1 m and 0.030 over a bed with a sill, walls, water at 1.25 m, steps of 1/20 s. */
static void fill_lake(Case *c, size_t n)
{
    *c = (Case){.n = n, .dx = METRE, .dt = METRE / 20, .jump = METRE / 64, .dry = DRY};
    for (size_t i = 0; i <= n; i++)
        c->bed[i] = (hill((int64_t)i, (int64_t)n / 2, (int64_t)n) / 2 + METRE / 4) & ~1;
    for (size_t i = 0; i < n; i++) {
        c->friction[i] = 30;
        put_cell(c, i, METRE * 5 / 4, 0, 0, 0);
    }
}

/* The same with a wave 0.5 m high over the left half, running right. */
static void fill_wave(Case *c, size_t n)
{
    fill_lake(c, n);
    for (size_t i = 0; i < n / 2; i++) {
        int32_t left = hill((int64_t)i, 0, (int64_t)n / 2) / 2, right = hill((int64_t)i + 1, 0, (int64_t)n / 2) / 2;
        int32_t mean = (left + right) / 2, slope = (right - left) / 2;
        put_cell(c, i, METRE * 5 / 4 + mean, slope, 3 * mean, 3 * slope);
    }
}

/* The lake over a stepped bed: upright sills 0.5 m high and 8 cells long, as far apart. */
static void fill_sill_lake(Case *c, size_t n)
{
    *c = (Case){.stepped = 1, .n = n, .dx = METRE, .dt = METRE / 20, .dry = DRY};
    for (size_t i = 0; i < n; i++) {
        c->bed[i] = METRE / 4 + (i / 8 % 2 != 0 ? METRE / 2 + 1 : 0); /* odd, which only a stepped bed may be */
        c->friction[i] = 30;
        c->start[i] = METRE * 5 / 4;
        c->start[n + i] = 0;
    }
}

/* The same with the wave. */
static void fill_sill_wave(Case *c, size_t n)
{
    fill_sill_lake(c, n);
    for (size_t i = 0; i < n / 2; i++) {
        int32_t rise = (hill((int64_t)i, 0, (int64_t)n / 2) + hill((int64_t)i + 1, 0, (int64_t)n / 2)) / 4;
        c->start[i] += rise;
        c->start[n + i] = 3 * rise;
    }
}

enum { CASES = 4, LENGTHS = 4 }; /* two cases of each reach */
static void (*const fills[CASES])(Case *, size_t) = {fill_wave, fill_lake, fill_sill_wave, fill_sill_lake};
static const char *const case_names[CASES] = {"wave", "lake", "sill-wave", "sill-lake"};
static const size_t lengths[LENGTHS] = {16, 64, 128, 1024}; /* in cells */

/* ---- Comparing answers */

static uint32_t call(int who, const Case *c, const int32_t *now, int32_t *next, int64_t *volumes, uint32_t *place)
{
    if (c->stepped)
        return sill_writings[who](now, 2 * c->n, next, 2 * c->n, c->bed, c->n, c->friction, c->n, c->dx, c->dt, c->dry,
                                  c->left, c->right, volumes, place);
    return writings[who](now, 4 * c->n, next, 4 * c->n, c->bed, c->n + 1, c->friction, c->n, c->dx, c->dt, c->jump,
                         c->dry, c->left, c->right, c->left_q, c->right_q, volumes, place);
}

/* The place counts, and all of next and both volumes, written or not: a refusal must leave these alone. */
static int same(const Case *c, const int32_t *now, Given *given)
{
    for (int k = 0; k < writings_of(c); k++) {
        memset(&given[k], 0x5a, sizeof given[k]);
        given[k].refusal = call(k, c, now, given[k].next, given[k].volumes, &given[k].place);
    }
    for (int k = 1; k < writings_of(c); k++)
        if (memcmp(&given[0], &given[k], sizeof given[0]) != 0)
            return 0;
    return 1;
}

/* A question; gives the water, or -1 for a refusal, as no water is below nought. */
static int64_t asked(Question *ask, const Case *c, const int32_t *state, size_t a, size_t b)
{
    int64_t answer[3];
    return ask(state, 4 * c->n, c->bed, c->n + 1, sums, BASSOONSUN_SUMS(c->n), (uint32_t)a, (uint32_t)b, answer) == 0
               ? answer[0] : -1;
}

/* The faces of the part that is asked for: they cut blocks, as markers do. */
static size_t middle_from(size_t n) { return n / 4 + 3; }

static size_t middle_to(size_t n) { return n - n / 4 - 3; }

/* Of a stepped bed none is asked. */
static int same_water(const Case *c, const int32_t *state)
{
    if (c->stepped)
        return 1;
    size_t a = middle_from(c->n), b = middle_to(c->n);
    return asked(ways[BY_SUMS], c, state, 0, c->n) == asked(ways[BY_CELLS], c, state, 0, c->n) &&
           asked(ways[BY_SUMS], c, state, a, b) == asked(ways[BY_CELLS], c, state, a, b) &&
           asked(ways[BY_SUMS], c, state, a, b) >= 0;
}

static uint64_t seed = 88172645463325252u;

static int64_t drawn(int64_t least, int64_t most)
{
    seed ^= seed << 13;
    seed ^= seed >> 7;
    seed ^= seed << 17;
    return least + (int64_t)(seed % (uint64_t)(most - least + 1));
}

/* Most depths are those of ditches, some are about the dry depth or thinner, or the deepest there are. */
static int32_t drawn_depth(const Case *c, int64_t kind)
{
    return (int32_t)(kind == 0 ? drawn(0, c->dry + 8) : kind == 1 ? drawn(0, DEEPEST) : drawn(200, 20000));
}

static void draw_cell(Case *c, size_t i, int64_t kind)
{
    int32_t left = drawn_depth(c, kind), right = drawn_depth(c, kind), quick = kind == 0 ? 40 : 3 * METRE;
    right ^= (left ^ right ^ c->bed[i] ^ c->bed[i + 1]) & 1; /* so that the mean is whole */
    int32_t l = left + c->bed[i], r = right + c->bed[i + 1];
    int32_t mean = (int32_t)drawn(-quick, quick), slope = (int32_t)drawn(-quick, quick);
    put_cell(c, i, (l + r) / 2, (r - l) / 2, mean, slope);
}

/* What an end is given: most inflows are those of ditches, some are none or the greatest there are. */
static uint32_t drawn_inflow(uint32_t kind)
{
    int64_t size = drawn(0, 7);
    if (kind != INFLOW)
        return 0;
    return (uint32_t)(size == 0 ? 0 : size == 1 ? drawn(0, MOST_DISCHARGE) : size == 2 ? drawn(0, 40) : drawn(0, 3 * METRE));
}

/* One number in some calls is spoiled, so that each refusal comes up. */
static void spoil(Case *c)
{
    size_t i = (size_t)drawn(0, (int64_t)c->n - 1);
    switch (drawn(0, 15)) {
    case 0: c->dt = (uint32_t)drawn(0, 5000); break;
    case 1: c->bed[i] = (int32_t)(c->stepped ? drawn(0, 1) * 1048578 - 1 : drawn(-3, 1048579)); break;
    case 2: c->friction[i] = (uint16_t)drawn(190, 65535); break;
    case 3: c->start[flows_of(c) + i] = (int32_t)drawn(INT32_MIN, INT32_MAX); break;
    case 4: c->start[i] += (int32_t)drawn(-300, 262144); break;
    case 5: c->start[flows_of(c) + i] = (int32_t)drawn(-8388608, 8388608); break;
    case 6: c->right = c->stepped ? INFLOW : 3; break; /* the first kind that is none */
    case 7: c->n = (size_t)drawn(0, 1) * 1025; break;
    case 8: c->dry = (uint32_t)drawn(0, 1) * (MOST_DRY + 1); break;
    case 9: c->left_q = (uint32_t)drawn(MOST_DISCHARGE, MOST_DISCHARGE + 1); break;
    case 10: c->right_q = (uint32_t)drawn(1, 3); break;
    case 11: c->left = (uint32_t)drawn(0, 1); break; /* its inflow stays */
    default: break;
    }
}

static void draw(Case *c)
{
    size_t n = (size_t)(drawn(0, 199) == 0 ? drawn(900, 1024) : drawn(1, 24));
    *c = (Case){.n = n, .dx = (uint32_t)drawn(500, 80000), .dt = (uint32_t)drawn(1, 300),
                .jump = (uint32_t)drawn(0, 1) * (uint32_t)drawn(0, 500), .dry = (uint32_t)drawn(1, MOST_DRY),
                .left = (uint32_t)drawn(0, INFLOW), .right = (uint32_t)drawn(0, INFLOW)};
    c->left_q = drawn_inflow(c->left);
    c->right_q = drawn_inflow(c->right);
    int64_t steep = drawn(0, 1) * 2000;
    for (size_t i = 0; i <= n; i++)
        c->bed[i] = (int32_t)(10000 + drawn(-steep, steep)) & ~1;
    for (size_t i = 0; i < n; i++) {
        c->friction[i] = (uint16_t)(drawn(0, 1) * drawn(0, 200));
        draw_cell(c, i, drawn(0, 5));
    }
    spoil(c);
}

/* Steps of the bed from none to several times as high as the water is deep. In some calls all cells are full, or nearly,
 * so that one may become too deep. */
static void draw_stepped(Case *c)
{
    size_t n = (size_t)(drawn(0, 199) == 0 ? drawn(900, 1024) : drawn(1, 24));
    *c = (Case){.stepped = 1, .n = n, .dx = (uint32_t)drawn(500, 80000), .dt = (uint32_t)drawn(1, 300),
                .dry = (uint32_t)drawn(1, MOST_DRY), .left = (uint32_t)drawn(0, 1), .right = (uint32_t)drawn(0, 1)};
    int64_t steep = drawn(0, 2) * 20000, full = drawn(0, 15) == 0;
    for (size_t i = 0; i < n; i++) {
        int64_t kind = drawn(0, 5), quick = kind == 0 ? 40 : 3 * METRE;
        c->bed[i] = (int32_t)drawn(50000 - steep, 50000 + steep);
        c->friction[i] = (uint16_t)(drawn(0, 1) * drawn(0, 200));
        c->start[i] = c->bed[i] + (full ? DEEPEST - (int32_t)drawn(0, 200) : drawn_depth(c, kind));
        c->start[n + i] = (int32_t)drawn(-quick, quick);
    }
    spoil(c);
}

/* The lengths lent are those of the case, except that 0 and 1025 cells are refused by them alone. */
static int compare_random(void (*draws)(Case *), const char *bed)
{
    static Case c;
    static Given given[WRITINGS];
    long counts[9] = {0};
    for (int k = 0; k < RANDOM_CALLS; k++) {
        draws(&c);
        if (!same(&c, c.start, given))
            return fprintf(stderr, "bench: %s bed, random call %d is answered in two ways\n", bed, k), 0;
        counts[given[0].refusal]++;
    }
    printf("%d random calls over a %s bed, answers 0 to 8 alike:", RANDOM_CALLS, bed);
    for (int k = 0; k < 9; k++)
        printf(" %ld", counts[k]);
    putchar('\n');
    return 1;
}

static int compare_case(const Case *c, const char *name)
{
    static Given given[WRITINGS];
    static int32_t now[4 * MOST_CELLS];
    memcpy(now, c->start, sizeof now);
    for (int k = 0; k < STEPS; k++) {
        if (!same(c, now, given) || given[0].refusal != 0)
            return fprintf(stderr, "bench: %s, %zu cells: step %d differs or is refused with %u\n", name, c->n,
                           k + 1, (unsigned)given[0].refusal), 0;
        memcpy(now, given[0].next, state_of(c) * sizeof now[0]);
        if (!same_water(c, now))
            return fprintf(stderr, "bench: %s, %zu cells: after step %d the water is answered in two ways\n", name,
                           c->n, k + 1), 0;
    }
    return 1;
}

/* ---- Timing */

/* One run of all steps; gives a number that depends on the last state, so that none is left out. */
static int64_t run(int who, const Case *c)
{
    static int32_t tables[2][4 * MOST_CELLS];
    int64_t volumes[2] = {0, 0};
    uint32_t refusals = 0, place;
    memcpy(tables[0], c->start, state_of(c) * sizeof tables[0][0]);
    for (int k = 0; k < STEPS; k++)
        refusals |= call(who, c, tables[k % 2], tables[(k + 1) % 2], volumes, &place);
    return tables[STEPS % 2][0] + volumes[0] + refusals;
}

static double seconds(void)
{
    struct timespec t;
    clock_gettime(CLOCK_PROCESS_CPUTIME_ID, &t);
    return (double)t.tv_sec + 1e-9 * (double)t.tv_nsec;
}

/* Seconds of one step. */
static double timed(int who, const Case *c)
{
    static volatile int64_t sink;
    int runs = 1 + CELL_STEPS / STEPS / (int)c->n;
    double before = seconds();
    for (int k = 0; k < runs; k++)
        sink = run(who, c);
    (void)sink;
    return (seconds() - before) / runs / STEPS;
}

static int by_size(const void *a, const void *b)
{
    double x = *(const double *)a, y = *(const double *)b;
    return (x > y) - (x < y);
}

static double sorted_median(double *values)
{
    qsort(values, ROUNDS, sizeof values[0], by_size);
    return values[ROUNDS / 2];
}

/* Which writings are held against each other; the last where there are sums. */
enum { RATIOS = 3 };
static const int ratio_of[RATIOS][2] = {{LIBRARY, PLAIN}, {LIBRARY, PLAIN_ROOT}, {WITH_SUMS, LIBRARY}};

static void time_case(const Case *c, const char *name)
{
    int many = writings_of(c), shown = c->stepped ? RATIOS - 1 : RATIOS;
    double times[WRITINGS][ROUNDS], ratios[RATIOS][ROUNDS];
    for (int round = 0; round < ROUNDS; round++) {
        for (int k = 0; k < many; k++)
            times[k][round] = timed(k, c);
        for (int k = 0; k < shown; k++)
            ratios[k][round] = times[ratio_of[k][0]][round] / times[ratio_of[k][1]][round];
    }
    printf("| %s | %zu |", name, c->n);
    for (int k = 0; k < many; k++)
        times[k][0] = sorted_median(times[k]);
    for (int k = LIBRARY; k <= PLAIN_ROOT; k++)
        printf(" %.0f |", 1 / times[k][0]);
    printf(" %.1f |", 1e9 * times[LIBRARY][0] / (double)c->n);
    for (int k = 0; k < shown; k++) {
        double middle = sorted_median(ratios[k]);
        printf(" %.2f (%.2f\u2013%.2f) |", middle, ratios[k][0], ratios[k][ROUNDS - 1]);
    }
    putchar('\n');
}

/* ---- Questions */

/* Seconds of one question, of the start of a case with its own sums. */
static double timed_question(Question *ask, const Case *c, size_t a, size_t b)
{
    static volatile int64_t sink;
    double before = seconds();
    for (int k = 0; k < QUESTIONS; k++)
        sink = asked(ask, c, c->start, a, b);
    (void)sink;
    return (seconds() - before) / QUESTIONS;
}

static void time_part(const Case *c, size_t a, size_t b)
{
    double times[WAYS][ROUNDS];
    for (int round = 0; round < ROUNDS; round++)
        for (int k = 0; k < WAYS; k++)
            times[k][round] = timed_question(ways[k], c, a, b);
    printf(" %zu to %zu |", a, b);
    for (int k = 0; k < WAYS; k++)
        printf(" %.1f |", 1e9 * sorted_median(times[k]));
}

/* Gives 0 where a reach is refused or answered in two ways. */
static int time_questions(void)
{
    static Case c;
    puts("\n| cells | all | by sums (ns a question) | cell by cell | part | by sums (ns a question) | cell by cell |\n"
         "|---|---|---|---|---|---|---|");
    for (size_t k = 0; k < LENGTHS; k++) {
        size_t n = lengths[k];
        fill_wave(&c, n);
        if (bassoonsun_sums(c.start, 4 * n, c.bed, n + 1, sums, BASSOONSUN_SUMS(n)) != 0 || !same_water(&c, c.start))
            return fprintf(stderr, "bench: %zu cells: the water is answered in two ways\n", n), 0;
        printf("| %zu |", n);
        time_part(&c, 0, n);
        time_part(&c, middle_from(n), middle_to(n));
        putchar('\n');
    }
    return 1;
}

/* The cases from `first` up to `last`. Gives 0 where the writings differ. */
static int time_cases(size_t first, size_t last)
{
    static Case c;
    for (size_t name = first; name < last; name++)
        for (size_t k = 0; k < LENGTHS; k++) {
            fills[name](&c, lengths[k]);
            if (!compare_case(&c, case_names[name]))
                return 0;
            time_case(&c, case_names[name]);
        }
    return 1;
}

#define HEADS "| case | cells | library (steps/s) | plain C | plain C, processor's root | library (ns a cell a step) " \
              "| library / plain C | library / plain C, processor's root |"
#define RULE "\n|---|---|---|---|---|---|---|---|"

static int compare_and_time(void)
{
    if (!compare_random(draw, "continuous") || !compare_random(draw_stepped, "stepped"))
        return 1;
    puts(HEADS " with sums / without |" RULE "---|");
    if (!time_cases(0, CASES / 2))
        return 1;
    puts("\n" HEADS RULE);
    if (!time_cases(CASES / 2, CASES))
        return 1;
    return time_questions() ? 0 : 1;
}

static int count(char **words)
{
    static Case c;
    int who = atoi(words[0]);
    size_t name = 0, n = strtoul(words[2], NULL, 10);
    long runs = strtol(words[3], NULL, 10);
    while (name < CASES && strcmp(words[1], case_names[name]) != 0)
        name++;
    if (name == CASES || n < 1 || n > MOST_CELLS)
        return 2;
    fills[name](&c, n);
    if (who < 0 || who >= writings_of(&c))
        return 2;
    for (long k = 0; k < runs; k++)
        run(who, &c);
    return 0;
}

int main(int argc, char **argv)
{
    if (argc == 6 && strcmp(argv[1], "count") == 0)
        return count(argv + 2);
    if (argc != 1)
        return fputs("use: bench [count WHO CASE N RUNS]\n", stderr), 2;
    setvbuf(stdout, NULL, _IOLBF, BUFSIZ); /* each line is shown as soon as it is timed, also through a pipe */
    return compare_and_time();
}
