/* Times the library's step in doubles (E1) beside two plain writings of it in C, one with a root worked digit by
 * digit, as the library's is, and one with the processor's; and their roots and faces by themselves, which say where
 * the time goes. All are held to each other first, bit for bit. */
#include "bench.h"
#include "plain.h"

#include <bassoonsun.h>
#include <math.h>
#include <stdio.h>
#include <string.h>

enum {
    SEEN = 20, /* states of a wave, of one timing of the root or the face */
    LARGEST = 9 /* the largest number of a refusal */
};

static const double DRY = 0.0009765625, DEEPEST = 64, FASTEST = 32, SHORTEST = 0.000244140625;

typedef uint32_t Step(const double *, size_t, double *, size_t, const double *, size_t, const uint16_t *, size_t,
                      double, double, double, uint32_t, uint32_t, double *, uint32_t *);
typedef uint32_t Face(double, double, double, double, double *);
typedef uint32_t Root(double, double *);

static Step *const writings[WITHOUT_SUMS] = {bassoonsun_step_double, plain_step_double, plain_root_step_double};
static Face *const faces[WITHOUT_SUMS] = {bassoonsun_face_double, plain_face_double, plain_root_face_double};
static Root *const roots[WITHOUT_SUMS] = {bassoonsun_root, plain_digit_root, plain_processor_root};

/* As a lent state has it. */
typedef struct {
    double e0, e1, q0, q1;
} Cell;

typedef struct {
    size_t n;
    double dx, dt, jump;
    uint32_t left, right;
    double bed[MOST_CELLS + 1];
    uint16_t friction[MOST_CELLS];
    Cell start[MOST_CELLS];
} Case;

typedef struct {
    uint32_t refusal, place;
    double volumes[2];
    Cell next[MOST_CELLS];
} Given;

static double bed_mean(const Case *c, size_t i) { return (c->bed[i] + c->bed[i + 1]) / 2; }

static double bed_slope(const Case *c, size_t i) { return (c->bed[i + 1] - c->bed[i]) / 2; }

/* ---- The cases that are timed */

/* How far cell face i is up a hill between faces a and b: 1 at its middle, 0 at its foot. */
static double hill(double i, double a, double b)
{
    double up = i <= a || i >= b ? 0 : 4 * (i - a) * (b - i) / ((b - a) * (b - a));
    return up * up;
}

/* Smooth cells of 1 m over a bed with a sill, walls, water at 1.25 m, steps of 1/20 s. */
static void fill_lake(Case *c, size_t n)
{
    *c = (Case){.n = n, .dx = 1, .dt = 0.05, .jump = 0.015625};
    for (size_t i = 0; i <= n; i++)
        c->bed[i] = hill((double)i, (double)(n / 2), (double)n) / 2 + 0.25;
    for (size_t i = 0; i < n; i++)
        c->start[i] = (Cell){1.25, 0, 0, 0};
}

/* The same with a wave 0.5 m high over the left half, running right. */
static void fill_wave(Case *c, size_t n)
{
    fill_lake(c, n);
    for (size_t i = 0; i < n / 2; i++) {
        double left = hill((double)i, 0, (double)(n / 2)) / 2, right = hill((double)i + 1, 0, (double)(n / 2)) / 2;
        double mean = (left + right) / 2, slope = (right - left) / 2;
        c->start[i] = (Cell){1.25 + mean, slope, 3 * mean, 3 * slope};
    }
}

enum { CASES = 2 };
static void (*const fills[CASES])(Case *, size_t) = {fill_wave, fill_lake};
static const char *const case_names[CASES] = {"double-wave", "double-lake"};

/* ---- Comparing answers */

static uint32_t call(int who, const Case *c, const Cell *now, Cell *next, double *volumes, uint32_t *place)
{
    return writings[who](&now->e0, 4 * c->n, &next->e0, 4 * c->n, c->bed, c->n + 1, c->friction, c->n, c->dx, c->dt,
                         c->jump, c->left, c->right, volumes, place);
}

/* The place counts, and every bit of next and of both volumes, written or not: a refusal must leave these alone. */
static int same(const Case *c, const Cell *now, Given *given)
{
    for (int k = 0; k < WITHOUT_SUMS; k++) {
        memset(&given[k], 0x5a, sizeof given[k]);
        given[k].refusal = call(k, c, now, given[k].next, given[k].volumes, &given[k].place);
    }
    for (int k = 1; k < WITHOUT_SUMS; k++)
        if (memcmp(&given[0], &given[k], sizeof given[0]) != 0)
            return 0;
    return 1;
}

/* A random double of this range. */
static double real(double least, double most)
{
    return least + (most - least) * ((double)drawn(0, INT64_C(1) << 53) / 9007199254740992.0);
}

/* Most depths are those of ditches, some are about the dry depth or thinner, or the deepest there are. */
static double drawn_depth(int64_t kind)
{
    return kind == 0 ? real(0, 3 * DRY) : kind == 1 ? real(0, DEEPEST) : kind == 2 ? DRY : real(0.05, 5);
}

static void draw_cell(Case *c, size_t i)
{
    int64_t kind = drawn(0, 20);
    double h0 = drawn_depth(kind), h1 = drawn(0, 99) == 0 ? h0 : real(-0.7, 0.7) * h0;
    double quick = kind == 0 ? 0.01 : 2 * h0;
    c->start[i] = (Cell){bed_mean(c, i) + h0, bed_slope(c, i) + h1, real(-quick, quick), real(-quick, quick)};
}

/* Cell i between deep water that runs away from it, which takes all that it has: by rounding its depth may then come
 * out below nought (9). */
static void empty(Case *c, size_t i)
{
    double deep = real(1, 8), fast = real(12, 22), thin = real(0.002, 1);
    c->dt = real(0.1, 1);
    c->dx = 2 * FASTEST * c->dt;
    c->jump = DEEPEST;
    c->left = c->right = BASSOONSUN_OPEN;
    for (size_t k = 0; k < c->n; k++)
        c->start[k] = (Cell){bed_mean(c, k) + deep, bed_slope(c, k), k < i ? -deep * fast : deep * fast, 0};
    c->start[i] = (Cell){bed_mean(c, i) + thin, bed_slope(c, i), 0, 0};
    c->start[i].q1 = FASTEST * (c->start[i].e0 - bed_mean(c, i));
}

static double odd(void)
{
    static const double numbers[] = {NAN, INFINITY, -INFINITY, -0.0, -5e-324, 1e300};
    return numbers[drawn(0, 5)];
}

/* One number in some calls is spoiled, so that each refusal comes up. */
static void spoil(Case *c)
{
    size_t i = (size_t)drawn(0, (int64_t)c->n - 1);
    switch (drawn(0, 29)) {
    case 0: c->dt = real(0, 1.2); break;
    case 1: c->dx = odd(); break;
    case 2: c->jump = odd(); break;
    case 3: c->bed[i] = odd(); break;
    case 4: c->bed[i] = real(-3, 260); break;
    case 5: c->friction[i] = (uint16_t)drawn(1, 65535); break;
    case 6: c->start[i].e0 += real(-0.1, 64); break;
    case 7: c->start[i].e1 = odd(); break;
    case 8: c->start[i].q0 = real(-2048, 2048); break;
    case 9: c->start[i].q1 = odd(); break;
    case 10: c->right = 2; break; /* the first kind that is none */
    case 11: c->n = (size_t)drawn(0, 1) * (MOST_CELLS + 1); break;
    case 12: empty(c, i); break;
    case 13: c->start[i].e0 = bed_mean(c, i) + DEEPEST; break; /* and soon deeper */
    default: break;
    }
}

static void draw(Case *c)
{
    size_t n = (size_t)(drawn(0, 199) == 0 ? drawn(900, 1024) : drawn(1, 24));
    *c = (Case){.n = n, .dx = real(0.1, 20), .dt = real(SHORTEST, 0.07), .jump = (double)drawn(0, 1) * real(0, 0.12),
                .left = (uint32_t)drawn(0, 1), .right = (uint32_t)drawn(0, 1)};
    double low = (double)drawn(0, 2) * 100, steep = (double)drawn(0, 1);
    for (size_t i = 0; i <= n; i++)
        c->bed[i] = low + real(0, steep);
    for (size_t i = 0; i < n; i++)
        draw_cell(c, i);
    spoil(c);
}

int compare_random_doubles(void)
{
    static Case c;
    static Given given[WITHOUT_SUMS];
    long counts[LARGEST + 1] = {0};
    for (int k = 0; k < RANDOM_CALLS; k++) {
        draw(&c);
        if (!same(&c, c.start, given))
            return fprintf(stderr, "bench: in doubles, random call %d is answered in two ways\n", k), 0;
        counts[given[0].refusal]++;
    }
    printf("%d random calls in doubles, answers 0 to %d alike:", RANDOM_CALLS, LARGEST);
    for (int k = 0; k <= LARGEST; k++)
        printf(" %ld", counts[k]);
    putchar('\n');
    return 1;
}

static int compare_case(const Case *c, const char *name)
{
    static Given given[WITHOUT_SUMS];
    static Cell now[MOST_CELLS];
    memcpy(now, c->start, sizeof now);
    for (int k = 0; k < STEPS; k++) {
        if (!same(c, now, given) || given[0].refusal != 0)
            return fprintf(stderr, "bench: %s, %zu cells: step %d differs or is refused with %u\n", name, c->n, k + 1,
                           (unsigned)given[0].refusal), 0;
        memcpy(now, given[0].next, c->n * sizeof now[0]);
    }
    return 1;
}

/* ---- Timing */

static int64_t run(int who, const void *a_case)
{
    static Cell tables[2][MOST_CELLS];
    const Case *c = a_case;
    double volumes[2] = {0, 0};
    uint32_t refusals = 0, place;
    memcpy(tables[0], c->start, c->n * sizeof tables[0][0]);
    for (int k = 0; k < STEPS; k++)
        refusals |= call(who, c, tables[k % 2], tables[(k + 1) % 2], volumes, &place);
    return (int64_t)(1e6 * (tables[STEPS % 2][0].e0 + volumes[0])) + refusals;
}

/* States that the longest wave runs through: the depths of a step, of which a processor does not learn by heart what
 * branches a root takes. */
static Cell seen[SEEN][MOST_CELLS];

/* Gives 0 where a step is refused. */
static int see(const Case *c)
{
    double volumes[2];
    uint32_t place;
    memcpy(seen[0], c->start, sizeof seen[0]);
    for (int k = 1; k < SEEN; k++) {
        Cell now[MOST_CELLS];
        memcpy(seen[k], seen[k - 1], sizeof seen[k]);
        for (int step = 0; step < STEPS / SEEN; step++) {
            memcpy(now, seen[k], sizeof now);
            if (call(LIBRARY, c, now, seen[k], volumes, &place) != 0)
                return 0;
        }
    }
    return 1;
}

/* The water of cell i in state k, as a side of a face. */
static double depth(const Case *c, int k, size_t i) { return seen[k][i].e0 - bed_mean(c, i); }

static double speed(const Case *c, int k, size_t i) { return seen[k][i].q0 / depth(c, k, i); }

/* The wave speed of every cell of state k, or the flux between every two; each gives a sum, and none is left out. */
static double root_all(int who, const Case *c, int k)
{
    double sum = 0, answer[1] = {0};
    for (size_t i = 1; i < c->n; i++) {
        sum += roots[who](9.81 * depth(c, k, i), answer);
        sum += answer[0];
    }
    return sum;
}

static double face_all(int who, const Case *c, int k)
{
    double sum = 0, flux[4] = {0};
    for (size_t i = 1; i < c->n; i++) {
        sum += faces[who](depth(c, k, i - 1), speed(c, k, i - 1), depth(c, k, i), speed(c, k, i), flux);
        sum += flux[0] + flux[1] + flux[2] + flux[3];
    }
    return sum;
}

/* Seconds of one root or one face of each writing. Gives 0 where they differ. */
static int time_part(double (*all)(int, const Case *, int), const Case *c, double *one)
{
    static volatile double sink;
    double times[WITHOUT_SUMS][ROUNDS];
    for (int k = 0; k < SEEN; k++)
        if (all(LIBRARY, c, k) != all(PLAIN, c, k) || all(LIBRARY, c, k) != all(PLAIN_ROOT, c, k))
            return 0;
    for (int round = 0; round < ROUNDS; round++)
        for (int who = 0; who < WITHOUT_SUMS; who++) {
            double before = seconds();
            for (int k = 0; k < SEEN; k++)
                sink = all(who, c, k);
            times[who][round] = (seconds() - before) / SEEN / (double)(c->n - 1);
        }
    (void)sink;
    for (int who = 0; who < WITHOUT_SUMS; who++)
        one[who] = sorted_median(times[who]);
    return 1;
}

static void write_row(const char *name, double scale, const double *numbers)
{
    printf("| %s |", name);
    for (int k = 0; k < WITHOUT_SUMS; k++)
        printf(" %.1f |", scale * numbers[k]);
    putchar('\n');
}

/* What part of a step of the longest wave its roots are: two at every face, all of them wet, in each of two stages.
 * step has the seconds of that step. Gives 0 where a root or a face is answered in two ways, or a step refused. */
static int time_parts(const double *step)
{
    static Case c;
    double root[WITHOUT_SUMS], face[WITHOUT_SUMS], part[WITHOUT_SUMS];
    fill_wave(&c, lengths[LENGTHS - 1]);
    if (!see(&c) || !time_part(root_all, &c, root) || !time_part(face_all, &c, face))
        return fputs("bench: a root or a face of doubles is answered in two ways, or a step refused\n", stderr), 0;
    for (int k = 0; k < WITHOUT_SUMS; k++)
        part[k] = 4 * (double)(c.n + 1) * root[k] / step[k];
    puts("\n| in doubles | library | plain C | plain C, processor's root |\n|---|---|---|---|");
    write_row("a root (ns)", 1e9, root);
    write_row("a face (ns)", 1e9, face);
    write_row("a step of the longest wave (us)", 1e6, step);
    write_row("its roots, four for each face (% of it)", 100, part);
    return 1;
}

int time_doubles(void)
{
    static Case c;
    double step[CASES][WITHOUT_SUMS];
    putchar('\n');
    write_heads(WITHOUT_SUMS);
    for (size_t name = 0; name < CASES; name++)
        for (size_t k = 0; k < LENGTHS; k++) {
            fills[name](&c, lengths[k]);
            if (!compare_case(&c, case_names[name]))
                return 0;
            time_case(case_names[name], c.n, WITHOUT_SUMS, run, &c, step[name]);
        }
    return time_parts(step[0]); /* that of the last and longest wave */
}

int count_doubles(int who, const char *name, size_t n, long runs)
{
    static Case c;
    size_t k = 0;
    while (k < CASES && strcmp(name, case_names[k]) != 0)
        k++;
    if (k == CASES || who < 0 || who >= WITHOUT_SUMS)
        return 2;
    fills[k](&c, n);
    for (long i = 0; i < runs; i++)
        run(who, &c);
    return 0;
}
