/* The step as the scope document ("01") and its amendments have it, and that over a stepped bed (E10), written plainly
 * in C to be timed beside the library.
 *
 * All numbers are worked in 64 bits, as unfinished slopes pass 32. C's "/" is 01's: it truncates
 * toward nought. It is built twice: in plain_root.c PROCESSOR_ROOT is defined, the wave speed takes
 * the processor's square root, and the steps are called plain_root_step and plain_root_sill_step. */
#include "plain.h"

#include <math.h>
#include <stdbool.h>
#include <stdlib.h>

#ifdef PROCESSOR_ROOT
#define STEP plain_root_step
#define SILL_STEP plain_root_sill_step
#else
#define STEP plain_step
#define SILL_STEP plain_sill_step
#endif

enum {
    UNIT = 4096,
    DEEPEST = 262144,
    MOST_DISCHARGE = 8388608,
    FASTEST = 131072,
    MOST_CELLS = 1024,
    HIGHEST_BED = 1048576,
    LONGEST_DX = 1048576,
    LONGEST_DT = 4096,
    ROUGHEST = 200,
    MOST_JUMP = 262144,
    MOST_DRY = 64,
    OPEN = 1, /* the kinds of an end; 0 is a wall */
    INFLOW = 2
};

typedef struct {
    int64_t e0, e1, q0, q1;
} Cell;

/* What crosses a face. */
typedef struct {
    int64_t F, K, A, S;
} Flux;

/* A cell as its faces see it, and the two Gauss points' part of the momentum. */
typedef struct {
    int64_t hl, ul, hr, ur, g;
} Shown;

typedef struct {
    size_t n;
    const int32_t *bed;
    const uint16_t *friction;
    int64_t dx, dt, jump, dry;
    uint32_t left, right;
    int64_t left_q, right_q; /* into the reach; 0 unless the end is an inflow */
} Reach;

static int64_t least(int64_t a, int64_t b) { return a < b ? a : b; }

static int64_t greatest(int64_t a, int64_t b) { return a > b ? a : b; }

static bool within(int64_t x, int64_t most) { return -most <= x && x <= most; }

/* Gives false, for a check that does not pass, and says at which index. */
static bool stopped(size_t at, uint32_t *place)
{
    *place = (uint32_t)at;
    return false;
}

static int64_t bed_mean(const Reach *r, size_t i) { return (r->bed[i] + r->bed[i + 1]) / 2; }

static int64_t bed_slope(const Reach *r, size_t i) { return (r->bed[i + 1] - r->bed[i]) / 2; }

/* ---- One face */

static int64_t speed(const Reach *r, int64_t q, int64_t h) { return h <= r->dry ? 0 : q * UNIT / h; }

#ifdef PROCESSOR_ROOT
/* y is below 2^34, so the double is exact and a root just below a whole number stays below it. */
static int64_t whole_root(int64_t y) { return (int64_t)sqrt((double)y); }
#else
/* Two binary digits of y give one of its root, from the top. */
static int64_t whole_root(int64_t y)
{
    int64_t root = 0, bit = (int64_t)1 << 34;
    while (bit > y)
        bit >>= 2;
    for (; bit != 0; bit >>= 2) {
        if (y >= root + bit) {
            y -= root + bit;
            root = (root >> 1) + bit;
        } else {
            root >>= 1;
        }
    }
    return root;
}
#endif

/* 100 a a <= y for whole a exactly when a a <= y/100. */
static int64_t wave_speed(int64_t h) { return whole_root(4018176 * h / 100); }

static Flux face(int64_t hl, int64_t ul, int64_t hr, int64_t ur)
{
    if (hl == 0 && hr == 0)
        return (Flux){0, 0, 0, 0};
    int64_t al = wave_speed(hl), ar = wave_speed(hr);
    int64_t us = (ul + ur) / 2 + al - ar, as = llabs((2 * (al + ar) + ul - ur) / 4);
    int64_t sl = hl == 0 ? ur - 2 * ar : least(ul - al, us - as);
    int64_t sr = hr == 0 ? ul + 2 * al : greatest(ur + ar, us + as);
    int64_t ml = hl * ul / UNIT, mr = hr * ur / UNIT;
    int64_t top = greatest(greatest(llabs(sl), llabs(sr)), greatest(llabs(ul), llabs(ur)));
    if (sl >= 0)
        return (Flux){ml, hl * hl, ml * ul / UNIT, top};
    if (sr <= 0)
        return (Flux){mr, hr * hr, mr * ur / UNIT, top};
    int64_t s = sr - sl;
    return (Flux){(sr * hl * ul - sl * hr * ur + sl * sr * (hr - hl)) / (UNIT * s),
                  (sr * hl * hl - sl * hr * hr) / s,
                  (sr * ml * ul - sl * mr * ur + sl * sr * (mr - ml)) / (UNIT * s), top};
}

/* ---- Checks 1 to 5 */

/* A discharge belongs to an end with an inflow, and to no other. */
static bool end_in_order(uint32_t kind, uint32_t q) { return kind == INFLOW ? q <= MOST_DISCHARGE : kind <= OPEN && q == 0; }

static bool bed_in_order(const Reach *r, uint32_t *place)
{
    for (size_t i = 0; i <= r->n; i++)
        if (r->bed[i] < 0 || r->bed[i] > HIGHEST_BED || r->bed[i] % 2 != 0)
            return stopped(i, place);
    return true;
}

static bool friction_in_order(const Reach *r, uint32_t *place)
{
    for (size_t i = 0; i < r->n; i++)
        if (r->friction[i] > ROUGHEST)
            return stopped(i, place);
    return true;
}

/* Every face depth and face discharge; the bed is even, so the face levels are e0 - e1 and e0 + e1. */
static bool in_range(const Reach *r, const Cell *cells, uint32_t *place)
{
    for (size_t i = 0; i < r->n; i++) {
        const Cell *c = &cells[i];
        int64_t hl = c->e0 - c->e1 - r->bed[i], hr = c->e0 + c->e1 - r->bed[i + 1];
        if (hl < 0 || hl > DEEPEST || hr < 0 || hr > DEEPEST ||
            !within(c->q0 - c->q1, MOST_DISCHARGE) || !within(c->q0 + c->q1, MOST_DISCHARGE))
            return stopped(i, place);
    }
    return true;
}

/* ---- Friction */

static bool slow_enough(const Reach *r, const Cell *cells, uint32_t *place)
{
    for (size_t i = 0; i < r->n; i++)
        if (!within(speed(r, cells[i].q0, cells[i].e0 - bed_mean(r, i)), FASTEST))
            return stopped(i, place);
    return true;
}

/* The largest c with c c c <= 16777216 h, binary digit by digit; h is at most 2^18, so c < 2^15. */
static int64_t cube_root(int64_t h)
{
    int64_t c = 0, cube = 16777216 * h;
    for (int64_t bit = 1 << 14; bit != 0; bit >>= 1) {
        int64_t tried = c + bit;
        if (tried * tried * tried <= cube)
            c = tried;
    }
    return c;
}

/* x of cell i, of which a discharge keeps (65536 + x)/(65536 + 2x); h is over the dry depth. */
static int64_t rubbing(const Reach *r, size_t i, int64_t q, int64_t h)
{
    int64_t f = r->friction[i];
    return 256 * 981 * r->dt * f * f * llabs(speed(r, q, h)) / (390625 * h * cube_root(h));
}

static void rub(const Reach *r, Cell *cells)
{
    for (size_t i = 0; i < r->n; i++) {
        Cell *c = &cells[i];
        int64_t h = c->e0 - bed_mean(r, i);
        if (h <= r->dry)
            continue;
        int64_t x = rubbing(r, i, c->q0, h);
        c->q0 = c->q0 * (65536 + x) / (65536 + 2 * x);
        c->q1 = c->q1 * (65536 + x) / (65536 + 2 * x);
    }
}

/* ---- One stage */

/* Gives false where a speed at a face or a Gauss point is too great. */
static bool show(const Reach *r, const Cell *cells, Shown *shown)
{
    for (size_t i = 0; i < r->n; i++) {
        const Cell *c = &cells[i];
        Shown *s = &shown[i];
        int64_t h0 = c->e0 - bed_mean(r, i), h1 = c->e1 - bed_slope(r, i);
        int64_t th = 37837 * h1 / 65536, tq = 37837 * c->q1 / 65536;
        s->hl = h0 - h1;
        s->hr = h0 + h1;
        s->ul = speed(r, c->q0 - c->q1, s->hl);
        s->ur = speed(r, c->q0 + c->q1, s->hr);
        int64_t u1 = speed(r, c->q0 + tq, h0 + th), u2 = speed(r, c->q0 - tq, h0 - th);
        if (!within(s->ul, FASTEST) || !within(s->ur, FASTEST) || !within(u1, FASTEST) ||
            !within(u2, FASTEST))
            return false;
        s->g = (c->q0 + tq) * u1 / UNIT + (c->q0 - tq) * u2 / UNIT;
    }
    return true;
}

/* Gives false where an inflow is too fast for the depth at its end. */
static bool inflows_slow_enough(const Reach *r, const Shown *shown)
{
    return speed(r, r->left_q, shown[0].hl) <= FASTEST && speed(r, r->right_q, shown[r->n - 1].hr) <= FASTEST;
}

/* Whether a speed at face k is too great: on its left side, on its right side, or of an inflow there. */
static bool face_too_fast(const Reach *r, const Cell *cells, size_t k)
{
    if (k > 0) {
        const Cell *c = &cells[k - 1];
        int64_t h = c->e0 + c->e1 - r->bed[k];
        if (!within(speed(r, c->q0 + c->q1, h), FASTEST) || (k == r->n && speed(r, r->right_q, h) > FASTEST))
            return true;
    }
    if (k < r->n) {
        const Cell *c = &cells[k];
        int64_t h = c->e0 - c->e1 - r->bed[k];
        if (!within(speed(r, c->q0 - c->q1, h), FASTEST) || (k == 0 && speed(r, r->left_q, h) > FASTEST))
            return true;
    }
    return false;
}

static bool point_too_fast(const Reach *r, const Cell *c, size_t i)
{
    int64_t h0 = c->e0 - bed_mean(r, i), th = 37837 * (c->e1 - bed_slope(r, i)) / 65536, tq = 37837 * c->q1 / 65536;
    return !within(speed(r, c->q0 + tq, h0 + th), FASTEST) || !within(speed(r, c->q0 - tq, h0 - th), FASTEST);
}

/* Where a speed is too great, once it is known that one is: the lowest face, or if there is none the lowest cell. */
static size_t too_fast_at(const Reach *r, const Cell *cells)
{
    for (size_t k = 0; k <= r->n; k++)
        if (face_too_fast(r, cells, k))
            return k;
    size_t i = 0;
    while (!point_too_fast(r, &cells[i], i))
        i++;
    return i;
}

/* An end with a given inflow has no outer side. h and u are the inner depth and speed; F points into the reach. */
static Flux inflow(const Reach *r, int64_t q, int64_t h, int64_t u)
{
    int64_t own = speed(r, q, h);
    return (Flux){q, h * h, q * own / UNIT, greatest(own, llabs(u) + wave_speed(h))};
}

static Flux left_end(const Reach *r, int64_t h, int64_t u)
{
    if (r->left == INFLOW)
        return inflow(r, r->left_q, h, u);
    return face(h, r->left == OPEN ? u : -u, h, u);
}

/* Only F knows left from right: what comes in here runs leftward. */
static Flux right_end(const Reach *r, int64_t h, int64_t u)
{
    if (r->right == INFLOW) {
        Flux flux = inflow(r, r->right_q, h, u);
        flux.F = -flux.F;
        return flux;
    }
    return face(h, u, h, r->right == OPEN ? u : -u);
}

/* Gives false where the time step is too long for some face. */
static bool cross(const Reach *r, const Shown *shown, Flux *flux, uint32_t *place)
{
    size_t n = r->n;
    flux[0] = left_end(r, shown[0].hl, shown[0].ul);
    for (size_t i = 1; i < n; i++)
        flux[i] = face(shown[i - 1].hr, shown[i - 1].ur, shown[i].hl, shown[i].ul);
    flux[n] = right_end(r, shown[n - 1].hr, shown[n - 1].ur);
    for (size_t i = 0; i <= n; i++)
        if (2 * r->dt * flux[i].S > UNIT * r->dx)
            return stopped(i, place);
    return true;
}

static Cell updated(const Reach *r, size_t i, const Cell *c, const Shown *s, const Flux *left,
                    const Flux *right)
{
    int64_t dt = r->dt, dx = r->dx, z1 = bed_slope(r, i);
    int64_t h0 = c->e0 - bed_mean(r, i), h1 = c->e1 - z1;
    int64_t E = left->K - right->K - (s->hr + s->hl) * 2 * z1;
    int64_t D = 3 * right->K + 3 * left->K - 6 * h0 * h0 - 2 * h1 * h1 + 4 * h1 * z1;
    return (Cell){
        c->e0 + left->F * dt / dx - right->F * dt / dx,
        c->e1 - 3 * (right->F + left->F - 2 * c->q0) * dt / dx,
        c->q0 + (left->A - right->A) * dt / dx + 981 * E * dt / (819200 * dx),
        c->q1 - 3 * (right->A + left->A - s->g) * dt / dx - 981 * D * dt / (819200 * dx),
    };
}

/* Gives 0 and fills flux and the unfinished cells, or gives 6 or 7 and their place. */
static uint32_t stage(const Reach *r, const Cell *cells, Flux *flux, Cell *unfinished, uint32_t *place)
{
    Shown shown[MOST_CELLS];
    if (!show(r, cells, shown) || !inflows_slow_enough(r, shown)) {
        *place = (uint32_t)too_fast_at(r, cells);
        return 6;
    }
    if (!cross(r, shown, flux, place))
        return 7;
    for (size_t i = 0; i < r->n; i++)
        unfinished[i] = updated(r, i, &cells[i], &shown[i], &flux[i], &flux[i + 1]);
    return 0;
}

/* ---- Finishing */

/* Three values are taken two by two: the one nearest nought of all is the same. */
static int64_t minmod(int64_t a, int64_t b)
{
    if (a > 0 && b > 0)
        return least(a, b);
    if (a < 0 && b < 0)
        return greatest(a, b);
    return 0;
}

static bool jumps(const Reach *r, const Cell *left, const Cell *right)
{
    return llabs(left->e0 + left->e1 - (right->e0 - right->e1)) > r->jump;
}

static bool marked(const Reach *r, const Cell *unfinished, size_t i)
{
    return (i > 0 && jumps(r, &unfinished[i - 1], &unfinished[i])) ||
           (i + 1 < r->n && jumps(r, &unfinished[i], &unfinished[i + 1]));
}

static bool shallow(const Reach *r, const Cell *unfinished, size_t i)
{
    return unfinished[i].e0 - bed_mean(r, i) <= r->dry;
}

/* A shallow cell and those beside it are not limited: its level is only its bed. */
static bool spared(const Reach *r, const Cell *unfinished, size_t i)
{
    return shallow(r, unfinished, i) || (i > 0 && shallow(r, unfinished, i - 1)) ||
           (i + 1 < r->n && shallow(r, unfinished, i + 1));
}

/* Both slopes of a marked cell held against its neighbours' means; an end cell lacks one. */
static void limit(const Reach *r, const Cell *unfinished, size_t i, Cell *c)
{
    if (i + 1 < r->n) {
        c->e1 = minmod(c->e1, unfinished[i + 1].e0 - c->e0);
        c->q1 = minmod(c->q1, unfinished[i + 1].q0 - c->q0);
    }
    if (i > 0) {
        c->e1 = minmod(c->e1, c->e0 - unfinished[i - 1].e0);
        c->q1 = minmod(c->q1, c->q0 - unfinished[i - 1].q0);
    }
}

static void finish(const Reach *r, const Cell *unfinished, Cell *cells)
{
    for (size_t i = 0; i < r->n; i++) {
        Cell c = unfinished[i];
        if (marked(r, unfinished, i) && !spared(r, unfinished, i))
            limit(r, unfinished, i, &c);
        int64_t h0 = c.e0 - bed_mean(r, i), z1 = bed_slope(r, i);
        int64_t e1 = z1 + greatest(-h0, least(h0, c.e1 - z1));
        if (e1 != c.e1) {
            c.e1 = e1;
            c.q1 = 0;
        }
        if (h0 <= r->dry)
            c.q0 = c.q1 = 0;
        cells[i] = c;
    }
}

/* ---- The whole step */

/* W at face i: half of what crossed in both stages. */
static int64_t volume(const Reach *r, const Flux *one, const Flux *two, size_t i)
{
    return (one[i].F * r->dt / r->dx + two[i].F * r->dt / r->dx) / 2;
}

/* The unfinished end state, over the cells after stage two. */
static void join(const Reach *r, const Cell *rubbed, const Flux *one, const Flux *two, Cell *cells)
{
    int64_t left = volume(r, one, two, 0);
    for (size_t i = 0; i < r->n; i++) {
        int64_t right = volume(r, one, two, i + 1);
        const Cell *c = &rubbed[i];
        cells[i].e0 = c->e0 + left - right;
        cells[i].e1 = (c->e1 + cells[i].e1) / 2;
        cells[i].q0 = (c->q0 + cells[i].q0) / 2;
        cells[i].q1 = (c->q1 + cells[i].q1) / 2;
        left = right;
    }
}

/* From cells that are in range; they are the next state when 0 is given. */
static uint32_t both_stages(const Reach *r, Cell *cells, int64_t volumes[2], uint32_t *place)
{
    Cell unfinished[MOST_CELLS], half[MOST_CELLS];
    Flux one[MOST_CELLS + 1], two[MOST_CELLS + 1];
    rub(r, cells);
    uint32_t refusal = stage(r, cells, one, unfinished, place);
    if (refusal != 0)
        return refusal;
    finish(r, unfinished, half);
    if (!in_range(r, half, place))
        return 8;
    refusal = stage(r, half, two, unfinished, place);
    if (refusal != 0)
        return refusal;
    join(r, cells, one, two, unfinished);
    finish(r, unfinished, cells);
    if (!in_range(r, cells, place))
        return 8;
    volumes[0] = volume(r, one, two, 0);
    volumes[1] = volume(r, one, two, r->n);
    return 0;
}

/* A lent state is four columns, worked on as cells. */
static void load(const int32_t *now, size_t n, Cell *cells)
{
    const int32_t *e0 = now, *e1 = e0 + n, *q0 = e1 + n, *q1 = q0 + n;
    for (size_t i = 0; i < n; i++)
        cells[i] = (Cell){e0[i], e1[i], q0[i], q1[i]};
}

static void store(const Cell *cells, size_t n, int32_t *next)
{
    int32_t *e0 = next, *e1 = e0 + n, *q0 = e1 + n, *q1 = q0 + n;
    for (size_t i = 0; i < n; i++) {
        e0[i] = (int32_t)cells[i].e0;
        e1[i] = (int32_t)cells[i].e1;
        q0[i] = (int32_t)cells[i].q0;
        q1[i] = (int32_t)cells[i].q1;
    }
}

#ifndef PROCESSOR_ROOT
uint32_t plain_between(const int32_t *state, size_t state_len, const int32_t *bed, size_t bed_len, const int32_t *sums,
                       size_t sums_len, uint32_t a, uint32_t b, int64_t answer[3])
{
    size_t n = bed_len - 1;
    (void)sums, (void)sums_len; /* it does without them */
    if (bed_len < 2 || n > MOST_CELLS || state_len != 4 * n)
        return 1;
    if (a > b || b > n)
        return 10;
    answer[0] = 0, answer[1] = b - a, answer[2] = 0;
    for (size_t i = a; i < b; i++)
        answer[0] += state[i] - ((int64_t)bed[i] + bed[i + 1]) / 2;
    return 0;
}
#endif

uint32_t STEP(const int32_t *now, size_t now_len, int32_t *next, size_t next_len, const int32_t *bed,
              size_t bed_len, const uint16_t *friction, size_t n, uint32_t dx, uint32_t dt,
              uint32_t jump, uint32_t dry, uint32_t left, uint32_t right, uint32_t left_q,
              uint32_t right_q, int64_t volumes[2], uint32_t place[1])
{
    place[0] = 0;
    if (n < 1 || n > MOST_CELLS || now_len != 4 * n || next_len != 4 * n || bed_len != n + 1)
        return 1;
    if (dx < 1 || dx > LONGEST_DX || dt < 1 || dt > LONGEST_DT || jump > MOST_JUMP || dry < 1 ||
        dry > MOST_DRY || !end_in_order(left, left_q) || !end_in_order(right, right_q))
        return 2;
    Reach r = {n, bed, friction, dx, dt, jump, dry, left, right, left_q, right_q};
    Cell cells[MOST_CELLS];
    if (!bed_in_order(&r, place))
        return 3;
    if (!friction_in_order(&r, place))
        return 4;
    load(now, n, cells);
    if (!in_range(&r, cells, place))
        return 5;
    if (!slow_enough(&r, cells, place))
        return 6;
    uint32_t refusal = both_stages(&r, cells, volumes, place);
    if (refusal == 0)
        store(cells, n, next);
    return refusal;
}

/* ---- The same over a stepped bed (E10): a bed value, a level and a discharge for each cell, no slopes, one stage */

typedef struct {
    int64_t e, q, u;
} Tread;

/* The bed that counts at face k: the higher of the two beside it, at an end the only one. */
static int64_t sill(const Reach *r, size_t k)
{
    return greatest(r->bed[k == 0 ? 0 : k - 1], r->bed[k == r->n ? k - 1 : k]);
}

/* The depth that is left of a cell's water over a face's bed. */
static int64_t depth_over(const Tread *c, int64_t bed) { return greatest(0, c->e - bed); }

static bool sill_bed_in_order(const Reach *r, uint32_t *place)
{
    for (size_t i = 0; i < r->n; i++)
        if (r->bed[i] < 0 || r->bed[i] > HIGHEST_BED)
            return stopped(i, place);
    return true;
}

static bool sill_in_range(const Reach *r, const Tread *cells, uint32_t *place)
{
    for (size_t i = 0; i < r->n; i++) {
        int64_t h = cells[i].e - r->bed[i];
        if (h < 0 || h > DEEPEST || !within(cells[i].q, MOST_DISCHARGE))
            return stopped(i, place);
    }
    return true;
}

/* Fills in the speeds; gives false where one is too great. */
static bool sill_slow_enough(const Reach *r, Tread *cells, uint32_t *place)
{
    for (size_t i = 0; i < r->n; i++) {
        cells[i].u = speed(r, cells[i].q, cells[i].e - r->bed[i]);
        if (!within(cells[i].u, FASTEST))
            return stopped(i, place);
    }
    return true;
}

/* Leaves the speeds after friction. Both sides of a face have that of their cell, and friction makes none greater, so
 * they are not checked again. */
static void sill_rub(const Reach *r, Tread *cells)
{
    for (size_t i = 0; i < r->n; i++) {
        Tread *c = &cells[i];
        int64_t h = c->e - r->bed[i];
        if (h <= r->dry)
            continue;
        int64_t x = rubbing(r, i, c->q, h);
        c->q = c->q * (65536 + x) / (65536 + 2 * x);
        c->u = speed(r, c->q, h);
    }
}

/* Gives false where the time step is too long for some face. */
static bool sill_cross(const Reach *r, const Tread *cells, Flux *flux, uint32_t *place)
{
    size_t n = r->n;
    const Tread *first = &cells[0], *last = &cells[n - 1];
    flux[0] = left_end(r, first->e - r->bed[0], first->u);
    for (size_t k = 1; k < n; k++) {
        int64_t z = sill(r, k);
        flux[k] = face(depth_over(&cells[k - 1], z), cells[k - 1].u, depth_over(&cells[k], z), cells[k].u);
    }
    flux[n] = right_end(r, last->e - r->bed[n - 1], last->u);
    for (size_t k = 0; k <= n; k++)
        if (2 * r->dt * flux[k].S > UNIT * r->dx)
            return stopped(k, place);
    return true;
}

/* The new state, over the old one. */
static void sill_update(const Reach *r, const Flux *flux, Tread *cells)
{
    int64_t dt = r->dt, dx = r->dx;
    for (size_t i = 0; i < r->n; i++) {
        Tread *c = &cells[i];
        const Flux *left = &flux[i], *right = &flux[i + 1];
        int64_t hl = depth_over(c, sill(r, i)), hr = depth_over(c, sill(r, i + 1));
        int64_t E = (left->K - hl * hl) - (right->K - hr * hr);
        c->e += left->F * dt / dx - right->F * dt / dx;
        c->q += (left->A - right->A) * dt / dx + 981 * E * dt / (819200 * dx);
        if (c->e - r->bed[i] <= r->dry)
            c->q = 0;
    }
}

uint32_t SILL_STEP(const int32_t *now, size_t now_len, int32_t *next, size_t next_len, const int32_t *bed,
                   size_t bed_len, const uint16_t *friction, size_t n, uint32_t dx, uint32_t dt, uint32_t dry,
                   uint32_t left, uint32_t right, int64_t volumes[2], uint32_t place[1])
{
    place[0] = 0;
    if (n < 1 || n > MOST_CELLS || now_len != 2 * n || next_len != 2 * n || bed_len != n)
        return 1;
    if (dx < 1 || dx > LONGEST_DX || dt < 1 || dt > LONGEST_DT || dry < 1 || dry > MOST_DRY || left > OPEN || right > OPEN)
        return 2;
    Reach r = {n, bed, friction, dx, dt, 0, dry, left, right, 0, 0};
    Tread cells[MOST_CELLS];
    Flux flux[MOST_CELLS + 1];
    if (!sill_bed_in_order(&r, place))
        return 3;
    if (!friction_in_order(&r, place))
        return 4;
    for (size_t i = 0; i < n; i++)
        cells[i] = (Tread){now[i], now[n + i], 0};
    if (!sill_in_range(&r, cells, place))
        return 5;
    if (!sill_slow_enough(&r, cells, place))
        return 6;
    sill_rub(&r, cells);
    if (!sill_cross(&r, cells, flux, place))
        return 7;
    sill_update(&r, flux, cells);
    if (!sill_in_range(&r, cells, place))
        return 8;
    for (size_t i = 0; i < n; i++) {
        next[i] = (int32_t)cells[i].e;
        next[n + i] = (int32_t)cells[i].q;
    }
    volumes[0] = flux[0].F * r.dt / r.dx;
    volumes[1] = flux[n].F * r.dt / r.dx;
    return 0;
}
