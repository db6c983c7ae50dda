/* The step in double precision (E1) as docs/DOUBLE-STEP.md lists it, written plainly in C to be timed beside the
 * library.
 *
 * Every operation is one of doubles, rounded once, so it is built without contraction (-ffp-contract=off) and each
 * line is grouped as on that page. It is built twice: in plain_double_root.c PROCESSOR_ROOT is defined, the wave speed
 * takes the processor's square root, and the step is called plain_root_step_double. The face and the root by
 * themselves are there to be timed too. */
#include "plain.h"

#include <math.h>
#include <stdbool.h>
#include <string.h>

#ifdef PROCESSOR_ROOT
#define STEP plain_root_step_double
#define FACE plain_root_face_double
#define ROOT plain_processor_root
#else
#define STEP plain_step_double
#define FACE plain_face_double
#define ROOT plain_digit_root
#endif

enum {
    MOST_CELLS = 1024,
    OPEN = 1 /* the kind of an end; 0 is a wall */
};

/* In metres, seconds, m/s and m2/s. */
static const double DRY = 0.0009765625, DEEPEST = 64, MOST_DISCHARGE = 2048, FASTEST = 32, HIGHEST_BED = 256;
static const double SHORTEST = 0.000244140625, LONGEST_DX = 256, LONGEST_DT = 1, MOST_JUMP = 64;
static const double GAUSS = 0.5773502691896258, LAST_BIT = 0x1p-52;

/* As a lent state has it, cell by cell. */
typedef struct {
    double e0, e1, q0, q1;
} Cell;

/* What crosses a face. */
typedef struct {
    double F, K, A, S;
} Flux;

/* A cell as its faces see it, and the two Gauss points' part of the momentum. */
typedef struct {
    double hl, ul, hr, ur, g1, g2;
} Shown;

typedef struct {
    size_t n;
    const double *bed;
    double dx, dt, jump;
    uint32_t left, right;
} Reach;

static double least(double a, double b) { return b < a ? b : a; }

static double greatest(double a, double b) { return a < b ? b : a; }

static double size(double x) { return x < 0 ? -x : x; }

/* Never true of a NaN. */
static bool within(double low, double x, double high) { return low <= x && x <= high; }

/* Gives false, for a check that does not pass, and says at which index. */
static bool stopped(size_t at, uint32_t *place)
{
    *place = (uint32_t)at;
    return false;
}

static double bed_mean(const Reach *r, size_t i) { return (r->bed[i] + r->bed[i + 1]) / 2; }

static double bed_slope(const Reach *r, size_t i) { return (r->bed[i + 1] - r->bed[i]) / 2; }

static double depth(const Reach *r, size_t i, const Cell *c) { return c->e0 - bed_mean(r, i); }

static double depth_slope(const Reach *r, size_t i, const Cell *c) { return c->e1 - bed_slope(r, i); }

/* ---- One face */

static double speed(double q, double h) { return h <= DRY ? 0 : q / h; }

static bool slow(double u) { return within(-FASTEST, u, FASTEST); }

#ifdef PROCESSOR_ROOT
static double root(double x) { return sqrt(x); }
#else
/* Of a double at or above nought: two binary digits of its fraction give one of the root, from the top, and 53 of them
 * are rounded once. */
static double root(double x)
{
    uint64_t bits;
    memcpy(&bits, &x, sizeof bits);
    if (bits << 1 == 0)
        return x;
    int64_t exponent = (int64_t)(bits >> 52);
    uint64_t number = bits & ((UINT64_C(1) << 52) - 1);
    if (exponent == 0)
        exponent = 1; /* a subnormal has no leading one of its own */
    else
        number |= UINT64_C(1) << 52;
    for (; number < UINT64_C(1) << 52; exponent--)
        number <<= 1;
    exponent -= 1075; /* x is number 2^exponent */
    if (exponent % 2 != 0) {
        number <<= 1;
        exponent--;
    }
    uint64_t whole = 0, rest = 0;
    for (int k = 26; k > -27; k--) {
        uint64_t trial = whole << 2 | 1;
        rest = rest << 2 | (k >= 0 ? number >> 2 * k & 3 : 0);
        whole <<= 1;
        if (rest >= trial) {
            rest -= trial;
            whole |= 1;
        }
    }
    /* The rest passes the root where the number lies beyond the middle; a carry moves the exponent on as it should. */
    bits = ((uint64_t)(exponent / 2 - 26 + 1074) << 52) + whole + (rest > whole);
    memcpy(&x, &bits, sizeof x);
    return x;
}
#endif

uint32_t ROOT(double x, double answer[1])
{
    if (!(x >= 0 && x - x == 0))
        return 1;
    answer[0] = root(x);
    return 0;
}

static double wave_speed(double h) { return root(9.81 * h); }

static Flux one_sided(double h, double u, double top)
{
    double m = h * u;
    return (Flux){m, h * h, m * u, top};
}

/* The double face between sides that are in range. */
static Flux face(double hl, double ul, double hr, double ur)
{
    if (hl == 0 && hr == 0)
        return (Flux){0, 0, 0, 0};
    hl = hl == 0 ? 0 : hl; /* -0 is read as +0 */
    hr = hr == 0 ? 0 : hr;
    double al = wave_speed(hl), ar = wave_speed(hr);
    double us = 0.5 * (ul + ur) + (al - ar), as = size(0.5 * (al + ar) + 0.25 * (ul - ur));
    double sl = hl == 0 ? ur - 2 * ar : least(ul - al, us - as);
    double sr = hr == 0 ? ul + 2 * al : greatest(ur + ar, us + as);
    double top = greatest(greatest(greatest(size(sl), size(sr)), size(ul)), size(ur));
    if (sl >= 0)
        return one_sided(hl, ul, top);
    if (sr <= 0)
        return one_sided(hr, ur, top);
    double ml = hl * ul, mr = hr * ur, s = sr - sl;
    return (Flux){((sr * ml - sl * mr) + (sl * sr) * (hr - hl)) / s, (sr * (hl * hl) - sl * (hr * hr)) / s,
                  ((sr * (ml * ul) - sl * (mr * ur)) + (sl * sr) * (mr - ml)) / s, top};
}

uint32_t FACE(double hl, double ul, double hr, double ur, double flux[4])
{
    if (!within(0, hl, DEEPEST) || !slow(ul) || !within(0, hr, DEEPEST) || !slow(ur))
        return 2;
    if (hl == 0 && hr == 0)
        return 1;
    Flux f = face(hl, ul, hr, ur);
    memcpy(flux, &f, sizeof f);
    return 0;
}

/* ---- Checks 1 to 5, and the first 6 */

static bool bed_in_order(const Reach *r, uint32_t *place)
{
    for (size_t i = 0; i <= r->n; i++)
        if (!within(0, r->bed[i], HIGHEST_BED))
            return stopped(i, place);
    return true;
}

static bool is_smooth(const uint16_t *friction, size_t n, uint32_t *place)
{
    for (size_t i = 0; i < n; i++)
        if (friction[i] != 0)
            return stopped(i, place);
    return true;
}

static bool is_finite(double x) { return x - x == 0; }

static bool in_range(const Reach *r, const Cell *cells, uint32_t *place)
{
    for (size_t i = 0; i < r->n; i++) {
        const Cell *c = &cells[i];
        double h0 = depth(r, i, c), h1 = depth_slope(r, i, c);
        if (!is_finite(c->e0) || !is_finite(c->e1) || !is_finite(c->q0) || !is_finite(c->q1) ||
            !within(0, h0 - h1, DEEPEST) || !within(0, h0 + h1, DEEPEST) ||
            !within(-MOST_DISCHARGE, c->q0 - c->q1, MOST_DISCHARGE) ||
            !within(-MOST_DISCHARGE, c->q0 + c->q1, MOST_DISCHARGE))
            return stopped(i, place);
    }
    return true;
}

static bool slow_enough(const Reach *r, const Cell *cells, uint32_t *place)
{
    for (size_t i = 0; i < r->n; i++)
        if (!slow(speed(cells[i].q0, depth(r, i, &cells[i]))))
            return stopped(i, place);
    return true;
}

/* ---- One stage */

/* Gives false where a speed at a face or a Gauss point is too great. */
static bool show(const Reach *r, const Cell *cells, Shown *shown)
{
    for (size_t i = 0; i < r->n; i++) {
        const Cell *c = &cells[i];
        Shown *s = &shown[i];
        double h0 = depth(r, i, c), h1 = depth_slope(r, i, c), th = GAUSS * h1, tq = GAUSS * c->q1;
        s->hl = h0 - h1;
        s->hr = h0 + h1;
        s->ul = speed(c->q0 - c->q1, s->hl);
        s->ur = speed(c->q0 + c->q1, s->hr);
        double u1 = speed(c->q0 + tq, h0 + th), u2 = speed(c->q0 - tq, h0 - th);
        if (!slow(s->ul) || !slow(s->ur) || !slow(u1) || !slow(u2))
            return false;
        s->g1 = (c->q0 + tq) * u1;
        s->g2 = (c->q0 - tq) * u2;
    }
    return true;
}

/* Whether a speed at face k is too great, on its left side or on its right; an end has one side. */
static bool face_too_fast(const Reach *r, const Cell *cells, size_t k)
{
    if (k > 0) {
        const Cell *c = &cells[k - 1];
        if (!slow(speed(c->q0 + c->q1, depth(r, k - 1, c) + depth_slope(r, k - 1, c))))
            return true;
    }
    if (k < r->n) {
        const Cell *c = &cells[k];
        if (!slow(speed(c->q0 - c->q1, depth(r, k, c) - depth_slope(r, k, c))))
            return true;
    }
    return false;
}

static bool point_too_fast(const Reach *r, const Cell *c, size_t i)
{
    double h0 = depth(r, i, c), th = GAUSS * depth_slope(r, i, c), tq = GAUSS * c->q1;
    return !slow(speed(c->q0 + tq, h0 + th)) || !slow(speed(c->q0 - tq, h0 - th));
}

/* Where a speed is too great, once it is known that one is: the lowest face, or if there is none the lowest cell. */
static size_t too_fast_at(const Reach *r, const Cell *cells)
{
    for (size_t k = 0; k <= r->n; k++)
        if (face_too_fast(r, cells, k))
            return k;
    size_t i = 0;
    while (!point_too_fast(r, &cells[i], i))
        i++;
    return i;
}

/* Gives false where the time step is too long for some face. */
static bool cross(const Reach *r, const Shown *shown, Flux *flux, uint32_t *place)
{
    size_t n = r->n;
    const Shown *first = &shown[0], *last = &shown[n - 1];
    flux[0] = face(first->hl, r->left == OPEN ? first->ul : -first->ul, first->hl, first->ul);
    for (size_t i = 1; i < n; i++)
        flux[i] = face(shown[i - 1].hr, shown[i - 1].ur, shown[i].hl, shown[i].ul);
    flux[n] = face(last->hr, last->ur, last->hr, r->right == OPEN ? last->ur : -last->ur);
    for (size_t i = 0; i <= n; i++)
        if (!(2 * r->dt * flux[i].S <= r->dx))
            return stopped(i, place);
    return true;
}

/* What crosses a face in a stage, as depth over one cell. */
static double crossed(const Reach *r, const Flux *f) { return f->F * r->dt / r->dx; }

static Cell updated(const Reach *r, size_t i, const Cell *c, const Shown *s, const Flux *left, const Flux *right)
{
    double dt = r->dt, dx = r->dx, z1 = bed_slope(r, i), h0 = depth(r, i, c), h1 = depth_slope(r, i, c);
    double E = (left->K - right->K) - (s->hr + s->hl) * (r->bed[i + 1] - r->bed[i]);
    double D = 3 * right->K + 3 * left->K - 6 * (h0 * h0) - 2 * (h1 * h1) + 4 * h1 * z1;
    return (Cell){
        c->e0 + crossed(r, left) - crossed(r, right),
        c->e1 - 3 * (right->F + left->F - 2 * c->q0) * dt / dx,
        c->q0 + (left->A - right->A) * dt / dx + 981 * E * dt / (200 * dx),
        c->q1 - 3 * (right->A + left->A - s->g1 - s->g2) * dt / dx - 981 * D * dt / (200 * dx),
    };
}

/* Gives 0 and fills flux and the unfinished cells, or gives 6 or 7 and their place. */
static uint32_t stage(const Reach *r, const Cell *cells, Flux *flux, Cell *unfinished, uint32_t *place)
{
    Shown shown[MOST_CELLS];
    if (!show(r, cells, shown)) {
        *place = (uint32_t)too_fast_at(r, cells);
        return 6;
    }
    if (!cross(r, shown, flux, place))
        return 7;
    for (size_t i = 0; i < r->n; i++)
        unfinished[i] = updated(r, i, &cells[i], &shown[i], &flux[i], &flux[i + 1]);
    return 0;
}

/* ---- Finishing */

/* Three values are taken two by two: the one nearest nought of all is the same. */
static double minmod(double a, double b)
{
    if (a > 0 && b > 0)
        return least(a, b);
    if (a < 0 && b < 0)
        return greatest(a, b);
    return 0;
}

static bool jumps(const Reach *r, const Cell *left, const Cell *right)
{
    return size((left->e0 + left->e1) - (right->e0 - right->e1)) > r->jump;
}

static bool marked(const Reach *r, const Cell *unfinished, size_t i)
{
    return (i > 0 && jumps(r, &unfinished[i - 1], &unfinished[i])) ||
           (i + 1 < r->n && jumps(r, &unfinished[i], &unfinished[i + 1]));
}

/* Both slopes of a marked cell held against its neighbours' means; an end cell lacks one. */
static void limit(const Reach *r, const Cell *unfinished, size_t i, Cell *c)
{
    if (i + 1 < r->n) {
        c->e1 = minmod(c->e1, unfinished[i + 1].e0 - c->e0);
        c->q1 = minmod(c->q1, unfinished[i + 1].q0 - c->q0);
    }
    if (i > 0) {
        c->e1 = minmod(c->e1, c->e0 - unfinished[i - 1].e0);
        c->q1 = minmod(c->q1, c->q0 - unfinished[i - 1].q0);
    }
}

/* The level slope that holds the depth slope within the depth h0. By rounding the slope may be off by a bit still; it
 * is then brought in by one, and where that does not do, the depth slope becomes nought. */
static double cut(double e1, double z1, double h0)
{
    double h1 = e1 - z1;
    if (within(-h0, h1, h0))
        return e1;
    double at = h1 > h0 ? z1 + h0 : z1 - h0;
    if (within(-h0, at - z1, h0))
        return at;
    at = h1 > h0 ? at - size(at) * LAST_BIT : at + size(at) * LAST_BIT;
    return within(-h0, at - z1, h0) ? at : z1;
}

static void finish(const Reach *r, const Cell *unfinished, Cell *cells)
{
    for (size_t i = 0; i < r->n; i++) {
        Cell c = unfinished[i];
        if (marked(r, unfinished, i))
            limit(r, unfinished, i, &c);
        double h0 = depth(r, i, &c), e1 = cut(c.e1, bed_slope(r, i), h0);
        if (e1 != c.e1) {
            c.e1 = e1;
            c.q1 = 0;
        }
        if (h0 <= DRY)
            c.q0 = c.q1 = 0;
        cells[i] = c;
    }
}

/* Gives 0 and finishes, or gives 9 or 8 and its place. */
static uint32_t end(const Reach *r, const Cell *unfinished, Cell *cells, uint32_t *place)
{
    for (size_t i = 0; i < r->n; i++)
        if (!(0 <= depth(r, i, &unfinished[i])))
            return stopped(i, place), 9;
    finish(r, unfinished, cells);
    return in_range(r, cells, place) ? 0 : 8;
}

/* ---- The whole step */

/* W at face i: half of what crossed in both stages. */
static double volume(const Reach *r, const Flux *one, const Flux *two, size_t i)
{
    return (crossed(r, &one[i]) + crossed(r, &two[i])) / 2;
}

/* The unfinished end state, over the cells after stage two. */
static void join(const Reach *r, const Cell *now, const Flux *one, const Flux *two, Cell *cells)
{
    double left = volume(r, one, two, 0);
    for (size_t i = 0; i < r->n; i++) {
        double right = volume(r, one, two, i + 1);
        const Cell *c = &now[i];
        cells[i].e0 = c->e0 + left - right;
        cells[i].e1 = (c->e1 + cells[i].e1) / 2;
        cells[i].q0 = (c->q0 + cells[i].q0) / 2;
        cells[i].q1 = (c->q1 + cells[i].q1) / 2;
        left = right;
    }
}

/* From cells that are in range; they are the next state when 0 is given. */
static uint32_t both_stages(const Reach *r, Cell *cells, double volumes[2], uint32_t *place)
{
    Cell unfinished[MOST_CELLS], half[MOST_CELLS];
    Flux one[MOST_CELLS + 1], two[MOST_CELLS + 1];
    uint32_t refusal = stage(r, cells, one, unfinished, place);
    if (refusal == 0)
        refusal = end(r, unfinished, half, place);
    if (refusal == 0)
        refusal = stage(r, half, two, unfinished, place);
    if (refusal != 0)
        return refusal;
    join(r, cells, one, two, unfinished);
    refusal = end(r, unfinished, cells, place);
    if (refusal != 0)
        return refusal;
    volumes[0] = volume(r, one, two, 0);
    volumes[1] = volume(r, one, two, r->n);
    return 0;
}

uint32_t STEP(const double *now, size_t now_len, double *next, size_t next_len, const double *bed, size_t bed_len,
              const uint16_t *friction, size_t n, double dx, double dt, double jump, uint32_t left, uint32_t right,
              double volumes[2], uint32_t place[1])
{
    place[0] = 0;
    if (n < 1 || n > MOST_CELLS || now_len != 4 * n || next_len != 4 * n || bed_len != n + 1)
        return 1;
    if (!within(SHORTEST, dx, LONGEST_DX) || !within(SHORTEST, dt, LONGEST_DT) || !within(0, jump, MOST_JUMP) ||
        left > OPEN || right > OPEN)
        return 2;
    Reach r = {n, bed, dx, dt, jump, left, right};
    Cell cells[MOST_CELLS];
    if (!bed_in_order(&r, place))
        return 3;
    if (!is_smooth(friction, n, place))
        return 4;
    memcpy(cells, now, n * sizeof cells[0]);
    if (!in_range(&r, cells, place))
        return 5;
    if (!slow_enough(&r, cells, place))
        return 6;
    uint32_t refusal = both_stages(&r, cells, volumes, place);
    if (refusal == 0)
        memcpy(next, cells, n * sizeof cells[0]);
    return refusal;
}
