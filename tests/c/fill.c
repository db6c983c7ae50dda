/* Fills random reaches with examples/fill.h and lends them to the library: no state that it fills may be refused as
 * out of range (5), whatever else is; a dry cell must be dry, a bank cell show the level at its lower face and the
 * ground at its higher one, a wet cell the levels that were given; and a lake whose shores lie at faces must keep every
 * number. The last line is 'N passed, M failed'. */
#include "../../examples/fill.h"
#include <bassoonsun.h>
#include <stdio.h>
#include <stdlib.h>
#include <string.h>

enum { METRE = BASSOONSUN_UNIT, MOST = 80, REACHES = 20000, LAKES = 2000, DEEPEST = 64 * METRE, HIGHEST = 256 * METRE,
       GREATEST_DISCHARGE = 2048 * METRE };

typedef struct {
    size_t n;
    int32_t bed[MOST + 1], left[MOST], right[MOST], discharge[MOST];
    int32_t now[4 * MOST], next[4 * MOST];
    uint16_t friction[MOST];
} Reach;

static uint64_t drawn = 88172645463325252u;

/* A random number from least to most. */
static int32_t draw(int32_t least, int32_t most)
{
    drawn ^= drawn << 13, drawn ^= drawn >> 7, drawn ^= drawn << 17;
    return least + (int32_t)((drawn >> 11) % ((uint64_t)most - (uint64_t)least + 1));
}

static int32_t within(int32_t x, int32_t least, int32_t most) { return x < least ? least : x > most ? most : x; }

/* An even bed that goes up and down by at most so much a cell, anywhere in its range. */
static void draw_bed(Reach *r, int32_t rise)
{
    int32_t z = draw(0, 3) > 0 ? draw(0, 4 * METRE) : draw(0, HIGHEST);
    for (size_t i = 0; i <= r->n; i++) {
        r->bed[i] = z & ~1;
        z = within(z + draw(-rise, rise), 0, HIGHEST);
    }
}

/* A level about the bed at a face, so that some lie on it, some just beside it, and the deepest at 64 m. */
static int32_t draw_level(int32_t bed, int32_t rise)
{
    static const int32_t near[] = {-2, -1, 0, 1, 2};
    int32_t about = bed + (draw(0, 2) == 0 ? near[draw(0, 4)] : draw(-rise, rise));
    return draw(0, 99) == 0 ? bed + DEEPEST : within(about, INT32_MIN, bed + DEEPEST);
}

/* A cell has one level drawn flat through it, or another at each face; each is at most 64 m over its bed. */
static void draw_levels(Reach *r, int32_t rise)
{
    int still = draw(0, 1), fast = draw(0, 9) == 0;
    for (size_t i = 0; i < r->n; i++) {
        int32_t zl = r->bed[i], zr = r->bed[i + 1], lower = zl < zr ? zl : zr;
        r->left[i] = draw_level(draw(0, 1) ? zl : zr, rise);
        r->left[i] = r->right[i] = within(r->left[i], INT32_MIN, lower + DEEPEST);
        if (draw(0, 1))
            r->left[i] = draw_level(zl, rise), r->right[i] = draw_level(zr, rise);
        r->discharge[i] = still ? 0 : fast ? draw(-GREATEST_DISCHARGE, GREATEST_DISCHARGE) : draw(-200, 200);
    }
}

static void fill(Reach *r)
{
    for (size_t i = 0; i < r->n; i++) {
        fill_cell(r->now, r->bed, r->n, i, r->left[i], r->right[i], r->discharge[i]);
        r->friction[i] = 30;
    }
}

static uint32_t step(Reach *r, uint32_t dt, uint32_t left, uint32_t right)
{
    struct bassoonsun_call call = {.dx = METRE, .dt = dt, .jump = 64, .dry = 4, .left = left, .right = right};
    int64_t volumes[2];
    uint32_t place;
    return bassoonsun_step_call(r->now, 4 * r->n, r->next, 4 * r->n, r->bed, r->n + 1, r->friction, r->n, call, volumes,
                                &place);
}

/* What a cell is by the levels that were given, and what it must show at a face of bed z. */
enum kind { DRY, BANK, WET, KINDS };

static enum kind kind_of(const Reach *r, size_t i)
{
    int over_left = r->left[i] >= r->bed[i], over_right = r->right[i] >= r->bed[i + 1];
    if (r->left[i] <= r->bed[i] && r->right[i] <= r->bed[i + 1])
        return DRY;
    return over_left && over_right ? WET : BANK;
}

/* Whether the level shown at a face is the one given, or the ground where that is higher; of two whose sum is odd, one
 * is a unit lower. */
static int shows(int32_t shown, int32_t given, int32_t bed)
{
    int32_t due = given > bed ? given : bed;
    return shown >= bed && (shown == due || (due % 2 != 0 && shown == due - 1));
}

/* Whether a cell shows what it must, and has the discharge given where there is water at both faces, else none. */
static int filled(const Reach *r, size_t i)
{
    const int32_t *e0 = r->now, *e1 = r->now + r->n, *q0 = r->now + 2 * r->n, *q1 = r->now + 3 * r->n;
    int32_t l = e0[i] - e1[i], right = e0[i] + e1[i], zl = r->bed[i], zr = r->bed[i + 1];
    int water = l > zl && right > zr;
    if (kind_of(r, i) == DRY && (e0[i] != (zl + zr) / 2 || e1[i] != (zr - zl) / 2))
        return 0;
    return shows(l, r->left[i], zl) && shows(right, r->right[i], zr) && q0[i] == (water ? r->discharge[i] : 0) &&
           q1[i] == 0;
}

static int passed, failed;

static void check(int good, const char *what)
{
    good ? passed++ : failed++;
    printf("%s  %s\n", good ? "passed" : "FAILED", what);
}

static void try_reaches(void)
{
    static Reach r;
    size_t answers[BASSOONSUN_RESULT_TOO_LARGE + 1] = {0}, kinds[KINDS] = {0}, wrong = 0;
    for (int k = 0; k < REACHES; k++) {
        int32_t rise = draw(0, 3) > 0 ? draw(1, METRE / 8) : draw(1, HIGHEST);
        r.n = (size_t)draw(1, MOST);
        draw_bed(&r, rise);
        draw_levels(&r, rise);
        fill(&r);
        for (size_t i = 0; i < r.n; i++)
            wrong += !filled(&r, i), kinds[kind_of(&r, i)]++;
        answers[step(&r, (uint32_t)draw(1, 40), BASSOONSUN_WALL, BASSOONSUN_OPEN)]++;
    }
    printf("%d reaches: %zu dry, %zu bank and %zu wet cells; %zu accepted, refused with 6 %zu, with 7 %zu, with 8 %zu\n",
           REACHES, kinds[DRY], kinds[BANK], kinds[WET], answers[BASSOONSUN_ACCEPTED],
           answers[BASSOONSUN_WATER_TOO_FAST], answers[BASSOONSUN_TIME_STEP_TOO_LONG],
           answers[BASSOONSUN_RESULT_TOO_LARGE]);
    check(wrong == 0, "every cell shows the levels given, or the ground where that is higher");
    check(answers[BASSOONSUN_STATE_OUT_OF_RANGE] == 0, "no state that was filled is out of range");
    check(answers[1] + answers[2] + answers[3] + answers[4] == 0, "nothing else that was lent is either");
    check(answers[BASSOONSUN_ACCEPTED] > REACHES / 10, "at least a tenth of the calls are accepted");
    check(kinds[DRY] > REACHES && kinds[BANK] > REACHES && kinds[WET] > REACHES, "many cells of each kind");
}

/* The bed with every shore of a lake of this level at a face: where a cell would have one between its faces, the
 * higher face comes down to the level. */
static void shores_at_faces(Reach *r, int32_t level)
{
    for (size_t i = 0; i < r->n; i++) {
        int32_t *low = r->bed[i] < r->bed[i + 1] ? &r->bed[i] : &r->bed[i + 1];
        int32_t *high = low == &r->bed[i] ? &r->bed[i + 1] : &r->bed[i];
        if (*low < level && *high > level)
            *high = level;
    }
}

static void fill_lake(Reach *r, int32_t level)
{
    for (size_t i = 0; i < r->n; i++)
        r->left[i] = r->right[i] = level, r->discharge[i] = 0;
    fill(r);
}

/* Some steps, each accepted; gives whether every number is then what it was. */
static int rests(Reach *r)
{
    int32_t first[4 * MOST];
    memcpy(first, r->now, sizeof first);
    for (int k = 0; k < 4; k++) {
        if (step(r, (uint32_t)draw(1, 40), (uint32_t)draw(0, 1), (uint32_t)draw(0, 1)) != BASSOONSUN_ACCEPTED)
            return 0;
        memcpy(r->now, r->next, sizeof r->now);
    }
    return memcmp(r->now, first, 4 * r->n * sizeof *first) == 0;
}

static void try_lakes(void)
{
    static Reach r;
    size_t rest = 0, shores = 0;
    for (int k = 0; k < LAKES; k++) {
        int32_t rise = draw(1, METRE / 2), level;
        r.n = (size_t)draw(1, MOST);
        draw_bed(&r, rise);
        level = within(r.bed[draw(0, (int32_t)r.n)] + draw(-rise, rise), 0, HIGHEST) & ~1;
        shores_at_faces(&r, level);
        fill_lake(&r, level);
        for (size_t i = 1; i < r.n; i++)
            shores += (kind_of(&r, i) == DRY) != (kind_of(&r, i - 1) == DRY);
        rest += (size_t)rests(&r);
    }
    printf("%d lakes with %zu shores: %zu at rest\n", LAKES, shores, rest);
    check(rest == LAKES, "every lake with its shores at faces keeps every number");
    check(shores > LAKES, "more than one shore a lake");
}

/* A lake whose shore lies within a cell: the water that README says it has there, and that it does not rest. */
static void try_bank(void)
{
    static Reach r = {.n = 3, .bed = {0, 0, 0, 2 * METRE}};
    int32_t depth = METRE, rise = 2 * METRE, wedge = depth * depth / (2 * rise);
    fill_lake(&r, depth);
    int32_t held = r.now[2] - rise / 2;
    check(held == depth / 2 && held - wedge == rise / 8, "a bank cell holds d/2, an eighth of its rise over the wedge");
    check(!rests(&r), "a shore within a cell is not at rest");
}

int main(void)
{
    try_reaches();
    try_lakes();
    try_bank();
    printf("%d passed, %d failed\n", passed, failed);
    return failed != 0;
}
