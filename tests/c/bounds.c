/* Calls the library with every table at the very end of its pages, and again at the very start,
 * with pages behind and before them that may not be touched: a read or a write one element off
 * would end this program. The tables that are only read lie in pages that cannot be written.
 * Checks the answer and its place, that a refused call leaves next, volumes and sums as they were, and that
 * an accepted one keeps the water, takes in what is given at an end of kind 2 and leaves the sums of the new
 * state. Every step is made with its numbers in a row and again with them filled by name, both without sums
 * and with them, and each with what is particular in it at one spot: the first index, the middle one, the
 * last. On the same tables sums are made and questions asked. The step over a stepped bed is tried likewise, on
 * tables of its own. The last line is 'N passed, M failed'. */
#define _DEFAULT_SOURCE
#include "fence.h"
#include <bassoonsun.h>
#include <math.h>

enum { METRE = BASSOONSUN_UNIT, DX = METRE, DT = METRE / 20, DRY = 4, MARK = -77 };

static int passed, failed;

static void check(int good, const char *what, size_t n, int at_end)
{
    if (good)
        passed++;
    else
        failed++, printf("failed: %s, n %zu, tables at the %s\n", what, n, at_end ? "end" : "start");
}

/* The place that is due: 0, which a refusal of no index and an accepted call have too, the bed value or the cell of the
 * spot, that cell's right face, or face n. A cell's left face has its index. */
enum place { AT_0, AT_BED, AT_CELL, AT_RIGHT_FACE, AT_N };

/* A call to be made: what differs from a good call on n cells, and the answer that is due. */
typedef struct {
    const char *what;
    uint32_t due;
    enum place place;
    int stepped;                            /* whether the bed is, with a value a cell: there are then two columns */
    int now_more, next_more, bed_more;      /* elements over what fits n */
    int sums_more;                          /* the same of the sums: the call is then made with sums only */
    uint32_t dx, dt, jump, dry, left, right, left_q, right_q;
    int32_t spot_bed;                       /* of one face, */
    uint16_t spot_friction;                 /* of one cell, */
    int32_t spot_level, spot_discharge;     /* means */
    int32_t spot_level_slope, spot_discharge_slope;
} Call;

enum { FIRST, MIDDLE, LAST, SPOTS };

typedef struct {
    Fenced now, next, bed, friction, sums, volumes, place;
    size_t now_len, next_len, bed_len, sums_len, n;
    size_t spot_cell, spot_face;
} Lent;

/* How many columns a state has, and how many values the bed of n cells. */
static size_t columns(const Call *c) { return c->stepped ? 2 : 4; }

static size_t bed_values(const Call *c, size_t n) { return c->stepped ? n : n + 1; }

/* Number i of a state: level means, level slopes, discharge means, discharge slopes; over a stepped bed no slopes. */
static int32_t number(size_t i, const Lent *t, const Call *c)
{
    const int32_t spot[] = {c->spot_level, c->spot_level_slope, c->spot_discharge, c->spot_discharge_slope};
    size_t column = i / t->n, cell = i % t->n;
    if (column < columns(c) && cell == t->spot_cell)
        return spot[c->stepped ? 2 * column : column];
    return column > 0 ? 0 : cell < 4 ? 3 * METRE / 2 : 5 * METRE / 4;
}

/* Water over a bed that goes up and down, 0.8 m deep or more, with a wave at the left. */
static void fill(const Lent *t, const Call *c)
{
    int32_t *now = t->now.first, *next = t->next.first, *bed = t->bed.first, *sums = t->sums.first;
    uint16_t *friction = t->friction.first;
    int64_t *volumes = t->volumes.first;
    uint32_t *place = t->place.first;
    for (size_t i = 0; i < t->bed_len; i++)
        bed[i] = i == t->spot_face ? c->spot_bed : (int32_t)(i % 8) * 64;
    for (size_t i = 0; i < t->now_len; i++)
        now[i] = number(i, t, c);
    for (size_t i = 0; i < t->n; i++)
        friction[i] = i == t->spot_cell ? c->spot_friction : 30;
    for (size_t i = 0; i < t->next_len; i++)
        next[i] = MARK;
    for (size_t i = 0; i < t->sums_len; i++)
        sums[i] = MARK;
    volumes[0] = volumes[1] = MARK;
    place[0] = (uint32_t)MARK;
}

/* Of so many indices the first, the middle one or the last. */
static size_t spot_of(size_t count, int spot)
{
    return count == 0 || spot == FIRST ? 0 : spot == MIDDLE ? count / 2 : count - 1;
}

static Lent lend(const Call *c, size_t n, int spot, int at_end)
{
    Lent t = {.n = n, .spot_cell = spot_of(n, spot), .spot_face = spot_of(bed_values(c, n), spot)};
    t.now_len = columns(c) * n + c->now_more, t.next_len = columns(c) * n + c->next_more;
    t.bed_len = bed_values(c, n) + c->bed_more;
    t.sums_len = BASSOONSUN_SUMS(n) + c->sums_more;
    t.now = fence(t.now_len * sizeof(int32_t), at_end);
    t.next = fence(t.next_len * sizeof(int32_t), at_end);
    t.bed = fence(t.bed_len * sizeof(int32_t), at_end);
    t.friction = fence(n * sizeof(uint16_t), at_end);
    t.sums = fence(t.sums_len * sizeof(int32_t), at_end);
    t.volumes = fence(2 * sizeof(int64_t), at_end);
    t.place = fence(sizeof(uint32_t), at_end);
    fill(&t, c);
    only_read(t.now);
    only_read(t.bed);
    only_read(t.friction);
    return t;
}

static void give_back(const Lent *t)
{
    unfence(t->now), unfence(t->next), unfence(t->bed), unfence(t->friction), unfence(t->sums);
    unfence(t->volumes), unfence(t->place);
}

static int sums_untouched(const Lent *t)
{
    const int32_t *sums = t->sums.first;
    for (size_t i = 0; i < t->sums_len; i++)
        if (sums[i] != MARK)
            return 0;
    return 1;
}

/* From each sum the depths of its block are taken away, cell by cell, which leaves nothing. */
static int sums_are_of(const Lent *t, const int32_t *state)
{
    const int32_t *sums = t->sums.first, *bed = t->bed.first;
    for (size_t k = 0; k < t->sums_len; k++) {
        int64_t left = sums[k];
        for (size_t i = k * BASSOONSUN_BLOCK_CELLS; i < (k + 1) * BASSOONSUN_BLOCK_CELLS && i < t->n; i++)
            left -= state[i] - (bed[i] + bed[i + 1]) / 2;
        if (left != 0)
            return 0;
    }
    return 1;
}

static int untouched(const Lent *t)
{
    const int32_t *next = t->next.first;
    const int64_t *volumes = t->volumes.first;
    for (size_t i = 0; i < t->next_len; i++)
        if (next[i] != MARK)
            return 0;
    return volumes[0] == MARK && volumes[1] == MARK;
}

/* The beds are the same before and after, so that sums of levels do for sums of depths. */
static int keeps_water(const Lent *t)
{
    const int32_t *now = t->now.first, *next = t->next.first;
    const int64_t *volumes = t->volumes.first;
    int64_t sum = volumes[0] - volumes[1];
    for (size_t i = 0; i < t->n; i++)
        sum += (int64_t)now[i] - next[i];
    return sum == 0 && volumes[0] != MARK && volumes[1] != MARK;
}

/* What comes in at an end of kind 2 is known before the step, and turned rightward. */
static int takes_in(const Lent *t, const Call *c)
{
    const int64_t *volumes = t->volumes.first;
    return (c->left != BASSOONSUN_INFLOW || volumes[0] == (int64_t)c->left_q * c->dt / c->dx) &&
           (c->right != BASSOONSUN_INFLOW || volumes[1] == -((int64_t)c->right_q * c->dt / c->dx));
}

static uint32_t make_step_with_sums(const Lent *t, const Call *c, struct bassoonsun_call call, int by_name)
{
    if (by_name)
        return bassoonsun_step_sums_call(t->now.first, t->now_len, t->next.first, t->next_len, t->bed.first, t->bed_len,
                                         t->friction.first, t->n, t->sums.first, t->sums_len, call,
                                         t->volumes.first, t->place.first);
    return bassoonsun_step_sums(t->now.first, t->now_len, t->next.first, t->next_len, t->bed.first, t->bed_len,
                                t->friction.first, t->n, t->sums.first, t->sums_len, c->dx, c->dt, c->jump, c->dry,
                                c->left, c->right, c->left_q, c->right_q, t->volumes.first, t->place.first);
}

static uint32_t make_sill_step(const Lent *t, const Call *c, int by_name)
{
    struct bassoonsun_sill_call call = {.dx = c->dx, .dt = c->dt, .dry = c->dry, .left = c->left, .right = c->right};
    if (by_name)
        return bassoonsun_sill_step_call(t->now.first, t->now_len, t->next.first, t->next_len, t->bed.first, t->bed_len,
                                         t->friction.first, t->n, call, t->volumes.first, t->place.first);
    return bassoonsun_sill_step(t->now.first, t->now_len, t->next.first, t->next_len, t->bed.first, t->bed_len,
                                t->friction.first, t->n, c->dx, c->dt, c->dry, c->left, c->right,
                                t->volumes.first, t->place.first);
}

static uint32_t make_step(const Lent *t, const Call *c, int by_name, int with_sums)
{
    if (c->stepped)
        return make_sill_step(t, c, by_name);
    struct bassoonsun_call call = {.dx = c->dx, .dt = c->dt, .jump = c->jump, .dry = c->dry, .left = c->left,
                                   .right = c->right, .left_q = c->left_q, .right_q = c->right_q};
    if (with_sums)
        return make_step_with_sums(t, c, call, by_name);
    if (by_name)
        return bassoonsun_step_call(t->now.first, t->now_len, t->next.first, t->next_len, t->bed.first, t->bed_len,
                                    t->friction.first, t->n, call, t->volumes.first, t->place.first);
    return bassoonsun_step(t->now.first, t->now_len, t->next.first, t->next_len, t->bed.first, t->bed_len,
                           t->friction.first, t->n, c->dx, c->dt, c->jump, c->dry, c->left, c->right,
                           c->left_q, c->right_q, t->volumes.first, t->place.first);
}

/* The place is written in every call, so that one which still holds its mark is wrong. */
static int placed(const Lent *t, const Call *c)
{
    const size_t due[] = {[AT_0] = 0, [AT_BED] = t->spot_face, [AT_CELL] = t->spot_cell,
                          [AT_RIGHT_FACE] = t->spot_cell + 1, [AT_N] = t->n};
    const uint32_t *place = t->place.first;
    return place[0] == due[c->place];
}

static void try_step(const Call *c, size_t n, int spot, int at_end, int by_name, int with_sums)
{
    Lent t = lend(c, n, spot, at_end);
    uint32_t given = make_step(&t, c, by_name, with_sums);
    check(given == c->due, c->what, n, at_end);
    check(placed(&t, c), c->what, n, at_end);
    check(given == BASSOONSUN_ACCEPTED ? keeps_water(&t) && takes_in(&t, c) : untouched(&t), c->what, n, at_end);
    check(given == BASSOONSUN_ACCEPTED && with_sums ? sums_are_of(&t, t.next.first) : sums_untouched(&t), c->what, n,
          at_end);
    give_back(&t);
}

/* What a call that makes sums answers of the same tables: of the step's checks 1, 3 and 5. It is not lent next. */
static uint32_t due_of_sums(const Call *c)
{
    if (c->next_more != 0)
        return BASSOONSUN_ACCEPTED;
    return c->due == BASSOONSUN_TABLES_MISFIT || c->due == BASSOONSUN_BED_OUT_OF_RANGE ||
           c->due == BASSOONSUN_STATE_OUT_OF_RANGE ? c->due : BASSOONSUN_ACCEPTED;
}

static uint32_t make_sums(const Lent *t)
{
    return bassoonsun_sums(t->now.first, t->now_len, t->bed.first, t->bed_len, t->sums.first, t->sums_len);
}

/* A question of the tables; its answer is fenced too. The lengths must fit, and nothing else is looked at. */
static void ask(const Lent *t, const char *what, uint32_t a, uint32_t b, uint32_t due, int at_end)
{
    Fenced lent = fence(3 * sizeof(int64_t), at_end);
    int64_t *answer = lent.first, mark = INT64_MIN; /* wider than any water */
    answer[0] = answer[1] = answer[2] = mark;
    uint32_t given = bassoonsun_between(t->now.first, t->now_len, t->bed.first, t->bed_len, t->sums.first, t->sums_len,
                                        a, b, answer);
    int written = answer[0] != mark && answer[1] >= 0 && answer[2] >= 0;
    int kept = answer[0] == mark && answer[1] == mark && answer[2] == mark;
    check(given == due && (given == BASSOONSUN_ACCEPTED ? written : kept), what, t->n, at_end);
    unfence(lent);
}

static void try_sums(const Call *c, size_t n, int spot, int at_end)
{
    Lent t = lend(c, n, spot, at_end);
    uint32_t given = make_sums(&t), due = due_of_sums(c), last = (uint32_t)n;
    uint32_t fit = due == BASSOONSUN_TABLES_MISFIT ? due : BASSOONSUN_ACCEPTED;
    uint32_t misplaced = due == BASSOONSUN_TABLES_MISFIT ? due : BASSOONSUN_FACES_MISPLACED;
    check(given == due, c->what, n, at_end);
    check(given == BASSOONSUN_ACCEPTED ? sums_are_of(&t, t.now.first) : sums_untouched(&t), c->what, n, at_end);
    only_read(t.sums);
    ask(&t, c->what, 0, last, fit, at_end);
    ask(&t, c->what, last / 3, last - last / 3, fit, at_end);
    ask(&t, c->what, last, last, fit, at_end);
    ask(&t, c->what, 0, last + 1, misplaced, at_end);
    ask(&t, c->what, last + 1, last + 1, misplaced, at_end);
    ask(&t, c->what, 1, 0, misplaced, at_end);
    ask(&t, c->what, 0, UINT32_MAX, misplaced, at_end);
    ask(&t, c->what, UINT32_MAX, last, misplaced, at_end);
    give_back(&t);
}

/* There are no sums of a reach with a stepped bed. */
static void try_call_at(const Call *c, size_t n, int spot, int at_end)
{
    for (int by_name = 0; by_name <= 1; by_name++)
        for (int with_sums = c->sums_more != 0; with_sums <= !c->stepped; with_sums++)
            try_step(c, n, spot, at_end, by_name, with_sums);
    if (!c->stepped)
        try_sums(c, n, spot, at_end);
}

static void try_call(const Call *c, size_t n, int at_end)
{
    for (int spot = FIRST; spot < SPOTS; spot++)
        try_call_at(c, n, spot, at_end);
}

#define GOOD .dx = DX, .dt = DT, .jump = 64, .dry = DRY, .left = BASSOONSUN_WALL, .right = BASSOONSUN_OPEN, \
             .spot_bed = 128, .spot_friction = 30, .spot_level = 5 * METRE / 4

/* A later member of a list takes the place of the same one in GOOD; that is meant here. */
#pragma GCC diagnostic ignored "-Woverride-init"
static const Call calls[] = {
    {GOOD, .what = "accepted", .due = BASSOONSUN_ACCEPTED},
    {GOOD, .what = "accepted, ends the other way", .due = BASSOONSUN_ACCEPTED, .left = BASSOONSUN_OPEN,
     .right = BASSOONSUN_WALL},
    {GOOD, .what = "accepted, dry depth 1", .due = BASSOONSUN_ACCEPTED, .dry = 1},
    {GOOD, .what = "accepted, dry depth 64", .due = BASSOONSUN_ACCEPTED, .dry = 64},
    {GOOD, .what = "accepted, inflow at the left", .due = BASSOONSUN_ACCEPTED, .left = BASSOONSUN_INFLOW,
     .left_q = 4000},
    {GOOD, .what = "accepted, inflow at the right", .due = BASSOONSUN_ACCEPTED, .right = BASSOONSUN_INFLOW,
     .right_q = 3000},
    {GOOD, .what = "accepted, inflow at both ends", .due = BASSOONSUN_ACCEPTED, .left = BASSOONSUN_INFLOW,
     .left_q = 4000, .right = BASSOONSUN_INFLOW, .right_q = 3000},
    {GOOD, .what = "accepted, inflow of 0", .due = BASSOONSUN_ACCEPTED, .left = BASSOONSUN_INFLOW,
     .right = BASSOONSUN_INFLOW},
    {GOOD, .what = "now too long", .due = BASSOONSUN_TABLES_MISFIT, .now_more = 1},
    {GOOD, .what = "now too short", .due = BASSOONSUN_TABLES_MISFIT, .now_more = -1},
    {GOOD, .what = "next too long", .due = BASSOONSUN_TABLES_MISFIT, .next_more = 1},
    {GOOD, .what = "next too short", .due = BASSOONSUN_TABLES_MISFIT, .next_more = -1},
    {GOOD, .what = "bed too long", .due = BASSOONSUN_TABLES_MISFIT, .bed_more = 1},
    {GOOD, .what = "bed too short", .due = BASSOONSUN_TABLES_MISFIT, .bed_more = -1},
    {GOOD, .what = "sums too long", .due = BASSOONSUN_TABLES_MISFIT, .sums_more = 1},
    {GOOD, .what = "sums too short", .due = BASSOONSUN_TABLES_MISFIT, .sums_more = -1},
    {GOOD, .what = "sums too long, and dx 0", .due = BASSOONSUN_TABLES_MISFIT, .sums_more = 1, .dx = 0},
    {GOOD, .what = "sums too short, and odd bed", .due = BASSOONSUN_TABLES_MISFIT, .sums_more = -1, .spot_bed = 127},
    {GOOD, .what = "sums too long, and friction 201", .due = BASSOONSUN_TABLES_MISFIT, .sums_more = 1,
     .spot_friction = 201},
    {GOOD, .what = "sums too short, and level below the bed", .due = BASSOONSUN_TABLES_MISFIT, .sums_more = -1,
     .spot_level = -1},
    {GOOD, .what = "sums too long, and water too fast", .due = BASSOONSUN_TABLES_MISFIT, .sums_more = 1,
     .spot_discharge = 8388608},
    {GOOD, .what = "sums too short, and time step too long", .due = BASSOONSUN_TABLES_MISFIT, .sums_more = -1,
     .dt = 4096},
    {GOOD, .what = "dx 0", .due = BASSOONSUN_NUMBER_OUT_OF_RANGE, .dx = 0},
    {GOOD, .what = "dx too large", .due = BASSOONSUN_NUMBER_OUT_OF_RANGE, .dx = 1048577},
    {GOOD, .what = "dt 0", .due = BASSOONSUN_NUMBER_OUT_OF_RANGE, .dt = 0},
    {GOOD, .what = "dt too large", .due = BASSOONSUN_NUMBER_OUT_OF_RANGE, .dt = 4097},
    {GOOD, .what = "J too large", .due = BASSOONSUN_NUMBER_OUT_OF_RANGE, .jump = 262145},
    {GOOD, .what = "dry depth 0", .due = BASSOONSUN_NUMBER_OUT_OF_RANGE, .dry = 0},
    {GOOD, .what = "dry depth 65", .due = BASSOONSUN_NUMBER_OUT_OF_RANGE, .dry = 65},
    {GOOD, .what = "dry depth 4294967295", .due = BASSOONSUN_NUMBER_OUT_OF_RANGE, .dry = UINT32_MAX},
    {GOOD, .what = "left end 3", .due = BASSOONSUN_NUMBER_OUT_OF_RANGE, .left = 3},
    {GOOD, .what = "right end 3", .due = BASSOONSUN_NUMBER_OUT_OF_RANGE, .right = 3},
    {GOOD, .what = "right end 4294967295", .due = BASSOONSUN_NUMBER_OUT_OF_RANGE, .right = UINT32_MAX},
    {GOOD, .what = "left Q 8388609", .due = BASSOONSUN_NUMBER_OUT_OF_RANGE, .left = BASSOONSUN_INFLOW,
     .left_q = 8388609},
    {GOOD, .what = "right Q 8388609", .due = BASSOONSUN_NUMBER_OUT_OF_RANGE, .right = BASSOONSUN_INFLOW,
     .right_q = 8388609},
    {GOOD, .what = "right Q 4294967295", .due = BASSOONSUN_NUMBER_OUT_OF_RANGE, .right = BASSOONSUN_INFLOW,
     .right_q = UINT32_MAX},
    {GOOD, .what = "a Q at a wall", .due = BASSOONSUN_NUMBER_OUT_OF_RANGE, .left_q = 1},
    {GOOD, .what = "a Q at an open end", .due = BASSOONSUN_NUMBER_OUT_OF_RANGE, .right_q = 1},
    {GOOD, .what = "odd bed", .due = BASSOONSUN_BED_OUT_OF_RANGE, .place = AT_BED, .spot_bed = 127},
    {GOOD, .what = "bed below nought", .due = BASSOONSUN_BED_OUT_OF_RANGE, .place = AT_BED, .spot_bed = -2},
    {GOOD, .what = "bed too high", .due = BASSOONSUN_BED_OUT_OF_RANGE, .place = AT_BED, .spot_bed = 1048578},
    {GOOD, .what = "friction 201", .due = BASSOONSUN_FRICTION_OUT_OF_RANGE, .place = AT_CELL, .spot_friction = 201},
    {GOOD, .what = "level below the bed", .due = BASSOONSUN_STATE_OUT_OF_RANGE, .place = AT_CELL, .spot_level = -1},
    {GOOD, .what = "level too high", .due = BASSOONSUN_STATE_OUT_OF_RANGE, .place = AT_CELL, .spot_level = 300000},
    {GOOD, .what = "level too steep", .due = BASSOONSUN_STATE_OUT_OF_RANGE, .place = AT_CELL,
     .spot_level_slope = 2 * METRE},
    {GOOD, .what = "discharge too large", .due = BASSOONSUN_STATE_OUT_OF_RANGE, .place = AT_CELL,
     .spot_discharge = 8388609},
    {GOOD, .what = "discharge too steep", .due = BASSOONSUN_STATE_OUT_OF_RANGE, .place = AT_CELL,
     .spot_discharge_slope = 8388609},
    {GOOD, .what = "water too fast", .due = BASSOONSUN_WATER_TOO_FAST, .place = AT_CELL, .spot_discharge = 8388608},
    {GOOD, .what = "water too fast at both faces", .due = BASSOONSUN_WATER_TOO_FAST, .place = AT_CELL,
     .spot_discharge_slope = 8388608},
    {GOOD, .what = "water too fast at the left face", .due = BASSOONSUN_WATER_TOO_FAST, .place = AT_CELL,
     .spot_discharge = -80000, .spot_discharge_slope = 90000},
    {GOOD, .what = "water too fast at the right face", .due = BASSOONSUN_WATER_TOO_FAST, .place = AT_RIGHT_FACE,
     .spot_discharge = 80000, .spot_discharge_slope = 90000},
    {GOOD, .what = "left inflow too fast", .due = BASSOONSUN_WATER_TOO_FAST, .place = AT_0, .left = BASSOONSUN_INFLOW,
     .left_q = 8388608},
    {GOOD, .what = "right inflow too fast", .due = BASSOONSUN_WATER_TOO_FAST, .place = AT_N, .right = BASSOONSUN_INFLOW,
     .right_q = 8388608},
    {GOOD, .what = "left inflow and water too fast", .due = BASSOONSUN_WATER_TOO_FAST, .place = AT_0,
     .left = BASSOONSUN_INFLOW, .left_q = 8388608,
     .spot_discharge_slope = 8388608},
    {GOOD, .what = "right inflow and water too fast", .due = BASSOONSUN_WATER_TOO_FAST, .place = AT_CELL,
     .right = BASSOONSUN_INFLOW, .right_q = 8388608,
     .spot_discharge_slope = 8388608},
    {GOOD, .what = "time step too long", .due = BASSOONSUN_TIME_STEP_TOO_LONG, .place = AT_0, .dt = 4096},
    {GOOD, .what = "time step too long for the left inflow", .due = BASSOONSUN_TIME_STEP_TOO_LONG, .place = AT_0,
     .left = BASSOONSUN_INFLOW, .left_q = 100000},
    {GOOD, .what = "time step too long for the right inflow", .due = BASSOONSUN_TIME_STEP_TOO_LONG, .place = AT_N,
     .right = BASSOONSUN_INFLOW, .right_q = 100000},
};

/* Over a stepped bed: what of the list above is said of it too, with one kind of end less; and a bed that is odd, or
 * stands out of the water. */
#define SILL GOOD, .stepped = 1

static const Call sills[] = {
    {SILL, .what = "sill: accepted", .due = BASSOONSUN_ACCEPTED},
    {SILL, .what = "sill: accepted, ends the other way", .due = BASSOONSUN_ACCEPTED, .left = BASSOONSUN_OPEN,
     .right = BASSOONSUN_WALL},
    {SILL, .what = "sill: accepted, dry depth 1", .due = BASSOONSUN_ACCEPTED, .dry = 1},
    {SILL, .what = "sill: accepted, dry depth 64", .due = BASSOONSUN_ACCEPTED, .dry = 64},
    {SILL, .what = "sill: accepted, odd bed", .due = BASSOONSUN_ACCEPTED, .spot_bed = 127},
    {SILL, .what = "sill: accepted, an island", .due = BASSOONSUN_ACCEPTED, .spot_bed = 1048575, .spot_level = 1048575},
    {SILL, .what = "sill: accepted, dry ground with the greatest discharge", .due = BASSOONSUN_ACCEPTED,
     .spot_bed = 1048576, .spot_level = 1048576, .spot_discharge = 8388608},
    {SILL, .what = "sill: now too long", .due = BASSOONSUN_TABLES_MISFIT, .now_more = 1},
    {SILL, .what = "sill: now too short", .due = BASSOONSUN_TABLES_MISFIT, .now_more = -1},
    {SILL, .what = "sill: next too long", .due = BASSOONSUN_TABLES_MISFIT, .next_more = 1},
    {SILL, .what = "sill: next too short", .due = BASSOONSUN_TABLES_MISFIT, .next_more = -1},
    {SILL, .what = "sill: bed too long", .due = BASSOONSUN_TABLES_MISFIT, .bed_more = 1},
    {SILL, .what = "sill: bed too short", .due = BASSOONSUN_TABLES_MISFIT, .bed_more = -1},
    {SILL, .what = "sill: dx 0", .due = BASSOONSUN_NUMBER_OUT_OF_RANGE, .dx = 0},
    {SILL, .what = "sill: dx too large", .due = BASSOONSUN_NUMBER_OUT_OF_RANGE, .dx = 1048577},
    {SILL, .what = "sill: dt 0", .due = BASSOONSUN_NUMBER_OUT_OF_RANGE, .dt = 0},
    {SILL, .what = "sill: dt too large", .due = BASSOONSUN_NUMBER_OUT_OF_RANGE, .dt = 4097},
    {SILL, .what = "sill: dry depth 0", .due = BASSOONSUN_NUMBER_OUT_OF_RANGE, .dry = 0},
    {SILL, .what = "sill: dry depth 65", .due = BASSOONSUN_NUMBER_OUT_OF_RANGE, .dry = 65},
    {SILL, .what = "sill: dry depth 4294967295", .due = BASSOONSUN_NUMBER_OUT_OF_RANGE, .dry = UINT32_MAX},
    {SILL, .what = "sill: left end 2", .due = BASSOONSUN_NUMBER_OUT_OF_RANGE, .left = BASSOONSUN_INFLOW},
    {SILL, .what = "sill: right end 2", .due = BASSOONSUN_NUMBER_OUT_OF_RANGE, .right = BASSOONSUN_INFLOW},
    {SILL, .what = "sill: left end 4294967295", .due = BASSOONSUN_NUMBER_OUT_OF_RANGE, .left = UINT32_MAX},
    {SILL, .what = "sill: bed below nought", .due = BASSOONSUN_BED_OUT_OF_RANGE, .place = AT_BED, .spot_bed = -1},
    {SILL, .what = "sill: bed too high", .due = BASSOONSUN_BED_OUT_OF_RANGE, .place = AT_BED, .spot_bed = 1048577},
    {SILL, .what = "sill: friction 201", .due = BASSOONSUN_FRICTION_OUT_OF_RANGE, .place = AT_CELL,
     .spot_friction = 201},
    {SILL, .what = "sill: level below the bed", .due = BASSOONSUN_STATE_OUT_OF_RANGE, .place = AT_CELL,
     .spot_level = 127},
    {SILL, .what = "sill: level too high", .due = BASSOONSUN_STATE_OUT_OF_RANGE, .place = AT_CELL,
     .spot_level = 128 + 262145},
    {SILL, .what = "sill: discharge too large", .due = BASSOONSUN_STATE_OUT_OF_RANGE, .place = AT_CELL,
     .spot_discharge = 8388609},
    {SILL, .what = "sill: water too fast", .due = BASSOONSUN_WATER_TOO_FAST, .place = AT_CELL,
     .spot_discharge = 8388608},
    {SILL, .what = "sill: time step too long", .due = BASSOONSUN_TIME_STEP_TOO_LONG, .place = AT_0, .dt = 4096},
    {SILL, .what = "sill: time step too long at the spot", .due = BASSOONSUN_TIME_STEP_TOO_LONG, .place = AT_CELL,
     .spot_discharge = 60000},
};

/* The faces and the root. Their tables are fenced too, and change only where 0 is given. */
static void try_faces(int at_end)
{
    Fenced whole = fence(4 * sizeof(int64_t), at_end), real = fence(4 * sizeof(double), at_end);
    Fenced one = fence(sizeof(double), at_end);
    int64_t *flux = whole.first;
    double *parts = real.first, *root = one.first;
    for (int i = 0; i < 4; i++)
        flux[i] = parts[i] = MARK;
    root[0] = MARK;
#define MARKED(t) ((t)[0] == MARK && (t)[1] == MARK && (t)[2] == MARK && (t)[3] == MARK)
    check(bassoonsun_face(-1, 0, 4096, 0, flux) == 1 && MARKED(flux), "face refused", 0, at_end);
    check(bassoonsun_face(4096, 0, 0, 0, flux) == 0, "face given", 0, at_end);
    check(flux[0] == 8552 && flux[1] == 11184810 && flux[2] == 0 && flux[3] == 25658, "face", 0, at_end);
    check(bassoonsun_face_double(0, 0, -0.0, 0, parts) == 1 && MARKED(parts), "dry double face", 0, at_end);
    check(bassoonsun_face_double(NAN, 0, 1, 0, parts) == 2 && MARKED(parts), "double face refused", 0, at_end);
    check(bassoonsun_face_double(1, 20, 1, 20, parts) == 0, "double face given", 0, at_end);
    check(parts[0] == 20 && parts[1] == 1 && parts[2] == 400 && parts[3] > 20, "double face", 0, at_end);
    check(bassoonsun_root(-1, root) == 1 && root[0] == MARK, "root refused", 0, at_end);
    check(bassoonsun_root(2.25, root) == 0 && root[0] == 1.5, "root", 0, at_end);
    unfence(whole), unfence(real), unfence(one);
}

int main(void)
{
    static const size_t cells[] = {1, 2, 16, 17, BASSOONSUN_MOST_CELLS};
    static const Call good = {GOOD, .what = "too many cells or none", .due = BASSOONSUN_TABLES_MISFIT};
    static const Call sill = {SILL, .what = "sill: too many cells or none", .due = BASSOONSUN_TABLES_MISFIT};
    for (int at_end = 0; at_end <= 1; at_end++) {
        for (size_t k = 0; k < sizeof cells / sizeof *cells; k++) {
            for (size_t c = 0; c < sizeof calls / sizeof *calls; c++)
                try_call(&calls[c], cells[k], at_end);
            for (size_t c = 0; c < sizeof sills / sizeof *sills; c++)
                try_call(&sills[c], cells[k], at_end);
        }
        try_call(&good, 0, at_end);
        try_call(&good, BASSOONSUN_MOST_CELLS + 1, at_end);
        try_call(&sill, 0, at_end);
        try_call(&sill, BASSOONSUN_MOST_CELLS + 1, at_end);
        try_faces(at_end);
    }
    printf("%d passed, %d failed\n", passed, failed);
    return failed != 0;
}
