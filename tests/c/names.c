/* Holds each name of bassoonsun.h to what the library does, and calls each of its functions. It is C and C++ at once:
 * tests/c/run compiles it as both, strictly, the header being included first and twice; and once more with others
 * before it. The last line is 'N passed, M failed'. */
#include <bassoonsun.h>
#include <bassoonsun.h>
#include <math.h>
#include <stdio.h>
#include <string.h>

enum { CELLS = 4, ROOM = BASSOONSUN_MOST_CELLS + 1, MARK = 77 };

static int passed, failed;

static void check(int good, const char *what)
{
    if (good)
        passed++;
    else
        failed++, printf("failed: %s\n", what);
}

/* A call and all that it is lent: good water that runs rightward, until a test spoils something. */
typedef struct {
    size_t cells;
    struct bassoonsun_call call;
    struct bassoonsun_sill_call sill;
    int32_t now[4 * ROOM], next[4 * ROOM], bed[ROOM + 1], sums[BASSOONSUN_SUMS(ROOM)];
    uint16_t friction[ROOM];
    int64_t volumes[2], answer[3];
    uint32_t place;
} Lent;

static Lent lent;

/* Water 1 m deep on a flat bed between walls, with 0.1 m2/s to the right; cells of 1 m, a twentieth of a second. */
static void make_good(size_t cells)
{
    memset(&lent, 0, sizeof lent);
    lent.cells = cells;
    for (size_t i = 0; i < cells; i++) {
        lent.now[i] = BASSOONSUN_UNIT;
        lent.now[2 * cells + i] = BASSOONSUN_UNIT / 10;
    }
    lent.call.dx = BASSOONSUN_UNIT;
    lent.call.dt = BASSOONSUN_UNIT / 20;
    lent.call.jump = 64;
    lent.call.dry = 4;
    lent.call.left = lent.call.right = BASSOONSUN_WALL;
    lent.volumes[0] = lent.volumes[1] = lent.place = MARK;
    lent.sums[0] = MARK;
    lent.answer[0] = lent.answer[1] = lent.answer[2] = MARK;
}

static uint32_t step(void)
{
    size_t n = lent.cells;
    return bassoonsun_step_call(lent.now, 4 * n, lent.next, 4 * n, lent.bed, n + 1, lent.friction, n, lent.call,
                                lent.volumes, &lent.place);
}

/* The same with its numbers in a row. */
static uint32_t step_in_a_row(void)
{
    size_t n = lent.cells;
    const struct bassoonsun_call *c = &lent.call;
    return bassoonsun_step(lent.now, 4 * n, lent.next, 4 * n, lent.bed, n + 1, lent.friction, n, c->dx, c->dt, c->jump,
                           c->dry, c->left, c->right, c->left_q, c->right_q, lent.volumes, &lent.place);
}

/* Both again, keeping the sums; the first with so many of them more than fit. */
static uint32_t step_with_sums(size_t more)
{
    size_t n = lent.cells;
    return bassoonsun_step_sums_call(lent.now, 4 * n, lent.next, 4 * n, lent.bed, n + 1, lent.friction, n, lent.sums,
                                     BASSOONSUN_SUMS(n) + more, lent.call, lent.volumes, &lent.place);
}

static uint32_t step_with_sums_in_a_row(void)
{
    size_t n = lent.cells;
    const struct bassoonsun_call *c = &lent.call;
    return bassoonsun_step_sums(lent.now, 4 * n, lent.next, 4 * n, lent.bed, n + 1, lent.friction, n, lent.sums,
                                BASSOONSUN_SUMS(n), c->dx, c->dt, c->jump, c->dry, c->left, c->right, c->left_q,
                                c->right_q, lent.volumes, &lent.place);
}

/* The sums of the present state, and the water between two faces of it. */
static uint32_t make_sums(size_t more)
{
    size_t n = lent.cells;
    return bassoonsun_sums(lent.now, 4 * n, lent.bed, n + 1, lent.sums, BASSOONSUN_SUMS(n) + more);
}

static uint32_t ask(uint32_t a, uint32_t b, size_t more)
{
    size_t n = lent.cells;
    return bassoonsun_between(lent.now, 4 * n, lent.bed, n + 1, lent.sums, BASSOONSUN_SUMS(n) + more, a, b,
                              lent.answer);
}

/* The same water over a stepped bed, a sill of a quarter of a metre in its middle, and the step there in both ways. */
static void make_good_sill(size_t cells)
{
    make_good(cells);
    for (size_t i = 0; i < cells; i++) {
        lent.now[cells + i] = BASSOONSUN_UNIT / 10;
        lent.now[2 * cells + i] = 0;
    }
    lent.bed[cells / 2] = BASSOONSUN_UNIT / 4;
    lent.sill.dx = lent.call.dx;
    lent.sill.dt = lent.call.dt;
    lent.sill.dry = lent.call.dry;
    lent.sill.left = lent.sill.right = BASSOONSUN_WALL;
}

static uint32_t sill_step(void)
{
    size_t n = lent.cells;
    return bassoonsun_sill_step_call(lent.now, 2 * n, lent.next, 2 * n, lent.bed, n, lent.friction, n, lent.sill,
                                     lent.volumes, &lent.place);
}

static uint32_t sill_step_in_a_row(void)
{
    size_t n = lent.cells;
    const struct bassoonsun_sill_call *c = &lent.sill;
    return bassoonsun_sill_step(lent.now, 2 * n, lent.next, 2 * n, lent.bed, n, lent.friction, n, c->dx, c->dt, c->dry,
                                c->left, c->right, lent.volumes, &lent.place);
}

/* How many sums there are of any number of cells, and where a block ends. */
static void check_blocks(void)
{
    for (size_t n = 1; n <= BASSOONSUN_MOST_CELLS; n++) {
        make_good(n);
        check(make_sums(0) == BASSOONSUN_ACCEPTED && make_sums(1) == BASSOONSUN_TABLES_MISFIT,
              "so many sums of n cells and no more");
    }
    check(BASSOONSUN_SUMS(0) == 0, "no sums of no cells");
    make_good(BASSOONSUN_BLOCK_CELLS + 1);
    check(make_sums(0) == BASSOONSUN_ACCEPTED && lent.sums[0] == BASSOONSUN_BLOCK_CELLS * BASSOONSUN_UNIT &&
          lent.sums[1] == BASSOONSUN_UNIT, "so many cells are a block");
    check(ask(0, BASSOONSUN_BLOCK_CELLS, 0) == BASSOONSUN_ACCEPTED && lent.answer[0] == lent.sums[0] &&
          lent.answer[1] == 0 && lent.answer[2] == 1, "a block is read as one");
}

/* The step with sums, and a question of what it keeps, by the names of their answers. */
static void check_water(void)
{
    const size_t n = 2 * BASSOONSUN_BLOCK_CELLS + 1;
    make_good(n);
    check(step_with_sums(0) == BASSOONSUN_ACCEPTED && lent.sums[0] != MARK, "a step keeps the sums");
    memcpy(lent.now, lent.next, sizeof lent.now);
    check(ask(0, (uint32_t)n, 0) == BASSOONSUN_ACCEPTED && lent.answer[0] == (int64_t)n * BASSOONSUN_UNIT &&
          lent.answer[1] == 0 && lent.answer[2] == BASSOONSUN_SUMS(n), "between walls the water stays");
    check(ask(1, (uint32_t)n - 2, 0) == BASSOONSUN_ACCEPTED &&
          lent.answer[1] == 2 * BASSOONSUN_BLOCK_CELLS - 2, "cells are read where no block lies whole");
    lent.answer[0] = MARK;
    check(ask(1, 0, 0) == BASSOONSUN_FACES_MISPLACED && ask(0, (uint32_t)n + 1, 0) == BASSOONSUN_FACES_MISPLACED &&
          ask(0, 0, 1) == BASSOONSUN_TABLES_MISFIT && lent.answer[0] == MARK, "and nothing of faces that are none");
    make_good(n);
    lent.bed[1] = 1;
    check(make_sums(0) == BASSOONSUN_BED_OUT_OF_RANGE && lent.sums[0] == MARK, "no sums over an odd bed");
    make_good(n);
    lent.now[n - 1] = -1;
    check(make_sums(0) == BASSOONSUN_STATE_OUT_OF_RANGE && lent.sums[0] == MARK, "no sums of a level below the bed");
    make_good(n);
    check(step_with_sums(1) == BASSOONSUN_TABLES_MISFIT && lent.place == 0 && lent.sums[0] == MARK, "a sum too many");
}

static void check_sizes(void)
{
    make_good(BASSOONSUN_MOST_CELLS);
    check(step() == BASSOONSUN_ACCEPTED, "the most cells are accepted");
    make_good(BASSOONSUN_MOST_CELLS + 1);
    check(step() == BASSOONSUN_TABLES_MISFIT, "one cell more is refused");
}

/* The double face speaks of metres and seconds, so that it tells what one unit is. */
static void check_unit(void)
{
    int64_t whole[4];
    double metres[4], root[1];
    check(bassoonsun_face(BASSOONSUN_UNIT, 0, BASSOONSUN_UNIT, 0, whole) == 0 &&
          bassoonsun_face_double(1, 0, 1, 0, metres) == 0 && whole[3] == (int64_t)floor(BASSOONSUN_UNIT * metres[3]),
          "the waves of a metre of water are as fast in units");
    check(bassoonsun_root(9.81, root) == 0 && root[0] == metres[3], "and that fast is the root of g in metres");
}

static void check_ends(void)
{
    make_good(CELLS);
    check(step() == BASSOONSUN_ACCEPTED && lent.volumes[0] == 0 && lent.volumes[1] == 0, "nothing crosses a wall");
    make_good(CELLS);
    lent.call.right = BASSOONSUN_OPEN;
    check(step() == BASSOONSUN_ACCEPTED && lent.volumes[0] == 0 && lent.volumes[1] > 0, "water leaves by an open end");
    make_good(CELLS);
    lent.call.left = BASSOONSUN_INFLOW;
    lent.call.left_q = 2000;
    check(step() == BASSOONSUN_ACCEPTED && lent.volumes[0] == 2000 * (BASSOONSUN_UNIT / 20) / BASSOONSUN_UNIT,
          "what is given comes in at an inflow");
    make_good(CELLS);
    lent.call.left = BASSOONSUN_OPEN;
    lent.call.left_q = 2000;
    check(step() == BASSOONSUN_NUMBER_OUT_OF_RANGE, "and at no other end");
    make_good(CELLS);
    lent.call.right = BASSOONSUN_INFLOW + 1;
    check(step() == BASSOONSUN_NUMBER_OUT_OF_RANGE, "there is no fourth kind of end");
}

/* Good water of some cells, of which one thing is spoilt. */
static void spoil(uint32_t refusal)
{
    make_good(refusal == BASSOONSUN_TABLES_MISFIT ? 0 : CELLS);
    switch (refusal) {
    case BASSOONSUN_NUMBER_OUT_OF_RANGE: lent.call.dt = 0; break;
    case BASSOONSUN_BED_OUT_OF_RANGE: lent.bed[2] = 1; break;
    case BASSOONSUN_FRICTION_OUT_OF_RANGE: lent.friction[2] = 201; break;
    case BASSOONSUN_STATE_OUT_OF_RANGE: lent.now[2] = -1; break;
    case BASSOONSUN_WATER_TOO_FAST: lent.now[2 * CELLS + 2] = 40 * BASSOONSUN_UNIT; break;
    case BASSOONSUN_TIME_STEP_TOO_LONG: lent.call.dt = BASSOONSUN_UNIT; break;
    case BASSOONSUN_RESULT_TOO_LARGE: /* 64 m of still water, and more comes in */
        for (int i = 0; i < CELLS; i++) {
            lent.now[i] = 64 * BASSOONSUN_UNIT;
            lent.now[2 * CELLS + i] = 0;
        }
        lent.call.dt = BASSOONSUN_UNIT / 100;
        lent.call.left = BASSOONSUN_INFLOW;
        lent.call.left_q = BASSOONSUN_UNIT;
        break;
    default: break;
    }
}

static void check_refusals(void)
{
    for (uint32_t refusal = BASSOONSUN_ACCEPTED; refusal <= BASSOONSUN_RESULT_TOO_LARGE; refusal++) {
        spoil(refusal);
        check(step() == refusal, bassoonsun_refusal_text(refusal));
        check(lent.place != MARK && (refusal == BASSOONSUN_ACCEPTED) == (lent.volumes[0] != MARK), "what is written");
        spoil(refusal);
        check(step_in_a_row() == refusal, bassoonsun_refusal_text(refusal));
        spoil(refusal);
        check(step_with_sums(0) == refusal, bassoonsun_refusal_text(refusal));
        check((refusal == BASSOONSUN_ACCEPTED) == (lent.sums[0] != MARK), "what is written with sums");
        spoil(refusal);
        check(step_with_sums_in_a_row() == refusal, bassoonsun_refusal_text(refusal));
    }
}

/* The same over a stepped bed. An odd one is in order there, and an inflow is not. */
static void spoil_sill(uint32_t refusal)
{
    make_good_sill(refusal == BASSOONSUN_TABLES_MISFIT ? 0 : CELLS);
    switch (refusal) {
    case BASSOONSUN_ACCEPTED: lent.bed[2] = 1; break;
    case BASSOONSUN_NUMBER_OUT_OF_RANGE: lent.sill.left = BASSOONSUN_INFLOW; break;
    case BASSOONSUN_BED_OUT_OF_RANGE: lent.bed[2] = 256 * BASSOONSUN_UNIT + 1; break;
    case BASSOONSUN_FRICTION_OUT_OF_RANGE: lent.friction[2] = 201; break;
    case BASSOONSUN_STATE_OUT_OF_RANGE: lent.now[2] = lent.bed[2] - 1; break;
    case BASSOONSUN_WATER_TOO_FAST: lent.now[CELLS + 2] = 40 * BASSOONSUN_UNIT; break;
    case BASSOONSUN_TIME_STEP_TOO_LONG: lent.sill.dt = BASSOONSUN_UNIT; break;
    case BASSOONSUN_RESULT_TOO_LARGE: /* 64 m of water in one cell, and the one beside it runs there */
        for (int i = 0; i < CELLS; i++) {
            lent.now[i] = 64 * BASSOONSUN_UNIT;
            lent.now[CELLS + i] = i == 1 ? 16 * BASSOONSUN_UNIT : 0;
            lent.bed[i] = i == 2 ? 0 : BASSOONSUN_UNIT;
        }
        lent.sill.dt = BASSOONSUN_UNIT / 100;
        break;
    default: break;
    }
}

/* What of a refusal is written over a stepped bed: its place alone, which is the cell that was spoilt. */
static int told_of_sill(uint32_t refusal)
{
    int of_a_cell = refusal >= BASSOONSUN_BED_OUT_OF_RANGE && refusal != BASSOONSUN_TIME_STEP_TOO_LONG;
    return lent.place == (of_a_cell ? 2u : 0u) && (refusal == BASSOONSUN_ACCEPTED) == (lent.volumes[0] != MARK);
}

static void check_sills(void)
{
    for (uint32_t refusal = BASSOONSUN_ACCEPTED; refusal <= BASSOONSUN_RESULT_TOO_LARGE; refusal++) {
        spoil_sill(refusal);
        check(sill_step() == refusal, bassoonsun_refusal_text(refusal));
        check(told_of_sill(refusal), "what is written over a stepped bed");
        spoil_sill(refusal);
        check(sill_step_in_a_row() == refusal, bassoonsun_refusal_text(refusal));
        check(told_of_sill(refusal), "what is written over a stepped bed, its numbers in a row");
    }
    make_good_sill(BASSOONSUN_MOST_CELLS);
    check(sill_step() == BASSOONSUN_ACCEPTED, "the most cells are accepted over a stepped bed");
    make_good_sill(BASSOONSUN_MOST_CELLS + 1);
    check(sill_step() == BASSOONSUN_TABLES_MISFIT, "one cell more is refused over a stepped bed");
    make_good_sill(CELLS);
    check(sill_step() == BASSOONSUN_ACCEPTED && lent.volumes[0] == 0 && lent.volumes[1] == 0,
          "nothing crosses a wall over a stepped bed");
    make_good_sill(CELLS);
    lent.sill.right = BASSOONSUN_OPEN;
    check(sill_step() == BASSOONSUN_ACCEPTED && lent.volumes[0] == 0 && lent.volumes[1] > 0,
          "water leaves by an open end over a stepped bed");
}

/* Of every number that a call answers a text of its own, and one for all others, of which the first is 9. */
static void check_texts(void)
{
    const uint32_t none = BASSOONSUN_RESULT_TOO_LARGE + 1;
    for (uint32_t i = 0; i <= BASSOONSUN_FACES_MISPLACED; i++) {
        const char *text = bassoonsun_refusal_text(i);
        check(text != NULL && text[0] != '\0', "a text is not empty");
        for (uint32_t j = 0; j < i; j++)
            check(strcmp(text, bassoonsun_refusal_text(j)) != 0, "no two texts are equal");
    }
    check(strcmp(bassoonsun_refusal_text(UINT32_MAX), bassoonsun_refusal_text(none)) == 0 &&
          strcmp(bassoonsun_refusal_text(BASSOONSUN_FACES_MISPLACED + 1), bassoonsun_refusal_text(none)) == 0,
          "one text for all others");
}

static void check_version(void)
{
    char numbers[32];
    snprintf(numbers, sizeof numbers, "%d.%d.%d", BASSOONSUN_VERSION_MAJOR, BASSOONSUN_VERSION_MINOR,
             BASSOONSUN_VERSION_PATCH);
    check(strcmp(numbers, BASSOONSUN_VERSION) == 0, "the version in words is that in numbers");
}

int main(void)
{
    check_sizes();
    check_blocks();
    check_water();
    check_unit();
    check_ends();
    check_refusals();
    check_sills();
    check_texts();
    check_version();
    printf("%d passed, %d failed\n", passed, failed);
    return failed != 0;
}
