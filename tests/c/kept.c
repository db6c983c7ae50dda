/* Steps reaches with sums for many steps, through refusals, and holds what is kept to what can be worked otherwise.
 * Each step is also made without sums and must give the same. After an accepted one the sums are those that
 * bassoonsun_sums makes of the new state, the water of the whole reach has changed by what came in less what went out,
 * and between some faces it is that of the cells; after a refused one nothing has changed. The last line is
 * 'N passed, M failed'. */
#include <bassoonsun.h>
#include <stdio.h>
#include <string.h>

enum {
    METRE = BASSOONSUN_UNIT,
    MOST_CELLS = BASSOONSUN_MOST_CELLS,
    MOST_SUMS = BASSOONSUN_SUMS(MOST_CELLS),
    CELL_STEPS = 200000, /* of one reach, its steps times its cells; */
    MOST_STEPS = 1500, /* or so many steps, where these are fewer */
    EVERY = 9, /* of so many steps one is refused */
    QUESTIONS = 3 /* after each accepted step, besides those of the whole reach */
};

typedef struct {
    size_t n;
    int32_t now[4 * MOST_CELLS], next[4 * MOST_CELLS], bed[MOST_CELLS + 1], sums[MOST_SUMS];
    uint16_t friction[MOST_CELLS];
    size_t accepted, refused, wrong;
} Reach;

static uint64_t seed = 88172645463325252u;

static size_t drawn(size_t most)
{
    seed ^= seed << 13;
    seed ^= seed >> 7;
    seed ^= seed << 17;
    return (size_t)(seed % (most + 1));
}

static size_t blocks(const Reach *r) { return BASSOONSUN_SUMS(r->n); }

static void hold(Reach *r, int good, const char *what, size_t turn)
{
    if (!good && ++r->wrong <= 3)
        printf("wrong: %zu cells, step %zu: %s\n", r->n, turn + 1, what);
}

/* Water about 1 m deep with a wave at the left, over a bed that goes up and down. */
static void fill(Reach *r, size_t n)
{
    memset(r, 0, sizeof *r);
    r->n = n;
    for (size_t i = 0; i <= n; i++)
        r->bed[i] = (int32_t)(i * 37 % 64) * 2;
    for (size_t i = 0; i < n; i++) {
        r->now[i] = METRE + (i < n / 2 ? METRE / 8 : 0);
        r->friction[i] = (uint16_t)(20 + i % 20);
    }
}

/* The numbers of a turn: what comes in changes, and so do the kinds of the right end. Too long a dt, a wrong kind and
 * a dry depth of 0 are refused. */
static struct bassoonsun_call call_of(size_t turn)
{
    static const uint32_t kinds[] = {BASSOONSUN_WALL, BASSOONSUN_INFLOW, BASSOONSUN_OPEN};
    struct bassoonsun_call call;
    memset(&call, 0, sizeof call);
    call.dx = METRE, call.dt = METRE / 25 + (uint32_t)(turn % 5), call.jump = 16, call.dry = 1 + (uint32_t)(turn % 64);
    call.left = BASSOONSUN_INFLOW, call.left_q = (uint32_t)(turn % 200);
    call.right = kinds[turn / 7 % 3], call.right_q = call.right == BASSOONSUN_INFLOW ? (uint32_t)(turn % 90) : 0;
    if (turn % EVERY == EVERY - 1)
        switch (turn / EVERY % 3) {
        case 0: call.dt = METRE; break;
        case 1: call.left = BASSOONSUN_INFLOW + 1; break;
        default: call.dry = 0; break;
        }
    return call;
}

/* The sum of the mean depths of cells a to b - 1. */
static int64_t depths(const Reach *r, const int32_t *state, size_t a, size_t b)
{
    int64_t sum = 0;
    for (size_t i = a; i < b; i++)
        sum += state[i] - (r->bed[i] + r->bed[i + 1]) / 2;
    return sum;
}

static int64_t asked(Reach *r, size_t a, size_t b, size_t turn)
{
    int64_t answer[3] = {0, 0, 0};
    hold(r, bassoonsun_between(r->now, 4 * r->n, r->bed, r->n + 1, r->sums, blocks(r), (uint32_t)a, (uint32_t)b,
                               answer) == BASSOONSUN_ACCEPTED, "a question is refused", turn);
    return answer[0];
}

static void hold_sums(Reach *r, size_t turn)
{
    int32_t made[MOST_SUMS];
    hold(r, bassoonsun_sums(r->now, 4 * r->n, r->bed, r->n + 1, made, blocks(r)) == BASSOONSUN_ACCEPTED,
         "the sums of a state that was written are refused", turn);
    hold(r, memcmp(made, r->sums, blocks(r) * sizeof *made) == 0, "the sums kept are not those of the state", turn);
    for (int k = 0; k < QUESTIONS; k++) {
        size_t a = drawn(r->n), b = a + drawn(r->n - a);
        hold(r, asked(r, a, b, turn) == depths(r, r->now, a, b), "the water is not that of the cells", turn);
    }
}

/* One step with sums, held to the same without, and to what stood before it. */
static void step(Reach *r, size_t turn)
{
    static Reach old;
    static int32_t next[4 * MOST_CELLS];
    size_t n = r->n;
    int64_t volumes[2] = {0, 0}, same_volumes[2] = {0, 0}, before = asked(r, 0, n, turn);
    uint32_t place = 7777, same_place = 7777;
    struct bassoonsun_call call = call_of(turn);
    memcpy(next, r->next, sizeof next);
    memcpy(&old, r, sizeof old);
    uint32_t same = bassoonsun_step_call(r->now, 4 * n, next, 4 * n, r->bed, n + 1, r->friction, n, call, same_volumes,
                                         &same_place);
    uint32_t refusal = bassoonsun_step_sums_call(r->now, 4 * n, r->next, 4 * n, r->bed, n + 1, r->friction, n, r->sums,
                                                 blocks(r), call, volumes, &place);
    hold(r, refusal == same && place == same_place && volumes[0] == same_volumes[0] && volumes[1] == same_volumes[1] &&
            memcmp(next, r->next, sizeof next) == 0, "with sums another answer than without", turn);
    if (refusal != BASSOONSUN_ACCEPTED) {
        hold(r, memcmp(&old, r, sizeof old) == 0 && volumes[0] == 0 && volumes[1] == 0, "a refused step wrote", turn);
        r->refused++;
        return;
    }
    memcpy(r->now, r->next, sizeof r->now);
    r->accepted++;
    hold(r, asked(r, 0, n, turn) == before + volumes[0] - volumes[1], "the water does not balance", turn);
    hold(r, asked(r, 0, n, turn) == depths(r, r->now, 0, n), "the water is not that of all cells", turn);
    hold_sums(r, turn);
}

/* Gives 1 where all held and both accepted and refused steps came often. */
static int try_reach(size_t n)
{
    static Reach r;
    size_t steps = CELL_STEPS / n < MOST_STEPS ? CELL_STEPS / n : MOST_STEPS;
    fill(&r, n);
    hold(&r, bassoonsun_sums(r.now, 4 * n, r.bed, n + 1, r.sums, blocks(&r)) == BASSOONSUN_ACCEPTED,
         "the first sums are refused", 0);
    for (size_t turn = 0; turn < steps; turn++)
        step(&r, turn);
    int good = r.wrong == 0 && 4 * r.accepted >= 3 * steps && 12 * r.refused >= steps;
    printf("%s  %zu cells: %zu steps accepted and %zu refused, %zu wrong\n", good ? "passed" : "FAILED", n, r.accepted,
           r.refused, r.wrong);
    return good;
}

int main(void)
{
    static const size_t cells[] = {1, 2, 15, 16, 17, 32, 33, 128, 129, MOST_CELLS};
    int passed = 0, cases = sizeof cells / sizeof *cells;
    for (int k = 0; k < cases; k++)
        passed += try_reach(cells[k]);
    printf("%d passed, %d failed\n", passed, cases - passed);
    return passed != cases;
}
