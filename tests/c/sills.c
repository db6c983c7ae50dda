/* Steps reaches with a stepped bed for many steps, and holds what comes out to what can be said without the rules. Each
 * step is made from both ends of the reach: the one state must be the other turned round, with the volumes exchanged and
 * of the other sign, or the same number must be refused. After an accepted step the water has changed by what came in
 * less what went out, to the unit, no depth is below nought, and water at or below the dry depth has no discharge; after
 * a refused one nothing has changed. No step is refused for a state that the one before it left (5). Then lakes over
 * sills, around islands and at several levels, which must keep every number for as many steps. The last line is
 * 'N passed, M failed'. */
#include <bassoonsun.h>
#include <stdio.h>
#include <string.h>

enum { METRE = BASSOONSUN_UNIT, MOST = 64, RUNS = 1000, LAKES = 500, STEPS = 150, MARK = 77, ANSWERS = 9 };

typedef struct {
    int32_t now[2 * MOST], next[2 * MOST], bed[MOST];
    uint16_t friction[MOST];
    int64_t volumes[2];
    uint32_t place;
} Reach;

static uint64_t drawn = 88172645463325252u;

/* A random number from least to most. */
static int32_t draw(int32_t least, int32_t most)
{
    drawn ^= drawn << 13, drawn ^= drawn >> 7, drawn ^= drawn << 17;
    return least + (int32_t)((drawn >> 11) % ((uint64_t)most - (uint64_t)least + 1));
}

/* A floor with sills of up to so much on it, and water of up to so much in each cell, some of it none. */
static void fill(Reach *r, size_t n)
{
    int32_t high = draw(0, 2) > 0 ? draw(1, METRE) : draw(1, 30 * METRE), deep = draw(0, 3) > 0 ? METRE : 40;
    int32_t fast = draw(0, 2) == 0 ? 0 : METRE / 2; /* a speed, in units */
    for (size_t i = 0; i < n; i++) {
        int32_t depth = draw(0, 4) == 0 ? 0 : draw(deep / 2, deep);
        r->bed[i] = draw(0, 2) == 0 ? draw(0, high) : 0;
        r->now[i] = r->bed[i] + depth;
        r->now[n + i] = depth * draw(-fast, fast) / METRE;
        r->friction[i] = (uint16_t)draw(0, 60);
    }
}

/* The same reach, as it is entered from the other end. */
static void turn(Reach *to, const Reach *from, size_t n)
{
    for (size_t i = 0; i < n; i++) {
        size_t j = n - 1 - i;
        to->bed[i] = from->bed[j], to->friction[i] = from->friction[j];
        to->now[i] = from->now[j], to->now[n + i] = -from->now[n + j];
    }
}

static uint32_t step(Reach *r, size_t n, struct bassoonsun_sill_call call)
{
    for (size_t i = 0; i < 2 * n; i++)
        r->next[i] = MARK;
    r->volumes[0] = r->volumes[1] = MARK;
    return bassoonsun_sill_step_call(r->now, 2 * n, r->next, 2 * n, r->bed, n, r->friction, n, call, r->volumes,
                                     &r->place);
}

static int untouched(const Reach *r, size_t n)
{
    for (size_t i = 0; i < 2 * n; i++)
        if (r->next[i] != MARK)
            return 0;
    return r->volumes[0] == MARK && r->volumes[1] == MARK;
}

/* Of an accepted step: the balance, the depths, and the discharges of water no deeper than the dry depth. */
static int sound(const Reach *r, size_t n, uint32_t dry)
{
    int64_t more = r->volumes[0] - r->volumes[1];
    for (size_t i = 0; i < n; i++) {
        int32_t depth = r->next[i] - r->bed[i];
        more += (int64_t)r->now[i] - r->next[i];
        if (depth < 0 || (depth <= (int32_t)dry && r->next[n + i] != 0))
            return 0;
    }
    return more == 0;
}

static int turned(const Reach *r, const Reach *other, size_t n)
{
    for (size_t i = 0; i < n; i++)
        if (r->next[i] != other->next[n - 1 - i] || r->next[n + i] != -other->next[2 * n - 1 - i])
            return 0;
    return r->volumes[0] == -other->volumes[1] && r->volumes[1] == -other->volumes[0];
}

/* Numbers for a step; some time steps are too long. */
static struct bassoonsun_sill_call draw_call(void)
{
    struct bassoonsun_sill_call call = {
        .dx = METRE, .dt = (uint32_t)draw(1, draw(0, 3) == 0 ? 900 : 300), .dry = (uint32_t)draw(1, draw(0, 1) ? 8 : 64),
        .left = draw(0, 7) == 0 ? BASSOONSUN_OPEN : BASSOONSUN_WALL,
        .right = draw(0, 7) == 0 ? BASSOONSUN_OPEN : BASSOONSUN_WALL,
    };
    return call;
}

static int passed, failed;

static void check(int good, const char *what)
{
    good ? passed++ : failed++;
    printf("%s  %s\n", good ? "passed" : "FAILED", what);
}

/* The steps of one reach from both ends; a refused one is followed by another with other numbers. Gives how many were
 * answered otherwise than they must be. */
static size_t run(size_t n, size_t answers[ANSWERS])
{
    static Reach r, other;
    size_t wrong = 0;
    fill(&r, n);
    turn(&other, &r, n);
    for (int k = 0; k < STEPS; k++) {
        struct bassoonsun_sill_call call = draw_call(), back = call;
        back.left = call.right, back.right = call.left;
        uint32_t answer = step(&r, n, call), again = step(&other, n, back);
        answers[answer < ANSWERS ? answer : 1]++;
        wrong += answer != again;
        if (answer != BASSOONSUN_ACCEPTED || again != BASSOONSUN_ACCEPTED) {
            wrong += !untouched(&r, n) || !untouched(&other, n);
            continue;
        }
        wrong += !sound(&r, n, call.dry) || !turned(&r, &other, n) || r.place != 0;
        memcpy(r.now, r.next, sizeof r.now);
        memcpy(other.now, other.next, sizeof other.now);
    }
    return wrong;
}

static void try_runs(void)
{
    size_t answers[ANSWERS] = {0}, wrong = 0, all = 0;
    for (int k = 0; k < RUNS; k++, all += STEPS)
        wrong += run(k % 8 == 0 ? 1 : (size_t)draw(2, MOST), answers);
    printf("%d runs, %zu steps from either end: %zu accepted, refused with 6 %zu, with 7 %zu, with 8 %zu\n", RUNS, all,
           answers[BASSOONSUN_ACCEPTED], answers[BASSOONSUN_WATER_TOO_FAST], answers[BASSOONSUN_TIME_STEP_TOO_LONG],
           answers[BASSOONSUN_RESULT_TOO_LARGE]);
    check(wrong == 0, "every step balances to the unit, leaves no depth below nought, and is the same from both ends");
    check(answers[1] + answers[2] + answers[3] + answers[4] + answers[5] == 0, "none is refused for what it was lent");
    check(answers[BASSOONSUN_ACCEPTED] > all / 2 && answers[BASSOONSUN_TIME_STEP_TOO_LONG] > all / 200,
          "more than half of them are accepted, and some refused");
}

/* A lake at one level, or at another one beyond dry ground that both leave uncovered. Gives how many sills it covers and
 * how much dry ground there is, in cells. */
static void fill_lake(Reach *r, size_t n, size_t *sills, size_t *dry_ground)
{
    int32_t level = draw(0, 4 * METRE);
    for (size_t i = 0; i < n; i++) {
        if (i > 0 && r->now[i - 1] == r->bed[i - 1] && draw(0, 1))
            level = draw(0, r->bed[i - 1]);
        r->bed[i] = draw(0, 3) == 0 ? draw(level, level + METRE) : draw(level > METRE ? level - METRE : 0, level);
        r->now[i] = r->bed[i] > level ? r->bed[i] : level;
        r->now[n + i] = 0;
        r->friction[i] = 30;
        *sills += i > 0 && r->bed[i] != r->bed[i - 1] && r->now[i] == r->now[i - 1];
        *dry_ground += r->now[i] == r->bed[i];
    }
}

static void try_lakes(void)
{
    static Reach r;
    size_t sills = 0, dry_ground = 0, steps = 0, moved = 0, otherwise = 0;
    for (int k = 0; k < LAKES; k++) {
        size_t n = (size_t)draw(1, MOST);
        fill_lake(&r, n, &sills, &dry_ground);
        for (int each = 0; each < STEPS; each++) {
            uint32_t answer = step(&r, n, draw_call());
            otherwise += answer != BASSOONSUN_ACCEPTED && answer != BASSOONSUN_TIME_STEP_TOO_LONG;
            if (answer != BASSOONSUN_ACCEPTED)
                continue;
            steps++;
            moved += memcmp(r.next, r.now, 2 * n * sizeof *r.now) != 0 || r.volumes[0] != 0 || r.volumes[1] != 0;
        }
    }
    printf("%d lakes over %zu steps of the bed and around %zu dry cells: %zu steps accepted\n", LAKES, sills, dry_ground,
           steps);
    check(moved == 0 && otherwise == 0, "every lake keeps every number, or is refused with 7 alone");
    check(sills > 10 * LAKES && dry_ground > 2 * LAKES && steps > LAKES * STEPS / 2, "many of each");
}

int main(void)
{
    try_runs();
    try_lakes();
    printf("%d passed, %d failed\n", passed, failed);
    return failed != 0;
}
