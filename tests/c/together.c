/* Two threads step two reaches at the same time, a short one and one that is worked on the long tables, with refusals
 * among the steps, and ask after each for the water between two faces. In half of the turns the step keeps the sums,
 * else they are made anew. In every turn a reach of as many cells over a stepped bed is stepped too. Each thread must
 * get, call for call, what it gets when the same calls are made one after another. The last line is
 * 'N passed, M failed'. */
#define _DEFAULT_SOURCE
#include <bassoonsun.h>
#include <pthread.h>
#include <stdio.h>
#include <stdlib.h>
#include <string.h>

enum { METRE = BASSOONSUN_UNIT, ROUNDS = 8, REACHES = 2, MOST_CALLS = 2000, MOST_CELLS = 200, EVERY = 5 };

/* What one turn gave: the step's number, its place, its volumes and a number that tells one table from another; the
 * same for the table of sums, with what making them answered where they were; what the question answered; and of the
 * step over the stepped bed the same as of the other. */
typedef struct {
    uint32_t refusal, place, made, asked, sill_refusal, sill_place;
    int64_t volumes[2], answer[3], sill_volumes[2];
    uint64_t next, sums, sill_next;
} Told;

typedef struct {
    size_t cells, calls; /* so many calls that both reaches take about the same time */
    int32_t now[4 * MOST_CELLS], next[4 * MOST_CELLS], bed[MOST_CELLS + 1], sums[BASSOONSUN_SUMS(MOST_CELLS)];
    int32_t sill_now[2 * MOST_CELLS], sill_next[2 * MOST_CELLS], sill_bed[MOST_CELLS];
    uint16_t friction[MOST_CELLS];
    Told told[MOST_CALLS];
} Reach;

/* A hollow that fills from the left, with a wave in it: the reaches differ in all their numbers. */
static void fill(Reach *r)
{
    size_t n = r->cells;
    memset(r->told, 0, sizeof r->told);
    memset(r->now, 0, sizeof r->now);
    memset(r->next, 0, sizeof r->next);
    memset(r->sums, 0, sizeof r->sums);
    memset(r->sill_now, 0, sizeof r->sill_now);
    memset(r->sill_next, 0, sizeof r->sill_next);
    for (size_t i = 0; i <= n; i++)
        r->bed[i] = (int32_t)(i * 37 % 64) * 2;
    for (size_t i = 0; i < n; i++) {
        r->now[i] = METRE + (i < n / 2 ? (int32_t)n : 0);
        r->friction[i] = (uint16_t)(20 + i % 20);
        r->sill_bed[i] = (int32_t)(i % 6 == 3 ? METRE / 2 : i * 37 % 64); /* low sills */
        r->sill_now[i] = r->now[i];
    }
}

/* What is spoilt in a turn, for one refusal each; nothing in most turns. */
enum spoilt { NOTHING, END_KIND, BED, STATE, TIME_STEP };

static enum spoilt spoilt_in(size_t turn) { return turn % EVERY != 0 ? NOTHING : (enum spoilt)(1 + turn / EVERY % 4); }

static uint64_t sum_of(const int32_t *table, size_t numbers)
{
    uint64_t sum = 0;
    for (size_t i = 0; i < numbers; i++)
        sum = sum * 1099511628211u + (uint32_t)table[i];
    return sum;
}

/* A question of faces that move from turn to turn; in some turns they are out of order. */
static void ask(Reach *r, size_t turn)
{
    size_t n = r->cells;
    uint32_t a = (uint32_t)(turn * 5 % (n + 1)), b = (uint32_t)(n - turn % (n / 3));
    Told *told = &r->told[turn];
    told->asked = bassoonsun_between(r->now, 4 * n, r->bed, n + 1, r->sums, BASSOONSUN_SUMS(n), a, b, told->answer);
}

/* A step over the stepped bed, of which the same is spoilt as in the other one of the turn. */
static void make_sill_call(Reach *r, size_t turn)
{
    size_t n = r->cells;
    enum spoilt spoilt = spoilt_in(turn);
    Told *told = &r->told[turn];
    struct bassoonsun_sill_call call = {
        .dx = METRE, .dt = spoilt == TIME_STEP ? METRE : METRE / 20 - (uint32_t)(turn % 5), .dry = 4,
        .left = BASSOONSUN_WALL, .right = spoilt == END_KIND ? BASSOONSUN_INFLOW : BASSOONSUN_WALL,
    };
    int32_t bed = r->sill_bed[n - 1], level = r->sill_now[n - 1];
    r->sill_now[n + turn % n] += METRE / 20; /* as nothing comes in, it would come to rest */
    if (spoilt == BED)
        r->sill_bed[n - 1] = -1;
    if (spoilt == STATE)
        r->sill_now[n - 1] = bed - 1;
    told->sill_refusal = bassoonsun_sill_step_call(r->sill_now, 2 * n, r->sill_next, 2 * n, r->sill_bed, n, r->friction,
                                                   n, call, told->sill_volumes, &told->sill_place);
    r->sill_bed[n - 1] = bed;
    r->sill_now[n - 1] = level;
    told->sill_next = sum_of(r->sill_next, 2 * n);
    if (told->sill_refusal == BASSOONSUN_ACCEPTED)
        memcpy(r->sill_now, r->sill_next, sizeof r->sill_now);
}

static void make_call(Reach *r, size_t turn)
{
    size_t n = r->cells, keeping = turn / 3 % 2; /* so that each refusal comes with sums and without */
    enum spoilt spoilt = spoilt_in(turn);
    Told *told = &r->told[turn];
    struct bassoonsun_call call = {
        .dx = METRE, .dt = spoilt == TIME_STEP ? METRE : METRE / 20, .jump = 16, .dry = 4,
        .left = BASSOONSUN_INFLOW, .left_q = 200 + (uint32_t)(turn % 7),
        .right = spoilt == END_KIND ? BASSOONSUN_INFLOW + 1 : BASSOONSUN_WALL,
    };
    r->bed[n] += spoilt == BED; /* odd */
    r->now[n - 1] -= spoilt == STATE ? 2 * METRE : 0; /* below the bed */
    if (keeping)
        told->refusal = bassoonsun_step_sums_call(r->now, 4 * n, r->next, 4 * n, r->bed, n + 1, r->friction, n, r->sums,
                                                  BASSOONSUN_SUMS(n), call, told->volumes, &told->place);
    else
        told->refusal = bassoonsun_step_call(r->now, 4 * n, r->next, 4 * n, r->bed, n + 1, r->friction, n, call,
                                             told->volumes, &told->place);
    r->bed[n] -= spoilt == BED;
    r->now[n - 1] += spoilt == STATE ? 2 * METRE : 0;
    told->next = sum_of(r->next, 4 * n);
    if (told->refusal == BASSOONSUN_ACCEPTED)
        memcpy(r->now, r->next, sizeof r->now);
    if (!keeping)
        told->made = bassoonsun_sums(r->now, 4 * n, r->bed, n + 1, r->sums, BASSOONSUN_SUMS(n));
    told->sums = sum_of(r->sums, BASSOONSUN_SUMS(n));
    ask(r, turn);
}

static void *run(void *given)
{
    Reach *r = given;
    for (size_t turn = 0; turn < r->calls; turn++) {
        make_call(r, turn);
        make_sill_call(r, turn);
    }
    return NULL;
}

static pthread_barrier_t start;

static void *run_from_start(void *given)
{
    pthread_barrier_wait(&start);
    return run(given);
}

static void run_together(Reach *reaches)
{
    pthread_t threads[REACHES];
    for (int k = 0; k < REACHES; k++)
        if (pthread_create(&threads[k], NULL, run_from_start, &reaches[k]) != 0) {
            fputs("together: no second thread\n", stderr);
            exit(2);
        }
    for (int k = 0; k < REACHES; k++)
        pthread_join(threads[k], NULL);
}

/* How many calls of a reach were answered so. */
static size_t answered(const Reach *r, uint32_t refusal)
{
    size_t count = 0;
    for (size_t turn = 0; turn < r->calls; turn++)
        count += r->told[turn].refusal == refusal;
    return count;
}

/* How many turns the step over the stepped bed answered as the other did. */
static size_t alike(const Reach *r)
{
    size_t count = 0;
    for (size_t turn = 0; turn < r->calls; turn++)
        count += r->told[turn].sill_refusal == r->told[turn].refusal;
    return count;
}

/* Whether it still moves in the last turns. */
static int runs_on(const Reach *r)
{
    return r->told[r->calls - 2].sill_next != r->told[r->calls - 1].sill_next;
}

/* How many questions were answered, none of them after sums that were refused. */
static size_t asked(const Reach *r)
{
    size_t count = 0;
    for (size_t turn = 0; turn < r->calls; turn++)
        count += r->told[turn].asked == BASSOONSUN_ACCEPTED && r->told[turn].made == BASSOONSUN_ACCEPTED;
    return count;
}

/* Of the calls alone: enough of each answer, or the comparison would say little. */
static int try_mixture(const Reach *r)
{
    static const uint32_t refused[] = {BASSOONSUN_NUMBER_OUT_OF_RANGE, BASSOONSUN_BED_OUT_OF_RANGE,
                                       BASSOONSUN_STATE_OUT_OF_RANGE, BASSOONSUN_TIME_STEP_TOO_LONG};
    size_t least = r->calls, sum = answered(r, BASSOONSUN_ACCEPTED);
    for (size_t k = 0; k < sizeof refused / sizeof *refused; k++) {
        size_t count = answered(r, refused[k]);
        sum += count;
        if (count < least)
            least = count;
    }
    int good = sum == r->calls && least >= r->calls / (5 * EVERY) && 5 * asked(r) >= 2 * r->calls &&
               alike(r) == r->calls && runs_on(r);
    printf("%s  %zu cells, %zu calls alone: %zu accepted, the others refused with 2, 3, 5, 7, at least %zu with each; "
           "as many over a stepped bed (%zu alike); %zu questions answered\n", good ? "passed" : "FAILED", r->cells,
           r->calls, answered(r, BASSOONSUN_ACCEPTED), least, alike(r), asked(r));
    return good;
}

static int try_same(const Reach *alone, const Reach *together, int round)
{
    int good = memcmp(alone->told, together->told, sizeof alone->told) == 0 &&
               memcmp(alone->now, together->now, sizeof alone->now) == 0 &&
               memcmp(alone->sill_now, together->sill_now, sizeof alone->sill_now) == 0;
    printf("%s  %zu cells, round %d beside the other thread: every answer as when made alone\n",
           good ? "passed" : "FAILED", alone->cells, round + 1);
    return good;
}

int main(void)
{
    static Reach alone[REACHES] = {{.cells = 20, .calls = MOST_CALLS}, {.cells = MOST_CELLS, .calls = MOST_CALLS / 10}};
    static Reach together[REACHES];
    int passed = 0, cases = 0;
    memcpy(together, alone, sizeof together);
    pthread_barrier_init(&start, NULL, REACHES);
    for (int k = 0; k < REACHES; k++) {
        fill(&alone[k]);
        run(&alone[k]);
        passed += try_mixture(&alone[k]), cases++;
    }
    for (int round = 0; round < ROUNDS; round++) {
        for (int k = 0; k < REACHES; k++)
            fill(&together[k]);
        run_together(together);
        for (int k = 0; k < REACHES; k++)
            passed += try_same(&alone[k], &together[k], round), cases++;
    }
    printf("%d passed, %d failed\n", passed, cases - passed);
    return passed != cases;
}
