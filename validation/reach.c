/* Steps a reach read from the standard input and writes its state as it goes.
 *
 *     reach STEPS EVERY
 *     reach STEPS alike
 *     reach STEPS EVERY sills
 *
 * Read, as whole numbers parted by blanks: n dx dt J dry left right, then n + 1 beds, n Manning values
 * and 4n numbers of the state, all in the library's units and in its order; then for each step left_q and
 * right_q, of which the last given are those of all later steps too. Written, at the start and after every
 * EVERY steps: one line with what crossed face 0 and face n since the start, and the 4n numbers. With `alike`
 * every cell is given the depth, the discharge and their slopes of the middle one before each step, so that this
 * one is in the middle of a reach without ends; the line is written when a step changes no number of it. If none
 * does within STEPS steps, the run has failed. With `sills` the bed is stepped (E10): it has n values, one a cell, and
 * the state 2n; J is read and not used, and there are no inflows.
 *
 * The exit status is 0 when every step was accepted. */
#include <bassoonsun.h>
#include <inttypes.h>
#include <stdio.h>
#include <stdlib.h>
#include <string.h>

enum { MOST_CELLS = 1024, LEAST_ALIKE = 9 };

typedef struct {
    size_t cells;
    int sills;
    struct bassoonsun_call call;
    int32_t bed[MOST_CELLS + 1];
    uint16_t friction[MOST_CELLS];
    int32_t now[4 * MOST_CELLS], next[4 * MOST_CELLS];
    int64_t crossed[2]; /* face 0 and face n, all steps together */
} Reach;

/* The numbers of a state, and of a bed. */
static size_t state_of(const Reach *reach) { return (reach->sills ? 2 : 4) * reach->cells; }

static size_t bed_of(const Reach *reach) { return reach->cells + (reach->sills ? 0 : 1); }

static int read_numbers(int32_t *table, size_t count)
{
    for (size_t i = 0; i < count; i++)
        if (scanf("%" SCNd32, &table[i]) != 1)
            return 0;
    return 1;
}

static int read_friction(uint16_t *table, size_t count)
{
    for (size_t i = 0; i < count; i++)
        if (scanf("%" SCNu16, &table[i]) != 1)
            return 0;
    return 1;
}

/* Gives 1 when a whole reach was read. Only its size is judged here; the library judges the rest. */
static int read_reach(Reach *reach)
{
    struct bassoonsun_call *call = &reach->call;
    if (scanf("%zu %" SCNu32 " %" SCNu32 " %" SCNu32 " %" SCNu32 " %" SCNu32 " %" SCNu32, &reach->cells,
              &call->dx, &call->dt, &call->jump, &call->dry, &call->left, &call->right) != 7 ||
        reach->cells > MOST_CELLS)
        return 0;
    return read_numbers(reach->bed, bed_of(reach)) && read_friction(reach->friction, reach->cells) &&
           read_numbers(reach->now, state_of(reach));
}

/* The inflows of the next step; where no more are given, those of the last one stay. */
static void read_inflows(struct bassoonsun_call *call)
{
    uint32_t left, right;
    if (scanf("%" SCNu32 " %" SCNu32, &left, &right) == 2) {
        call->left_q = left;
        call->right_q = right;
    }
}

static void write_state(const Reach *reach)
{
    printf("%" PRId64 " %" PRId64, reach->crossed[0], reach->crossed[1]);
    for (size_t i = 0; i < state_of(reach); i++)
        printf(" %" PRId32, reach->now[i]);
    putchar('\n');
}

/* Writes next and the volumes where the library accepts the step. */
static uint32_t call(Reach *reach, int64_t volumes[2], uint32_t place[1])
{
    size_t n = reach->cells, state = state_of(reach);
    const struct bassoonsun_call *c = &reach->call;
    struct bassoonsun_sill_call sill = {.dx = c->dx, .dt = c->dt, .dry = c->dry, .left = c->left, .right = c->right};
    if (reach->sills)
        return bassoonsun_sill_step_call(reach->now, state, reach->next, state, reach->bed, bed_of(reach),
                                         reach->friction, n, sill, volumes, place);
    return bassoonsun_step_call(reach->now, state, reach->next, state, reach->bed, bed_of(reach), reach->friction, n, *c,
                                volumes, place);
}

/* Gives 0, or the number of the refusal and its place, and then the reach is as it was. */
static uint32_t step(Reach *reach, uint32_t place[1])
{
    int64_t volumes[2];
    uint32_t refusal = call(reach, volumes, place);
    if (refusal != 0)
        return refusal;
    memcpy(reach->now, reach->next, state_of(reach) * sizeof reach->now[0]);
    reach->crossed[0] += volumes[0];
    reach->crossed[1] += volumes[1];
    return 0;
}

/* Gives 1 and says why where step k is refused. */
static int refused(Reach *reach, long k)
{
    read_inflows(&reach->call);
    uint32_t place[1], refusal = step(reach, place);
    if (refusal == 0)
        return 0;
    fprintf(stderr, "reach: step %ld is refused with %" PRIu32 " at %" PRIu32 "\n", k, refusal, place[0]);
    return 1;
}

static int write_every(Reach *reach, long steps, long every)
{
    write_state(reach);
    for (long k = 1; k <= steps; k++) {
        if (refused(reach, k))
            return 1;
        if (k % every == 0)
            write_state(reach);
    }
    return 0;
}

/* Gives every cell what the middle one has, over its own bed. A step reads four cells on either side of a cell,
 * so with nine cells or more the ends do not reach the middle one before the next copy. */
static void copy_middle(Reach *reach)
{
    size_t n = reach->cells, middle = n / 2;
    int32_t *e0 = reach->now, *e1 = e0 + n, *q0 = e1 + n, *q1 = q0 + n, *bed = reach->bed;
    for (size_t i = 0; i < n; i++) {
        e0[i] = e0[middle] + (bed[i] + bed[i + 1] - bed[middle] - bed[middle + 1]) / 2;
        e1[i] = e1[middle] + (bed[i + 1] - bed[i] - bed[middle + 1] + bed[middle]) / 2;
        q0[i] = q0[middle];
        q1[i] = q1[middle];
    }
}

static int write_alike(Reach *reach, long steps)
{
    static int32_t before[4 * MOST_CELLS];
    size_t size = 4 * reach->cells * sizeof before[0];
    for (long k = 1; k <= steps; k++) {
        memcpy(before, reach->now, size);
        if (refused(reach, k))
            return 1;
        copy_middle(reach);
        if (memcmp(before, reach->now, size) == 0)
            return write_state(reach), 0;
    }
    return fprintf(stderr, "reach: it still moves after %ld steps\n", steps), 1;
}

int main(int argc, char **argv)
{
    static Reach reach;
    reach.sills = argc == 4 && strcmp(argv[3], "sills") == 0;
    int told = argc == 3 || reach.sills;
    long steps = told ? atol(argv[1]) : 0, every = told ? atol(argv[2]) : 0;
    int alike = argc == 3 && strcmp(argv[2], "alike") == 0;
    if (steps < 1 || (every < 1 && !alike))
        return fputs("use: reach STEPS EVERY|alike|EVERY sills <CASE\n", stderr), 2;
    if (!read_reach(&reach) || (alike && reach.cells < LEAST_ALIKE))
        return fputs("reach: the case is not as it should be\n", stderr), 2;
    return alike ? write_alike(&reach, steps) : write_every(&reach, steps, every);
}
