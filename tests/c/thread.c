/* Measures the stack that a step takes, without sums, with them and over a stepped bed, of a short reach and of the
 * longest, and what making the sums and a question take, on threads of 512 KiB as an editor's worker thread has. What a
 * thread library keeps on a stack differs, so it is not the smallest stack that is sought: what lies below the frame of
 * the function that makes the call is filled with a pattern beforehand, and after the call all is counted from the
 * lowest word that has changed up to that frame. A call that takes more than the whole stack runs into an untouchable
 * page and ends the program. The last line is 'N passed, M failed'. */
#define _DEFAULT_SOURCE
#include "fence.h"
#include <bassoonsun.h>
#include <pthread.h>
#include <stdio.h>

enum {
    KIB = 1024,
    STACK = 512 * KIB,
    MOST_CELLS = BASSOONSUN_MOST_CELLS,
    SHORT_CELLS = 128,
    SHORT_MOST = 32 * KIB,
    NO_TABLES_MOST = 1 * KIB, /* for the calls that have no tables of their own */
    FRAME_MOST = 256 /* bytes that the frame itself may have below its address; they are not filled, and all counted */
};
#define PATTERN UINT64_C(0x9d3c51e7a6f08b42)

static int32_t now[4 * MOST_CELLS], next[4 * MOST_CELLS], bed[MOST_CELLS + 1], sums[BASSOONSUN_SUMS(MOST_CELLS)];
static uint16_t friction[MOST_CELLS];
static int64_t volumes[2], answer[3];
static uint32_t place[1];

/* The calls that are measured, each on n cells. */
static uint32_t step(size_t n)
{
    return bassoonsun_step(now, 4 * n, next, 4 * n, bed, n + 1, friction, n, 4096, 204, 64, 4,
                           BASSOONSUN_INFLOW, BASSOONSUN_OPEN, 4096, 0, volumes, place);
}

static uint32_t step_with_sums(size_t n)
{
    return bassoonsun_step_sums(now, 4 * n, next, 4 * n, bed, n + 1, friction, n, sums, BASSOONSUN_SUMS(n), 4096, 204,
                                64, 4, BASSOONSUN_INFLOW, BASSOONSUN_OPEN, 4096, 0, volumes, place);
}

/* The levels are the first column of either state, and the second is 0. */
static uint32_t sill_step(size_t n)
{
    return bassoonsun_sill_step(now, 2 * n, next, 2 * n, bed, n, friction, n, 4096, 204, 4, BASSOONSUN_WALL,
                                BASSOONSUN_OPEN, volumes, place);
}

static uint32_t make_sums(size_t n)
{
    return bassoonsun_sums(now, 4 * n, bed, n + 1, sums, BASSOONSUN_SUMS(n));
}

static uint32_t ask(size_t n)
{
    return bassoonsun_between(now, 4 * n, bed, n + 1, sums, BASSOONSUN_SUMS(n), 1, (uint32_t)n - 1, answer);
}

typedef struct {
    uint32_t (*call)(size_t n);
    size_t cells;
    uint64_t *stack; /* its lowest word */
    uint32_t refusal;
    size_t taken; /* bytes below the address of the caller's frame, with what little the frame itself has there */
} Trial;

/* The thread: it fills its stack, which starting it has used already, and counts before it returns, so that nothing
 * else has used the stack meanwhile. */
static void *make_call(void *given)
{
    Trial *trial = given;
    size_t below = (size_t)((const char *)__builtin_frame_address(0) - (const char *)trial->stack) - FRAME_MOST;
    for (size_t i = 0; i < below / sizeof *trial->stack; i++)
        trial->stack[i] = PATTERN;
    trial->refusal = trial->call(trial->cells);
    const uint64_t *lowest = trial->stack;
    while (*lowest == PATTERN)
        lowest++;
    trial->taken = (size_t)((const char *)__builtin_frame_address(0) - (const char *)lowest);
    return NULL;
}

static void run_thread(Trial *trial)
{
    pthread_t thread;
    pthread_attr_t attributes;
    Fenced stack = fence(STACK, 0);
    trial->stack = stack.first;
    if (pthread_attr_init(&attributes) != 0 || pthread_attr_setstack(&attributes, stack.first, STACK) != 0 ||
        pthread_create(&thread, &attributes, make_call, trial) != 0 || pthread_join(thread, NULL) != 0) {
        fputs("thread: no thread with such a stack\n", stderr);
        exit(2);
    }
    pthread_attr_destroy(&attributes);
    unfence(stack);
}

/* A sloping pool that flows from its inflow toward its open end: the levels are the first column, the others are 0. */
static void fill(size_t cells)
{
    for (size_t i = 0; i < 4 * cells; i++)
        now[i] = i < cells ? 8192 - (int32_t)i : 0;
    for (size_t i = 0; i < cells; i++)
        friction[i] = 30;
}

static const struct {
    const char *what;
    uint32_t (*call)(size_t n);
    size_t cells, most; /* bytes of stack that it has to stay under */
} tried[] = {
    /* The short reach comes first, so that what the linker does in a program's first call is counted with it. */
    {"a step", step, SHORT_CELLS, SHORT_MOST},
    {"a step", step, MOST_CELLS, STACK},
    {"a step with sums", step_with_sums, SHORT_CELLS, SHORT_MOST},
    {"a step with sums", step_with_sums, MOST_CELLS, STACK},
    {"a step over a stepped bed", sill_step, SHORT_CELLS, SHORT_MOST},
    {"a step over a stepped bed", sill_step, MOST_CELLS, STACK},
    {"the sums", make_sums, MOST_CELLS, NO_TABLES_MOST},
    {"a question", ask, MOST_CELLS, NO_TABLES_MOST},
};

/* Gives 1 where the call is accepted, has written what it has to write and takes less stack than the most. */
static int try_call(size_t k)
{
    Trial trial = {.call = tried[k].call, .cells = tried[k].cells};
    fill(trial.cells);
    next[0] = 0;
    answer[2] = 0;
    if (trial.call != ask)
        sums[0] = 0;
    run_thread(&trial);
    int steps = trial.call == step || trial.call == step_with_sums || trial.call == sill_step;
    int keeps = trial.call == step_with_sums || trial.call == make_sums;
    int written = trial.call == ask ? answer[2] != 0 : (!steps || next[0] != 0) && (!keeps || sums[0] != 0);
    int passed = trial.refusal == BASSOONSUN_ACCEPTED && written && trial.taken < tried[k].most;
    printf("%s  %s of %zu cells, answer %u: %.1f KiB of stack, under %zu wanted\n", passed ? "passed" : "FAILED",
           tried[k].what, trial.cells, (unsigned)trial.refusal, (double)trial.taken / KIB, tried[k].most / KIB);
    return passed;
}

int main(void)
{
    int passed = 0, cases = sizeof tried / sizeof *tried;
    for (int k = 0; k < cases; k++)
        passed += try_call((size_t)k);
    printf("%d passed, %d failed\n", passed, cases - passed);
    return passed != cases;
}
