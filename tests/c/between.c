/* Asks for the water between every two faces of some reaches, the longest too, also between faces that are out of order
 * and between one of them and the next beyond the reach. What is due is worked here cell by cell and block by block: a
 * block is read where all of it lies between the faces, and a cell between them where its block is not. Each reach is
 * asked twice: of a state in range with its own sums, where the water is that of the cells alone, and of tables of any
 * numbers, as wide as there are, which are added as they stand. The tables lie at the edge of pages that may not be
 * touched and are only read. The last line is 'N passed, M failed'. */
#define _DEFAULT_SOURCE
#include "fence.h"
#include <bassoonsun.h>

enum { BLOCK = BASSOONSUN_BLOCK_CELLS, DEEPEST = 64 * BASSOONSUN_UNIT, MARK = -77 };

static uint64_t seed = 88172645463325252u;

static int64_t drawn(int64_t least, int64_t most)
{
    seed ^= seed << 13;
    seed ^= seed >> 7;
    seed ^= seed << 17;
    return least + (int64_t)(seed % (uint64_t)(most - least + 1));
}

/* What a reach is lent for its questions. */
typedef struct {
    size_t n;
    Fenced state, bed, sums, answer;
} Lent;

static size_t blocks(size_t n) { return BASSOONSUN_SUMS(n); }

static Lent lend(size_t n, int at_end)
{
    return (Lent){n, fence(4 * n * sizeof(int32_t), at_end), fence((n + 1) * sizeof(int32_t), at_end),
                  fence(blocks(n) * sizeof(int32_t), at_end), fence(3 * sizeof(int64_t), at_end)};
}

static void give_back(const Lent *t) { unfence(t->state), unfence(t->bed), unfence(t->sums), unfence(t->answer); }

/* The mean depth of a cell, which C's "/" cuts toward nought; in 64 bits no numbers are too wide. */
static int64_t depth(const Lent *t, size_t i)
{
    const int32_t *state = t->state.first, *bed = t->bed.first;
    return state[i] - ((int64_t)bed[i] + bed[i + 1]) / 2;
}

/* Even beds, depths from none to the deepest, and slopes that keep both faces of a cell in range. */
static void fill_in_range(const Lent *t)
{
    int32_t *state = t->state.first, *bed = t->bed.first;
    for (size_t i = 0; i <= t->n; i++)
        bed[i] = (int32_t)drawn(0, 524288) * 2;
    for (size_t i = 0; i < t->n; i++) {
        int64_t h = drawn(0, 3) == 0 ? drawn(0, 9) : drawn(0, DEEPEST), most = h < DEEPEST - h ? h : DEEPEST - h;
        state[i] = (int32_t)(((int64_t)bed[i] + bed[i + 1]) / 2 + h);
        state[t->n + i] = (int32_t)(((int64_t)bed[i + 1] - bed[i]) / 2 + drawn(-most, most));
        state[2 * t->n + i] = state[3 * t->n + i] = 0;
    }
}

static void fill_with_any(int32_t *table, size_t numbers)
{
    static const int32_t wide[] = {INT32_MIN, INT32_MIN + 1, -3, -1, 0, 1, INT32_MAX};
    for (size_t i = 0; i < numbers; i++) {
        int64_t k = drawn(0, 13);
        table[i] = k < 7 ? wide[k] : (int32_t)drawn(INT32_MIN, INT32_MAX);
    }
}

/* What is due between faces a and b of the reach. */
static void due(const Lent *t, size_t a, size_t b, int64_t answer[3])
{
    const int32_t *sums = t->sums.first;
    int whole[BASSOONSUN_SUMS(BASSOONSUN_MOST_CELLS)];
    answer[0] = answer[1] = answer[2] = 0;
    for (size_t k = 0; k < blocks(t->n); k++) {
        size_t from = BLOCK * k, to = from + BLOCK < t->n ? from + BLOCK : t->n;
        whole[k] = a <= from && to <= b;
        if (whole[k])
            answer[0] += sums[k], answer[2]++;
    }
    for (size_t i = a; i < b; i++)
        if (!whole[i / BLOCK])
            answer[0] += depth(t, i), answer[1]++;
}

static uint32_t ask(const Lent *t, size_t a, size_t b)
{
    int64_t *answer = t->answer.first;
    answer[0] = answer[1] = answer[2] = MARK;
    return bassoonsun_between(t->state.first, 4 * t->n, t->bed.first, t->n + 1, t->sums.first, blocks(t->n),
                              (uint32_t)a, (uint32_t)b, answer);
}

static int holds(const Lent *t, size_t a, size_t b, int64_t water, int64_t cells, int64_t blocks_read)
{
    const int64_t *answer = t->answer.first;
    int good = answer[0] == water && answer[1] == cells && answer[2] == blocks_read;
    if (!good)
        printf("wrong: %zu cells, faces %zu and %zu: %lld %lld %lld given, %lld %lld %lld due\n", t->n, a, b,
               (long long)answer[0], (long long)answer[1], (long long)answer[2],
               (long long)water, (long long)cells, (long long)blocks_read);
    return good;
}

/* One question; with a state's own sums the water is the sum of the depths too, which is given. */
static int right(const Lent *t, size_t a, size_t b, const int64_t *water)
{
    int64_t wanted[3];
    if (a > b || b > t->n)
        return ask(t, a, b) == BASSOONSUN_FACES_MISPLACED && holds(t, a, b, MARK, MARK, MARK);
    due(t, a, b, wanted);
    return ask(t, a, b) == BASSOONSUN_ACCEPTED && holds(t, a, b, wanted[0], wanted[1], wanted[2]) &&
           (water == NULL || wanted[0] == *water);
}

/* Every question of a reach, with each face once beyond it; gives 1 where all are answered rightly. */
static int ask_all(const Lent *t, int own_sums, const char *what)
{
    size_t n = t->n, answered = 0, refused = 0, wrong = 0;
    for (size_t a = 0; a <= n + 1; a++) {
        int64_t water = 0; /* of the cells from a on */
        for (size_t b = 0; b <= n + 1; b++) {
            if (a < b && b <= n)
                water += depth(t, b - 1);
            wrong += !right(t, a, b, own_sums ? &water : NULL);
            a <= b && b <= n ? answered++ : refused++;
            if (wrong == 5)
                return printf("FAILED  %zu cells, %s\n", n, what), 0;
        }
    }
    int good = wrong == 0 && answered == (n + 1) * (n + 2) / 2;
    printf("%s  %zu cells, %s: %zu questions answered and %zu refused, %zu wrong\n", good ? "passed" : "FAILED", n,
           what, answered, refused, wrong);
    return good;
}

static int try_own(size_t n, int at_end)
{
    Lent t = lend(n, at_end);
    fill_in_range(&t);
    if (bassoonsun_sums(t.state.first, 4 * n, t.bed.first, n + 1, t.sums.first, blocks(n)) != BASSOONSUN_ACCEPTED)
        return printf("FAILED  %zu cells: the sums are refused\n", n), 0;
    only_read(t.state), only_read(t.bed), only_read(t.sums);
    int good = ask_all(&t, 1, "a state in range and its own sums");
    give_back(&t);
    return good;
}

static int try_any(size_t n, int at_end)
{
    Lent t = lend(n, at_end);
    fill_with_any(t.state.first, 4 * n);
    fill_with_any(t.bed.first, n + 1);
    fill_with_any(t.sums.first, blocks(n));
    only_read(t.state), only_read(t.bed), only_read(t.sums);
    int good = ask_all(&t, 0, "any numbers as they stand");
    give_back(&t);
    return good;
}

int main(void)
{
    static const size_t cells[] = {1, 15, 16, 17, 31, 32, 33, BASSOONSUN_MOST_CELLS};
    int passed = 0, cases = 0;
    for (size_t k = 0; k < sizeof cells / sizeof *cells; k++) {
        passed += try_own(cells[k], k % 2 == 0), cases++;
        passed += try_any(cells[k], k % 2 != 0), cases++;
    }
    printf("%d passed, %d failed\n", passed, cases - passed);
    return passed != cases;
}
