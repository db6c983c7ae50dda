/* Fills one cell of a state from the levels that it is to show at its two faces: to be copied as it is, or included.
 * examples/leat.c fills its leat with it. A level for each cell, and a discharge, is
 *
 *     for (size_t i = 0; i < n; i++)
 *         fill_cell(state, bed, n, i, level[i], level[i], discharge[i]);
 *
 * Levels that follow the bed, so that all faces are equally deep, are bed[i] + depth and bed[i + 1] + depth. */
#ifndef FILL_H
#define FILL_H

#include <stddef.h>
#include <stdint.h>

/* Fills cell i of a state of n cells over a bed of n + 1 even values, all in the library's units.
 *
 * A level that is below the bed at its face would be a depth below nought, and the call refused with
 * BASSOONSUN_STATE_OUT_OF_RANGE. So the ground is shown there instead: a cell with both levels at or below its bed is
 * dry, and a bank cell, where the level meets the ground between the faces, shows the level at its lower face and the
 * ground at its higher one. The discharge is given to a cell with water at both faces, and to no other.
 *
 * With depths of at most 64 m and a discharge within 2048 m2/s of nought the cell is in range. */
static inline void fill_cell(int32_t *state, const int32_t *bed, size_t n, size_t i,
                             int32_t left, int32_t right, int32_t discharge)
{
    int64_t l = left > bed[i] ? left : bed[i], r = right > bed[i + 1] ? right : bed[i + 1];
    if ((l + r) % 2 != 0) { /* no whole mean: of the two the odd one, which is above its even bed, comes down by 1 */
        if (l % 2 != 0)
            l--;
        else
            r--;
    }
    state[i] = (int32_t)((l + r) / 2);
    state[n + i] = (int32_t)((r - l) / 2);
    state[2 * n + i] = l > bed[i] && r > bed[i + 1] ? discharge : 0;
    state[3 * n + i] = 0;
}

#endif
