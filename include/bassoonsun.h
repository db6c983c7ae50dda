/* One step of shallow flow along a straight reach of equal cells, over a continuous bed or over one
 * that steps up and down between them; the water between two faces; and the flux at one face.
 *
 * Built by `make` as target/libbassoonsun.a (x86-64, System V calling convention); it needs nothing
 * of the C library but memcpy and memset. examples/leat.c shows its use, and
 * `bash examples/run` builds and runs that example; examples/fill.h fills a state from levels.
 *
 * UNITS. One unit is 1/4096 of a metre, of a second, of a m/s or of a m2/s: a level of 6144 is 1.5 m,
 * a time step of 204 is about 1/20 s. Discharge is for one metre of width, rightward positive.
 * The two functions on doubles take and give plain metres and seconds.
 *
 * WHO OWNS WHAT. Every table is the caller's, before, during and after the call. The library
 * allocates nothing, keeps no pointer once it has returned, and has no state of its own, so calls
 * from several threads do not disturb each other if what they write is not shared.
 *
 * WHAT THE CALLER SEES TO. The contracts are proved; these few things C leaves to the caller:
 * - every pointer is non-null and aligned for its type, also where the length is 0;
 * - a length counts elements, not bytes, and at least so many elements are there;
 * - a table that is written (next, sums, volumes, place, answer, flux, root) overlaps no other table
 *   of the call. now, state, bed and friction are only read, and sums by bassoonsun_between;
 * - the processor's floating point is as a program finds it: rounding to nearest, and tiny
 *   numbers not flushed to 0. Only bassoonsun_face_double and bassoonsun_root depend on it.
 * Anything else may be lent: whatever the numbers and lengths are, what does not fit is refused.
 */
#ifndef BASSOONSUN_H
#define BASSOONSUN_H

#include <stddef.h>
#include <stdint.h>

#ifdef __cplusplus
extern "C" {
#endif

/* The version of this header and of the library that goes with it. There has been no release, so the first number
 * is 0. The second changes where a program has to be changed or compiled anew, or a call is answered otherwise; the
 * third with all else. */
#define BASSOONSUN_VERSION_MAJOR 0
#define BASSOONSUN_VERSION_MINOR 1
#define BASSOONSUN_VERSION_PATCH 2
#define BASSOONSUN_VERSION "0.1.2"

/* So many units are one metre, second, m/s or m2/s, and so many cells a reach has at most. */
#define BASSOONSUN_UNIT 4096
#define BASSOONSUN_MOST_CELLS 1024

/* So many cells are a block, and what is left over at the right end of a reach is one too; and so many sums are kept of
 * n cells, one for each block, as in `int32_t sums[BASSOONSUN_SUMS(CELLS)];`. */
#define BASSOONSUN_BLOCK_CELLS 16
#define BASSOONSUN_SUMS(n) (((n) + BASSOONSUN_BLOCK_CELLS - 1) / BASSOONSUN_BLOCK_CELLS)

/* What an end of the reach is. */
enum bassoonsun_end {
    BASSOONSUN_WALL = 0,
    BASSOONSUN_OPEN = 1, /* the water outside is as deep and as fast as that at the end face */
    BASSOONSUN_INFLOW = 2 /* a given discharge comes in; not of bassoonsun_sill_step */
};

/* What a step answers, or a call of the sums: that it is accepted, or why it is refused. bassoonsun_step and
 * bassoonsun_sill_step say more of each, below, and bassoonsun_between of the last. The faces and the root answer with
 * numbers of their own. */
enum bassoonsun_refusal {
    BASSOONSUN_ACCEPTED = 0,
    BASSOONSUN_TABLES_MISFIT = 1,
    BASSOONSUN_NUMBER_OUT_OF_RANGE = 2,
    BASSOONSUN_BED_OUT_OF_RANGE = 3, /* or odd, which a stepped bed may be */
    BASSOONSUN_FRICTION_OUT_OF_RANGE = 4,
    BASSOONSUN_STATE_OUT_OF_RANGE = 5,
    BASSOONSUN_WATER_TOO_FAST = 6,
    BASSOONSUN_TIME_STEP_TOO_LONG = 7,
    BASSOONSUN_RESULT_TOO_LARGE = 8,
    BASSOONSUN_FACES_MISPLACED = 10 /* of a question; there is no 9 */
};

/* What such a call answered, in a few words to be shown to a user; also of a number that is none of those above. */
static inline const char *bassoonsun_refusal_text(uint32_t refusal)
{
    switch (refusal) {
    case BASSOONSUN_ACCEPTED: return "accepted";
    case BASSOONSUN_TABLES_MISFIT: return "the tables do not fit each other";
    case BASSOONSUN_NUMBER_OUT_OF_RANGE: return "dx, dt, J, the dry depth, an end's kind or its Q is out of range";
    case BASSOONSUN_BED_OUT_OF_RANGE: return "the bed is out of range, or odd where it is continuous";
    case BASSOONSUN_FRICTION_OUT_OF_RANGE: return "the friction value is over 200";
    case BASSOONSUN_STATE_OUT_OF_RANGE: return "a depth or a discharge of the present state is out of range";
    case BASSOONSUN_WATER_TOO_FAST: return "the water is faster than 32 m/s";
    case BASSOONSUN_TIME_STEP_TOO_LONG: return "the time step is too long for these cells";
    case BASSOONSUN_RESULT_TOO_LARGE: return "a depth or a discharge has grown too large";
    case BASSOONSUN_FACES_MISPLACED: return "the two faces are in the wrong order or beyond the reach";
    default: return "no answer of a step";
    }
}

/* One step of the water. Gives BASSOONSUN_ACCEPTED, 0, when the step is accepted, else the number of its refusal.
 *
 * The number of cells n is friction_len, 1 to BASSOONSUN_MOST_CELLS, 1024. Cell i lies between faces i and i + 1.
 *
 *   now       4n numbers, the present state, in four columns of n: the means of the level, now[0]
 *             to now[n - 1]; its slopes, from now[n] on; the means of the discharge, from now[2n]
 *             on; and its slopes, from now[3n] on. So now is the curve of the levels and now + 2n
 *             that of the discharges, a value for each cell. Cell i, which has now[i], now[n + i],
 *             now[2n + i] and now[3n + i], shows mean - slope at its left face and mean + slope at
 *             its right face. The depth at a face is the level there less the bed. Face depths are
 *             0 to 262144 (64 m), face discharges within 8388608 of nought (2048 m2/s).
 *   next      4n numbers, where the new state goes, laid out like now
 *   bed       n + 1 numbers, the bed at the faces: 0 to 1048576 (256 m), each even
 *   friction  n Manning values in 1/1000, 0 to 200
 *   dx        length of a cell, 1 to 1048576 (256 m)
 *   dt        time step, 1 to 4096 (1 s): see HOW LONG A TIME STEP, below
 *   jump      J, 0 to 262144 (64 m): at a face where the levels of two cells differ by more than
 *             J, the slopes of both are limited, unless the dry depth spares them
 *   dry       the dry depth, 1 to 64 (0.24 mm to 15.6 mm): water no deeper has no speed, is not
 *             slowed by friction, and loses its discharge at the end of a stage; and the slopes of
 *             a cell with such a mean depth, and of the cells beside it, are not limited, only cut
 *             to keep face depths from falling below 0. It still levels out where depths at a face
 *             differ. 4, about 1 mm, suits an ordinary ditch; a lined flume takes less, a reed bed
 *             more. It may be another in each step
 *   left      kind of the left end: BASSOONSUN_WALL, 0; BASSOONSUN_OPEN, 1; or BASSOONSUN_INFLOW, 2
 *   right     kind of the right end, likewise
 *   left_q    Q, the discharge that comes into the reach at the left end: 0 to 8388608 (2048 m2/s)
 *             at an end of kind 2, and 0 at a wall or an open end. At either end it is counted into
 *             the reach, never below 0. Both may be others in each step, and so may the kinds: a
 *             hydrograph is a Q for each step
 *   right_q   the same at the right end
 *   volumes   what crossed face 0 and what crossed face n, rightward positive, as depth over one
 *             cell: volumes[0] came in at the left, volumes[1] went out at the right. At a wall it
 *             is 0, and at an open end within 131072 of nought. At an end of kind 2 it is known
 *             before the step: volumes[0] is left_q*dt/dx, volumes[1] is -(right_q*dt/dx), both
 *             without their fractions. What is cut off does not come in: to lose little, choose dt
 *             so that Q*dt is a multiple of dx or just above one
 *   place     where a refused step was refused: see below. It is written by every call, with 0 when
 *             the step is accepted
 *
 * When 0 is given, all of next and both volumes are written, and the sum of the n mean depths of
 * next is that of now + volumes[0] - volumes[1], exactly. (The mean depth of a cell is the mean
 * of its level less half the sum of the bed at its two faces.)
 *
 * After a refusal next and volumes hold what they held before. The checks are made in this order,
 * each over the whole reach, and the first that applies is given; place is the lowest bed value, cell
 * or face to which it applies, counted from 0:
 *
 *   1  the tables do not fit each other: friction_len is 0 or over 1024, or now_len or next_len is
 *      not 4n, or bed_len is not n + 1. Place 0
 *   2  dx, dt, jump, dry, left, right, left_q or right_q is outside its range, or a Q is not 0 at
 *      an end of another kind than 2. Place 0
 *   3  a bed value is out of range or odd. Place: the bed value, 0 to n
 *   4  a friction value is over 200. Place: its cell, 0 to n - 1
 *   5  the present state has a face depth or a face discharge out of range. Place: the cell
 *   6  the water is faster than 32 m/s: in a cell before friction, at a face, or at a Gauss point;
 *      or Q is, at the depth of its end face, where that is over the dry depth. Place: before
 *      friction the cell, then the face, 0 to n, on either side of which the water is too fast (face
 *      0 or n for a Q), then the cell of the Gauss point
 *   7  the time step is too long for the top speed S at some face: 2*dt*S is over 4096*dx. Halve
 *      dt, say, and make the same call again. Place: the face
 *   8  after stage one, or at the end, a depth or a discharge is too large. It is never a depth
 *      below nought. Place: the cell
 *
 * Bed value i and face i lie i*dx from the left end, and cell i begins there; so place*dx is where to
 * look, also for a 6, whose place may be a face or a cell.
 *
 * 6 (at faces and Gauss points), 7 and 8 are made for stage one and then again for stage two, each of
 * them a check with a place of its own. A
 * dam break onto dry ground soon comes to a 6 or a 7, unless the dry depth takes the speed from its
 * thin front: over cells of 10 m with a Manning value of 0.030 and a dt of 0.3 s, 0.3 m of water ran
 * with 16 and not with 4, 1 m with 64 and not with 16, 3 m with none. A wave over a wet bed runs
 * between walls. An open end is for water that leaves faster than its waves run: when slower water
 * reaches it, water was seen to come in from outside, and after a wave of 0.5 m on 1 m of water the
 * level at the end rose until a 7. An inflow is for water at its end that runs slower than its waves:
 * it gives a discharge and no depth, and in faster water the depth there drifted, mostly to a 7. Onto
 * dry ground a sudden inflow mostly comes to a 7 at once; over the cells above, one that rose for a
 * minute to 0.1 m2/s ran with a dry depth of 4, to 0.5 with 16 and to 1 with 64. These are trials of
 * the rules and no theorems.
 *
 * FROM THE OTHER END. A reach may be entered from either end. Reverse bed, friction and each column of
 * now, change the signs of the level slopes and of the discharge means (the second column and the
 * third), and exchange the ends, kinds and Qs: then next is what the other call writes, turned in the
 * same way, volumes[0] is minus its volumes[1] and volumes[1] minus its volumes[0]; or both are
 * refused with one number. The place is the lowest counted from that end, and may be another place.
 *
 * HOW LONG A TIME STEP. The longest dt that is accepted is not stable: in trials a ripple grew until
 * a later step was refused. Take a third of a cell a step, which in these whole numbers is
 *
 *     dt = 4096*dx/(3*S)      or 4096, if that is less; work it in 64 bits
 *
 * S being the greatest over the reach of |u| + a, where u = 4096*q/h is the speed of water of depth
 * h and discharge q, 0 where h is at most the dry depth, and a, the speed of its waves, is the
 * square root of 40181.76*h; these are 1/4096 m/s. bassoonsun_face(h, u, h, u, flux) gives |u| + a
 * as flux[3]. Where water stands beside dry ground, count a twice; at an end of kind 2 count the
 * speed of Q at the depth there too. In 1 m of still water (h 4096, u 0) S is 12829, and cells of
 * 1 m (dx 4096) take a dt of 435.
 *
 * The call works on the stack: in about 25 KiB for a reach of at most 128 cells, and in about 170 KiB
 * for a longer one. Lend a worker thread that calls it with long reaches 512 KiB. */
uint32_t bassoonsun_step(const int32_t *now, size_t now_len, int32_t *next, size_t next_len,
                         const int32_t *bed, size_t bed_len, const uint16_t *friction,
                         size_t friction_len, uint32_t dx, uint32_t dt, uint32_t jump, uint32_t dry,
                         uint32_t left, uint32_t right, uint32_t left_q, uint32_t right_q,
                         int64_t volumes[2], uint32_t place[1]);

/* The numbers of one step, to be filled by name, since in a row they are easily exchanged:
 *
 *     struct bassoonsun_call call = {.dx = 4096, .dt = 317, .jump = 64, .dry = 4,
 *                                    .left = BASSOONSUN_INFLOW, .left_q = 2048};
 *
 * A field that is not named is 0: an end is then a wall, and a dx, a dt or a dry depth that was
 * forgotten is refused with 2. (C++ before C++20: `bassoonsun_call call = {};`, then `call.dx = 4096;`
 * and so on.) */
struct bassoonsun_call {
    uint32_t dx, dt, jump, dry, left, right, left_q, right_q;
};

/* bassoonsun_step with its numbers from a struct; all that is said there holds. */
static inline uint32_t bassoonsun_step_call(const int32_t *now, size_t now_len, int32_t *next, size_t next_len,
                                            const int32_t *bed, size_t bed_len, const uint16_t *friction,
                                            size_t friction_len, struct bassoonsun_call call,
                                            int64_t volumes[2], uint32_t place[1])
{
    return bassoonsun_step(now, now_len, next, next_len, bed, bed_len, friction, friction_len, call.dx, call.dt,
                           call.jump, call.dry, call.left, call.right, call.left_q, call.right_q, volumes, place);
}

/* THE WATER BETWEEN TWO FACES. Beside a state a table of sums may be kept: for every sixteen cells, and for those left
 * over at the right end, the sum of their mean depths. bassoonsun_sums makes it of a state, bassoonsun_step_sums keeps
 * it from step to step, and bassoonsun_between asks it how much water there is between two faces. So the answer takes
 * few numbers however far apart the faces are, and may be worked anew while a marker is moved.
 *
 * Where sums are made or asked, n, 1 to BASSOONSUN_MOST_CELLS, is bed_len - 1; in the step it is friction_len.
 * A table of sums has BASSOONSUN_SUMS(n) numbers, (n + 15)/16: sums[k] is that of cells 16k to 16k + 15, as far as the
 * reach goes. Water is counted as depth over one cell, as volumes are: times dx, and twice divided by 4096, it is m3
 * for one metre of width. */

/* The sums of a state. Gives 0 and writes all of sums; else the number of a refusal, and sums is as it was:
 *
 *   1  the tables do not fit each other: bed_len is under 2 or over 1025, or state_len is not 4n, or sums_len
 *      is not BASSOONSUN_SUMS(n)
 *   3  a bed value is out of range or odd
 *   5  the state has a face depth or a face discharge out of range
 *
 *   state     4n numbers, laid out like now of bassoonsun_step
 *   bed       n + 1 numbers, the bed at the faces
 *   sums      where the sums go; each is 0 to 4194304
 *
 * It is called once, for the state that a run begins with, or where a state comes from elsewhere. */
uint32_t bassoonsun_sums(const int32_t *state, size_t state_len, const int32_t *bed, size_t bed_len,
                         int32_t *sums, size_t sums_len);

/* How much water there is between faces a and b, in cells a to b - 1. Gives 0 and writes answer; else the number of a
 * refusal, and answer is as it was:
 *
 *   1  the tables do not fit each other, as for bassoonsun_sums
 *   10 a is over b, or b is over n
 *
 *   state, bed, sums   a state, its bed, and the sums made of them or kept with them. They are only read, and added as
 *                      they stand: nothing in them is checked. Sums of another state are no fault here, and then the
 *                      answer is not the water
 *   a, b               faces, 0 to n; face i lies i*dx from the left end. For a = b the water is 0
 *   answer             [0] the water, the sum of the mean depths of cells a to b - 1; [1] how many cells were read for
 *                      it, at most 30; [2] how many blocks, at most 64
 *
 * What is read is each block that lies whole between the faces, a short last one too, and of the cells between them
 * those that are in no such block. */
uint32_t bassoonsun_between(const int32_t *state, size_t state_len, const int32_t *bed, size_t bed_len,
                            const int32_t *sums, size_t sums_len, uint32_t a, uint32_t b, int64_t answer[3]);

/* bassoonsun_step, which leaves in sums those of the new state; all that is said there holds.
 *
 * sums is only written, whatever it held before: when the step is accepted, all of it with what bassoonsun_sums makes
 * of next. After a refusal it is as it was, as next and volumes are. A sums_len other than BASSOONSUN_SUMS(n), with
 * friction_len for n, is a 1 with place 0, before every other check. */
uint32_t bassoonsun_step_sums(const int32_t *now, size_t now_len, int32_t *next, size_t next_len,
                              const int32_t *bed, size_t bed_len, const uint16_t *friction,
                              size_t friction_len, int32_t *sums, size_t sums_len,
                              uint32_t dx, uint32_t dt, uint32_t jump, uint32_t dry,
                              uint32_t left, uint32_t right, uint32_t left_q, uint32_t right_q,
                              int64_t volumes[2], uint32_t place[1]);

/* bassoonsun_step_sums with its numbers from a struct. */
static inline uint32_t bassoonsun_step_sums_call(const int32_t *now, size_t now_len, int32_t *next, size_t next_len,
                                                 const int32_t *bed, size_t bed_len, const uint16_t *friction,
                                                 size_t friction_len, int32_t *sums, size_t sums_len,
                                                 struct bassoonsun_call call, int64_t volumes[2], uint32_t place[1])
{
    return bassoonsun_step_sums(now, now_len, next, next_len, bed, bed_len, friction, friction_len, sums, sums_len,
                                call.dx, call.dt, call.jump, call.dry, call.left, call.right, call.left_q, call.right_q,
                                volumes, place);
}

/* A STEPPED BED. The wall of a weir and the sill of a lock stand upright. The bed of bassoonsun_step does so nowhere:
 * it is continuous, sloping through each cell and running on into the next. Here a cell has one bed value, one level
 * and one discharge, and between two cells the bed steps up or down by whatever their values differ. At a face the
 * higher of the two beds counts: a cell shows there the depth of its level over that bed, and none where the level is
 * lower; its speed is that of its own depth. So water that is lower than a sill beside it stays behind it, and what
 * crosses the sill is what stands over it. The scheme is of first order, in one stage, and smears a wave more than
 * bassoonsun_step does over the same cells.
 *
 * One step of it. Gives BASSOONSUN_ACCEPTED, 0, when the step is accepted, else the number of its refusal. The number
 * of cells n is friction_len, 1 to BASSOONSUN_MOST_CELLS, 1024. Cell i lies between faces i and i + 1.
 *
 *   now       2n numbers, the present state, in two columns of n: the levels, now[0] to now[n - 1], and the
 *             discharges, from now[n] on. The depth of cell i is now[i] - bed[i]: 0 to 262144 (64 m). A discharge is
 *             within 8388608 of nought (2048 m2/s)
 *   next      2n numbers, where the new state goes, laid out like now
 *   bed       n numbers, the bed of each cell: 0 to 1048576 (256 m), odd or even
 *   friction  n Manning values in 1/1000, 0 to 200
 *   dx        length of a cell, 1 to 1048576 (256 m)
 *   dt        time step, 1 to 4096 (1 s): see HOW LONG A TIME STEP, above
 *   dry       the dry depth, 1 to 64 (0.24 mm to 15.6 mm): water no deeper has no speed, is not slowed by friction, and
 *             has no discharge at the end of the step. It may be another in each step
 *   left      kind of the left end: BASSOONSUN_WALL, 0, or BASSOONSUN_OPEN, 1; there is no inflow. The cell shows all
 *             of its depth there
 *   right     kind of the right end, likewise
 *   volumes   what crossed face 0 and what crossed face n, rightward positive, as depth over one cell: volumes[0] came
 *             in at the left, volumes[1] went out at the right. At a wall it is 0
 *   place     where a refused step was refused: see below. It is written by every call, with 0 when the step is
 *             accepted
 *
 * When 0 is given, all of next and both volumes are written, and the sum of the n depths of next is that of
 * now + volumes[0] - volumes[1], exactly. Where there is no discharge, and at each inner face both cells show one
 * depth, next is now: so is a lake over sills and around islands, and so are pools of other levels that dry ground
 * parts.
 *
 * After a refusal next and volumes hold what they held before. The checks are made in this order, each over the whole
 * reach, and the first that applies is given; place is the lowest cell or face to which it applies, counted from 0:
 *
 *   1  the tables do not fit each other: friction_len is 0 or over 1024, or now_len or next_len is not 2n, or bed_len
 *      is not n. Place 0
 *   2  dx, dt, dry, left or right is outside its range; so is an end of kind 2. Place 0
 *   3  a bed value is out of range; an odd one is not. Place: its cell, 0 to n - 1
 *   4  a friction value is over 200. Place: its cell
 *   5  the present state has a depth or a discharge out of range. Place: the cell
 *   6  the water of a cell that is deeper than the dry depth is faster than 32 m/s, before friction. Place: the cell.
 *      (After friction the speeds at the faces are held to the same, with the face as the place; but friction makes no
 *      water faster, so none is refused there)
 *   7  the time step is too long for the top speed S at some face: 2*dt*S is over 4096*dx. Halve dt, say, and make the
 *      same call again. Place: the face, 0 to n
 *   8  at the end of the step a depth or a discharge is too large. It is never a depth below nought, and not a
 *      discharge that the dry depth takes away. Place: the cell
 *
 * Face i lies i*dx from the left end, and cell i begins there; so place*dx is where to look.
 *
 * Lend a worker thread that calls it with long reaches 512 KiB of stack here too. */
uint32_t bassoonsun_sill_step(const int32_t *now, size_t now_len, int32_t *next, size_t next_len,
                              const int32_t *bed, size_t bed_len, const uint16_t *friction, size_t friction_len,
                              uint32_t dx, uint32_t dt, uint32_t dry, uint32_t left, uint32_t right,
                              int64_t volumes[2], uint32_t place[1]);

/* The numbers of one such step, to be filled by name, as struct bassoonsun_call is. */
struct bassoonsun_sill_call {
    uint32_t dx, dt, dry, left, right;
};

/* bassoonsun_sill_step with its numbers from a struct; all that is said there holds. */
static inline uint32_t bassoonsun_sill_step_call(const int32_t *now, size_t now_len, int32_t *next, size_t next_len,
                                                 const int32_t *bed, size_t bed_len, const uint16_t *friction,
                                                 size_t friction_len, struct bassoonsun_sill_call call,
                                                 int64_t volumes[2], uint32_t place[1])
{
    return bassoonsun_sill_step(now, now_len, next, next_len, bed, bed_len, friction, friction_len, call.dx, call.dt,
                                call.dry, call.left, call.right, volumes, place);
}

/* What crosses one face between water of depth hl and speed ul on its left and of depth hr and
 * speed ur on its right, in whole numbers. Depths 0 to 262144 (64 m), speeds within 131072 of
 * nought (32 m/s).
 *
 * Gives 0 and writes flux: [0] F, the discharge in 1/4096 m2/s; [1] K, the mean square of the depth
 * in (1/4096 m)^2, for the pressure; [2] A, the momentum carried along, in 1/4096 m3/s2; [3] S, the
 * top speed in 1/4096 m/s. Gives 1 when a depth or a speed is out of range; flux is then as it
 * was. Two dry sides are no fault: all four are 0. */
uint32_t bassoonsun_face(int64_t hl, int64_t ul, int64_t hr, int64_t ur, int64_t flux[4]);

/* The same face in double precision, in metres and seconds, each operation rounded once. Depths 0
 * to 64 (-0 is read as +0), speeds within 32 of nought.
 *
 * Gives 0 and writes flux: [0] mass (m2/s), [1] pressure, as the square of the depth (m2),
 * [2] advection (m3/s2), [3] top speed (m/s). Gives 1 when both sides are dry, and 2 when a depth or
 * a speed is out of range or is a NaN; flux is then as it was. */
uint32_t bassoonsun_face_double(double hl, double ul, double hr, double ur, double flux[4]);

/* The square root of x as IEEE 754 has it: the double nearest the exact root; -0 for -0.
 *
 * Gives 0 and writes root[0]. Gives 1 for a NaN, an infinity and what is below nought; root is
 * then as it was. */
uint32_t bassoonsun_root(double x, double root[1]);

#ifdef __cplusplus
}
#endif

#endif
