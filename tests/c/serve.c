/* Makes the calls that compare.py asks for, and tells it what they gave:
 *
 *     serve step|step_sums|sums|between|sill_step|face|double|root end|start <calls >answers
 *
 * All numbers are little-endian, as the library's x86-64 has them. A call of
 *
 *   step       is twelve u32: the lengths of now, next, bed and friction, then dx, dt, jump, dry,
 *              left, right, left_q and right_q; then the numbers of now, bed and friction
 *   step_sums  is the same, with the length of sums as a thirteenth u32
 *   sums       is three u32: the lengths of state, bed and sums; then the numbers of state and bed
 *   between    is five u32: the lengths of state, bed and sums, then a and b; then the numbers of all three
 *   sill_step  is nine u32: the lengths of now, next, bed and friction, then dx, dt, dry, left and right;
 *              then the numbers of now, bed and friction
 *   face       is four i64: the depth and the speed on the left, then those on the right
 *   double     is four doubles, likewise
 *   root       is one double
 *
 * and its answer is the library's own number as u32, then every table that the call may write:
 * place, next, volumes and, of a step with sums, these; the sums; the answer; the flux; or the root. They
 * are filled with MARK before the call, so that the answer shows what was written and what was not. Every
 * table lies at the end of its pages or at their start, as the second argument says. */
#define _DEFAULT_SOURCE
#include "fence.h"
#include <bassoonsun.h>
#include <string.h>

/* As a number of next or of sums, 0xA5A5A5A5 is far outside what a state may hold, and as a place, any reach; and as
 * water, 0xA5A5A5A5A5A5A5A5 is far outside what so many i32 add up to: no call writes it. */
enum { MARK = 0xA5 };

/* Reads so many bytes; gives 0 where the calls have come to their end. */
static int take(void *to, size_t bytes)
{
    size_t got = fread(to, 1, bytes, stdin);
    if (got != 0 && got != bytes) {
        fprintf(stderr, "serve: a call breaks off\n");
        exit(2);
    }
    return got == bytes;
}

static void give(const void *from, size_t bytes)
{
    if (fwrite(from, 1, bytes, stdout) != bytes) {
        perror("serve: an answer cannot be written");
        exit(2);
    }
}

/* A table that the library only reads, with the numbers that come next. */
static Fenced lent(size_t bytes, int at_end)
{
    Fenced table = fence(bytes, at_end);
    if (!take(table.first, bytes)) {
        fprintf(stderr, "serve: a table is missing\n");
        exit(2);
    }
    only_read(table);
    return table;
}

/* A table that the library may write. */
static Fenced marked(size_t bytes, int at_end)
{
    Fenced table = fence(bytes, at_end);
    memset(table.first, MARK, bytes);
    return table;
}

typedef struct {
    uint32_t now_len, next_len, bed_len, friction_len, dx, dt, jump, dry, left, right, left_q, right_q;
} StepCall;

/* A step, with sums where these are asked for: only then is their length told and the table lent. */
static void serve_each_step(int with_sums, int at_end)
{
    StepCall c;
    while (take(&c, sizeof c)) {
        uint32_t sums_len = 0;
        if (with_sums && !take(&sums_len, sizeof sums_len)) {
            fprintf(stderr, "serve: the length of the sums is missing\n");
            exit(2);
        }
        Fenced now = lent(c.now_len * sizeof(int32_t), at_end);
        Fenced bed = lent(c.bed_len * sizeof(int32_t), at_end);
        Fenced friction = lent(c.friction_len * sizeof(uint16_t), at_end);
        Fenced next = marked(c.next_len * sizeof(int32_t), at_end);
        Fenced sums = marked(sums_len * sizeof(int32_t), at_end);
        Fenced volumes = marked(2 * sizeof(int64_t), at_end);
        Fenced place = marked(sizeof(uint32_t), at_end);
        uint32_t answer =
            with_sums ? bassoonsun_step_sums(now.first, c.now_len, next.first, c.next_len,
                                             bed.first, c.bed_len, friction.first, c.friction_len, sums.first, sums_len,
                                             c.dx, c.dt, c.jump, c.dry, c.left, c.right, c.left_q, c.right_q,
                                             volumes.first, place.first)
                      : bassoonsun_step(now.first, c.now_len, next.first, c.next_len,
                                        bed.first, c.bed_len, friction.first, c.friction_len,
                                        c.dx, c.dt, c.jump, c.dry, c.left, c.right, c.left_q, c.right_q,
                                        volumes.first, place.first);
        give(&answer, sizeof answer);
        give(place.first, sizeof(uint32_t));
        give(next.first, c.next_len * sizeof(int32_t));
        give(volumes.first, 2 * sizeof(int64_t));
        give(sums.first, sums_len * sizeof(int32_t));
        fflush(stdout);      /* so that the first call without an answer is the one that faulted */
        unfence(now), unfence(bed), unfence(friction), unfence(next), unfence(sums), unfence(volumes), unfence(place);
    }
}

static void serve_steps(int at_end) { serve_each_step(0, at_end); }

static void serve_steps_with_sums(int at_end) { serve_each_step(1, at_end); }

static void serve_sums(int at_end)
{
    struct {
        uint32_t state_len, bed_len, sums_len;
    } c;
    while (take(&c, sizeof c)) {
        Fenced state = lent(c.state_len * sizeof(int32_t), at_end);
        Fenced bed = lent(c.bed_len * sizeof(int32_t), at_end);
        Fenced sums = marked(c.sums_len * sizeof(int32_t), at_end);
        uint32_t answer = bassoonsun_sums(state.first, c.state_len, bed.first, c.bed_len, sums.first, c.sums_len);
        give(&answer, sizeof answer);
        give(sums.first, c.sums_len * sizeof(int32_t));
        fflush(stdout);
        unfence(state), unfence(bed), unfence(sums);
    }
}

static void serve_questions(int at_end)
{
    struct {
        uint32_t state_len, bed_len, sums_len, a, b;
    } c;
    while (take(&c, sizeof c)) {
        Fenced state = lent(c.state_len * sizeof(int32_t), at_end);
        Fenced bed = lent(c.bed_len * sizeof(int32_t), at_end);
        Fenced sums = lent(c.sums_len * sizeof(int32_t), at_end);
        Fenced water = marked(3 * sizeof(int64_t), at_end);
        uint32_t answer = bassoonsun_between(state.first, c.state_len, bed.first, c.bed_len, sums.first, c.sums_len,
                                             c.a, c.b, water.first);
        give(&answer, sizeof answer);
        give(water.first, 3 * sizeof(int64_t));
        fflush(stdout);
        unfence(state), unfence(bed), unfence(sums), unfence(water);
    }
}

static void serve_sill_steps(int at_end)
{
    struct {
        uint32_t now_len, next_len, bed_len, friction_len, dx, dt, dry, left, right;
    } c;
    while (take(&c, sizeof c)) {
        Fenced now = lent(c.now_len * sizeof(int32_t), at_end);
        Fenced bed = lent(c.bed_len * sizeof(int32_t), at_end);
        Fenced friction = lent(c.friction_len * sizeof(uint16_t), at_end);
        Fenced next = marked(c.next_len * sizeof(int32_t), at_end);
        Fenced volumes = marked(2 * sizeof(int64_t), at_end);
        Fenced place = marked(sizeof(uint32_t), at_end);
        uint32_t answer = bassoonsun_sill_step(now.first, c.now_len, next.first, c.next_len,
                                               bed.first, c.bed_len, friction.first, c.friction_len,
                                               c.dx, c.dt, c.dry, c.left, c.right, volumes.first, place.first);
        give(&answer, sizeof answer);
        give(place.first, sizeof(uint32_t));
        give(next.first, c.next_len * sizeof(int32_t));
        give(volumes.first, 2 * sizeof(int64_t));
        fflush(stdout);
        unfence(now), unfence(bed), unfence(friction), unfence(next), unfence(volumes), unfence(place);
    }
}

static void serve_faces(int at_end)
{
    Fenced flux = fence(4 * sizeof(int64_t), at_end);
    int64_t side[4];      /* depth and speed on the left, depth and speed on the right */
    while (take(side, sizeof side)) {
        memset(flux.first, MARK, 4 * sizeof(int64_t));
        uint32_t answer = bassoonsun_face(side[0], side[1], side[2], side[3], flux.first);
        give(&answer, sizeof answer);
        give(flux.first, 4 * sizeof(int64_t));
    }
    unfence(flux);
}

static void serve_double_faces(int at_end)
{
    Fenced flux = fence(4 * sizeof(double), at_end);
    double side[4];
    while (take(side, sizeof side)) {
        memset(flux.first, MARK, 4 * sizeof(double));
        uint32_t answer = bassoonsun_face_double(side[0], side[1], side[2], side[3], flux.first);
        give(&answer, sizeof answer);
        give(flux.first, 4 * sizeof(double));
    }
    unfence(flux);
}

static void serve_roots(int at_end)
{
    Fenced root = fence(sizeof(double), at_end);
    double x;
    while (take(&x, sizeof x)) {
        memset(root.first, MARK, sizeof(double));
        uint32_t answer = bassoonsun_root(x, root.first);
        give(&answer, sizeof answer);
        give(root.first, sizeof(double));
    }
    unfence(root);
}

static const struct {
    const char *name;
    void (*serve)(int at_end);
} kinds[] = {
    {"step", serve_steps},
    {"step_sums", serve_steps_with_sums},
    {"sums", serve_sums},
    {"between", serve_questions},
    {"sill_step", serve_sill_steps},
    {"face", serve_faces},
    {"double", serve_double_faces},
    {"root", serve_roots},
};

int main(int count, char **words)
{
    int at_end = count == 3 && strcmp(words[2], "end") == 0;
    if (count == 3 && (at_end || strcmp(words[2], "start") == 0))
        for (size_t k = 0; k < sizeof kinds / sizeof *kinds; k++)
            if (strcmp(words[1], kinds[k].name) == 0) {
                kinds[k].serve(at_end);
                return fflush(stdout) != 0;
            }
    fprintf(stderr, "usage: serve step|step_sums|sums|between|sill_step|face|double|root end|start <calls >answers\n");
    return 2;
}
