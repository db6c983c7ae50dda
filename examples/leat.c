/* A flood comes down a mill leat, through a pool, over a weir and out by a chute. It is stepped through
 * bassoonsun.h, the water is counted as it goes, and at the end the water between two markers is told and the long
 * section drawn.
 *
 *     leat [--from-below] [--dt N] [FILE.svg]
 *
 * From below, the leat is entered from its lower end, as by another office: the balance and the water between the
 * markers are the same, number for number, and the section is the same from the other side.
 *
 * Each time step is a third of a cell, as bassoonsun.h advises, unless N is given, in 1/4096 s; with 500
 * a step is refused when the flood comes: the run says why, where and what to change, and the section is drawn
 * as it is then, with the place marked. With a file, the section is also written there as a picture. The exit
 * status is 0 when every step was accepted, every unit of water was found again and the picture, where one is
 * asked for, was written; 1 when not; 2 when the words above are not understood. */
#include "fill.h"
#include <bassoonsun.h>
#include <ctype.h>
#include <errno.h>
#include <stdio.h>
#include <stdlib.h>
#include <string.h>

enum {
    METRE = BASSOONSUN_UNIT, /* levels, lengths, times and discharges all count 1/4096 */
    SECOND = BASSOONSUN_UNIT,
    CELLS = 64,
    CELL_LENGTH = METRE,
    LONGEST_STEP = SECOND,
    JUMP = 64, /* slopes are limited where two cells differ by more than 1/64 m */
    DRY_DEPTH = 4, /* about 1 mm, as for an earth ditch: water no deeper has no speed */
    MANNING = 30, /* 0.030, an earth channel with some weed */
    CREST = 48, /* the face on top of the weir */
    GAUGE = 40, /* the cell whose level is told */
    UPPER_MARKER = 10 * METRE, /* chainages, from the top of the leat */
    LOWER_MARKER = 40 * METRE,
    BASE_FLOW = METRE / 5, /* 0.2 m2/s, */
    TOP_FLOW = METRE, /* and 1 m2/s at the top of the flood */
    FLOOD_COMES = 30 * SECOND,
    FLOOD_TOPS = 45 * SECOND,
    FLOOD_ENDS = 90 * SECOND,
    DRAWN = 60 * SECOND, /* when the flood is drawn */
    END = 120 * SECOND,
    EVERY = 15 * SECOND, /* a line of the balance; what is drawn falls on one */
    LINES = 16, /* of the drawing, */
    LINE_HEIGHT = METRE / 8 /* so that it shows 0 to 2 m */
};

/* Where each column begins in the library's table of a state: now + LEVEL is the curve of the levels, and
 * now[LEVEL + i] the level of cell i. */
enum { LEVEL = 0, LEVEL_SLOPE = CELLS, DISCHARGE = 2 * CELLS, DISCHARGE_SLOPE = 3 * CELLS, STATE = 4 * CELLS };
enum { SUMS = BASSOONSUN_SUMS(CELLS) };

typedef struct {
    int32_t bed[CELLS + 1];
    uint16_t friction[CELLS];
    int32_t now[STATE], next[STATE];
    int32_t sums[SUMS]; /* of now: made once, then kept by each step */
    int32_t before[STATE], flood[STATE]; /* for the drawing: when the flood comes, and in the midst of it */
    int64_t at_first, came_in, went_out; /* water, as depth over one cell */
    int32_t time;
    uint32_t refusal, place; /* of a step that was refused; 0 and 0 until then */
    const uint32_t *dt; /* the time step that is asked for, or null where each is chosen by itself */
    int from_below; /* the tables run up the leat, and its top is their right end */
} Leat;

/* How far x is up a hill of the given half width: METRE on top, 0 at its foot and beyond. */
static int32_t hill(int32_t x, int32_t top, int32_t half_width)
{
    int64_t away = x < top ? top - x : x - top;
    int64_t flat = (int64_t)half_width * half_width;
    int64_t left = flat - away * away;
    return away >= half_width ? 0 : (int32_t)(METRE * (left * left / flat) / flat);
}

/* The bed falls gently, with a pool at 20 m and a weir 0.5 m high at 48 m; behind the weir a chute falls 1 in
 * 20, so that the water leaves faster than its waves run, as an open end needs it. Places are told to hill in half
 * metres. */
static int32_t bed_height(int face)
{
    if (face > CREST)
        return bed_height(CREST) - 200 * (face - CREST);
    int32_t height = METRE / 2 - 10 * face + hill(2 * face, 2 * CREST, 24) / 2 - hill(2 * face, 40, 24) * 3 / 10;
    return height & ~1; /* the library takes even beds only: cell means are then whole */
}

/* A guess at the base flow, which rights itself before the flood: water at 1.12 m before the weir, and 0.1 m
 * of it on the chute. */
static void fill(Leat *leat)
{
    for (int i = 0; i <= CELLS; i++)
        leat->bed[i] = bed_height(i);
    for (int i = 0; i < CELLS; i++) {
        int32_t pool = METRE * 112 / 100, chute = METRE / 10;
        fill_cell(leat->now, leat->bed, CELLS, (size_t)i, i < CREST ? pool : leat->bed[i] + chute,
                  i < CREST ? pool : leat->bed[i + 1] + chute, BASE_FLOW);
        leat->friction[i] = MANNING;
    }
}

/* The leat from the other end: see FROM THE OTHER END in bassoonsun.h. */
static void turn(Leat *leat)
{
    const Leat old = *leat;
    for (int i = 0; i <= CELLS; i++)
        leat->bed[i] = old.bed[CELLS - i];
    for (int i = 0; i < CELLS; i++) {
        int j = CELLS - 1 - i;
        leat->friction[i] = old.friction[j];
        leat->now[LEVEL + i] = old.now[LEVEL + j];
        leat->now[LEVEL_SLOPE + i] = -old.now[LEVEL_SLOPE + j];
        leat->now[DISCHARGE + i] = -old.now[DISCHARGE + j];
        leat->now[DISCHARGE_SLOPE + i] = old.now[DISCHARGE_SLOPE + j];
    }
}

/* The depth at its upper end, the discharge of its lowest cell, and the level at the gauge. */
static int32_t depth_at_top(const Leat *leat)
{
    const int32_t *level = leat->now + LEVEL, *slope = leat->now + LEVEL_SLOPE;
    if (leat->from_below)
        return level[CELLS - 1] + slope[CELLS - 1] - leat->bed[CELLS];
    return level[0] - slope[0] - leat->bed[0];
}

static int32_t outflow(const Leat *leat)
{
    return leat->from_below ? -leat->now[DISCHARGE] : leat->now[DISCHARGE + CELLS - 1];
}

static int32_t gauge(const Leat *leat) { return leat->now[LEVEL + (leat->from_below ? CELLS - 1 - GAUGE : GAUGE)]; }

/* What comes in at the top of the leat, in straight lines from the base flow up and down again. */
static uint32_t hydrograph(int32_t time)
{
    int64_t more = TOP_FLOW - BASE_FLOW;
    if (time <= FLOOD_COMES || time >= FLOOD_ENDS)
        return BASE_FLOW;
    if (time <= FLOOD_TOPS)
        return (uint32_t)(BASE_FLOW + more * (time - FLOOD_COMES) / (FLOOD_TOPS - FLOOD_COMES));
    return (uint32_t)(BASE_FLOW + more * (FLOOD_ENDS - time) / (FLOOD_ENDS - FLOOD_TOPS));
}

/* Ends the run where a call is refused that never is, with the lengths and faces given here. */
static void must(uint32_t refusal)
{
    if (refusal != BASSOONSUN_ACCEPTED) {
        fprintf(stderr, "leat: %s\n", bassoonsun_refusal_text(refusal));
        exit(1);
    }
}

/* The water between two faces, counted from the top of the leat: answer[0], as depth over one cell; and how many cells
 * and blocks were read for it. */
static void ask(const Leat *leat, uint32_t upper, uint32_t lower, int64_t answer[3])
{
    uint32_t a = leat->from_below ? CELLS - lower : upper, b = leat->from_below ? CELLS - upper : lower;
    must(bassoonsun_between(leat->now, STATE, leat->bed, CELLS + 1, leat->sums, SUMS, a, b, answer));
}

static int64_t water_in_leat(const Leat *leat)
{
    int64_t answer[3];
    ask(leat, 0, CELLS, answer);
    return answer[0];
}

/* The face nearest to a chainage. */
static uint32_t face_at(int32_t chainage) { return (uint32_t)((chainage + CELL_LENGTH / 2) / CELL_LENGTH); }

static void say_between(const Leat *leat)
{
    int64_t answer[3];
    ask(leat, face_at(UPPER_MARKER), face_at(LOWER_MARKER), answer);
    printf("At %.2f s %.3f m3 stand between %d m and %d m, for one metre of width (cells read: %lld, blocks: %lld).\n",
           (double)leat->time / SECOND, (double)answer[0] / METRE * CELL_LENGTH / METRE, UPPER_MARKER / METRE,
           LOWER_MARKER / METRE, (long long)answer[1], (long long)answer[2]);
}

/* What one may do about a refusal, beside what bassoonsun.h says of it; and what its place counts. */
typedef struct {
    const char *advice, *counts;
} Refusal;

static const Refusal refusals[] = {
    [BASSOONSUN_TABLES_MISFIT] = {"Give 4n, 4n, n + 1 and n numbers, n from 1 to 1024", NULL},
    [BASSOONSUN_NUMBER_OUT_OF_RANGE] = {"See the ranges in bassoonsun.h", NULL},
    [BASSOONSUN_BED_OUT_OF_RANGE] = {"Round it to even numbers from 0 to 1048576", "bed value"},
    [BASSOONSUN_FRICTION_OUT_OF_RANGE] = {"Give Manning's n in thousandths, 30 for 0.030", "cell"},
    [BASSOONSUN_STATE_OUT_OF_RANGE] = {"Look for a level below the bed", "cell"},
    [BASSOONSUN_WATER_TOO_FAST] = {"Start with deeper water, or let the inflow rise more slowly", "face or cell"},
    [BASSOONSUN_TIME_STEP_TOO_LONG] = {"Shorten dt to 4096*dx/(3*S), or lengthen dx", "face"},
    [BASSOONSUN_RESULT_TOO_LARGE] = {"Start with less water, or bring in less", "cell"},
};

/* The refusal in words, with its place and how far that is down the leat: whatever a place counts, place cells lie
 * before it. */
static void say_place(FILE *out, const Leat *leat)
{
    const char *counts = refusals[leat->refusal].counts;
    fprintf(out, "refused %u", (unsigned)leat->refusal);
    if (counts != NULL)
        fprintf(out, " at %s %u (%.1f m)", counts, (unsigned)leat->place,
                (double)leat->place * CELL_LENGTH / METRE);
}

static int64_t speed(int64_t discharge, int64_t depth) { return depth > DRY_DEPTH ? METRE * discharge / depth : 0; }

/* S, from which bassoonsun.h takes the length of a time step: the greatest over the cells of |u| + a, the speeds of
 * the water and of its waves, and the speed of what comes in. |u| + a is the top speed of a face with the same water
 * on both sides. */
static int64_t top_speed(const Leat *leat)
{
    const int32_t *level = leat->now + LEVEL, *discharge = leat->now + DISCHARGE;
    int64_t flux[4], top = speed(hydrograph(leat->time), depth_at_top(leat));
    for (int i = 0; i < CELLS; i++) {
        int64_t h = level[i] - (leat->bed[i] + leat->bed[i + 1]) / 2, u = speed(discharge[i], h);
        if (bassoonsun_face(h, u, h, u, flux) == 0 && flux[3] > top)
            top = flux[3];
    }
    return top > 0 ? top : 1;
}

/* A third of a cell a step. */
static uint32_t stable_step(const Leat *leat)
{
    int64_t dt = (int64_t)METRE * CELL_LENGTH / (3 * top_speed(leat));
    return dt < LONGEST_STEP ? (uint32_t)dt : LONGEST_STEP;
}

/* Says what was refused and what to change; of a time step that is too long, also how long it should be. */
static void say_refused(const Leat *leat)
{
    fflush(stdout); /* so that the lines of the balance come first, in a pipe too */
    fprintf(stderr, "leat: at %.2f s ", (double)leat->time / SECOND);
    say_place(stderr, leat);
    fprintf(stderr, ": %s. %s\n", bassoonsun_refusal_text(leat->refusal), refusals[leat->refusal].advice);
    if (leat->refusal == BASSOONSUN_TIME_STEP_TOO_LONG)
        fprintf(stderr, "      S, the greatest of |u| + a, is %lld here: take --dt %u or less\n",
                (long long)top_speed(leat), (unsigned)stable_step(leat));
}

/* One step. Where it is refused, its number and place are kept, and the water is as it was. */
static void step(Leat *leat)
{
    int64_t volumes[2];
    uint32_t comes_in = hydrograph(leat->time); /* another in each step */
    struct bassoonsun_call call = {
        .dx = CELL_LENGTH,
        .dt = leat->dt != NULL ? *leat->dt : stable_step(leat),
        .jump = JUMP,
        .dry = DRY_DEPTH,
        .left = leat->from_below ? BASSOONSUN_OPEN : BASSOONSUN_INFLOW,
        .left_q = leat->from_below ? 0 : comes_in,
        .right = leat->from_below ? BASSOONSUN_INFLOW : BASSOONSUN_OPEN,
        .right_q = leat->from_below ? comes_in : 0,
    };
    leat->refusal = bassoonsun_step_sums_call(leat->now, STATE, leat->next, STATE, leat->bed, CELLS + 1, leat->friction,
                                              CELLS, leat->sums, SUMS, call, volumes, &leat->place);
    if (leat->refusal == BASSOONSUN_ACCEPTED) { /* only now do next and volumes hold anything, and sums those of next */
        memcpy(leat->now, leat->next, sizeof leat->now);
        leat->came_in += leat->from_below ? -volumes[1] : volumes[0]; /* rightward is positive */
        leat->went_out += leat->from_below ? -volumes[0] : volumes[1];
        leat->time += (int32_t)call.dt;
    }
}

/* Prints the flow and the water; gives what is missing of it, which is always 0. */
static int64_t balance(const Leat *leat)
{
    int64_t water = water_in_leat(leat);
    int64_t missing = leat->at_first + leat->came_in - leat->went_out - water;
    printf("%6.2f %8.3f %8.3f %9.3f %10lld %9lld %9lld %8lld\n", (double)leat->time / SECOND,
           (double)hydrograph(leat->time) / METRE, (double)outflow(leat) / METRE, (double)gauge(leat) / METRE,
           (long long)water, (long long)leat->came_in,
           (long long)leat->went_out, (long long)missing);
    return missing;
}

/* The sign at one point of the drawing: the bed hides what is in it. */
static char sign(const Leat *leat, int line, int i)
{
    int before = leat->before[LEVEL + i] / LINE_HEIGHT == line, flood = leat->flood[LEVEL + i] / LINE_HEIGHT == line;
    if ((leat->bed[i] + leat->bed[i + 1]) / 2 > line * LINE_HEIGHT + LINE_HEIGHT / 2)
        return '#';
    return before && flood ? '=' : flood ? '~' : before ? '-' : ' ';
}

/* Under the drawing, the place of a refusal. */
static void mark(const Leat *leat)
{
    if (refusals[leat->refusal].counts == NULL)
        return;
    printf("      %*s^ ", (int)leat->place, "");
    say_place(stdout, leat);
    putchar('\n');
}

static void draw(const Leat *leat)
{
    printf("\n  m  # bed   - level before   ~ level %s   = both\n", leat->refusal ? "when refused" : "in the flood");
    for (int line = LINES - 1; line >= 0; line--) {
        char signs[CELLS];
        int drawn = 0; /* so many signs go as far as the last that is not blank */
        for (int i = 0; i < CELLS; i++)
            if ((signs[i] = sign(leat, line, i)) != ' ')
                drawn = i + 1;
        printf("%5.3f%s%.*s\n", (double)line * LINE_HEIGHT / METRE, drawn > 0 ? " " : "", drawn, signs);
    }
    printf("      0 m%*d m\n", CELLS - 5, CELLS * CELL_LENGTH / METRE);
    mark(leat);
}

/* A point of the picture, 10 to the metre along and 100 up, 2 m at the top. */
static void point(FILE *out, int face, int32_t height)
{
    fprintf(out, "%d,%.1f ", 10 * face, 200 - 100.0 * height / METRE);
}

/* Each cell's level is a short straight line: the scheme knows its slope, so the picture shows it. */
static void levels(FILE *out, const int32_t *state)
{
    const int32_t *level = state + LEVEL, *slope = state + LEVEL_SLOPE;
    for (int i = 0; i < CELLS; i++) {
        point(out, i, level[i] - slope[i]);
        point(out, i + 1, level[i] + slope[i]);
    }
}

/* What the picture shows the bed and the two levels with; the legend shows the same. */
#define BED "fill=\"#7a6248\""
#define BEFORE "fill=\"none\" stroke=\"black\" stroke-dasharray=\"4 3\""
#define FLOOD "fill=\"none\" stroke=\"#14609c\" stroke-width=\"1.6\""

#define REFUSED "stroke=\"#b02020\" stroke-width=\"1.6\""

static void legend(FILE *out, const Leat *leat)
{
    fputs("<rect " BED " x=\"330\" y=\"-21\" width=\"24\" height=\"10\"/><text x=\"360\" y=\"-12\">bed</text>\n"
          "<path " BEFORE " d=\"M410,-16 h24\"/><text x=\"440\" y=\"-12\">level before</text>\n"
          "<path " FLOOD " d=\"M540,-16 h24\"/>", out);
    fprintf(out, "<text x=\"570\" y=\"-12\">%s</text>\n", leat->refusal ? "when refused" : "in the flood");
}

/* The place of a refusal, as a line down the picture. */
static void mark_picture(FILE *out, const Leat *leat)
{
    if (refusals[leat->refusal].counts == NULL)
        return;
    fprintf(out, "<path " REFUSED " d=\"M%u,0 v200\"/>\n", 10 * (unsigned)leat->place);
}

/* The scale of heights, with a line at each half metre. */
static void heights(FILE *out)
{
    for (int h = 0; h <= 4; h++)
        fprintf(out, "<path stroke=\"#0003\" d=\"M0,%d h%d\"/><text x=\"-6\" y=\"%d\" text-anchor=\"end\">%.1f m</text>\n",
                200 - 50 * h, 10 * CELLS, 204 - 50 * h, 0.5 * h);
}

/* The scale along the leat. */
static void distances(FILE *out)
{
    for (int m = 0; m <= CELLS * CELL_LENGTH / METRE; m += 8)
        fprintf(out, "<text x=\"%d\" y=\"216\" text-anchor=\"middle\">%d m</text>\n", 10 * m, m);
}

/* The water, the lines of the heights over it, and over both the bed and the levels. */
static void section(FILE *out, const Leat *leat)
{
    fputs("<polygon fill=\"#9cc9e8\" points=\"", out);
    levels(out, leat->flood);
    fprintf(out, "%d,200 0,200\"/>\n", 10 * CELLS);
    heights(out);
    fputs("<polygon " BED " points=\"", out);
    for (int i = 0; i <= CELLS; i++)
        point(out, i, leat->bed[i]);
    fprintf(out, "%d,200 0,200\"/>\n<polyline " FLOOD " points=\"", 10 * CELLS);
    levels(out, leat->flood);
    fputs("\"/>\n<polyline " BEFORE " points=\"", out);
    levels(out, leat->before);
    fputs("\"/>\n", out);
}

/* Gives 0 when all of the picture was written. */
static int write_svg(const Leat *leat, const char *path)
{
    FILE *out = fopen(path, "w");
    if (out == NULL)
        return 1;
    fprintf(out, "<svg xmlns=\"http://www.w3.org/2000/svg\" viewBox=\"-50 -30 %d 255\" ", 10 * CELLS + 70);
    fputs("font-family=\"sans-serif\" font-size=\"11\">\n", out);
    fprintf(out, "<rect x=\"-50\" y=\"-30\" width=\"%d\" height=\"255\" fill=\"white\"/>\n", 10 * CELLS + 70);
    fputs("<text x=\"0\" y=\"-12\">A flood comes down a leat: ", out);
    if (leat->refusal != BASSOONSUN_ACCEPTED)
        say_place(out, leat);
    else
        fprintf(out, "before it and %d s later", (DRAWN - FLOOD_COMES) / SECOND);
    fputs("</text>\n", out);
    legend(out, leat);
    section(out, leat);
    distances(out);
    mark_picture(out, leat);
    fputs("</svg>\n", out);
    int failed = ferror(out);
    return fclose(out) != 0 || failed;
}

/* What is drawn after a refusal: the water as it is, beside that before the flood where this has come. */
static void keep_refused(Leat *leat)
{
    memcpy(leat->flood, leat->now, sizeof leat->flood);
    if (leat->time < FLOOD_COMES)
        memcpy(leat->before, leat->now, sizeof leat->before);
}

/* Steps on to a time, or just past it; gives 0 when no step was refused. */
static int run_until(Leat *leat, int32_t time)
{
    while (leat->time < time) {
        step(leat);
        if (leat->refusal != BASSOONSUN_ACCEPTED)
            return say_refused(leat), keep_refused(leat), 1;
    }
    return 0;
}

/* All the steps; gives 0 when none was refused and no water was missing. */
static int run(Leat *leat)
{
    must(bassoonsun_sums(leat->now, STATE, leat->bed, CELLS + 1, leat->sums, SUMS));
    leat->at_first = water_in_leat(leat);
    printf("A flood comes down a leat of 64 m%s. Water is counted in 1/4096 m over a cell of 1 m.\n",
           leat->from_below ? ", entered from below" : "");
    puts("  time   inflow  outflow  level at   water in   came in  went out  missing\n"
         "   (s)   (m2/s)   (m2/s)  40 m (m)   the leat");
    for (int32_t time = 0; time <= END; time += EVERY) {
        if (run_until(leat, time) != 0)
            return 1;
        if (balance(leat) != 0)
            return fputs("leat: water is missing\n", stderr), 1;
        if (time == FLOOD_COMES)
            memcpy(leat->before, leat->now, sizeof leat->before);
        if (time == DRAWN)
            memcpy(leat->flood, leat->now, sizeof leat->flood);
    }
    return 0;
}

/* Reads a whole number that fits the library's 32 bits; gives 0 where the word is no such number. Which of
 * them are a time step is for the library to say. */
static int read_number(const char *word, uint32_t *number)
{
    char *end;
    errno = 0;
    unsigned long long value = strtoull(word, &end, 10);
    if (!isdigit((unsigned char)word[0]) || *end != '\0' || errno != 0 || value > UINT32_MAX)
        return 0;
    *number = (uint32_t)value;
    return 1;
}

static int usage(void)
{
    fputs("use: leat [--from-below] [--dt N] [FILE.svg]   (N, a whole number, is the time step in 1/4096 s)\n", stderr);
    return 2;
}

int main(int argc, char **argv)
{
    static Leat leat;
    const char *picture = NULL;
    uint32_t asked;
    for (int i = 1; i < argc; i++)
        if (strcmp(argv[i], "--dt") == 0) {
            if (++i == argc || !read_number(argv[i], &asked))
                return usage();
            leat.dt = &asked;
        } else if (strcmp(argv[i], "--from-below") == 0)
            leat.from_below = 1;
        else if (argv[i][0] == '-' || picture != NULL)
            return usage();
        else
            picture = argv[i];
    fill(&leat);
    if (leat.from_below)
        turn(&leat);
    int failed = run(&leat);
    say_between(&leat);
    draw(&leat);
    if (picture != NULL && write_svg(&leat, picture) != 0)
        return fprintf(stderr, "leat: %s could not be written\n", picture), 1;
    return failed;
}
