/* A mill pond spills over a weir into the pool below. The weir's sides are upright, so the reach is one with a stepped
 * bed, a height for each cell. It is stepped through bassoonsun.h, the water is counted as it goes, and the long section
 * drawn.
 *
 *     weir [FILE.svg]
 *
 * With a file, the section is also written there as a picture. The exit status is 0 when every step was accepted, every
 * unit of water was found again and the picture, where one is asked for, was written; 1 when not; 2 when the words above
 * are not understood. */
#include <bassoonsun.h>
#include <stdio.h>
#include <string.h>

enum {
    METRE = BASSOONSUN_UNIT, /* levels, lengths, times and discharges all count 1/4096 */
    SECOND = BASSOONSUN_UNIT,
    CELLS = 64,
    CELL_LENGTH = METRE,
    TIME_STEP = SECOND / 16, /* a third of a cell for 5.3 m/s; here the water and its waves are slower */
    DRY_DEPTH = 4, /* about 1 mm, as for an earth ditch: water no deeper has no speed */
    EARTH = 30, /* Manning values: 0.030 for earth with some weed, */
    MASONRY = 15, /* and 0.015 for the weir */
    WEIR = 32, /* the first cell of the weir, */
    POOL = 36, /* and the first one below it */
    POND_FLOOR = METRE / 2,
    CREST = METRE * 5 / 4,
    POOL_FLOOR = METRE / 4,
    POND_LEVEL = METRE * 7 / 4, /* half a metre over the crest, behind a gate that is pulled at once */
    POOL_LEVEL = METRE * 3 / 4,
    DRAWN = 20 * SECOND, /* when the section is drawn */
    END = 80 * SECOND,
    EVERY = 10 * SECOND, /* a line of the table; what is drawn falls on one */
    LINES = 16, /* of the drawing, */
    LINE_HEIGHT = METRE / 8 /* so that it shows 0 to 2 m */
};

/* Where each column begins in the library's table of a state over a stepped bed: a level and a discharge for each cell. */
enum { LEVEL = 0, DISCHARGE = CELLS, STATE = 2 * CELLS };

typedef struct {
    int32_t bed[CELLS];
    uint16_t friction[CELLS];
    int32_t now[STATE], next[STATE];
    int32_t before[STATE], flow[STATE]; /* for the drawing: before the gate is pulled, and when the water runs */
    int64_t at_first; /* water, as depth over one cell; between walls it stays */
    int32_t time;
} Pond;

/* Still water over a level piece of bed, or none: then the level is that of the ground. */
static void fill_piece(Pond *pond, int from, int to, int32_t bed, int32_t level, uint16_t friction)
{
    for (int i = from; i < to; i++) {
        pond->bed[i] = bed;
        pond->now[LEVEL + i] = level > bed ? level : bed;
        pond->now[DISCHARGE + i] = 0;
        pond->friction[i] = friction;
    }
}

static void fill(Pond *pond)
{
    fill_piece(pond, 0, WEIR, POND_FLOOR, POND_LEVEL, EARTH);
    fill_piece(pond, WEIR, POOL, CREST, POOL_LEVEL, MASONRY); /* dry: the gate stands before it */
    fill_piece(pond, POOL, CELLS, POOL_FLOOR, POOL_LEVEL, EARTH);
    memcpy(pond->before, pond->now, sizeof pond->before);
}

/* The water of the cells from one up to another, as depth over one cell. */
static int64_t water(const Pond *pond, int from, int to)
{
    int64_t sum = 0;
    for (int i = from; i < to; i++)
        sum += pond->now[LEVEL + i] - pond->bed[i];
    return sum;
}

/* The mean level of the cells from one up to another, over the bed of the first; in metres. */
static double level(const Pond *pond, int from, int to)
{
    return (pond->bed[from] + (double)water(pond, from, to) / (to - from)) / METRE;
}

/* One step; gives 0 when it is accepted, else says what was refused. */
static int step(Pond *pond)
{
    int64_t volumes[2]; /* none crosses a wall */
    uint32_t place;
    struct bassoonsun_sill_call call = {
        .dx = CELL_LENGTH,
        .dt = TIME_STEP,
        .dry = DRY_DEPTH,
        .left = BASSOONSUN_WALL,
        .right = BASSOONSUN_WALL, /* or _OPEN; over a stepped bed there is no _INFLOW */
    };
    uint32_t refusal = bassoonsun_sill_step_call(pond->now, STATE, pond->next, STATE, pond->bed, CELLS, pond->friction,
                                                 CELLS, call, volumes, &place);
    if (refusal != BASSOONSUN_ACCEPTED) {
        fflush(stdout); /* so that the lines of the table come first, in a pipe too */
        fprintf(stderr, "weir: at %.2f s refused %u at %u: %s\n", (double)pond->time / SECOND, (unsigned)refusal,
                (unsigned)place, bassoonsun_refusal_text(refusal));
        return 1;
    }
    memcpy(pond->now, pond->next, sizeof pond->now); /* only now does next hold anything */
    pond->time += TIME_STEP;
    return 0;
}

/* Prints a line and gives what is missing of the water, which is always 0. What went over the weir is what the pond
 * lost since the last line, over the time since. */
static int64_t tell(const Pond *pond, int64_t pond_at_last)
{
    int64_t all = water(pond, 0, CELLS), lost = pond_at_last - water(pond, 0, WEIR);
    printf("%6.0f %9.3f %9.3f %9.3f %9.3f %8lld %8lld\n", (double)pond->time / SECOND, level(pond, 0, WEIR),
           level(pond, 0, WEIR) - (double)CREST / METRE, (double)lost * CELL_LENGTH / EVERY / METRE,
           level(pond, POOL, CELLS), (long long)all, (long long)(pond->at_first - all));
    return pond->at_first - all;
}

/* All the steps; gives 0 when none was refused and no water was missing. */
static int run(Pond *pond)
{
    int64_t pond_at_last = water(pond, 0, WEIR);
    pond->at_first = water(pond, 0, CELLS);
    puts("A mill pond spills over its weir. Water is counted in 1/4096 m over a cell of 1 m.\n"
         "  time   pond at  over the went over   pool at    water  missing\n"
         "   (s)       (m) crest (m)    (m2/s)       (m)");
    for (;;) {
        if (pond->time % EVERY == 0) {
            if (tell(pond, pond_at_last) != 0)
                return fputs("weir: water is missing\n", stderr), 1;
            pond_at_last = water(pond, 0, WEIR);
        }
        if (pond->time == DRAWN)
            memcpy(pond->flow, pond->now, sizeof pond->flow);
        if (pond->time >= END)
            return 0;
        if (step(pond) != 0)
            return memcpy(pond->flow, pond->now, sizeof pond->flow), 1; /* the water as it is then is drawn */
    }
}

/* The sign at one point of the drawing: the bed hides what is in it. */
static char sign(const Pond *pond, int line, int i)
{
    int before = pond->before[LEVEL + i] / LINE_HEIGHT == line, flow = pond->flow[LEVEL + i] / LINE_HEIGHT == line;
    if (pond->bed[i] > line * LINE_HEIGHT + LINE_HEIGHT / 2)
        return '#';
    return before && flow ? '=' : flow ? '~' : before ? '-' : ' ';
}

static void draw(const Pond *pond)
{
    puts("\n  m  # bed   - level before   ~ level while it spills   = both");
    for (int line = LINES - 1; line >= 0; line--) {
        char signs[CELLS];
        int drawn = 0; /* so many signs go as far as the last that is not blank */
        for (int i = 0; i < CELLS; i++)
            if ((signs[i] = sign(pond, line, i)) != ' ')
                drawn = i + 1;
        printf("%5.3f%s%.*s\n", (double)line * LINE_HEIGHT / METRE, drawn > 0 ? " " : "", drawn, signs);
    }
    printf("      0 m%*d m\n", CELLS - 5, CELLS * CELL_LENGTH / METRE);
}

/* A curve of the picture, 10 to the metre along and 100 up, 2 m at the top: flat in each cell, upright between them. */
static void curve(FILE *out, const int32_t *heights)
{
    for (int i = 0; i < CELLS; i++)
        for (int face = i; face <= i + 1; face++)
            fprintf(out, "%d,%.1f ", 10 * face, 200 - 100.0 * heights[i] / METRE);
}

/* A curve and all that is below it. */
static void area(FILE *out, const char *style, const int32_t *heights)
{
    fprintf(out, "<polygon %s points=\"", style);
    curve(out, heights);
    fprintf(out, "%d,200 0,200\"/>\n", 10 * CELLS);
}

static void line(FILE *out, const char *style, const int32_t *heights)
{
    fprintf(out, "<polyline %s points=\"", style);
    curve(out, heights);
    fputs("\"/>\n", out);
}

/* The scale of heights, with a line at each half metre, and that along the reach. */
static void scales(FILE *out)
{
    for (int h = 0; h <= 4; h++)
        fprintf(out, "<path stroke=\"#0003\" d=\"M0,%d h%d\"/><text x=\"-6\" y=\"%d\" text-anchor=\"end\">%.1f m</text>\n",
                200 - 50 * h, 10 * CELLS, 204 - 50 * h, 0.5 * h);
    for (int m = 0; m <= CELLS * CELL_LENGTH / METRE; m += 8)
        fprintf(out, "<text x=\"%d\" y=\"216\" text-anchor=\"middle\">%d m</text>\n", 10 * m, m);
}

/* What the picture shows the bed and the two levels with; the legend shows the same. */
#define BED "fill=\"#7a6248\""
#define BEFORE "fill=\"none\" stroke=\"black\" stroke-dasharray=\"4 3\""
#define FLOW "fill=\"none\" stroke=\"#14609c\" stroke-width=\"1.6\""

static void legend(FILE *out)
{
    fprintf(out, "<text x=\"0\" y=\"-12\">A mill pond spills over its weir: before, and after %d s</text>\n",
            DRAWN / SECOND);
    fputs("<rect " BED " x=\"330\" y=\"-21\" width=\"24\" height=\"10\"/><text x=\"360\" y=\"-12\">bed</text>\n"
          "<path " BEFORE " d=\"M410,-16 h24\"/><text x=\"440\" y=\"-12\">level before</text>\n"
          "<path " FLOW " d=\"M530,-16 h24\"/><text x=\"560\" y=\"-12\">while it spills</text>\n", out);
}

/* Gives 0 when all of the picture was written. */
static int write_svg(const Pond *pond, const char *path)
{
    FILE *out = fopen(path, "w");
    if (out == NULL)
        return 1;
    fprintf(out, "<svg xmlns=\"http://www.w3.org/2000/svg\" viewBox=\"-50 -30 %d 255\" ", 10 * CELLS + 70);
    fputs("font-family=\"sans-serif\" font-size=\"11\">\n", out);
    fprintf(out, "<rect x=\"-50\" y=\"-30\" width=\"%d\" height=\"255\" fill=\"white\"/>\n", 10 * CELLS + 70);
    legend(out);
    area(out, "fill=\"#9cc9e8\"", pond->flow + LEVEL);
    scales(out);
    line(out, FLOW, pond->flow + LEVEL);
    line(out, BEFORE, pond->before + LEVEL);
    area(out, BED, pond->bed);
    fputs("</svg>\n", out);
    int failed = ferror(out);
    return fclose(out) != 0 || failed;
}

int main(int argc, char **argv)
{
    static Pond pond;
    if (argc > 2 || (argc == 2 && argv[1][0] == '-'))
        return fputs("use: weir [FILE.svg]\n", stderr), 2;
    fill(&pond);
    int failed = run(&pond);
    draw(&pond);
    if (argc == 2 && write_svg(&pond, argv[1]) != 0)
        return fprintf(stderr, "weir: %s could not be written\n", argv[1]), 1;
    return failed;
}
