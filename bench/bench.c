/* Times the product beside the C of plain.c, and both beside an earlier archive where one is linked.
 *
 *   bench                        solve and the whole call of each shape, in microseconds and as ratios
 *   bench loads                  the ordinary load and the load from row counts of each shape
 *   bench before                 the same beside the earlier archive: the best of a hundred timings
 *   bench growth                 one line for each star: lines n s trials product-ns plain-ns
 *   bench compare COUNT SEED     so many random queries, every answer and every byte alike
 *   bench shapes                 the shapes, a line each; bench shapes loads those of loads
 *   bench repeat TIMES PLANNER WORK SHAPE LINES N S     so many of one, for counting instructions
 */
#define _POSIX_C_SOURCE 200809L
#include <inttypes.h>
#include <stdarg.h>
#include <stdio.h>
#include <stdlib.h>
#include <string.h>
#include <time.h>

#include "fanchuki.h"
#include "plain.h"
#include "queries.h"

/* plain.c compiled at -O3 -march=native under other names. */
int fast_load(plain_query *q, const uint8_t *file, size_t length);
int fast_load_rows(plain_query *q, const uint8_t *file, size_t length);
plain_answer fast_solve(const plain_query *q, plain_lanes cells[512], uint8_t plan[FANCHUKI_LONGEST_PLAN]);
uint64_t fast_plan(const uint8_t *query, size_t query_length, uint8_t *output, size_t output_length);

/* crates/timed: loads a query and solves it so many times; loads it so many times, the one way or the other, and solves it. */
typedef uint64_t repeated(const uint8_t *query, size_t query_length, uint64_t times);
repeated fanchuki_solves, fanchuki_loads, fanchuki_row_loads;

/* Two of an earlier revision; null where none is linked. */
uint64_t before_plan(const uint8_t *query, size_t query_length, uint8_t *output, size_t output_length) __attribute__((weak));
uint64_t before_solves(const uint8_t *query, size_t query_length, uint64_t times) __attribute__((weak));

#define SOLVES_OF(c)                                                                      \
    static uint64_t c##_solves(const uint8_t *query, size_t query_length, uint64_t times) \
    {                                                                                     \
        static plain_lanes cells[512];                                                    \
        plain_query q;                                                                    \
        uint8_t plan[FANCHUKI_LONGEST_PLAN];                                              \
        uint64_t plans = 0;                                                               \
        if (c##_load(&q, query, query_length))                                            \
            return 0;                                                                     \
        while (times-- > 0)                                                               \
            plans += c##_solve(&q, cells, plan).cost != PLAIN_NONE;                       \
        return plans;                                                                     \
    }
SOLVES_OF(plain)
SOLVES_OF(fast)

#define LOADS_OF(c, loads, load)                                                           \
    static uint64_t c##_##loads(const uint8_t *query, size_t query_length, uint64_t times) \
    {                                                                                      \
        static plain_lanes cells[512];                                                     \
        plain_query q;                                                                     \
        uint8_t plan[FANCHUKI_LONGEST_PLAN];                                               \
        int refusal = 1;                                                                   \
        while (times-- > 0)                                                                \
            refusal = c##_##load(&q, query, query_length);                                 \
        return !refusal && c##_solve(&q, cells, plan).cost != PLAIN_NONE;                  \
    }
LOADS_OF(plain, loads, load)
LOADS_OF(plain, row_loads, load_rows)
LOADS_OF(fast, loads, load)
LOADS_OF(fast, row_loads, load_rows)

enum { PRODUCT, PLAIN, FAST, BEFORE, PLANNERS };
enum { SOLVE, CALL, LOAD, LOAD_ROWS, WORKS };

typedef struct {
    const char *name;
    uint64_t (*plan)(const uint8_t *query, size_t query_length, uint8_t *output, size_t output_length);
    repeated *repeated[WORKS];
} planner;

static planner planners[PLANNERS] = {
    {"fanchuki", fanchuki_plan, {[SOLVE] = fanchuki_solves, [LOAD] = fanchuki_loads, [LOAD_ROWS] = fanchuki_row_loads}},
    {"plain", plain_plan, {[SOLVE] = plain_solves, [LOAD] = plain_loads, [LOAD_ROWS] = plain_row_loads}},
    {"fast", fast_plan, {[SOLVE] = fast_solves, [LOAD] = fast_loads, [LOAD_ROWS] = fast_row_loads}},
    {"before", NULL, {NULL}},
};

static const char *const works[WORKS] = {"solve", "load and solve", "load", "load from rows"};
static const char *const words[WORKS] = {"solve", "call", "load", "rows"}; /* as run.sh names them */

typedef struct {
    const char *name, *lines;
    int relations, sites;
} shape;

static const shape shapes[] = {
    {"star", "random", 9, 8},  {"star", "metric", 9, 8},  {"star", "hubs", 9, 8},    {"chain", "random", 9, 8},
    {"chain", "metric", 9, 8}, {"chain", "hubs", 9, 8},   {"tree", "random", 9, 8},  {"chain", "random", 6, 5},
    {"chain", "metric", 6, 5}, {"star", "random", 5, 4},  {"star", "metric", 5, 4},  {"chain", "random", 3, 2},
};

/* Lines make no load slower. Relations of the last one are numbered against the order in which they join in. */
static const shape loaded[] = {
    {"star", "random", 9, 8},  {"chain", "random", 9, 8}, {"tree", "random", 9, 8},  {"star", "random", 5, 4},
    {"chain", "random", 6, 5}, {"chain", "random", 3, 2}, {"star8", "random", 9, 8},
};
enum { SHAPES = sizeof shapes / sizeof *shapes, LOADED = sizeof loaded / sizeof *loaded };

/* The file of each work; null for a work that is not measured. */
typedef const query_file *files[WORKS];

static int has(int p, int w)
{
    return w == CALL ? planners[p].plan != NULL : planners[p].repeated[w] != NULL;
}

static void fail(const char *format, ...)
{
    va_list rest;
    va_start(rest, format);
    fputs("bench: ", stderr);
    vfprintf(stderr, format, rest);
    fputs("\n", stderr);
    exit(1);
}

static volatile uint64_t sink;

static void run(int p, int w, const query_file *f, uint64_t times)
{
    uint8_t plan[FANCHUKI_LONGEST_PLAN];
    if (w != CALL)
        sink += planners[p].repeated[w](f->bytes, f->length, times);
    else
        for (uint64_t i = 0; i < times; i++)
            sink += planners[p].plan(f->bytes, f->length, plan, sizeof plan);
}

/* Nanoseconds of so many: the process's own, so that other work on the machine counts little. */
static double timing(int p, int w, const query_file *f, uint64_t times)
{
    struct timespec start, end;
    clock_gettime(CLOCK_PROCESS_CPUTIME_ID, &start);
    run(p, w, f, times);
    clock_gettime(CLOCK_PROCESS_CPUTIME_ID, &end);
    return (double)(end.tv_sec - start.tv_sec) * 1e9 + (double)(end.tv_nsec - start.tv_nsec);
}

/* So many, doubled until a timing has its least nanoseconds. */
static uint64_t enough(int p, int w, const query_file *f, uint64_t times, double least)
{
    while (timing(p, w, f, times) < least)
        times *= 2;
    return times;
}

typedef double figures[PLANNERS][WORKS];

/* The best of some timings of each, in turns, in nanoseconds for one. */
static void measure(const files f, int rounds, uint64_t times, double least, figures best)
{
    uint64_t repeat[PLANNERS][WORKS];
    for (int p = 0; p < PLANNERS; p++)
        for (int w = 0; w < WORKS; w++) {
            best[p][w] = 1e18;
            repeat[p][w] = f[w] && has(p, w) ? enough(p, w, f[w], times, least) : 0;
        }
    for (int round = 0; round < rounds; round++)
        for (int w = 0; w < WORKS; w++)
            for (int p = 0; p < PLANNERS; p++)
                if (repeat[p][w]) {
                    double one = timing(p, w, f[w], repeat[p][w]) / (double)repeat[p][w];
                    if (one < best[p][w])
                        best[p][w] = one;
                }
}

/* 1 where two planners return the same and leave the same output, of so many bytes. */
static int alike(int a, int b, const query_file *f, size_t room, uint64_t *answer)
{
    uint8_t x[FANCHUKI_LONGEST_PLAN], y[FANCHUKI_LONGEST_PLAN];
    memset(x, 0xa5, sizeof x);
    memset(y, 0xa5, sizeof y);
    *answer = planners[a].plan(f->bytes, f->length, x, room);
    return *answer == planners[b].plan(f->bytes, f->length, y, room) && memcmp(x, y, sizeof x) == 0;
}

/* The shape's file, on which product and C answer alike, or the figures mean nothing. */
static void shape_file(query_file *f, shape s)
{
    static plain_lanes cells[512];
    plain_query q;
    uint8_t plan[FANCHUKI_LONGEST_PLAN];
    uint64_t answer;
    shaped_query(f, s.name, s.lines, s.relations, s.sites);
    if (plain_load(&q, f->bytes, f->length) || plain_solve(&q, cells, plan).trials != shaped_trials(s.name, s.relations, s.sites))
        fail("plain counts other trials on a %s of %d at %d sites", s.name, s.relations, s.sites);
    for (int p = PLAIN; p <= FAST; p++)
        if (!alike(PRODUCT, p, f, FANCHUKI_LONGEST_PLAN, &answer))
            fail("%s answers otherwise on a %s of %d at %d sites with %s lines", planners[p].name, s.name, s.relations, s.sites, s.lines);
    if (has(BEFORE, CALL) && !alike(PRODUCT, BEFORE, f, FANCHUKI_LONGEST_PLAN, &answer))
        fprintf(stderr, "bench: the earlier revision answers otherwise on a %s of %d at %d sites with %s lines, so it does other work\n", s.name, s.relations, s.sites, s.lines);
}

/* 1 where the C makes one query of both files, and of the ordinary one the product's plan. */
static int loads_alike(const query_file *rows, const query_file *sizes)
{
    static plain_query q[4];
    uint64_t answer;
    memset(q, 0, sizeof q);
    if (plain_load(&q[0], sizes->bytes, sizes->length) || plain_load_rows(&q[1], rows->bytes, rows->length))
        return 0;
    if (fast_load(&q[2], sizes->bytes, sizes->length) || fast_load_rows(&q[3], rows->bytes, rows->length))
        return 0;
    for (int i = 1; i < 4; i++)
        if (memcmp(&q[0], &q[i], sizeof *q) != 0)
            return 0;
    return alike(PRODUCT, PLAIN, sizes, FANCHUKI_LONGEST_PLAN, &answer);
}

/* The shape's two files, on which every load leaves a query with a plan. */
static void shape_files(query_file *rows, query_file *sizes, shape s)
{
    shaped_rows(rows, sizes, s.name, s.relations, s.sites);
    if (!loads_alike(rows, sizes))
        fail("the C loads otherwise from rows on a %s of %d at %d sites", s.name, s.relations, s.sites);
    for (int p = PRODUCT; p <= FAST; p++)
        for (int w = LOAD; w <= LOAD_ROWS; w++) {
            const query_file *f = w == LOAD ? sizes : rows;
            if (planners[p].repeated[w](f->bytes, f->length, 1) != 1)
                fail("%s finds no plan after a %s of a %s of %d at %d sites", planners[p].name, works[w], s.name, s.relations, s.sites);
        }
}

static void print_row(shape s, const char *what)
{
    printf("%-6s %dx%d %-7s %-18s", s.name, s.relations, s.sites, s.lines, what);
}

static void print_beside_c(shape s, int w, figures best)
{
    double product = best[PRODUCT][w], plain = best[PLAIN][w], fast = best[FAST][w];
    print_row(s, works[w]);
    printf("%9.2f %7.2f %8.2f %9.2f %9.2f\n", product / 1e3, plain / 1e3, fast / 1e3, product / plain, product / fast);
}

static void head_beside_c(void)
{
    printf("relations x sites, lines                 microseconds            ratio to C\n");
    printf("%-37s product  C -O2  -O3 native   -O2   -O3 native\n", "");
}

static void beside_c(void)
{
    head_beside_c();
    for (int i = 0; i < SHAPES; i++) {
        query_file f;
        figures best;
        shape_file(&f, shapes[i]);
        measure((files){[SOLVE] = &f, [CALL] = &f}, 50, 100, 2e5, best);
        for (int w = SOLVE; w <= CALL; w++)
            print_beside_c(shapes[i], w, best);
    }
}

/* Ten thousand loads a timing, beside which the one solve after them is nothing. */
static void loads(void)
{
    head_beside_c();
    for (int i = 0; i < LOADED; i++) {
        query_file sizes, rows;
        figures best;
        double one[PLANNERS];
        shape_files(&rows, &sizes, loaded[i]);
        measure((files){[LOAD] = &sizes, [LOAD_ROWS] = &rows}, 10, 10000, 5e6, best);
        for (int w = LOAD; w <= LOAD_ROWS; w++)
            print_beside_c(loaded[i], w, best);
        print_row(loaded[i], "rows to ordinary");
        for (int p = PRODUCT; p <= FAST; p++)
            one[p] = best[p][LOAD_ROWS] / best[p][LOAD];
        printf("%9.2f %7.2f %8.2f\n", one[PRODUCT], one[PLAIN], one[FAST]);
    }
}

static void beside_before(void)
{
    printf("relations x sites, lines               microseconds                ratio to C -O2  to C -O3 native\n");
    printf("%-37s  before   after   ratio    before   after   before   after\n", "");
    for (int i = 0; i < SHAPES; i++) {
        query_file f;
        figures best;
        shape_file(&f, shapes[i]);
        measure((files){[SOLVE] = &f, [CALL] = &f}, 100, 100, 2e6, best);
        for (int w = SOLVE; w <= CALL; w++) {
            double before = best[BEFORE][w], after = best[PRODUCT][w], plain = best[PLAIN][w], fast = best[FAST][w];
            if (!has(BEFORE, w))
                continue;
            print_row(shapes[i], works[w]);
            printf("%9.2f %7.2f %7.3f %9.2f %7.2f %8.2f %7.2f\n", before / 1e3, after / 1e3, after / before, before / plain, after / plain, before / fast, after / fast);
        }
    }
}

/* A star that grows, with the best of its timings. */
typedef struct {
    shape s;
    query_file file;
    double least[PLANNERS];
} grown;

static int add_stars(grown *stars, int count, const char *lines, int fewest)
{
    for (int n = fewest; n <= 9; n++)
        for (int s = 2; s <= 8; s++) {
            grown *g = &stars[count++];
            g->s = (shape){"star", lines, n, s};
            shape_file(&g->file, g->s);
            for (int p = PRODUCT; p <= PLAIN; p++)
                g->least[p] = 1e18;
        }
    return count;
}

/* Each star once a round, so that a slow spell of the machine is not one figure's alone. */
static void growth(void)
{
    static grown stars[9 * 7];
    int count = add_stars(stars, 0, "random", 3);
    count = add_stars(stars, count, "metric", 9);
    count = add_stars(stars, count, "hubs", 9);
    for (int round = 0; round < 50; round++)
        for (grown *g = stars; g < stars + count; g++)
            for (int p = PRODUCT; p <= PLAIN; p++) {
                uint64_t times = (uint64_t)100 << (9 - g->s.relations);
                double one = timing(p, SOLVE, &g->file, times) / (double)times;
                if (one < g->least[p])
                    g->least[p] = one;
            }
    for (grown *g = stars; g < stars + count; g++) {
        uint64_t trials = shaped_trials("star", g->s.relations, g->s.sites);
        printf("%s %d %d %" PRIu64 " %.0f %.0f\n", g->s.lines, g->s.relations, g->s.sites, trials, g->least[PRODUCT], g->least[PLAIN]);
    }
}

/* A random query from row counts: the C makes of it what it makes of the ordinary file, and each finds a plan where the product
 * does; one in four is then damaged. */
static void compare_rows(uint64_t i, uint64_t from)
{
    query_file rows, sizes;
    random_rows(&rows, &sizes);
    int same = loads_alike(&rows, &sizes);
    if (below(4) == 0)
        damage(&rows);
    for (int p = PLAIN; p <= FAST; p++)
        same &= planners[p].repeated[LOAD_ROWS](rows.bytes, rows.length, 1) == fanchuki_row_loads(rows.bytes, rows.length, 1);
    if (!same)
        fail("the C loads otherwise from rows on query %" PRIu64 " after seed %" PRIu64, i, from);
}

/* Random queries, one in four damaged, one in eight with an output that may be too short. */
static void compare(uint64_t count, uint64_t from)
{
    uint64_t answers[FANCHUKI_REFUSED + FANCHUKI_SHORT_OUTPUT + 1] = {0}, answer, plans = 0;
    seed(from);
    for (uint64_t i = 0; i < count; i++) {
        query_file f;
        random_query(&f);
        for (uint64_t faults = below(4) ? 0 : 1 + below(2); faults > 0; faults--)
            damage(&f);
        size_t room = below(8) ? FANCHUKI_LONGEST_PLAN : below(FANCHUKI_LONGEST_PLAN);
        for (int p = PLAIN; p <= FAST; p++)
            if (!alike(PRODUCT, p, &f, room, &answer))
                fail("%s answers otherwise on query %" PRIu64 " after seed %" PRIu64, planners[p].name, i, from);
        answers[answer]++;
        compare_rows(i, from);
    }
    for (int length = 1; length < FANCHUKI_REFUSED; length++)
        plans += answers[length];
    printf("%" PRIu64 " queries after seed %" PRIu64 ", all alike: %" PRIu64 " plans, %" PRIu64 " no route", count, from, plans, answers[0]);
    for (int k = FANCHUKI_CUT; k <= FANCHUKI_SHORT_OUTPUT; k++)
        if (answers[FANCHUKI_REFUSED + k])
            printf(", %" PRIu64 " refused %d", answers[FANCHUKI_REFUSED + k], k);
    printf("\n");
}

static void repeat(uint64_t times, const char *name, const char *work, shape s)
{
    query_file f, rows, sizes;
    files of = {&f, &f, &sizes, &rows};
    shaped_query(&f, s.name, s.lines, s.relations, s.sites);
    shaped_rows(&rows, &sizes, s.name, s.relations, s.sites);
    for (int p = 0; p < PLANNERS; p++)
        for (int w = 0; w < WORKS; w++)
            if (strcmp(planners[p].name, name) == 0 && strcmp(words[w], work) == 0 && has(p, w))
                run(p, w, of[w], times);
}

static void print_shapes(const shape *s, int count)
{
    for (int i = 0; i < count; i++)
        printf("%s %s %d %d\n", s[i].name, s[i].lines, s[i].relations, s[i].sites);
}

int main(int argc, char **argv)
{
    const char *mode = argc > 1 ? argv[1] : "";
    planners[BEFORE].repeated[SOLVE] = before_solves;
    planners[BEFORE].plan = before_plan;
    if (argc == 1)
        beside_c();
    else if (argc == 2 && strcmp(mode, "loads") == 0)
        loads();
    else if (argc == 2 && strcmp(mode, "before") == 0)
        beside_before();
    else if (argc == 2 && strcmp(mode, "growth") == 0)
        growth();
    else if (argc == 4 && strcmp(mode, "compare") == 0)
        compare(strtoull(argv[2], NULL, 10), strtoull(argv[3], NULL, 10));
    else if (argc == 2 && strcmp(mode, "shapes") == 0)
        print_shapes(shapes, SHAPES);
    else if (argc == 3 && strcmp(mode, "shapes") == 0 && strcmp(argv[2], "loads") == 0)
        print_shapes(loaded, LOADED);
    else if (argc == 9 && strcmp(mode, "repeat") == 0)
        repeat(strtoull(argv[2], NULL, 10), argv[3], argv[4], (shape){argv[5], argv[6], atoi(argv[7]), atoi(argv[8])});
    else
        return 2;
    return 0;
}
