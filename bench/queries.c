#include "queries.h"

#include <stdlib.h>
#include <string.h>

enum { PARCEL = 8, MOST_SIZE = 1000000000, MOST_ROWS = 1000000, MOST_FIXED = 1000000, MOST_RATE = 1000 };

static uint64_t state;

void seed(uint64_t s)
{
    state = s;
}

uint64_t below(uint64_t limit)
{
    state = state * 6364136223846793005u + 1442695040888963407u;
    return (state >> 33) % limit;
}

/* Amounts are drawn from least to below least + span. */
typedef struct {
    uint64_t least, span;
} amounts;

/* What stands between joins and lines: sizes that are drawn, or row counts and divisors, or the sizes that these come to. */
enum { DRAWN, ROWS, WORKED };

/* Each line drawn by itself; by the distance of its sites; cheap at site 0; cheap to the next site; or open to it alone. */
enum { RANDOM, METRIC, HUBS, ROUND, RING, LINES };
static const char *const line_names[LINES] = {"random", "metric", "hubs", "round", "ring"};

typedef struct {
    int sites, relations, first[8], second[8], form;
    int lines, place[8]; /* of each site: how far along it is, or which one in the ring */
    int homes;           /* the relations stand at the first so many sites */
    uint64_t unindexed;  /* one relation in so many has no index */
    uint64_t rows[9], divisors[8];
    amounts fixed, rate, size;
    uint64_t in_parcels;     /* whether a size is drawn as a number of parcels */
    uint64_t barred, closed; /* one site in so many may not join, one line in so many is closed; 0: none */
} draft;

static void put(query_file *f, int width, uint64_t v)
{
    while (width-- > 0) {
        f->bytes[f->length++] = (uint8_t)v;
        v >>= 8;
    }
}

static uint64_t draw(amounts a)
{
    return a.least + below(a.span);
}

/* As many bytes as were drawn; or as many full parcels, a byte less or a byte more. */
static void put_size(query_file *f, const draft *d)
{
    uint64_t size = draw(d->size);
    if (d->in_parcels) {
        size = PARCEL * size + below(3);
        size -= size > 0;
    }
    put(f, 4, size < MOST_SIZE ? size : MOST_SIZE);
}

/* The join between relation r and those taken; -1 where it is not adjacent to them. */
static int join_to(const draft *d, unsigned taken, int r)
{
    for (int e = 0; e < d->relations - 1; e++)
        if ((d->first[e] == r && taken >> d->second[e] & 1) || (d->second[e] == r && taken >> d->first[e] & 1))
            return e;
    return -1;
}

/* The rows of the lowest relation, then the others join in: each time the lowest that is adjacent to those taken. */
static uint64_t worked(const draft *d, unsigned set)
{
    unsigned taken = set & -set;
    uint64_t size = d->rows[__builtin_ctz(set)];
    while (taken != set) {
        int r = 0;
        while (!((set & ~taken) >> r & 1) || join_to(d, taken, r) < 0)
            r++;
        uint64_t divisor = d->divisors[join_to(d, taken, r)];
        size = (size * d->rows[r] + divisor - 1) / divisor;
        size = size < MOST_SIZE ? size : MOST_SIZE;
        taken |= 1u << r;
    }
    return size;
}

/* Of a site or of a line. */
typedef struct {
    uint64_t flag, fixed, rate;
} terms;

static terms draw_terms(const draft *d, uint64_t one_in)
{
    terms t;
    t.flag = one_in == 0 || below(one_in) != 0;
    t.fixed = draw(d->fixed);
    t.rate = draw(d->rate);
    return t;
}

static terms line_terms(const draft *d, int a, int b)
{
    terms t = draw_terms(d, d->closed), cheap = {1, t.fixed / 10, t.rate / 10};
    int next = d->place[b] == (d->place[a] + 1) % d->sites;
    uint64_t apart = 1 + (uint64_t)abs(d->place[a] - d->place[b]);
    switch (d->lines) {
    case METRIC: return (terms){1, 1000 * apart, apart};
    case HUBS: return a == 0 || b == 0 ? cheap : t;
    case ROUND: return next ? cheap : t;
    case RING: return (terms){(uint64_t)next, t.fixed, t.rate};
    default: return t;
    }
}

static void put_terms(query_file *f, terms t)
{
    put(f, 1, t.flag);
    put(f, 4, t.fixed);
    put(f, 4, t.rate);
}

static void put_lines(query_file *f, const draft *d)
{
    put(f, 1, (uint64_t)(d->sites * (d->sites - 1)));
    for (int a = 0; a < d->sites; a++)
        for (int b = 0; b < d->sites; b++)
            if (a != b)
                put_terms(f, line_terms(d, a, b));
}

/* The relations of a set, where the set is connected: a tree's part with one join less than relations. Else 0. */
static int connected(const draft *d, unsigned set)
{
    int joins = 0, relations = __builtin_popcount(set);
    for (int e = 0; e < d->relations - 1; e++)
        joins += (set >> d->first[e] & 1) && (set >> d->second[e] & 1);
    return joins + 1 == relations ? relations : 0;
}

static void put_sizes(query_file *f, const draft *d)
{
    unsigned count = 0;
    for (unsigned set = 1; set < 1u << d->relations; set++)
        count += connected(d, set) != 0;
    put(f, 2, count);
    for (unsigned set = 1; set < 1u << d->relations; set++)
        if (connected(d, set)) {
            if (d->form == WORKED)
                put(f, 4, worked(d, set));
            else
                put_size(f, d);
        }
}

static void put_counts(query_file *f, const uint64_t *counts, int n)
{
    put(f, 1, (uint64_t)n);
    for (int i = 0; i < n; i++)
        put(f, 4, counts[i]);
}

static void write_query(query_file *f, const draft *d)
{
    f->length = 0;
    put(f, 1, (uint64_t)d->sites);
    for (int k = 0; k < d->sites; k++)
        put_terms(f, draw_terms(d, d->barred));
    put(f, 1, (uint64_t)d->relations);
    for (int r = 0; r < d->relations; r++) {
        put(f, 1, below((uint64_t)d->homes));
        put(f, 1, below(d->unindexed) != 0);
    }
    put(f, 1, (uint64_t)d->relations - 1);
    for (int e = 0; e < d->relations - 1; e++) {
        put(f, 1, (uint64_t)d->first[e]);
        put(f, 1, (uint64_t)d->second[e]);
    }
    if (d->form == ROWS) {
        put_counts(f, d->rows, d->relations);
        put_counts(f, d->divisors, d->relations - 1);
    } else {
        put_sizes(f, d);
    }
    put_lines(f, d);
    put(f, 1, 1);
    put(f, 1, below((uint64_t)d->sites));
}

/* The query from row counts, and the same one, drawn again, from the sizes that they come to. */
static void write_both(query_file *rows, query_file *sizes, draft *d)
{
    uint64_t from = state;
    d->form = ROWS;
    write_query(rows, d);
    state = from;
    d->form = WORKED;
    write_query(sizes, d);
}

static void draw_counts(draft *d, amounts rows, amounts divisors)
{
    for (int r = 0; r < 9; r++)
        d->rows[r] = rows.least + below(rows.span);
    for (int e = 0; e < 8; e++)
        d->divisors[e] = divisors.least + below(divisors.span);
}

/* Joins each relation to an earlier one, or in star8 to the last one. */
static void draw_joins(draft *d, const char *shape)
{
    int last = strcmp(shape, "star8") == 0 ? d->relations - 1 : 0;
    for (int r = 1; r < d->relations; r++) {
        d->first[r - 1] = last ? last : strcmp(shape, "chain") == 0 ? r - 1 : strcmp(shape, "star") == 0 ? 0 : (int)below((uint64_t)r);
        d->second[r - 1] = last ? r - 1 : r;
    }
}

static void swap(int *a, int *b)
{
    int was = *a;
    *a = *b;
    *b = was;
}

/* Along a scale, or round in any order. Nothing is drawn where nothing is placed. */
static void place_sites(draft *d)
{
    for (int k = 0; d->lines == METRIC && k < d->sites; k++)
        d->place[k] = (int)below(MOST_RATE);
    for (int k = 0; d->lines > HUBS && k < d->sites; k++) {
        d->place[k] = k;
        swap(&d->place[k], &d->place[below((uint64_t)k + 1)]);
    }
}

static draft shaped(const char *shape, int relations, int sites)
{
    draft d = {.sites = sites, .homes = sites, .unindexed = 2, .relations = relations, .fixed = {0, MOST_FIXED}, .rate = {0, MOST_RATE}, .size = {0, 1000000}, .closed = 8};
    seed(5); /* a tree that branches */
    draw_joins(&d, shape);
    return d;
}

void shaped_query(query_file *f, const char *shape, const char *lines, int relations, int sites)
{
    draft d = shaped(shape, relations, sites);
    while (d.lines < LINES && strcmp(line_names[d.lines], lines) != 0)
        d.lines++;
    place_sites(&d);
    write_query(f, &d);
}

void shaped_rows(query_file *rows, query_file *sizes, const char *shape, int relations, int sites)
{
    draft d = shaped(shape, relations, sites);
    draw_counts(&d, (amounts){1, MOST_ROWS}, (amounts){1, MOST_ROWS / 8});
    write_both(rows, sizes, &d);
}

uint64_t shaped_trials(const char *shape, int relations, int sites)
{
    draft d = shaped(shape, relations, sites);
    int trials = 0;
    for (unsigned set = 1; set < 1u << relations; set++)
        if (connected(&d, set))
            trials += connected(&d, set) - 1;
    return (uint64_t)(trials * sites);
}

/* The same tree with its relations, its joins and their ends in any order. */
static void mix(draft *d)
{
    int name[9], joins = d->relations - 1;
    for (int r = 0; r < d->relations; r++) {
        name[r] = r;
        swap(&name[r], &name[below((uint64_t)r + 1)]);
    }
    for (int e = 0; e < joins; e++) {
        int f = (int)below((uint64_t)e + 1);
        d->first[e] = name[d->first[e]];
        d->second[e] = name[d->second[e]];
        swap(&d->first[e], &d->first[f]);
        swap(&d->second[e], &d->second[f]);
        if (below(2))
            swap(&d->first[e], &d->second[e]);
    }
}

/* Few values, so that sums tie; any value; or none but the greatest. */
static amounts any_amounts(uint64_t most)
{
    switch (below(6)) {
    case 0: return (amounts){most, 1};
    case 1: return (amounts){0, most + 1};
    case 2: return (amounts){most - 2, 3};
    default: return (amounts){0, 1 + below(4)};
    }
}

static draft random_draft(void)
{
    static const char *const shapes[] = {"chain", "star", "tree", "tree"};
    draft d = {.sites = 1 + (int)below(8), .relations = 1 + (int)below(9), .barred = below(12), .closed = below(12)};
    d.homes = d.sites > 2 && below(2) ? 1 + (int)below(2) : d.sites;
    d.unindexed = 2 + 2 * below(2);
    d.fixed = any_amounts(MOST_FIXED);
    d.rate = any_amounts(MOST_RATE);
    d.in_parcels = below(2);
    d.size = any_amounts(d.in_parcels ? MOST_SIZE / PARCEL : MOST_SIZE);
    draw_joins(&d, shapes[below(4)]);
    mix(&d);
    d.lines = below(2) ? RANDOM : (int)below(LINES);
    place_sites(&d);
    return d;
}

void random_query(query_file *f)
{
    draft d = random_draft();
    write_query(f, &d);
}

void random_rows(query_file *rows, query_file *sizes)
{
    draft d = random_draft();
    uint64_t most = below(2) ? MOST_ROWS : 20;
    draw_counts(&d, (amounts){1, most}, (amounts){1, below(2) ? most : 4});
    write_both(rows, sizes, &d);
}

void damage(query_file *f)
{
    if (f->length == 0)
        return;
    size_t at = below(1 + below(f->length));
    uint8_t *byte = &f->bytes[at];
    switch (below(6)) {
    case 0: *byte = (uint8_t)below(256); break;
    case 1: *byte = (uint8_t)(*byte + 1); break;
    case 2: *byte = (uint8_t)(*byte - 1); break;
    case 3: *byte = f->bytes[below(f->length)]; break;
    case 4: f->length = at; break;
    default: put(f, 1 + (int)below(8), below(256));
    }
}
