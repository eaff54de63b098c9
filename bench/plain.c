/* Six ideas make it fast. It is compiled at -O2 and at -O3 -march=native.
 *
 * A figure is a double. Every cost is a whole number far below 2^53, so sums, products and comparisons are exact. None is
 * infinity, and a sum with it stays infinity. The lesser of two is one instruction, which it is not for 64-bit integers.
 *
 * A cell holds what a subquery costs as an operand at each site: Delivered, and the read, which is 0 where it qualifies. So
 * a trial is one sum and one lesser for all sites at once. Joins and reads go by the byte and are worked out once for a
 * subquery; lines go by the parcel, with a row for every site where a result is made, and a row is one product, two sums and
 * one lesser. Where both operands qualify neither cell has a read, and the smaller is to be read. They are then two relations,
 * and two have one join: such a set goes a way of its own, and all larger ones know nothing of it.
 *
 * A route is lines one after the other, so all sites send once, all at once, until no figure falls. Nearest site first would
 * take fewer sums, but each would wait for the one before. Where no two lines are ever better than one, all send once and no
 * more. The writer knows what each set costs where it goes, and works routes out only where the direct line does not cost that.
 *
 * The joins are a tree, hung from relation 0. A join is known by its lower relation, and the part beyond it is what hangs
 * from there, so a split is one mask.
 *
 * A set is a subquery where just one of its relations hangs from none of them. Sixty-four sets are tested at once.
 *
 * A worked size is one step from that of the subquery without the relation that joins in last, and a step is one product: by
 * rows over divisor, which is worked out once for each end of a join.
 */
#include "plain.h"

#include <math.h>
#include <string.h>

#define NONE ((double)INFINITY)
#define INLINED static inline __attribute__((always_inline))

/* The sites are a constant where this is compiled. Vectors are made first, and what is left of the loop then unrolled. Not by
 * 4: a loop of four lanes would then be unrolled before it is made vectors. */
#define EACH_LANE(k) _Pragma("GCC unroll 3") for (int k = 0, lanes = sites <= 4 ? 4 : 8; k < lanes; k++)

enum { MOST_FIXED = 1000000, MOST_RATE = 1000, MOST_SIZE = 1000000000, MOST_ROWS = 1000000, PARCEL = 8 };

/* ---- The query file */

typedef struct {
    const uint8_t *at, *end;
    int refusal; /* of the first fault; nothing is read after it */
} reader;

/* A field of one, two or four bytes. */
INLINED int field(reader *r, int width, int low, int high, int fault)
{
    if (r->refusal)
        return 0;
    if (r->end - r->at < width) {
        r->refusal = FANCHUKI_CUT;
        return 0;
    }
    uint32_t v = r->at[0];
    if (width > 1)
        v |= (uint32_t)r->at[1] << 8;
    if (width > 2)
        v |= (uint32_t)r->at[2] << 16 | (uint32_t)r->at[3] << 24;
    r->at += width;
    if (v < (uint32_t)low || (uint32_t)high < v)
        r->refusal = fault;
    return (int)v;
}

INLINED int byte_below(reader *r, int limit) { return field(r, 1, 0, limit - 1, FANCHUKI_OUT_OF_RANGE); }

INLINED int amount(reader *r, int most) { return field(r, 4, 0, most, FANCHUKI_OUT_OF_RANGE); }

INLINED void count(reader *r, int width, int n) { field(r, width, n, n, FANCHUKI_WRONG_COUNT); }

static void read_sites(reader *r, plain_query *q)
{
    q->join_fixed = q->join_rate = (plain_lanes){{0}};
    for (int k = 0; !r->refusal && k < q->sites; k++) {
        int may = byte_below(r, 2), fixed = amount(r, MOST_FIXED);
        q->join_fixed.at[k] = may ? fixed : NONE;
        q->join_rate.at[k] = amount(r, MOST_RATE);
    }
}

static void read_relations(reader *r, plain_query *q)
{
    for (int i = 0; !r->refusal && i < q->relations; i++) {
        q->home[i] = (uint8_t)byte_below(r, q->sites);
        q->indexed[i] = (uint8_t)byte_below(r, 2);
    }
}

/* Hangs the relations from relation 0, nearest first, by the relations that each is joined with. */
static void hang(reader *r, plain_query *q, const uint16_t joined[9])
{
    uint8_t order[9] = {0};
    uint32_t met = 1;
    int n = 1;
    for (int i = 0; i < n; i++) {
        uint32_t next = joined[order[i]] & ~met;
        met |= next;
        for (; next; next &= next - 1) {
            order[n] = (uint8_t)__builtin_ctz(next);
            q->above[order[n++]] = order[i];
        }
    }
    if (n < q->relations)
        r->refusal = FANCHUKI_NOT_REACHED;
    for (int i = 0; i < n; i++)
        q->below[order[i]] = 1u << order[i];
    while (--n > 0)
        q->below[q->above[order[n]]] |= q->below[order[n]];
}

static void read_joins(reader *r, plain_query *q)
{
    uint8_t second[8];
    uint16_t joined[9] = {0};
    for (int e = 0; !r->refusal && e < q->relations - 1; e++) {
        int a = byte_below(r, q->relations), b = byte_below(r, q->relations);
        if (r->refusal)
            return;
        q->first[e] = (uint8_t)a;
        second[e] = (uint8_t)b;
        joined[a] |= (uint16_t)(1u << b);
        joined[b] |= (uint16_t)(1u << a);
    }
    if (r->refusal)
        return;
    hang(r, q, joined);
    for (int e = 0; !r->refusal && e < q->relations - 1; e++)
        q->lower[e] = q->below[q->first[e]] >> second[e] & 1 ? second[e] : q->first[e];
}

/* Of the sixty-four sets of a word those with relation r, as bits. */
INLINED uint64_t having(int word, int r)
{
    static const uint64_t low[6] = {0xaaaaaaaaaaaaaaaa, 0xcccccccccccccccc, 0xf0f0f0f0f0f0f0f0,
                                    0xff00ff00ff00ff00, 0xffff0000ffff0000, 0xffffffff00000000};
    return r < 6 ? low[r] : -(uint64_t)(word >> (r - 6) & 1);
}

/* Of the sixty-four sets of a word the subqueries, as bits. */
static uint64_t subqueries_of(const plain_query *q, int word)
{
    uint64_t one = having(word, 0), more = 0;
    for (int r = 1; r < q->relations; r++) {
        uint64_t top = having(word, r) & ~having(word, q->above[r]);
        more |= one & top;
        one |= top;
    }
    return one & ~more & (q->relations < 6 ? ((uint64_t)1 << (1 << q->relations)) - 1 : UINT64_MAX);
}

static void find_subqueries(plain_query *q)
{
    uint32_t hanging[9] = {0}, low[64]; /* what hangs from each relation, and from any of the six lowest in a set */
    int n = q->relations;
    for (int r = 1; r < n; r++)
        hanging[q->above[r]] |= 1u << r;
    low[0] = 0;
    for (int r = 0; r < n && r < 6; r++)
        for (int set = 0; set < 1 << r; set++)
            low[1 << r | set] = low[set] | hanging[r];
    q->subqueries = 0;
    for (int word = 0; word << 6 < 1 << n; word++) {
        uint32_t high = 0;
        for (int r = 6; r < n; r++)
            high |= word >> (r - 6) & 1 ? hanging[r] : 0;
        for (uint64_t found = subqueries_of(q, word); found; found &= found - 1) {
            int i = __builtin_ctzll(found), set = word << 6 | i;
            q->subquery[q->subqueries++] = (uint16_t)set;
            q->inner[set] = (uint16_t)((uint32_t)set & (low[i] | high));
        }
    }
}

static void read_sizes(reader *r, plain_query *q)
{
    count(r, 2, q->subqueries);
    for (int i = 0; !r->refusal && i < q->subqueries; i++)
        q->size[q->subquery[i]] = (uint32_t)amount(r, MOST_SIZE);
}

INLINED double lesser(double a, double b) { return a < b ? a : b; }

/* size * factor, rounded up, and at most the largest size. A quotient that is not whole is at least 1 / MOST_ROWS from a whole
 * number; up to MOST_SIZE the roundings here come to less than a third of that, so half of it tells them apart. */
INLINED uint32_t joined_size(double size, double factor)
{
    return (uint32_t)(int)(lesser(size * factor, MOST_SIZE) + (1 - 0.5 / MOST_ROWS));
}

/* By the rows, and by the factor of each relation where it joins in below the one that it hangs from (down), and of that one
 * where it joins in above it (up). Goes from each subquery to those with one more that joins in after all of it: the relations
 * that wait for it. For the new one wait the higher ones that waited beside, and the neighbours of the one that joined in. */
static void work_out(plain_query *q, const double rows[9], const double down[9], const double up[9])
{
    uint32_t near[9] = {0};
    uint16_t waiting[512];
    for (int r = 1; r < q->relations; r++) {
        near[r] |= 1u << q->above[r];
        near[q->above[r]] |= 1u << r;
    }
    for (int r = 0; r < q->relations; r++) {
        q->size[1u << r] = (uint32_t)(int)rows[r];
        waiting[1u << r] = (uint16_t)(near[r] & -(2u << r));
    }
    for (int i = 0; i < q->subqueries; i++) {
        uint32_t set = q->subquery[i], left = waiting[set], out = -(set & -set) & ~set;
        if (!left)
            continue;
        int top = __builtin_ctz(set ^ q->inner[set]), over = top ? q->above[top] : -1;
        double size = (int)q->size[set];
        do {
            int r = __builtin_ctz(left);
            uint32_t more = set | 1u << r;
            left &= left - 1;
            q->size[more] = joined_size(size, r == over ? up[top] : down[r]);
            waiting[more] = (uint16_t)(left | (near[r] & out));
        } while (left);
    }
}

/* Not inlined: the ordinary load beside it is then faster. */
static __attribute__((noinline)) void read_rows(reader *r, plain_query *q)
{
    double rows[9], down[9], up[9];
    count(r, 1, q->relations);
    for (int i = 0; !r->refusal && i < q->relations; i++)
        rows[i] = field(r, 4, 1, MOST_ROWS, FANCHUKI_OUT_OF_RANGE);
    count(r, 1, q->relations - 1);
    for (int e = 0; !r->refusal && e < q->relations - 1; e++) {
        double divisor = field(r, 4, 1, MOST_ROWS, FANCHUKI_OUT_OF_RANGE);
        int low = q->lower[e];
        down[low] = rows[low] / divisor;
        up[low] = rows[q->above[low]] / divisor;
    }
    if (!r->refusal)
        work_out(q, rows, down, up);
}

static void read_lines(reader *r, plain_query *q)
{
    for (int a = 0; !r->refusal && a < q->sites; a++) {
        plain_lanes fixed = {{0}}, rate = {{0}};
        for (int b = 0; b < q->sites; b++)
            if (a != b) {
                int open = byte_below(r, 2), line = amount(r, MOST_FIXED);
                int each = amount(r, MOST_RATE);
                fixed.at[b] = open ? line : NONE;
                rate.at[b] = open ? each : MOST_RATE; /* so that no way over a closed line has a lower one */
            }
        q->line_fixed[a] = fixed;
        q->line_rate[a] = rate;
    }
}

/* What a join of two relations reads beyond their cells: the smaller, at the home where both qualify. */
static void price_pairs(plain_query *q)
{
    for (int r = 1; r < q->relations; r++) {
        int a = q->above[r], home = q->home[r];
        q->pair_read[r] = (plain_lanes){{0}};
        if (q->indexed[r] & q->indexed[a] & (q->home[a] == home)) {
            double one = (int)q->size[1u << r], other = (int)q->size[1u << a];
            q->pair_read[r].at[home] = q->join_rate.at[home] * lesser(one, other);
        }
    }
}

static int load(plain_query *q, const uint8_t *file, size_t length, int from_rows)
{
    reader r = {file, file + length, 0};
    q->sites = field(&r, 1, 1, 8, FANCHUKI_WRONG_COUNT);
    read_sites(&r, q);
    q->relations = field(&r, 1, 1, 9, FANCHUKI_WRONG_COUNT);
    read_relations(&r, q);
    count(&r, 1, q->relations - 1);
    read_joins(&r, q);
    if (r.refusal)
        return r.refusal;
    find_subqueries(q);
    if (from_rows)
        read_rows(&r, q);
    else
        read_sizes(&r, q);
    count(&r, 1, q->sites * (q->sites - 1));
    read_lines(&r, q);
    count(&r, 1, 1);
    q->target = byte_below(&r, q->sites);
    if (!r.refusal)
        price_pairs(q);
    return r.refusal || r.at == r.end ? r.refusal : FANCHUKI_BYTES_FOLLOW;
}

int plain_load(plain_query *q, const uint8_t *file, size_t length)
{
    return load(q, file, length, 0);
}

int plain_load_rows(plain_query *q, const uint8_t *file, size_t length)
{
    return load(q, file, length, 1);
}

/* ---- The tables */

/* Those that a size starts: none for 0 bytes. */
INLINED double parcels(uint32_t size) { return (int)((size + PARCEL - 1) / PARCEL); }

/* The least over the joins inside a set of both parts together, at each site. Answers how many joins were tried. */
INLINED int try_joins(const plain_query *q, const plain_lanes *cells, uint32_t set, plain_lanes *least, int sites)
{
    plain_lanes parts;
    int tried = 0;
    EACH_LANE(k) parts.at[k] = NONE;
    for (uint32_t left = q->inner[set]; left; left &= left - 1, tried++) {
        uint32_t beyond = set & q->below[__builtin_ctz(left)];
        const plain_lanes *a = &cells[beyond], *b = &cells[set ^ beyond];
        EACH_LANE(k) parts.at[k] = lesser(parts.at[k], a->at[k] + b->at[k]);
    }
    EACH_LANE(k) least->at[k] = parts.at[k];
    return tried;
}

/* The same for two relations, which have one join. */
INLINED void try_pair(const plain_query *q, const plain_lanes *cells, uint32_t set, plain_lanes *parts, int sites)
{
    uint32_t lower = q->inner[set];
    const plain_lanes *a = &cells[lower], *b = &cells[set ^ lower], *read = &q->pair_read[__builtin_ctz(lower)];
    EACH_LANE(k) parts->at[k] = a->at[k] + b->at[k] + read->at[k];
}

/* What stands at some sites for a figure each, sent over one line at most: the lines have a price each. Even and odd sites have
 * a least each, and neither waits. */
INLINED void send_once(const plain_lanes *price, const plain_lanes *from, plain_lanes *row, int sites)
{
    plain_lanes least[2];
#pragma GCC unroll 8
    for (int k = 0; k < sites; k++) {
        plain_lanes *low = &least[k % 2];
        double here = from->at[k];
        if (k < 2)
            EACH_LANE(t) low->at[t] = price[k].at[t] + here;
        else
            EACH_LANE(t) low->at[t] = lesser(low->at[t], price[k].at[t] + here);
    }
    EACH_LANE(t) row->at[t] = lesser(least[0].at[t], least[sites > 1].at[t]);
}

/* Once more until no figure falls. */
INLINED void send_on(const plain_lanes *price, plain_lanes *row, int sites)
{
    plain_lanes before;
    do {
        EACH_LANE(t) before.at[t] = row->at[t];
        send_once(price, &before, row, sites);
    } while (memcmp(row, &before, (size_t)sites * sizeof(double)) != 0);
}

INLINED void price_line(const plain_query *q, int from, double sent, plain_lanes *price, int sites)
{
    EACH_LANE(t) price->at[t] = q->line_rate[from].at[t] * sent + q->line_fixed[from].at[t];
}

INLINED void price_lines(const plain_query *q, double sent, plain_lanes *price, int sites)
{
#pragma GCC unroll 8
    for (int k = 0; k < sites; k++)
        price_line(q, k, sent, &price[k], sites);
}

/* A bare relation as an operand at each site. */
INLINED void fill_bare(const plain_query *q, int r, plain_lanes *cell, int sites, int direct)
{
    plain_lanes price[8], row;
    double size = (int)q->size[1u << r], sent = parcels(q->size[1u << r]);
    price_line(q, q->home[r], sent, &row, sites);
    if (!direct) {
        price_lines(q, sent, price, sites);
        send_on(price, &row, sites);
    }
    EACH_LANE(t) cell->at[t] = row.at[t] + q->join_rate.at[t] * size;
    if (q->indexed[r])
        cell->at[q->home[r]] = 0;
}

/* A subquery joined at any site as an operand at each site. */
INLINED void fill_joined(const plain_query *q, const plain_lanes *parts, uint32_t size, plain_lanes *cell, int sites, int direct)
{
    plain_lanes price[8], read, joined, row;
    double bytes = (int)size;
    EACH_LANE(k) read.at[k] = q->join_rate.at[k] * bytes;
    EACH_LANE(k) joined.at[k] = q->join_fixed.at[k] + read.at[k] + parts->at[k];
    price_lines(q, parcels(size), price, sites);
    send_once(price, &joined, &row, sites);
    if (!direct)
        send_on(price, &row, sites);
    EACH_LANE(t) cell->at[t] = row.at[t] + read.at[t];
}

/* Every cell. Answers how many joins were tried. */
INLINED int fill_sets(const plain_query *q, plain_lanes *cells, int sites, int direct)
{
    int tried = 0;
    for (int i = 0; i < q->subqueries; i++) {
        uint32_t set = q->subquery[i], inner = q->inner[set];
        plain_lanes parts;
        if (inner & (inner - 1)) {
            tried += try_joins(q, cells, set, &parts, sites);
            fill_joined(q, &parts, q->size[set], &cells[set], sites, direct);
        } else if (inner) {
            tried++;
            try_pair(q, cells, set, &parts, sites);
            fill_joined(q, &parts, q->size[set], &cells[set], sites, direct);
        } else {
            fill_bare(q, __builtin_ctz(set), &cells[set], sites, direct);
        }
    }
    return tried;
}

/* Whether two lines in a row have neither a lower fixed amount nor a lower rate than the direct line, wherever they lead. Then
 * no number of them has. */
INLINED int no_detour_pays(const plain_query *q, int sites)
{
    size_t compared = (size_t)sites * sizeof(double);
    for (int a = 0; a < sites; a++) {
        plain_lanes row;
        send_once(q->line_fixed, &q->line_fixed[a], &row, sites);
        if (memcmp(&row, &q->line_fixed[a], compared) != 0)
            return 0;
        send_once(q->line_rate, &q->line_rate[a], &row, sites);
        if (memcmp(&row, &q->line_rate[a], compared) != 0)
            return 0;
    }
    return 1;
}

INLINED int fill(const plain_query *q, plain_lanes *cells, int sites)
{
    if (sites <= 2 || no_detour_pays(q, sites))
        return fill_sets(q, cells, sites, 1);
    return fill_sets(q, cells, sites, 0);
}

/* The same, compiled for each number of sites. */
static int fill_all(const plain_query *q, plain_lanes *cells)
{
    switch (q->sites) {
    case 1: return fill(q, cells, 1);
    case 2: return fill(q, cells, 2);
    case 3: return fill(q, cells, 3);
    case 4: return fill(q, cells, 4);
    case 5: return fill(q, cells, 5);
    case 6: return fill(q, cells, 6);
    case 7: return fill(q, cells, 7);
    default: return fill(q, cells, 8);
    }
}

/* ---- The plan */

/* Of the direct line; 0 where it stays. */
INLINED double line_price(const plain_query *q, double sent, int from, int to)
{
    return q->line_rate[from].at[to] * sent + q->line_fixed[from].at[to];
}

static plain_lanes lines_to(const plain_query *q, double sent, int to)
{
    plain_lanes row;
    for (int k = 0; k < q->sites; k++)
        row.at[k] = line_price(q, sent, k, to);
    return row;
}

/* From each site, over one line more than the row has. */
static plain_lanes one_line_more(const plain_query *q, double sent, const plain_lanes *row)
{
    plain_lanes more;
    for (int k = 0; k < q->sites; k++) {
        more.at[k] = NONE;
        for (int m = 0; m < q->sites; m++)
            more.at[k] = lesser(more.at[k], line_price(q, sent, k, m) + row->at[m]);
    }
    return more;
}

/* The lowest site from which what is made there goes to another for what is due. Routes are worked out only where the direct
 * line from the first site that comes into question is none of them. */
static int lowest_site(const plain_query *q, double sent, const plain_lanes *here, int to, double due)
{
    int k = 0;
    while (here->at[k] > due)
        k++;
    if (here->at[k] + line_price(q, sent, k, to) == due)
        return k;
    plain_lanes row = lines_to(q, sent, to);
    for (int lines = 2; lines < q->sites; lines++)
        row = one_line_more(q, sent, &row);
    while (here->at[k] + row.at[k] != due)
        k++;
    return k;
}

typedef struct {
    double carriage, parts; /* from where it is made to where it is to go, and both parts together where it is made */
    int site;               /* where it is made */
} choice;

/* How a set comes to a site for what is due there: made at the lowest site on a tie. */
static choice cheapest(const plain_query *q, const plain_lanes *cells, uint32_t set, int to, double due)
{
    if (q->inner[set] == 0)
        return (choice){due, 0, q->home[__builtin_ctz(set)]};
    plain_lanes parts, here;
    double size = (int)q->size[set];
    if (q->inner[set] & (q->inner[set] - 1))
        try_joins(q, cells, set, &parts, 8);
    else
        try_pair(q, cells, set, &parts, 8);
    for (int k = 0; k < q->sites; k++)
        here.at[k] = q->join_rate.at[k] * size + q->join_fixed.at[k] + parts.at[k];
    int made = lowest_site(q, parcels(q->size[set]), &here, to, due);
    return (choice){due - here.at[made], parts.at[made], made};
}

/* The join behind a choice: the only one, or else the lowest on a tie. */
static int join_of(const plain_query *q, const plain_lanes *cells, uint32_t set, choice made)
{
    for (int e = 0;; e++)
        if (q->inner[set] >> q->lower[e] & 1) {
            uint32_t beyond = set & q->below[q->lower[e]];
            int only = q->inner[set] == 1u << q->lower[e];
            if (only || cells[beyond].at[made.site] + cells[set ^ beyond].at[made.site] == made.parts)
                return e;
        }
}

static uint8_t *step(uint8_t *out, int kind, int argument)
{
    out[0] = (uint8_t)kind;
    out[1] = (uint8_t)argument;
    return out + 2;
}

/* The lowest next site by which a way costs so much, the row having what it costs from there; -1 where there is none. */
static int next_site(const plain_query *q, double sent, int from, const plain_lanes *row, double cost)
{
    for (int m = 0; m < q->sites; m++)
        if (line_price(q, sent, from, m) + row->at[m] == cost)
            return m;
    return -1;
}

/* A row for each line more, until there is a way that costs so much: it has the fewest sends. */
static uint8_t *write_detour(const plain_query *q, double sent, int from, int to, double cost, uint8_t *out)
{
    plain_lanes rows[8];
    int more = 0, next;
    rows[0] = lines_to(q, sent, to);
    while ((next = next_site(q, sent, from, &rows[more], cost)) < 0) {
        rows[more + 1] = one_line_more(q, sent, &rows[more]);
        more++;
    }
    for (; more > 0; more--) {
        out = step(out, FANCHUKI_SEND, next);
        next = next_site(q, sent, next, &rows[more - 1], rows[more].at[next]);
    }
    out = step(out, FANCHUKI_SEND, next);
    return step(out, FANCHUKI_SEND, to);
}

/* The sends of the route that costs so much. */
static uint8_t *write_sends(const plain_query *q, double sent, int from, int to, double cost, uint8_t *out)
{
    if (from == to)
        return out;
    if (line_price(q, sent, from, to) == cost)
        return step(out, FANCHUKI_SEND, to);
    return write_detour(q, sent, from, to, cost, out);
}

/* The cell without its read. */
INLINED double delivered(const plain_query *q, const plain_lanes *cells, uint32_t set, int at)
{
    if (q->inner[set] == 0 && q->home[__builtin_ctz(set)] == at)
        return 0;
    return cells[set].at[at] - q->join_rate.at[at] * (int)q->size[set];
}

/* The steps that bring a set to a site. Answers where they end. */
static uint8_t *write_steps(const plain_query *q, const plain_lanes *cells, uint32_t set, int to, uint8_t *out)
{
    choice made = cheapest(q, cells, set, to, delivered(q, cells, set, to));
    if (q->inner[set] == 0) {
        out = step(out, FANCHUKI_LOAD, __builtin_ctz(set));
    } else {
        int e = join_of(q, cells, set, made);
        uint32_t one = set & q->below[q->lower[e]];
        if (!(one >> q->first[e] & 1))
            one ^= set;
        out = write_steps(q, cells, one, made.site, out);
        out = write_steps(q, cells, set ^ one, made.site, out);
        out = step(out, FANCHUKI_JOIN, e);
    }
    return write_sends(q, parcels(q->size[set]), made.site, to, made.carriage, out);
}

plain_answer plain_solve(const plain_query *q, plain_lanes cells[512], uint8_t plan[FANCHUKI_LONGEST_PLAN])
{
    uint32_t all = (1u << q->relations) - 1;
    int tried = fill_all(q, cells);
    plain_answer answer = {PLAIN_NONE, (uint64_t)(tried * q->sites), 0};
    double cost = delivered(q, cells, all, q->target);
    if (cost < NONE) {
        answer.cost = (uint64_t)cost;
        answer.length = (size_t)(write_steps(q, cells, all, q->target, plan + 1) - plan);
        plan[0] = (uint8_t)(answer.length / 2);
    }
    return answer;
}

uint64_t plain_plan(const uint8_t *query, size_t query_length, uint8_t *output, size_t output_length)
{
    plain_query q;
    plain_lanes cells[512];
    uint8_t plan[FANCHUKI_LONGEST_PLAN];
    int refusal = plain_load(&q, query, query_length);
    if (refusal)
        return FANCHUKI_REFUSED + (uint64_t)refusal;
    plain_answer a = plain_solve(&q, cells, plan);
    if (a.cost == PLAIN_NONE)
        return 0;
    if (output_length < a.length)
        return FANCHUKI_REFUSED + FANCHUKI_SHORT_OUTPUT;
    memcpy(output, plan, a.length);
    return a.length;
}
