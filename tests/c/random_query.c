#include "random_query.h"

enum { MOST_SITES = 8, MOST_RELATIONS = 9, MOST_SIZE = 1000000000, MOST_FIXED = 1000000, MOST_RATE = 1000, PARCEL = 8 };

typedef struct {
    uint64_t state;
    uint8_t *end; /* of what is written */
} writer;

/* splitmix64 */
static uint32_t below(writer *w, uint32_t bound)
{
    uint64_t z = w->state += 0x9e3779b97f4a7c15;
    z = (z ^ z >> 30) * 0xbf58476d1ce4e5b9;
    z = (z ^ z >> 27) * 0x94d049bb133111eb;
    return (uint32_t)((z ^ z >> 31) % bound);
}

static void put(writer *w, uint32_t number, int width)
{
    for (int i = 0; i < width; i++)
        *w->end++ = (uint8_t)(number >> 8 * i);
}

/* Three flags of four are set. */
static void put_terms(writer *w)
{
    put(w, below(w, 4) != 0, 1);
    put(w, below(w, MOST_FIXED + 1), 4);
    put(w, below(w, MOST_RATE + 1), 4);
}

/* Each relation but the first is joined to an earlier one: the one before it, relation 0 or any. */
static const uint8_t *put_joins(writer *w, uint32_t relations)
{
    const uint8_t *ends = w->end + 1;
    uint32_t shape = below(w, 3);
    put(w, relations - 1, 1);
    for (uint32_t r = 1; r < relations; r++) {
        uint32_t other = shape == 0 ? r - 1 : shape == 1 ? 0 : below(w, r);
        int turned = below(w, 2) == 1;
        put(w, turned ? r : other, 1);
        put(w, turned ? other : r, 1);
    }
    return ends;
}

/* In a tree a set of relations is connected where it has one join fewer than relations. */
static uint32_t connected(const uint8_t *ends, uint32_t relations, uint32_t set)
{
    uint32_t more = 0;
    for (uint32_t r = 0; r < relations; r++)
        more += set >> r & 1;
    for (uint32_t e = 0; e + 1 < relations; e++)
        more -= set >> ends[2 * e] & set >> ends[2 * e + 1] & 1;
    return more == 1;
}

/* Of four sizes two are any, one is a few full parcels and one any number of them; or a byte less, or a byte more. */
static void put_size(writer *w)
{
    uint32_t size = below(w, MOST_SIZE + 1), kind = below(w, 4);
    if (kind < 2) {
        size = (kind == 0 ? size % 4 : size / PARCEL) * PARCEL + below(w, 3);
        size -= size > 0;
    }
    put(w, size < MOST_SIZE ? size : MOST_SIZE, 4);
}

static void put_sizes(writer *w, const uint8_t *ends, uint32_t relations)
{
    uint32_t subqueries = 0;
    for (uint32_t set = 1; set < 1u << relations; set++)
        subqueries += connected(ends, relations, set);
    put(w, subqueries, 2);
    while (subqueries-- > 0)
        put_size(w);
}

size_t random_query(uint64_t *state, uint8_t *file)
{
    writer w = {*state, file};
    uint32_t sites = 1 + below(&w, MOST_SITES);
    uint32_t relations = 1 + below(&w, MOST_RELATIONS);
    put(&w, sites, 1);
    for (uint32_t k = 0; k < sites; k++)
        put_terms(&w);
    put(&w, relations, 1);
    for (uint32_t r = 0; r < relations; r++) {
        put(&w, below(&w, sites), 1);
        put(&w, below(&w, 2), 1);
    }
    put_sizes(&w, put_joins(&w, relations), relations);
    put(&w, sites * (sites - 1), 1);
    for (uint32_t line = 0; line < sites * (sites - 1); line++)
        put_terms(&w);
    put(&w, 1, 1);
    put(&w, below(&w, sites), 1);
    *state = w.state;
    return (size_t)(w.end - file);
}
