/* The same planner in C, written to win: what the product is measured beside. It refuses and answers as the product does. */
#ifndef PLAIN_H
#define PLAIN_H

#include <stddef.h>
#include <stdint.h>

#include "fanchuki.h"

/* A figure for each site, always eight; nobody looks at those of sites that the query does not have. */
typedef struct {
    _Alignas(64) double at[8];
} plain_lanes;

typedef struct {
    int sites, relations, subqueries, target;
    uint8_t home[9], indexed[9];
    uint8_t first[8], lower[8]; /* of each join: its first relation, and the one that hangs from the other */
    uint8_t above[9];           /* the relation that each one hangs from; relation 0 hangs from none */
    uint32_t below[9];          /* the relations that hang from each one, itself among them */
    uint16_t subquery[264];     /* ascending */
    uint16_t inner[512];        /* of each subquery: its relations that hang from one of its relations */
    uint32_t size[512];         /* of each subquery */
    plain_lanes pair_read[9];   /* of each join, by its lower relation: the read where both its relations qualify, else 0 */
    plain_lanes join_fixed, join_rate;       /* a rate for each byte */
    plain_lanes line_fixed[8], line_rate[8]; /* from each site to each site, 0 to itself; a rate for each parcel */
} plain_query;

typedef struct {
    uint64_t cost; /* PLAIN_NONE for no route */
    uint64_t trials;
    size_t length;
} plain_answer;

#define PLAIN_NONE UINT64_MAX

/* 0, or the refusal's number. */
int plain_load(plain_query *q, const uint8_t *file, size_t length);
int plain_load_rows(plain_query *q, const uint8_t *file, size_t length); /* of a file with row counts and divisors */
plain_answer plain_solve(const plain_query *q, plain_lanes cells[512], uint8_t plan[FANCHUKI_LONGEST_PLAN]);
uint64_t plain_plan(const uint8_t *query, size_t query_length, uint8_t *output, size_t output_length);

#endif
