/* Fanchuki: the cheapest plan for a query of up to nine relations joined across up to eight sites.
 *
 * Cheapest is by the query's prices: a line charges its fixed amount and its rate for each started parcel of 8 bytes that it
 * carries, a site its fixed amount and its rate for each byte that a join there reads and makes. What is sent may go
 * by way of other sites, a send after a send. A relation with an index that was never sent is read by it and not counted; of
 * two such operands of a join only the larger is. docs/FORMAT.md has the query file (the ordinary one, which states its
 * sizes) and the plan byte by byte. The function is proved: what it returns and what it writes is its contract, for every
 * query and every output. For x86-64. Link by `pkg-config --cflags --libs fanchuki` where it is installed, or with
 * libfanchuki.a (`rt lib` in crates/fanchuki).
 */
#ifndef FANCHUKI_H
#define FANCHUKI_H

#include <stddef.h>
#include <stdint.h>

#ifdef __cplusplus
extern "C" {
#endif

/* The longest query file and the longest plan, in bytes. An output of FANCHUKI_LONGEST_PLAN bytes is never too short. */
#define FANCHUKI_LONGEST_QUERY 1674
#define FANCHUKI_LONGEST_PLAN 273

/* The stack that the call needs, in bytes, its work area of 17 KB among them. Measured, not proved: tests/c/stack.c measures
 * it and holds this figure to it from both sides. A program that binds memcpy and memset at their first call (linked without
 * -z now) needs some kilobytes more that once, for the dynamic linker. */
#define FANCHUKI_STACK 49152

/* A plan is its number of steps, one byte, then two bytes a step: the kind and its argument. */
enum fanchuki_kind {
    FANCHUKI_LOAD = 1, /* a relation, at its home */
    FANCHUKI_SEND = 2, /* to a site, what was made last */
    FANCHUKI_JOIN = 3  /* by a join, the last two */
};

/* The answer where no plan is allowed. */
#define FANCHUKI_NO_ROUTE 0

/* An answer from here on is a refusal: subtract this to have its number. */
#define FANCHUKI_REFUSED 1024

enum fanchuki_refusal {
    /* the query file is refused */
    FANCHUKI_CUT = 1,          /* a field is cut */
    FANCHUKI_WRONG_COUNT = 2,  /* a count is outside its limit or not the stated one */
    FANCHUKI_OUT_OF_RANGE = 3, /* a field is out of range */
    FANCHUKI_NOT_REACHED = 4,  /* the joins don't reach all relations from relation 0 */
    FANCHUKI_BYTES_FOLLOW = 5, /* bytes follow Delivery */
    /* the output is refused */
    FANCHUKI_SHORT_OUTPUT = 23, /* it is shorter than the plan */

    /* never answered by fanchuki_plan: the refusals of link, solve and check, as the program `calls` lists them */
    FANCHUKI_LINK_SITES = 6,        /* a link names an unlisted site, or one site twice */
    FANCHUKI_PLAN_LENGTH = 7,       /* a plan's count is outside 1 to 136 or its length isn't 1 + 2 x count */
    FANCHUKI_UNKNOWN_STEP = 8,      /* unknown kind, or argument not in the query */
    FANCHUKI_LOADED_BEFORE = 9,     /* the relation was loaded before */
    FANCHUKI_SEND_NOT_ALLOWED = 10, /* send not allowed, or nothing held */
    FANCHUKI_JOIN_NOT_ALLOWED = 11, /* join not allowed, or fewer than two held */
    FANCHUKI_WRONG_END = 12,        /* not one result with every relation at the query site */
    FANCHUKI_NOTHING_LOADED = 20,   /* nothing loaded */
    FANCHUKI_FEW_CELLS = 21         /* the work area has fewer cells than the query has subqueries times sites */
};

/* Loads the query file, solves it and writes the cheapest plan to the front of the output.
 *
 * Returns the plan's length in bytes (3 to FANCHUKI_LONGEST_PLAN), FANCHUKI_NO_ROUTE, or FANCHUKI_REFUSED plus the refusal's
 * number: FANCHUKI_CUT to FANCHUKI_BYTES_FOLLOW, or FANCHUKI_SHORT_OUTPUT. No route comes before a short output.
 *
 * Only the plan's bytes are written: the rest of the output stays as it was, and all of it does on no route and on a refusal.
 * The query is only read. Nothing is kept between calls and nothing is allocated; calls on several threads do not meet, and
 * may share a query.
 *
 * Both areas may begin at any address: they are bytes. They must not overlap, so the plan cannot be written over its query.
 * A length of 0 may come with any pointer, a null pointer too.
 */
uint64_t fanchuki_plan(const uint8_t *query, size_t query_length, uint8_t *output, size_t output_length);

#ifdef __cplusplus
}
#endif

#endif
