/* Query files to measure and to compare on. */
#ifndef QUERIES_H
#define QUERIES_H

#include <stddef.h>
#include <stdint.h>

#include "fanchuki.h"

typedef struct {
    uint8_t bytes[FANCHUKI_LONGEST_QUERY + 16];
    size_t length;
} query_file;

/* A number below the limit, the same row of them after each seed. */
void seed(uint64_t s);
uint64_t below(uint64_t limit);

/* A star, a chain or a tree that branches; always the same one for a shape, its lines, a number of relations and of sites.
 * Lines are "random", one in eight closed; "metric": no two in a row are cheaper than the direct one, at any size; or "hubs":
 * those to and from site 0 have a tenth of the amounts of the others. */
void shaped_query(query_file *f, const char *shape, const char *lines, int relations, int sites);

/* The same query twice, its sizes worked out from row counts: a file with these, and the ordinary one. Beside the shapes above
 * "star8" is a star of nine whose middle is relation 8. Some sizes are cut to the largest. */
void shaped_rows(query_file *rows, query_file *sizes, const char *shape, int relations, int sites);

/* Trials of solve on a shaped query. */
uint64_t shaped_trials(const char *shape, int relations, int sites);

/* Any query: any tree in any order, small amounts that tie or amounts at their limits, sizes at and beside full parcels,
 * closed lines, sites that may not join, indexes, and half the time one or two homes for all. Half the time the lines are as
 * above or go round: open, or cheap, only to the next of the sites in some order. */
void random_query(query_file *f);
void random_rows(query_file *rows, query_file *sizes);

/* One change somewhere, more often near the front. */
void damage(query_file *f);

#endif
