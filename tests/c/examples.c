#include "examples.h"

#include <stdio.h>
#include <stdlib.h>
#include <string.h>

/* As docs/RULES.md has Q's plan, and the reference's model the others. */
static const uint8_t q[] = {4, 1, 0, 1, 1, 2, 0, 3, 0};
static const uint8_t indexes[] = {3, 1, 0, 1, 1, 3, 0};
static const uint8_t chain[] = {14, 1, 0, 2, 1, 1, 1, 3, 0, 2, 2, 1, 2, 3, 1, 2, 3, 1, 3, 3, 2, 2, 4, 1, 4, 3, 3, 2, 5};
static const uint8_t star[] = {27, 1, 0, 2, 1, 1, 4, 2, 1, 3, 3, 1, 2, 2, 1, 3, 1, 1, 6, 2, 1, 3, 5, 1, 3, 2, 1, 3,
                               2,  1, 8, 2, 1, 3, 7, 1, 1, 3, 0, 2, 7, 1, 5, 2, 7, 3, 4, 1, 7, 2, 1, 2, 7, 3, 6};

/* Seven sends against the order of the sites, which end at t; and a relation and the result so far sent to the next join. */
#define SEND(t) 2, (t) % 8
#define SENDS(t) SEND(t + 6), SEND(t + 5), SEND(t + 4), SEND(t + 3), SEND(t + 2), SEND(t + 1), SEND(t)
#define JOINED(r) 1, r, SENDS(r - 1), 3, r - 1, SENDS(r)
static const uint8_t longest[] = {136,       1,         0,         SENDS(0),  JOINED(1), JOINED(2),
                                  JOINED(3), JOINED(4), JOINED(5), JOINED(6), JOINED(7), JOINED(8)};

const example examples[EXAMPLES] = {
    {"examples/q.query", 107, q, sizeof q},
    {"examples/two-indexes.query", 35, indexes, sizeof indexes},
    {"examples/chain-of-five.query", 410, chain, sizeof chain},
    {"examples/longest-plan.query", 798, longest, FANCHUKI_LONGEST_PLAN},
    {"examples/star-of-nine.query", FANCHUKI_LONGEST_QUERY, star, sizeof star},
};

void read_example(const example *e, uint8_t query[FANCHUKI_LONGEST_QUERY + 1])
{
    FILE *file = fopen(e->path, "rb");
    memset(query, 0, FANCHUKI_LONGEST_QUERY + 1);
    if (file == NULL || fread(query, 1, FANCHUKI_LONGEST_QUERY + 1, file) != e->length || fclose(file)) {
        printf("%s does not have %zu bytes\n", e->path, e->length);
        exit(2);
    }
}
