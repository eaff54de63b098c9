/* The queries of examples/ and their plans. */
#include "fanchuki.h"

typedef struct {
    const char *path; /* from the repository's root */
    size_t length;
    const uint8_t *plan;
    size_t plan_length;
} example;

enum { EXAMPLES = 5 };
extern const example examples[EXAMPLES];

/* Reads the query; the byte behind it is 0. Ends the process where the file has another length. */
void read_example(const example *e, uint8_t query[FANCHUKI_LONGEST_QUERY + 1]);
