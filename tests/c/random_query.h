/* Random query files that load: chains, stars and other trees, up to the limits of docs/RULES.md. */
#include <stddef.h>
#include <stdint.h>

/* Writes a file of at most FANCHUKI_LONGEST_QUERY bytes and returns its length; the state goes on with each. */
size_t random_query(uint64_t *state, uint8_t *file);
