/* Prints the cheapest plan of a query file.
 *
 *   cc -Iinclude examples/plan.c -Ltarget/staticlib -lfanchuki -o plan-c && ./plan-c examples/q.query
 */
#include <stdio.h>

#include "fanchuki.h"

int main(int argc, char **argv)
{
    static const char *const kind[] = {[FANCHUKI_LOAD] = "load", [FANCHUKI_SEND] = "send", [FANCHUKI_JOIN] = "join"};
    uint8_t query[FANCHUKI_LONGEST_QUERY + 1]; /* one byte more tells a longer file */
    uint8_t plan[FANCHUKI_LONGEST_PLAN];

    FILE *file = argc == 2 ? fopen(argv[1], "rb") : NULL;
    if (file == NULL) {
        fprintf(stderr, "usage: %s QUERY-FILE\n", argv[0]);
        return 2;
    }
    size_t length = fread(query, 1, sizeof query, file);
    fclose(file);

    uint64_t answer = fanchuki_plan(query, length, plan, sizeof plan);
    if (answer >= FANCHUKI_REFUSED) {
        printf("refused %d\n", (int)(answer - FANCHUKI_REFUSED));
        return 1;
    }
    if (answer == FANCHUKI_NO_ROUTE) {
        printf("no route\n");
        return 1;
    }
    for (unsigned step = 0; step < plan[0]; step++)
        printf("%s %u\n", kind[plan[1 + 2 * step]], plan[2 + 2 * step]);
    return 0;
}
