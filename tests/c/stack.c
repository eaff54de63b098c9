/* The stack that the C call takes: it runs on a painted stack, and what is no longer painted was used. Prints the most over
 * the example queries and many random ones, and fails where the header's figure is below it, or so far above it that it is
 * no longer the call's. Link it with -z now: the dynamic linker's part is not the call's. */
#include <pthread.h>
#include <stdio.h>
#include <stdlib.h>
#include <string.h>

#include "examples.h"
#include "random_query.h"

enum { AREA = 1 << 18, PAINT = 0xa5, RANDOM_QUERIES = 5000, MARGIN = 8192 };

typedef struct {
    uint8_t bytes[FANCHUKI_LONGEST_QUERY + 1];
    size_t length;
    uint64_t answer;
} query_file;

static size_t most;
static unsigned plans;

static void *nothing(void *file)
{
    return file;
}

static void *plan(void *argument)
{
    query_file *file = argument;
    uint8_t output[FANCHUKI_LONGEST_PLAN];
    file->answer = fanchuki_plan(file->bytes, file->length, output, sizeof output);
    return file;
}

/* The bytes that a thread takes of its stack. */
static size_t used(void *(*work)(void *), query_file *file)
{
    static uint8_t area[AREA] __attribute__((aligned(4096)));
    pthread_attr_t attributes;
    pthread_t thread;
    size_t free_bytes = 0;
    memset(area, PAINT, AREA);
    if (pthread_attr_init(&attributes) || pthread_attr_setstack(&attributes, area, AREA) ||
        pthread_create(&thread, &attributes, work, file) || pthread_join(thread, NULL))
        exit(2);
    while (free_bytes < AREA && area[free_bytes] == PAINT)
        free_bytes++;
    return AREA - free_bytes;
}

static void measure(query_file *file)
{
    size_t bytes = used(plan, file) - used(nothing, file);
    if (file->answer >= FANCHUKI_REFUSED) {
        printf("stack: a query is refused with %d\n", (int)(file->answer - FANCHUKI_REFUSED));
        exit(1);
    }
    most = bytes > most ? bytes : most;
    plans += file->answer != FANCHUKI_NO_ROUTE;
}

int main(void)
{
    static query_file file;
    uint64_t state = 1;
    for (int i = 0; i < EXAMPLES; i++) {
        read_example(&examples[i], file.bytes);
        file.length = examples[i].length;
        measure(&file);
    }
    for (int i = 0; i < RANDOM_QUERIES; i++) {
        file.length = random_query(&state, file.bytes);
        measure(&file);
    }
    printf("stack: %zu bytes at most over %d queries, %u of them with a plan; the header says %d\n", most,
           EXAMPLES + RANDOM_QUERIES, plans, FANCHUKI_STACK);
    if (most <= FANCHUKI_STACK && FANCHUKI_STACK <= most + MARGIN)
        return 0;
    printf("stack: FANCHUKI_STACK should be %zu to %zu\n", most, most + MARGIN);
    return 1;
}
