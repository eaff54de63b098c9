/* The C call with one fault, the one that FAULT names: the boundary test must find each. Linked with --wrap=fanchuki_plan.
 * Stores outside the lent bytes put back what is there, so that only the guard pages can tell. */
#include <stdlib.h>
#include <string.h>

#include "fanchuki.h"

uint64_t __real_fanchuki_plan(const uint8_t *query, size_t query_length, uint8_t *output, size_t output_length);
uint64_t __wrap_fanchuki_plan(const uint8_t *query, size_t query_length, uint8_t *output, size_t output_length);

static int has(const char *fault)
{
    const char *named = getenv("FAULT");
    return named != NULL && strcmp(named, fault) == 0;
}

static void load_from(const uint8_t *place)
{
    (void)*(const volatile uint8_t *)place;
}

static void store_to(uint8_t *place)
{
    *(volatile uint8_t *)place = *(volatile uint8_t *)place;
}

static void touch(const uint8_t *query, size_t query_length, uint8_t *output, size_t output_length)
{
    if (has("reads-before-the-query"))
        load_from(query - 1);
    if (has("reads-past-the-query"))
        load_from(query + query_length);
    if (has("writes-into-the-query") && query_length > 0)
        store_to((uint8_t *)(uintptr_t)query);
    if (has("writes-before-the-output"))
        store_to(output - 1);
    if (has("writes-past-the-output"))
        store_to(output + output_length);
}

uint64_t __wrap_fanchuki_plan(const uint8_t *query, size_t query_length, uint8_t *output, size_t output_length)
{
    uint64_t answer = __real_fanchuki_plan(query, query_length, output, output_length);
    if (answer < FANCHUKI_REFUSED)
        touch(query, query_length, output, output_length);
    if (has("writes-behind-the-plan") && answer < output_length)
        output[answer] = 0;
    if (has("writes-on-a-refusal") && answer >= FANCHUKI_REFUSED && output_length > 0)
        output[0] = 0;
    if (has("answers-one-less") && answer > 0)
        answer--;
    return answer;
}
