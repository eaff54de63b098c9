/* The C boundary: what the call answers, which bytes it writes, and that it touches nothing else. Query and output stand
 * between pages without access, each at both ends of its page, and the query's page can only be read: an access of the
 * archive outside the lent bytes ends the test, whatever it reads or writes. */
#include <stdio.h>
#include <stdlib.h>
#include <string.h>

#include "examples.h"
#include "guarded.h"

enum { FILL = 165 }; /* no byte of a plan */

typedef struct {
    uint8_t query[FANCHUKI_LONGEST_QUERY + 1];
    size_t query_length;
    size_t output_length;
    uint64_t answer;     /* wanted */
    const uint8_t *plan; /* wanted where the answer is a plan's length */
} call;

static uint8_t *query_page, *output_page;
static char making[100] = "boundary"; /* the call that is being made */
static unsigned made;

static void expect(const char *what, uint64_t got, uint64_t wanted)
{
    if (got == wanted)
        return;
    printf("%s: %s is %llu instead of %llu\n", making, what, (unsigned long long)got, (unsigned long long)wanted);
    exit(1);
}

/* The output's page: the plan where it belongs, and every other byte as it was. */
static void expect_output(const call *c, const uint8_t *output)
{
    size_t front = (size_t)(output - output_page);
    size_t length = c->answer < FANCHUKI_REFUSED ? c->answer : 0;
    for (size_t i = 0; i < PAGE; i++)
        expect("a byte of the output's page", output_page[i], i >= front && i - front < length ? c->plan[i - front] : FILL);
}

static void hold_at(const call *c, place query_at, place output_at)
{
    uint8_t *query = placed(query_page, c->query_length, query_at);
    uint8_t *output = placed(output_page, c->output_length, output_at);
    snprintf(making, sizeof making, "boundary: query of %zu bytes at the %s, output of %zu at the %s", c->query_length,
             query_at == AT_FRONT ? "front" : "back", c->output_length, output_at == AT_FRONT ? "front" : "back");
    memset(output_page, FILL, PAGE);
    memset(query_page, FILL, PAGE);
    memcpy(query, c->query, c->query_length);
    read_only(query_page, 1);
    expect("the answer", fanchuki_plan(query, c->query_length, output, c->output_length), c->answer);
    read_only(query_page, 0);
    expect_output(c, output);
    made++;
}

static void hold(const call *c)
{
    hold_at(c, AT_FRONT, AT_FRONT);
    hold_at(c, AT_FRONT, AT_BACK);
    hold_at(c, AT_BACK, AT_FRONT);
    hold_at(c, AT_BACK, AT_BACK);
}

/* Every cut of the file, the file with one byte behind, and the file with every length of output up to one too many. */
static void hold_example(const example *e)
{
    static call c;
    read_example(e, c.query);
    c.plan = e->plan;
    c.output_length = FANCHUKI_LONGEST_PLAN;
    c.answer = FANCHUKI_REFUSED + FANCHUKI_CUT;
    for (c.query_length = 0; c.query_length < e->length; c.query_length++)
        hold(&c);
    c.query_length = e->length + 1;
    c.answer = FANCHUKI_REFUSED + FANCHUKI_BYTES_FOLLOW;
    hold(&c);
    c.query_length = e->length;
    for (c.output_length = 0; c.output_length <= FANCHUKI_LONGEST_PLAN + 1; c.output_length++) {
        c.answer = c.output_length < e->plan_length ? FANCHUKI_REFUSED + FANCHUKI_SHORT_OUTPUT : e->plan_length;
        hold(&c);
    }
}

/* Q with lines 1 to 0 and 2 to 0 closed: the output stays whatever its length. */
static void hold_no_route(const example *q)
{
    static call c;
    size_t lines = 1 + 3 * 9 + 1 + 2 * 2 + 1 + 2 + 2 + 3 * 4 + 1;
    read_example(q, c.query);
    c.query[lines + 2 * 9] = 0;
    c.query[lines + 4 * 9] = 0;
    c.query_length = q->length;
    c.answer = FANCHUKI_NO_ROUTE;
    for (c.output_length = 0; c.output_length <= FANCHUKI_LONGEST_PLAN + 1; c.output_length++)
        hold(&c);
    expect("no route, null output", fanchuki_plan(c.query, c.query_length, NULL, 0), FANCHUKI_NO_ROUTE);
}

static void expect_null_allowed(const example *q)
{
    uint8_t query[FANCHUKI_LONGEST_QUERY + 1];
    read_example(q, query);
    expect("null, null", fanchuki_plan(NULL, 0, NULL, 0), FANCHUKI_REFUSED + FANCHUKI_CUT);
    expect("Q, null output", fanchuki_plan(query, q->length, NULL, 0), FANCHUKI_REFUSED + FANCHUKI_SHORT_OUTPUT);
}

int main(void)
{
    on_stopped_access(making);
    query_page = guarded_page();
    output_page = guarded_page();
    for (int i = 0; i < EXAMPLES; i++)
        hold_example(&examples[i]);
    hold_no_route(&examples[0]);
    expect_null_allowed(&examples[0]);
    printf("boundary: %u calls between guard pages, each as it should be\n", made);
    return 0;
}
