/* The header by itself, as C99, C11 and C++: its constants agree with each other, and with what the call answers. Takes Q. */
#include "fanchuki.h"

#include "fanchuki.h" /* once more does no harm */

#include <stdio.h>

#define AGREES(name, fact) typedef char name[(fact) ? 1 : -1]

AGREES(sixty_four_bits, sizeof(size_t) == 8);
/* eight sites, nine relations in a star, which have 264 subqueries */
AGREES(longest_query, FANCHUKI_LONGEST_QUERY == 1 + 8 * 9 + 1 + 9 * 2 + 1 + 8 * 2 + 2 + 264 * 4 + 1 + 8 * 7 * 9 + 1 + 1);
/* nine loads, eight joins, and each relation and each joined result sent over seven lines */
AGREES(longest_plan, FANCHUKI_LONGEST_PLAN == 1 + 2 * (9 + 8 + (9 + 8) * 7));
/* the work area of the heaviest query, eight bytes a cell */
AGREES(stack_has_the_cells, FANCHUKI_STACK > 264 * 8 * 8);
AGREES(kinds, FANCHUKI_LOAD == 1 && FANCHUKI_SEND == 2 && FANCHUKI_JOIN == 3);
AGREES(no_plan_is_no_route, FANCHUKI_NO_ROUTE < 1 + 2);
AGREES(no_plan_is_a_refusal, FANCHUKI_LONGEST_PLAN < FANCHUKI_REFUSED);
AGREES(of_the_file, FANCHUKI_CUT == 1 && FANCHUKI_WRONG_COUNT == 2 && FANCHUKI_OUT_OF_RANGE == 3 && FANCHUKI_NOT_REACHED == 4 &&
                        FANCHUKI_BYTES_FOLLOW == 5);
AGREES(of_a_link, FANCHUKI_LINK_SITES == 6);
AGREES(of_a_plan, FANCHUKI_PLAN_LENGTH == 7 && FANCHUKI_UNKNOWN_STEP == 8 && FANCHUKI_LOADED_BEFORE == 9 &&
                      FANCHUKI_SEND_NOT_ALLOWED == 10 && FANCHUKI_JOIN_NOT_ALLOWED == 11 && FANCHUKI_WRONG_END == 12);
AGREES(of_the_state_and_the_lent, FANCHUKI_NOTHING_LOADED == 20 && FANCHUKI_FEW_CELLS == 21 && FANCHUKI_SHORT_OUTPUT == 23);

enum { Q_LENGTH = 107, Q_PLAN = 9 };

static uint8_t q[Q_LENGTH + 1];
static int failures;

static void expect(const char *what, uint64_t got, uint64_t wanted)
{
    if (got == wanted)
        return;
    printf("header: %s: %d instead of %d\n", what, (int)got, (int)wanted);
    failures++;
}

/* What the call answers to the first bytes of Q with one byte changed. */
static uint64_t answer_with(size_t place, uint8_t value, size_t query_length, size_t output_length)
{
    uint8_t output[Q_PLAN];
    uint8_t kept = q[place];
    q[place] = value;
    uint64_t answer = fanchuki_plan(q, query_length, output, output_length);
    q[place] = kept;
    return answer;
}

static void expect_refusals(void)
{
    enum { SITES = 0, FLAG = 1, SECOND_END = 35, DELIVERY = 106 };
    const uint64_t refused = FANCHUKI_REFUSED;
    expect("cut", answer_with(DELIVERY, 0, Q_LENGTH - 1, Q_PLAN), refused + FANCHUKI_CUT);
    expect("no sites", answer_with(SITES, 0, Q_LENGTH, Q_PLAN), refused + FANCHUKI_WRONG_COUNT);
    expect("a flag of 2", answer_with(FLAG, 2, Q_LENGTH, Q_PLAN), refused + FANCHUKI_OUT_OF_RANGE);
    expect("a join of 0 and 0", answer_with(SECOND_END, 0, Q_LENGTH, Q_PLAN), refused + FANCHUKI_NOT_REACHED);
    expect("a byte behind", answer_with(Q_LENGTH, 0, Q_LENGTH + 1, Q_PLAN), refused + FANCHUKI_BYTES_FOLLOW);
    expect("a short output", answer_with(DELIVERY, 0, Q_LENGTH, Q_PLAN - 1), refused + FANCHUKI_SHORT_OUTPUT);
}

/* Where site 0 has no line into it. */
static void expect_no_route(void)
{
    enum { LINE_1_TO_0 = 69, LINE_2_TO_0 = 87 };
    q[LINE_1_TO_0] = 0;
    expect("no route", answer_with(LINE_2_TO_0, 0, Q_LENGTH, Q_PLAN), FANCHUKI_NO_ROUTE);
    q[LINE_1_TO_0] = 1;
}

static void expect_plan(void)
{
    static const uint8_t wanted[Q_PLAN] = {4, FANCHUKI_LOAD, 0, FANCHUKI_LOAD, 1, FANCHUKI_SEND, 0, FANCHUKI_JOIN, 0};
    uint8_t plan[Q_PLAN];
    expect("Q", fanchuki_plan(q, Q_LENGTH, plan, Q_PLAN), Q_PLAN);
    for (size_t i = 0; i < Q_PLAN; i++)
        expect("a byte of Q's plan", plan[i], wanted[i]);
}

int main(int argc, char **argv)
{
    FILE *file = argc == 2 ? fopen(argv[1], "rb") : NULL;
    if (file == NULL || fread(q, 1, sizeof q, file) != Q_LENGTH || fclose(file))
        return 2;
    expect_plan();
    expect_refusals();
    expect_no_route();
    return failures != 0;
}
