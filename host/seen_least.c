/* What a run of the comparison of the fewest bits has seen, judged from the listings and the answers, whatever was meant. */
#include "seen_least.h"
#include "second.h"

enum sort {
    NO_BITS,
    ONE_BIT,
    TWO_BITS,
    THREE_BITS,
    FOUR_BITS,
    FIVE_BITS,
    OF_GROUPS,
    OF_DICHOTOMIES,
    OF_MOORE,
    OF_FLOW,
    CONSTANT,
    SHORTER,
    AT_32,
    COVER_ROWS,
    COVER_MOORE,
    COVER_FLOW,
    NONE_OF_4,
    NONE_OF_5,
    NONE_OF_6,
    NONE_OF_ROWS,
    NONE_OF_FLOW,
    NONE_OF_MOORE,
    STATES,
    STATES_7,
    STATES_FAULT,
    STATES_HEAD,
    ASKED,
    ASKED_33,
    ASKED_FLOW,
    ASKED_MOORE,
    ASKED_CONFLICT,
    ASKED_UNTOLD,
    CROWD,
    TOO_LONG,
    TOO_LONG_LARGE,
    SORTS
};

/* Each sort's name, how often a full run must see it, and how often it was seen. */
static struct {
    const char *name;
    unsigned least;
    uint64_t seen;
} sorts[SORTS] = {
    [NO_BITS] = {"no bits", 100, 0},
    [ONE_BIT] = {"1 bit", 300, 0},
    [TWO_BITS] = {"2 bits", 1000, 0},
    [THREE_BITS] = {"3 bits", 1000, 0},
    [FOUR_BITS] = {"4 bits", 600, 0},
    [FIVE_BITS] = {"5 bits", 300, 0},
    [OF_GROUPS] = {"with groups", 1000, 0},
    [OF_DICHOTOMIES] = {"with dichotomies", 1000, 0},
    [OF_MOORE] = {"Moore", 1000, 0},
    [OF_FLOW] = {"flow", 500, 0},
    [CONSTANT] = {"with a constant column", 200, 0},
    [SHORTER] = {"shorter than the bit rule's", 200, 0},
    [AT_32] = {"with 32 requirements", 200, 0},
    [COVER_ROWS] = {"covers with rows", 1000, 0},
    [COVER_MOORE] = {"covers of Moore machines", 500, 0},
    [COVER_FLOW] = {"covers of flow tables", 500, 0},
    [NONE_OF_4] = {"16 of 4 states", 100, 0},
    [NONE_OF_5] = {"16 of 5", 100, 0},
    [NONE_OF_6] = {"16 of 6", 20, 0},
    [NONE_OF_ROWS] = {"16 of rows alone", 10, 0},
    [NONE_OF_FLOW] = {"16 of flow tables", 100, 0},
    [NONE_OF_MOORE] = {"16 of Moore machines", 50, 0},
    [STATES] = {"2 for states", 500, 0},
    [STATES_7] = {"2 for 7 states", 300, 0},
    [STATES_FAULT] = {"2 for states before a later fault", 50, 0},
    [STATES_HEAD] = {"another fault of line 1 before 2 for states", 10, 0},
    [ASKED] = {"2 for requirements", 500, 0},
    [ASKED_33] = {"2 for 33 requirements", 200, 0},
    [ASKED_FLOW] = {"2 for requirements of flow tables", 100, 0},
    [ASKED_MOORE] = {"2 for requirements of Moore machines", 50, 0},
    [ASKED_CONFLICT] = {"6 before 2 for requirements", 15, 0},
    [ASKED_UNTOLD] = {"17 before 2 for requirements", 10, 0},
    [CROWD] = {"2 for over 64 dichotomies of a flow table", 10, 0},
    [TOO_LONG] = {"2 for a listing too long", 20, 0},
    [TOO_LONG_LARGE] = {"so, of over 6 states", 5, 0},
};

static void count(enum sort sort, bool seen)
{
    sorts[sort].seen += seen;
}

/* ---- answers ---- */

/* Whether some bit of the codes in a report is 0 for every state. */
static bool has_constant(const uint8_t *report, unsigned bits)
{
    bool ones[SECOND_LEAST_BITS] = {false};
    bool constant = false;
    for (const uint8_t *at = report; *at != 'E'; at++) {
        if (at[-(at > report)] != '\n' || at[0] != 'S')
            continue;
        for (unsigned place = 0; place < bits; place++)
            ones[place] = ones[place] || at[5 + place] == '1';
    }
    for (unsigned place = 0; place < bits; place++)
        constant = constant || !ones[place];
    return constant;
}

/* The report begins `CT bits asked`, and its bits are one digit. */
static void see_answer(const struct second_machine *machine, const struct second_requirements *requirements, const uint8_t *report)
{
    struct second_code rule;
    unsigned bits = report[3] - '0';
    second_build_code(requirements, machine->states, 0, &rule);
    count(NO_BITS + (enum sort)bits, true);
    count(OF_GROUPS, requirements->pairs_groups > machine->states * (machine->states - 1) / 2);
    count(OF_DICHOTOMIES, machine->dichotomies > 0 && machine->flow_lines == 0);
    count(OF_MOORE, machine->moore);
    count(OF_FLOW, machine->dichotomies > 0 && machine->flow_lines > 0);
    count(CONSTANT, has_constant(report, bits));
    count(SHORTER, bits < rule.bits);
    count(AT_32, requirements->number == SECOND_LEAST_REQUIREMENTS);
}

static void see_cover(const struct second_machine *machine)
{
    count(COVER_ROWS, machine->rows > 0 && !machine->moore);
    count(COVER_MOORE, machine->moore);
    count(COVER_FLOW, machine->flow_lines > 0);
}

/* ---- refusals ---- */

static void see_none(const struct second_machine *machine)
{
    count(NONE_OF_4, machine->states == 4);
    count(NONE_OF_5, machine->states == 5);
    count(NONE_OF_6, machine->states == 6);
    count(NONE_OF_ROWS, machine->dichotomies == 0);
    count(NONE_OF_FLOW, machine->flow_lines > 0);
    count(NONE_OF_MOORE, machine->moore);
}

/* A listing that is read, by what its requirements are. */
static void see_asked(const struct second_machine *machine, const struct second_requirements *requirements, int64_t least)
{
    bool over = requirements->number > SECOND_LEAST_REQUIREMENTS;
    bool limit = over && least == -200000;
    count(ASKED, limit);
    count(ASKED_33, limit && requirements->number == SECOND_LEAST_REQUIREMENTS + 1);
    count(ASKED_FLOW, limit && machine->flow_lines > 0);
    count(ASKED_MOORE, limit && machine->moore);
    count(ASKED_CONFLICT, over && least / 100000 == -SECOND_CONFLICT);
    count(ASKED_UNTOLD, over && least / 100000 == -SECOND_UNTOLD);
}

/* The head line is good, or names 7 states or more and is not; then whether a later line would have been refused. */
static void see_states(const uint8_t *listing, size_t length, const struct second_machine *head, bool good, int64_t least)
{
    static struct second_machine machine;
    bool large = length > 4 && listing[0] == 'M' && listing[3] >= '7' && listing[3] <= '9' && (listing[4] == ' ' || listing[4] == '\n');
    count(STATES_HEAD, !good && large && least / 100000 == -SECOND_BAD_LINE);
    if (!good || head->states <= SECOND_LEAST_STATES || least != -200001)
        return;
    count(STATES, true);
    count(STATES_7, head->states == SECOND_LEAST_STATES + 1);
    count(STATES_FAULT, second_read_lines(listing, length, &machine).number != SECOND_FINE);
}

void seen_least(const uint8_t *listing, size_t length, int64_t least, int64_t cover, const uint8_t *report)
{
    static struct second_machine machine;
    static struct second_requirements requirements;
    struct second_refusal refusal = second_read_head(listing, length, &machine);
    count(TOO_LONG, length > SECOND_BYTES && least == -200000);
    count(TOO_LONG_LARGE, length > SECOND_BYTES && refusal.number == SECOND_FINE && machine.states > SECOND_LEAST_STATES);
    see_states(listing, length, &machine, refusal.number == SECOND_FINE, least);
    if (refusal.number != SECOND_FINE || machine.states > SECOND_LEAST_STATES)
        return;
    refusal = second_read_lines(listing, length, &machine);
    count(CROWD, refusal.number == SECOND_LIMIT && refusal.line == 0 && length <= SECOND_BYTES);
    if (refusal.number != SECOND_FINE && refusal.number != SECOND_UNTOLD)
        return;
    second_draw_up(&machine, &requirements);
    see_asked(&machine, &requirements, least);
    if (least > 0)
        see_answer(&machine, &requirements, report);
    if (cover > 0)
        see_cover(&machine);
    if (least == -100000 * SECOND_NO_CODE)
        see_none(&machine);
}

void seen_least_print(void)
{
    printf("seen:");
    for (unsigned sort = 0; sort < SORTS; sort++)
        printf("%s %s %llu", sort == 0 ? "" : ";", sorts[sort].name, (unsigned long long)sorts[sort].seen);
    printf("\n");
}

bool seen_least_each(void)
{
    bool enough = true;
    for (unsigned sort = 0; sort < SORTS; sort++) {
        if (sorts[sort].seen >= sorts[sort].least)
            continue;
        printf("FAILED: %s was seen %llu times, fewer than %u\n", sorts[sort].name, (unsigned long long)sorts[sort].seen, sorts[sort].least);
        enough = false;
    }
    return enough;
}
