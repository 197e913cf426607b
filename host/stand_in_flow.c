/* The stand-in's faults in flow tables: the second encoder's answer to another listing, in which the dichotomies are drawn up by a
   rule that is not 02's, or another refusal. */
#include "stand_in_flow.h"
#include "second.h"

#ifndef STAND_IN_FAULT
#define STAND_IN_FAULT 0
#endif

static bool fault(unsigned number)
{
    return STAND_IN_FAULT == number;
}

/* ---- dichotomies by another rule ---- */

struct sets {
    unsigned number;
    unsigned destination[SECOND_STATES];
    uint64_t members[SECOND_STATES];
};

static uint64_t set_of(const struct second_machine *machine, unsigned column, unsigned destination)
{
    uint64_t members = 0;
    for (unsigned state = 0; state < machine->states; state++)
        if (machine->flow[state][column] == (int)destination)
            members |= (uint64_t)1 << state;
    if (fault(78) && (members & (members - 1)) != 0)
        members &= ~((uint64_t)1 << destination); /* those that go there from elsewhere */
    return members;
}

static void add_set(struct sets *sets, unsigned destination, uint64_t members)
{
    sets->destination[sets->number] = destination;
    sets->members[sets->number] = members;
    sets->number++;
}

/* A column's sets by lowest member, or by another rule. */
static void find_sets(const struct second_machine *machine, unsigned column, struct sets *sets)
{
    sets->number = 0;
    for (unsigned state = 0; state < machine->states; state++) {
        int next = machine->flow[state][column];
        bool found = next == SECOND_NO_STATE;
        for (unsigned at = 0; at < sets->number; at++)
            found = found || sets->destination[at] == (unsigned)next;
        if (fault(73) && next == SECOND_NO_STATE)
            add_set(sets, state, (uint64_t)1 << state); /* a dash as a state that stays */
        if (fault(71))
            found = next != (int)state; /* by destination */
        if (!found)
            add_set(sets, (unsigned)next, set_of(machine, column, (unsigned)next));
    }
}

static void add_dichotomy(struct second_machine *machine, uint64_t first, uint64_t second)
{
    bool equal = false;
    for (unsigned at = 0; at < machine->dichotomies; at++)
        equal = equal || (machine->dichotomy[at].first == first && machine->dichotomy[at].second == second);
    if ((fault(76) && equal) || machine->dichotomies == SECOND_DICHOTOMIES)
        return; /* equal ones once */
    machine->dichotomy[machine->dichotomies].first = fault(75) ? second : first; /* 75: the first set `-` */
    machine->dichotomy[machine->dichotomies].second = fault(75) ? first : second;
    machine->dichotomies++;
}

static void add_column(struct second_machine *machine, unsigned column)
{
    struct sets sets;
    find_sets(machine, column, &sets);
    for (unsigned one = 0; one < sets.number; one++) {
        for (unsigned other = 0; other < sets.number; other++) {
            bool wanted = fault(77) ? other < one : other > one; /* 77: by the second set and then by the first */
            if (wanted || (fault(74) && other < one)) /* 74: each two sets both ways */
                add_dichotomy(machine, sets.members[fault(77) ? other : one], sets.members[fault(77) ? one : other]);
        }
    }
}

static void draw_up(struct second_machine *machine)
{
    machine->dichotomies = 0;
    for (unsigned at = 0; at + fault(79) < machine->columns; at++)                /* 79: the last column left out */
        add_column(machine, fault(72) ? machine->columns - 1 - at : at); /* 72: right to left */
}

/* The listing with these dichotomies as `DI` lines. */
static size_t write_ordinary(const uint8_t *listing, const struct second_machine *machine, uint8_t *text)
{
    size_t length = 0;
    do
        text[length] = listing[length];
    while (listing[length++] != '\n');
    for (unsigned at = 0; at < machine->dichotomies; at++) {
        memcpy(text + length, "DI ", 3);
        length += 3;
        for (unsigned state = 0; state < machine->states; state++) {
            bool first = machine->dichotomy[at].first >> state & 1;
            text[length++] = first ? '+' : machine->dichotomy[at].second >> state & 1 ? '-' : '.';
        }
        text[length++] = '\n';
    }
    memcpy(text + length, "EN\n", 3);
    return length + 3;
}

/* ---- refusals by another rule ---- */

struct line {
    size_t at;
    size_t length;
    bool ended;
    unsigned fields;
};

static struct line line_of(const uint8_t *listing, size_t length, unsigned number)
{
    struct line line = {0, 0, false, 1};
    for (; number > 1 && line.at < length; line.at++)
        number -= listing[line.at] == '\n';
    for (; line.at + line.length < length && listing[line.at + line.length] != '\n'; line.length++)
        line.fields += listing[line.at + line.length] == ' ';
    line.ended = line.at + line.length < length;
    return line;
}

static bool has_mark(const uint8_t *listing, struct line line, const char *mark)
{
    return line.length >= 2 && memcmp(listing + line.at, mark, 2) == 0 && (line.length == 2 || listing[line.at + 2] == ' ');
}

static bool is_unstable(const struct second_machine *machine, unsigned state, unsigned column)
{
    int next = machine->flow[state][column];
    return next != SECOND_NO_STATE && machine->flow[next][column] != next;
}

static unsigned count_asked(const struct second_machine *machine)
{
    unsigned asked = 0;
    for (unsigned column = 0; column < machine->columns; column++) {
        struct sets sets;
        find_sets(machine, column, &sets);
        asked += sets.number * (sets.number - 1) / 2;
    }
    return asked;
}

static bool has_unstable(const struct second_machine *machine)
{
    bool has = false;
    for (unsigned state = 0; state < machine->states; state++)
        for (unsigned column = 0; column < machine->columns; column++)
            has = has || is_unstable(machine, state, column);
    return has;
}

static int64_t refused(unsigned number, unsigned line)
{
    return -(int64_t)(number * 100000 + line);
}

/* 13 at another line. */
static int64_t unstable_at(const struct second_machine *machine, unsigned line)
{
    for (unsigned column = 0; column < machine->columns; column++) {
        if (fault(81) && is_unstable(machine, line - 2, column))
            return refused(SECOND_UNSTABLE, (unsigned)machine->flow[line - 2][column] + 2); /* the destination's own */
        for (unsigned state = 0; fault(82) && state < machine->states; state++)
            if (is_unstable(machine, state, column))
                return refused(SECOND_UNSTABLE, state + 2); /* by columns */
    }
    return refused(SECOND_UNSTABLE, line);
}

/* 1 in place of 3 for a line that has a second fault, or none. */
static bool is_bad_instead(const uint8_t *listing, struct line line, const struct second_machine *machine)
{
    bool flow = line.at > 0 && has_mark(listing, line, "FT");
    bool end = has_mark(listing, line, "EN");
    bool other = has_mark(listing, line, "PT") || has_mark(listing, line, "DI");
    bool before = machine->flow_lines > 0;
    return (fault(86) && end && before && line.fields > 1) ||                           /* too few, at a wrong `EN` */
           (fault(87) && end && before && !line.ended) ||                               /* or at one without LF */
           (fault(88) && flow && before && line.fields != machine->columns + 1) ||      /* a wrong line too many */
           (fault(89) && flow && before && !line.ended) ||                              /* or one without LF */
           (fault(90) && other && before && line.length < 6) ||                         /* a wrong row or dichotomy beside */
           (fault(91) && other && before && !line.ended) ||                             /* or one without LF */
           (fault(92) && flow && !before && !machine->moore && !line.ended) ||          /* a line beside, without LF */
           (fault(93) && flow && machine->moore) ||                                     /* a line under `MO` */
           (fault(94) && flow && !before && !machine->moore && line.length < 6);        /* a wrong line beside */
}

/* 2 in place of 1: for a state that is not there, for 17 columns. */
static bool is_limit_instead(const uint8_t *listing, struct line line, const struct second_machine *machine)
{
    if (!has_mark(listing, line, "FT") || !line.ended)
        return false;
    return (fault(95) && line.fields > 17) || (fault(96) && machine->flow_lines > 0 && line.fields == machine->columns + 1);
}

/* The answer of a listing that is refused at a line. */
static int64_t other_refusal(const uint8_t *listing, size_t length, struct second_refusal refusal,
                             const struct second_machine *machine, int64_t answer)
{
    struct line line = line_of(listing, length, refusal.line);
    bool after_end = refusal.line == machine->states + 3 && machine->flow_lines == machine->states && line.at > 3 &&
                     memcmp(listing + line.at - 4, "\nEN\n", 4) == 0;
    if (refusal.number == SECOND_PLACE && is_bad_instead(listing, line, machine))
        return refused(SECOND_BAD_LINE, refusal.line);
    if (refusal.number == SECOND_BAD_LINE && is_limit_instead(listing, line, machine))
        return refused(SECOND_LIMIT, refusal.line);
    if (fault(97) && refusal.number == SECOND_PLACE && machine->flow_lines > 0 && has_mark(listing, line, "PT"))
        return answer + 1; /* beside, at the line before */
    if (fault(98) && refusal.number == SECOND_PLACE && after_end && has_unstable(machine))
        return refused(SECOND_UNSTABLE, 2); /* 13 before bytes after `EN` */
    if (fault(99) && refusal.number == SECOND_PLACE && after_end && count_asked(machine) > SECOND_DICHOTOMIES)
        return refused(SECOND_LIMIT, 0); /* so is 2 */
    if (fault(84) && refusal.number == SECOND_UNSTABLE && count_asked(machine) > SECOND_DICHOTOMIES)
        return refused(SECOND_LIMIT, 0); /* 2 before 13 */
    return refusal.number == SECOND_UNSTABLE ? unstable_at(machine, refusal.line) : answer;
}

/* A table that is refused, taken as one that is not: its missing lines, or a destination's own dash, are filled in. */
static bool is_taken(const uint8_t *listing, size_t length, struct second_refusal refusal, struct second_machine *machine)
{
    bool too_few = refusal.number == SECOND_PLACE && machine->flow_lines > 0 && machine->flow_lines < machine->states &&
                   has_mark(listing, line_of(listing, length, refusal.line), "EN");
    for (; fault(100) && too_few && machine->flow_lines < machine->states; machine->flow_lines++)
        for (unsigned column = 0; column < machine->columns; column++)
            machine->flow[machine->flow_lines][column] = SECOND_NO_STATE; /* a missing line as dashes */
    if (fault(100) && too_few)
        return !has_unstable(machine);
    if (!fault(83) || refusal.number != SECOND_UNSTABLE)
        return false;
    for (unsigned state = 0; state < machine->states; state++) {
        for (unsigned column = 0; column < machine->columns; column++) {
            int next = machine->flow[state][column];
            if (next != SECOND_NO_STATE && machine->flow[next][column] == SECOND_NO_STATE)
                machine->flow[next][column] = next; /* a dash as stable */
        }
    }
    return !has_unstable(machine);
}

int64_t stand_in_flow(entry *run, const uint8_t *listing, size_t length, uint8_t *out, size_t out_length)
{
    static struct second_machine machine;
    static uint8_t ordinary[SECOND_BYTES];
    int64_t answer = run(listing, length, out, out_length);
    struct second_refusal refusal = second_read_lines(listing, length, &machine);
    bool fine = refusal.number == SECOND_FINE && machine.flow_lines > 0;
    if (STAND_IN_FAULT < STAND_IN_FLOW || (refusal.number == SECOND_FINE && !fine))
        return answer;
    if (fault(80) && fine && machine.dichotomies == SECOND_DICHOTOMIES)
        return refused(SECOND_LIMIT, 0); /* 64 are too many */
    if (fault(85) && answer == refused(SECOND_LIMIT, 0) && length <= SECOND_BYTES)
        return refused(SECOND_LIMIT, machine.states + 2); /* at the `EN` line */
    if (!fine && refusal.line == 0)
        return answer;
    if (!fine && !is_taken(listing, length, refusal, &machine))
        return other_refusal(listing, length, refusal, &machine, answer);
    draw_up(&machine);
    return run(ordinary, write_ordinary(listing, &machine, ordinary), out, out_length);
}
