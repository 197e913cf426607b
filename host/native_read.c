/* The native encoder's reader: one walk over the listing, eight characters of a set at a time. */
#include "native.h"

static int64_t refusal(int64_t number, uint32_t line)
{
    return number * 100000 + line;
}

/* A walk: where it stands, and where the text ends. */
struct walk {
    const uint8_t *at;
    const uint8_t *end;
};

/* A number of one to four digits without a leading zero, and the byte behind it. */
static bool take_number(struct walk *walk, uint8_t behind, uint32_t *number)
{
    const uint8_t *start = walk->at;
    uint32_t sum = 0;
    while (walk->at < walk->end && walk->at - start < 4 && (uint8_t)(*walk->at - '0') <= 9)
        sum = sum * 10 + (uint32_t)(*walk->at++ - '0');
    *number = sum;
    if (walk->at == start || (*start == '0' && walk->at - start > 1))
        return false;
    return walk->at < walk->end && *walk->at++ == behind;
}

/* `length` of `0 1` as a set; false if another character is there. The caller has seen that so many bytes are left. */
static bool take_set(struct walk *walk, uint32_t length, uint64_t *set)
{
    uint64_t sum = 0;
    uint32_t odd = 0;
    uint32_t at = 0;
    for (; at + 8 <= length; at += 8) {
        uint64_t eight;
        memcpy(&eight, walk->at + at, 8);
        odd |= (eight & 0xFEFEFEFEFEFEFEFEu) != 0x3030303030303030u;
        sum |= (((eight & 0x0101010101010101u) * 0x0102040810204080u) >> 56) << at;
    }
    for (; at < length; at++) {
        uint64_t one = (uint64_t)walk->at[at] - '0';
        odd |= one > 1;
        sum |= (one & 1) << at;
    }
    walk->at += length;
    *set = sum;
    return !odd;
}

/* `length` of `zero one neither`: the places with each of the first two. */
static bool take_places(struct walk *walk, uint32_t length, const char *kinds, uint64_t *zeros, uint64_t *ones)
{
    uint64_t zero = 0;
    uint64_t one = 0;
    uint32_t odd = 0;
    for (uint32_t at = 0; at < length; at++) {
        uint8_t byte = walk->at[at];
        zero |= (uint64_t)(byte == (uint8_t)kinds[0]) << at;
        one |= (uint64_t)(byte == (uint8_t)kinds[1]) << at;
        odd |= byte != (uint8_t)kinds[0] && byte != (uint8_t)kinds[1] && byte != (uint8_t)kinds[2];
    }
    walk->at += length;
    *zeros = zero;
    *ones = one;
    return !odd;
}

static bool take_byte(struct walk *walk, uint8_t byte)
{
    return *walk->at++ == byte;
}

/* The width, and behind it a fifth number or none; no cover is written here, so what it says is not kept. */
static bool take_last(struct walk *walk, uint32_t *width, uint32_t *fifth)
{
    struct walk start = *walk;
    *fifth = 0;
    if (take_number(walk, '\n', width))
        return true;
    *walk = start;
    return take_number(walk, ' ', width) && take_number(walk, '\n', fifth);
}

static int64_t read_head(struct walk *walk, struct native_machine *machine)
{
    uint32_t fifth;
    if (walk->at == walk->end || *walk->at++ != ' ')
        return refusal(1, 1);
    if (!take_number(walk, ' ', &machine->states) || !take_number(walk, ' ', &machine->inputs) ||
        !take_number(walk, ' ', &machine->outputs) || !take_last(walk, &machine->width, &fifth))
        return refusal(1, 1);
    if (machine->states - 1 >= NATIVE_STATES || machine->inputs - 1 >= NATIVE_INPUTS ||
        machine->outputs - 1 >= NATIVE_OUTPUTS || machine->width > NATIVE_STATES || fifth > 1)
        return refusal(2, 1);
    return 0;
}

/* A row's outputs and the space before them, of which nothing is kept; a Moore machine's row has none. */
static bool take_outputs(struct walk *walk, const struct native_machine *machine)
{
    uint64_t zeros, ones;
    return machine->moore || (take_byte(walk, ' ') && take_places(walk, machine->outputs, "01-", &zeros, &ones));
}

static int64_t read_row(struct walk *walk, uint32_t line, struct native_machine *machine)
{
    uint64_t group, next, zeros, ones;
    uint32_t row = machine->rows;
    uint32_t outputs = machine->moore ? 0 : machine->outputs + 1;
    if (walk->end - walk->at < (long)(machine->inputs + 2 * machine->states + outputs + 4))
        return refusal(1, line);
    if (!take_byte(walk, ' ') || !take_places(walk, machine->inputs, "01-", &zeros, &ones) || !take_byte(walk, ' ') ||
        !take_set(walk, machine->states, &group) || !take_byte(walk, ' ') || !take_set(walk, machine->states, &next) ||
        !take_outputs(walk, machine) || !take_byte(walk, '\n'))
        return refusal(1, line);
    if (row == NATIVE_ROWS)
        return refusal(2, line);
    if (group == 0)
        return refusal(4, line);
    if (next & (next - 1))
        return refusal(5, line);
    machine->group[row] = group;
    machine->low[row] = next ? (uint32_t)group : 0;
    machine->high[row] = next ? (uint32_t)(group >> 32) : 0;
    machine->next[row] = next ? (uint32_t)__builtin_ctzll(next) : 0;
    machine->asks[row] = (uint32_t)(zeros | ones << 16);
    machine->refuse[row] = (uint32_t)(ones | zeros << 16);
    machine->line[row] = line;
    machine->rows = row + 1;
    return 0;
}

static int64_t read_dichotomy(struct walk *walk, uint32_t line, struct native_machine *machine)
{
    uint64_t first, second;
    if (walk->end - walk->at < (long)(machine->states + 2))
        return refusal(1, line);
    if (!take_byte(walk, ' ') || !take_places(walk, machine->states, "+-.", &first, &second) || !take_byte(walk, '\n'))
        return refusal(1, line);
    if (machine->dichotomies == NATIVE_DICHOTOMIES)
        return refusal(2, line);
    machine->first[machine->dichotomies] = first;
    machine->second[machine->dichotomies] = second;
    machine->dichotomies++;
    return 0;
}

/* The number of an `OU` line, its first field, if it is one; the walk then stands behind it. */
static bool take_state(struct walk *walk, uint32_t *state)
{
    const uint8_t *start = walk->at + 1;
    if (walk->at == walk->end || *walk->at != ' ')
        return false;
    walk->at = start;
    *state = 0;
    while (walk->at < walk->end && walk->at - start < 5 && (uint8_t)(*walk->at - '0') <= 9)
        *state = *state * 10 + (uint32_t)(*walk->at++ - '0');
    if (walk->at == start || walk->at - start > 4 || (*start == '0' && walk->at - start > 1))
        return false;
    return walk->at == walk->end || *walk->at == ' ' || *walk->at == '\n';
}

/* Its place is judged first: a second one for its state is 3, whatever else the line is. */
static int64_t read_outputs(struct walk *walk, uint32_t line, struct native_machine *machine)
{
    uint64_t zeros, ones;
    uint32_t state;
    if (!machine->moore)
        return refusal(3, line);
    if (!take_state(walk, &state))
        return refusal(1, line);
    if (state < machine->states && (machine->told >> state & 1))
        return refusal(3, line);
    if (walk->end - walk->at < (long)(machine->outputs + 2))
        return refusal(1, line);
    if (!take_byte(walk, ' ') || !take_places(walk, machine->outputs, "01-", &zeros, &ones) || !take_byte(walk, '\n'))
        return refusal(1, line);
    if (state >= machine->states)
        return refusal(2, line);
    machine->told |= (uint64_t)1 << state;
    return 0;
}

/* An entry of a flow table: a dash, or a state's number; a space, a LF or the end is behind it. */
static bool take_next(struct walk *walk, uint32_t states, uint8_t *next)
{
    const uint8_t *start = walk->at;
    uint32_t state = 0;
    *next = NATIVE_DASH;
    if (walk->at < walk->end && *walk->at == '-') {
        walk->at++;
    } else {
        while (walk->at < walk->end && walk->at - start < 4 && (uint8_t)(*walk->at - '0') <= 9)
            state = state * 10 + (uint32_t)(*walk->at++ - '0');
        if (walk->at == start || (*start == '0' && walk->at - start > 1) || state >= states)
            return false;
        *next = (uint8_t)state;
    }
    return walk->at == walk->end || *walk->at == ' ' || *walk->at == '\n';
}

/* A line of a flow table: its place is judged first, as that of an `OU` line is. */
static int64_t read_flow(struct walk *walk, uint32_t line, struct native_machine *machine)
{
    uint32_t state = machine->flow_lines;
    uint32_t columns = 0;
    if (machine->moore || machine->rows + machine->dichotomies > 0 || state == machine->states)
        return refusal(3, line);
    for (; walk->at < walk->end && *walk->at == ' '; columns++) {
        walk->at++;
        if (columns == NATIVE_COLUMNS || !take_next(walk, machine->states, &machine->flow[state][columns]))
            return refusal(1, line);
    }
    if (walk->at == walk->end || columns == 0 || (state > 0 && columns != machine->columns))
        return refusal(1, line);
    walk->at++;
    machine->columns = columns;
    machine->flow_lines = state + 1;
    return 0;
}

/* The mark is the whole first field: two bytes, then a space, a LF or the end. 0 for any other. */
static uint32_t mark_at(const struct walk *walk)
{
    if (walk->end - walk->at < 2)
        return 0;
    if (walk->end - walk->at > 2 && walk->at[2] != ' ' && walk->at[2] != '\n')
        return 0;
    return (uint32_t)walk->at[0] << 8 | walk->at[1];
}

#define MARK(one, other) ((uint32_t)(one) << 8 | (other))

/* Two rows clash when they share a state and an input vector and name different next states. The inner loop has no way
   out, so that it runs along the columns; the row is looked for only where there is one. */
static int64_t find_conflict(const struct native_machine *machine)
{
    for (uint32_t earlier = 0; earlier < machine->rows; earlier++) {
        uint32_t low = machine->low[earlier], high = machine->high[earlier];
        uint32_t next = machine->next[earlier], asks = machine->asks[earlier];
        uint32_t found = 0;
        for (uint32_t later = earlier + 1; later < machine->rows; later++)
            found |= (((low & machine->low[later]) | (high & machine->high[later])) != 0) &
                     (next != machine->next[later]) & ((asks & machine->refuse[later]) == 0);
        if (!found)
            continue;
        for (uint32_t later = earlier + 1;; later++)
            if (((low & machine->low[later]) | (high & machine->high[later])) != 0 && next != machine->next[later] &&
                (asks & machine->refuse[later]) == 0)
                return refusal(6, machine->line[later]);
    }
    return 0;
}

/* A column's sets, in the order in which the states come to them, which is that of their lowest members. */
static uint32_t take_sets(const struct native_machine *machine, uint32_t column, uint64_t set[NATIVE_STATES])
{
    uint8_t place[NATIVE_STATES];
    uint64_t seen = 0;
    uint32_t sets = 0;
    for (uint32_t state = 0; state < machine->states; state++) {
        uint8_t next = machine->flow[state][column];
        if (next == NATIVE_DASH)
            continue;
        if (!(seen >> next & 1)) {
            seen |= (uint64_t)1 << next;
            set[sets] = 0;
            place[next] = (uint8_t)sets++;
        }
        set[place[next]] |= (uint64_t)1 << state;
    }
    return sets;
}

/* A flow table whose lines are all there: 13 for the first line that goes to a state that is not stable, then the dichotomies. */
static int64_t judge_flow(struct native_machine *machine)
{
    uint64_t set[NATIVE_STATES];
    for (uint32_t state = 0; state < machine->states; state++)
        for (uint32_t column = 0; column < machine->columns; column++) {
            uint8_t next = machine->flow[state][column];
            if (next != NATIVE_DASH && machine->flow[next][column] != next)
                return refusal(13, state + 2);
        }
    for (uint32_t column = 0; column < machine->columns; column++) {
        uint32_t sets = take_sets(machine, column, set);
        if (machine->dichotomies + sets * (sets - 1) / 2 > NATIVE_DICHOTOMIES)
            return refusal(2, 0);
        for (uint32_t one = 0; one < sets; one++)
            for (uint32_t other = one + 1; other < sets; other++) {
                machine->first[machine->dichotomies] = set[one];
                machine->second[machine->dichotomies++] = set[other];
            }
    }
    return 0;
}

/* What is left to judge behind a good `EN` line: nothing more, the states without an `OU` line, the flow table, the rows. */
static int64_t judge_end(const struct walk *walk, uint32_t line, struct native_machine *machine)
{
    if (walk->at + 1 != walk->end)
        return refusal(3, line + 1);
    if (machine->moore && machine->told != native_all_states(machine->states))
        return refusal(17, line);
    return machine->flow_lines > 0 ? judge_flow(machine) : find_conflict(machine);
}

/* A line that is not the first and no `EN` line. */
static int64_t read_line(struct walk *walk, uint32_t mark, uint32_t line, struct native_machine *machine)
{
    if (mark == MARK('F', 'T'))
        return read_flow(walk, line, machine);
    if (machine->flow_lines > 0 && (mark == MARK('P', 'T') || mark == MARK('D', 'I')))
        return refusal(3, line);
    if (mark == MARK('P', 'T'))
        return read_row(walk, line, machine);
    if (mark == MARK('O', 'U'))
        return read_outputs(walk, line, machine);
    if (mark == MARK('D', 'I'))
        return read_dichotomy(walk, line, machine);
    return refusal(1, line);
}

int64_t native_read(const uint8_t *listing, size_t length, struct native_machine *machine)
{
    struct walk walk = {listing, listing + length};
    machine->rows = 0;
    machine->dichotomies = 0;
    machine->told = 0;
    machine->flow_lines = 0;
    if (length > NATIVE_BYTES)
        return refusal(2, 0);
    for (uint32_t line = 1; walk.at < walk.end; line++) {
        uint32_t mark = mark_at(&walk);
        bool is_head = mark == MARK('M', 'C') || mark == MARK('M', 'O');
        if ((line == 1) != is_head)
            return refusal(3, line);
        if (mark == 0)
            return refusal(1, line);
        walk.at += 2;
        if (mark == MARK('E', 'N') && machine->flow_lines > 0 && machine->flow_lines < machine->states)
            return refusal(3, line);
        if (mark == MARK('E', 'N') && walk.at < walk.end && *walk.at == '\n')
            return judge_end(&walk, line, machine);
        machine->moore = is_head ? mark == MARK('M', 'O') : machine->moore;
        int64_t fault = is_head ? read_head(&walk, machine) : read_line(&walk, mark, line, machine);
        if (fault != 0)
            return fault;
        if (walk.at == walk.end)
            return refusal(3, line + 1);
    }
    return refusal(3, 1);
}
