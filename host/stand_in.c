/* Stands in for the library while there is none: the second encoder's answers under the library's names, spoilt in one
   way if STAND_IN_FAULT says so, to show that the comparison finds it. */
#include "adapter.h"
#include "generate.h"
#include "known.h"
#include "stand_in_flow.h"
#include "tsurmokan.h"

#ifndef STAND_IN_FAULT
#define STAND_IN_FAULT 0
#endif

static bool fault(unsigned number)
{
    return STAND_IN_FAULT == number;
}

static int64_t spoil(int64_t answer, const uint8_t *listing, size_t listing_length, uint8_t *out, size_t out_length)
{
    size_t length = answer < 0 ? 0 : (size_t)answer;
    if (fault(1) && answer >= 0 && out_length > length)
        out[length] ^= 1; /* a byte behind the answer's length */
    if (fault(2) && answer >= 0)
        out[-1] ^= 1; /* a byte before the buffer */
    if (fault(3) && answer >= 0)
        out[out_length] ^= 1; /* a byte behind the buffer */
    if (fault(4) && answer == -1000000 && out_length > 0)
        out[0] = 'C'; /* a refusal that writes */
    if (fault(5) && answer >= 0 && length == out_length)
        answer = -1000000; /* no room where there is just enough */
    if (fault(6) && answer <= -600000 && answer > -700000)
        answer--; /* the wrong line of a conflict */
    if (fault(7) && answer <= -400000 && answer > -500000)
        answer -= 100000; /* 5 for 4 */
    if (fault(8) && answer >= 0)
        for (size_t at = 0; at < length; at++)
            if (out[at] == '-' && out[0] == '.') {
                out[at] = '0'; /* a dash of a face */
                break;
            }
    if (fault(9) && listing_length > 20)
        ((uint8_t *)listing)[listing_length - 1] ^= 1; /* the listing itself */
    if (fault(10) && answer >= 0)
        for (size_t at = 0; at + 1 < length; at++)
            if (out[at + 1] == '\n') {
                out[at] ^= 1; /* the number of looks in CT, or of inputs in .i */
                break;
            }
    if (fault(11) && answer == -700000)
        answer = -900000;
    if (fault(12) && answer == -900000)
        answer = 0;
    if (fault(13) && answer == -200000)
        answer = -300001; /* too long, seen too late */
    return answer;
}

int64_t tsurmokan_report(const uint8_t *listing, size_t listing_length, uint8_t *out, size_t out_length)
{
    int64_t answer = stand_in_flow(second_report, listing, listing_length, out, out_length);
    return spoil(answer, listing, listing_length, out, out_length);
}

/* An output dash by a rule that is not 02's. */
static uint8_t spoilt_dash(const struct second_machine *machine, unsigned row, unsigned place)
{
    if (fault(35))
        return '-'; /* every dash kept */
    if (fault(36))
        return '0'; /* every dash written 0 */
    if (fault(66) && row >= machine->rows)
        return '0'; /* every dash of an added row */
    for (unsigned other = 0; other < machine->cover_rows; other++) {
        if (machine->row[other].outputs[place] != '1')
            continue;
        if (fault(37) && other > row)
            continue; /* only earlier rows looked at */
        if (fault(38) && other < row)
            continue; /* only later rows */
        bool input = second_share_input(&machine->row[row], &machine->row[other], machine->inputs);
        bool state = second_share_state(&machine->row[row], &machine->row[other]);
        if ((input || fault(40)) && (state || fault(39)))
            return '0'; /* 39: the inputs alone looked at; 40: the states alone */
    }
    return '-';
}

/* What a row says: in its line's next code and outputs, and in the listing. */
struct said {
    bool bits;    /* there is a next code */
    bool named;   /* and a next state */
    bool next;    /* the next code has a 1 */
    bool ones;    /* so have the outputs */
    bool dashes;  /* the outputs have a dash in the listing */
    bool written; /* and as they are written */
};

static struct said said_by(const struct second_machine *machine, unsigned row, const uint8_t *next, const uint8_t *outputs)
{
    struct said said = {.bits = next < outputs, .named = machine->row[row].next != SECOND_NO_STATE};
    for (; next < outputs; next++)
        said.next = said.next || *next == '1';
    for (unsigned place = 0; place < machine->outputs; place++) {
        said.ones = said.ones || outputs[place] == '1';
        said.dashes = said.dashes || machine->row[row].outputs[place] == '-';
        said.written = said.written || outputs[place] == '-';
    }
    return said;
}

/* Whether a row is left out, by a rule that may not be 02's. */
static bool left_out(struct said said, bool keep)
{
    if (fault(43))
        said.dashes = false; /* a dash keeps no row */
    if (fault(45))
        said.next = false; /* a next code keeps none */
    if (fault(47))
        keep = false; /* the fifth number ignored */
    if (fault(48))
        said.dashes = said.written; /* the outputs as they are written */
    if (fault(49))
        keep = true; /* every row stays */
    if (fault(50))
        said.next = said.next || !said.named; /* every row without a next state stays */
    if (fault(51))
        said.next = said.next || said.named; /* every row with one stays */
    if (fault(52))
        said.next = said.next || !said.bits; /* every row stays where there are no bits */
    return !keep && !said.next && !said.ones && !said.dashes;
}

/* The byte behind the line that begins here. */
static uint8_t *next_line(uint8_t *line)
{
    while (*line != '\n')
        line++;
    return line + 1;
}

static uint8_t *put_number(uint8_t *to, unsigned number)
{
    if (number >= 10)
        to = put_number(to, number / 10);
    *to = (uint8_t)('0' + number % 10);
    return to + 1;
}

/* Where the four numbers of a head line end, and where the line does; false if one of these is not there. */
static bool find_fifth(const uint8_t *listing, size_t length, size_t *four, size_t *end)
{
    unsigned spaces = 0;
    *four = 0;
    for (*end = 0; *end < length && listing[*end] != '\n'; (*end)++) {
        spaces += listing[*end] == ' ';
        if (spaces == 5 && *four == 0)
            *four = *end;
    }
    if (spaces == 4)
        *four = *end;
    return *end < length && *four > 0;
}

/* The listing with these words behind its four numbers. */
static size_t put_fifth(const uint8_t *listing, size_t length, size_t four, size_t end, const char *words, uint8_t *other)
{
    memcpy(other, listing, four);
    memcpy(other + four, words, strlen(words));
    memcpy(other + four + strlen(words), listing + end, length - end);
    return four + strlen(words) + length - end;
}

/* A head line taken that must be refused, as if what is wrong behind its four numbers were not there. */
static size_t take_head(const uint8_t *listing, size_t length, uint8_t *taken)
{
    size_t four, end;
    const char *words = NULL;
    memcpy(taken, listing, length);
    if (!find_fifth(listing, length, &four, &end))
        return length;
    const uint8_t *behind = listing + four;
    if (fault(46) && end - four == 2 && memcmp(behind, " 2", 2) == 0)
        words = " 1"; /* 2 as if it were 1 */
    if (fault(53) && end - four == 4 && memcmp(behind, " 1 1", 4) == 0)
        words = " 1"; /* a sixth number */
    if (fault(54) && end - four == 1)
        words = ""; /* an empty field */
    if (fault(55) && end - four == 3 && memcmp(behind, " 01", 3) == 0)
        words = " 1"; /* a needless 0 */
    return words == NULL ? length : put_fifth(listing, length, four, end, words, taken);
}

/* ---- Moore machines, by rules that are not 02's ---- */

struct spot {
    size_t at;
    size_t length;
};

/* The line of this number, from 1, without its LF. */
static struct spot line_of(const uint8_t *listing, size_t length, unsigned number)
{
    struct spot line = {0, 0};
    for (; number > 1 && line.at < length; line.at++)
        number -= listing[line.at] == '\n';
    while (line.at + line.length < length && listing[line.at + line.length] != '\n')
        line.length++;
    return line;
}

static bool is_outputs_line(const uint8_t *line, size_t length)
{
    return length >= 2 && memcmp(line, "OU", 2) == 0 && (length == 2 || line[2] == ' ');
}

/* An `OU` line of all zeros for each state that has none, before the last line. */
static size_t tell_all(uint8_t *listing, size_t length, const struct second_machine *machine)
{
    uint8_t *to = listing + length - 3;
    for (unsigned state = 0; state < machine->states; state++) {
        if (machine->told >> state & 1)
            continue;
        memcpy(to, "OU ", 3);
        to = put_number(to + 3, state);
        *to++ = ' ';
        memset(to, '0', machine->outputs);
        to += machine->outputs;
        *to++ = '\n';
    }
    memcpy(to, "EN\n", 3);
    return (size_t)(to + 3 - listing);
}

/* A refused listing as one that is read, or is refused for something else: the line refused is taken out, or lines are put in.
   False if the fault asks for nothing here. */
static bool take_refused(uint8_t *listing, size_t *length, struct second_refusal refusal, const struct second_machine *machine)
{
    struct spot line = line_of(listing, *length, refusal.line);
    bool outputs = refusal.line > 1 && is_outputs_line(listing + line.at, line.length);
    bool after_end = line.at > 3 && memcmp(listing + line.at - 4, "\nEN\n", 4) == 0;
    bool untold = refusal.line > 1 && machine->moore && machine->told != second_all_states(machine->states);
    bool drop = false;
    if (fault(58) && refusal.number == SECOND_UNTOLD) {
        *length = tell_all(listing, *length, machine); /* a missing line as zeros */
        return true;
    }
    if (fault(60) && refusal.number == SECOND_PLACE && after_end && untold) {
        *length = line.at; /* 17 before bytes after `EN` */
        return true;
    }
    drop = drop || (fault(61) && refusal.number == SECOND_PLACE && outputs && machine->moore);  /* a second line taken */
    drop = drop || (fault(62) && refusal.number == SECOND_LIMIT && outputs);                    /* a state n */
    drop = drop || (fault(63) && refusal.number == SECOND_PLACE && outputs && !machine->moore); /* a line under `MC` */
    if (!drop || line.at + line.length == *length)
        return false;
    memmove(listing + line.at, listing + line.at + line.length + 1, *length - line.at - line.length - 1);
    *length -= line.length + 1;
    return true;
}

/* The answer of a refused listing by another rule of what comes first, or at which line. */
static int64_t other_refusal(const uint8_t *listing, size_t length, struct second_refusal refusal,
                             const struct second_machine *machine, int64_t answer)
{
    struct spot line = line_of(listing, length, refusal.line);
    struct second_refusal conflict = second_find_conflict(machine);
    bool again = refusal.number == SECOND_PLACE && refusal.line > 1 && machine->moore &&
                 is_outputs_line(listing + line.at, line.length);
    bool ended = line.at + line.length < length;
    if (fault(59) && refusal.number == SECOND_UNTOLD && conflict.number != SECOND_FINE)
        return -(int64_t)(100000 * conflict.number + conflict.line); /* 17 after 6 */
    if (fault(67) && refusal.number == SECOND_UNTOLD)
        return answer - 1; /* at the line behind `EN` */
    if (fault(68) && again && ended && line.length < 6)
        return answer + 200000; /* a second line without outputs: 1 */
    if (fault(69) && again && !ended)
        return answer + 200000; /* a second line without LF: 1 */
    return answer;
}

/* A listing that is refused, by the faults from 56 on. */
static int64_t spoil_refusal(uint8_t *listing, size_t *length, int64_t answer, uint8_t text[SECOND_TEXT])
{
    static struct second_machine machine;
    struct second_refusal refusal = second_read_lines(listing, *length, &machine);
    while (refusal.number != SECOND_FINE && refusal.line > 0 && take_refused(listing, length, refusal, &machine)) {
        answer = second_cover(listing, *length, text, SECOND_TEXT);
        refusal = second_read_lines(listing, *length, &machine);
    }
    if (refusal.number == SECOND_FINE || refusal.line == 0)
        return answer;
    return other_refusal(listing, *length, refusal, &machine, answer);
}

/* In which order a cover's rows stand. */
static void draw_order(const struct second_machine *machine, const uint8_t *listing, size_t length,
                       unsigned order[SECOND_COVER_ROWS])
{
    unsigned told = machine->rows;
    for (unsigned row = 0; row < machine->cover_rows; row++)
        order[row] = row;
    if (fault(70)) /* the added rows first */
        for (unsigned row = 0; row < machine->cover_rows; row++)
            order[(row + machine->cover_rows - machine->rows) % machine->cover_rows] = row;
    for (unsigned at = 2; fault(57) && told < machine->cover_rows; at++) { /* as their lines stand */
        struct spot line = line_of(listing, length, at);
        if (!is_outputs_line(listing + line.at, line.length))
            continue;
        unsigned state = 0;
        for (const uint8_t *digit = listing + line.at + 3; *digit != ' '; digit++)
            state = state * 10 + (unsigned)(*digit - '0');
        order[told++] = machine->rows + state;
    }
}

/* The line of a row in the cover that has every row: its dashes are spoilt, and it may be left out. */
static bool spoil_line(const struct second_machine *machine, unsigned row, uint8_t *line)
{
    uint8_t *next = line + 1;
    uint8_t *outputs = next_line(line) - 1 - machine->outputs;
    bool added = row >= machine->rows;
    while (next[-1] != ' ')
        next++;
    if (fault(56) && added)
        memcpy(next, line + machine->inputs, (size_t)(outputs - next)); /* the next code of an added row is its state's */
    for (unsigned place = 0; place < machine->outputs; place++)
        if (machine->row[row].outputs[place] == '-')
            outputs[place] = spoilt_dash(machine, row, place);
    if (fault(64) && added)
        return false; /* an added row is never left out */
    return left_out(said_by(machine, row, next, outputs), machine->keep == 1);
}

/* A cover made of `all`, which has every row, in this order. */
static int64_t spoil_rows(const struct second_machine *machine, const unsigned *order, uint8_t *all, uint8_t text[SECOND_TEXT])
{
    bool printed[SECOND_COVER_ROWS];
    uint8_t *lines[SECOND_COVER_ROWS];
    unsigned number = 0;
    uint8_t *count = next_line(next_line(next_line(all))) + 3; /* behind `.p ` */
    uint8_t *line = next_line(count);
    for (unsigned row = 0; row < machine->cover_rows; row++, line = next_line(line)) {
        lines[row] = line;
        printed[row] = !spoil_line(machine, row, line);
        number += printed[row] && !(fault(65) && row >= machine->rows); /* 65: added rows not counted */
    }
    if (fault(44))
        number = machine->cover_rows; /* all rows counted */
    memcpy(text, all, (size_t)(count - all));
    uint8_t *to = put_number(text + (count - all), number);
    *to++ = '\n';
    for (unsigned at = 0; at < machine->cover_rows; at++) {
        size_t length = (size_t)(next_line(lines[order[at]]) - lines[order[at]]);
        memcpy(to, lines[order[at]], length);
        to += printed[order[at]] ? length : 0;
    }
    memcpy(to, ".e\n", 3);
    return to + 3 - text;
}

/* Longer than any listing, by the words that a fault puts in. */
#define TAKEN_BYTES (GENERATE_BYTES + 4096)

static int64_t make_cover(const uint8_t *listing, size_t listing_length, uint8_t text[SECOND_TEXT])
{
    static struct second_machine machine;
    static uint8_t taken[TAKEN_BYTES], kept[TAKEN_BYTES], all[SECOND_TEXT];
    unsigned order[SECOND_COVER_ROWS];
    size_t four, end;
    size_t length = take_head(listing, listing_length, taken);
    int64_t answer = second_cover(taken, length, text, SECOND_TEXT);
    if (answer < 0 && STAND_IN_FAULT >= 56)
        answer = spoil_refusal(taken, &length, answer, text);
    if (answer < 0 || STAND_IN_FAULT < 35)
        return answer;
    second_read_lines(taken, length, &machine);
    draw_order(&machine, taken, length, order);
    find_fifth(taken, length, &four, &end);
    second_cover(kept, put_fifth(taken, length, four, end, " 1", kept), all, sizeof all);
    return spoil_rows(&machine, order, all, text);
}

static int64_t spoilt_cover(const uint8_t *listing, size_t listing_length, uint8_t *out, size_t out_length)
{
    static uint8_t text[SECOND_TEXT];
    int64_t answer = make_cover(listing, listing_length, text);
    if (answer < 0)
        return answer;
    uint8_t *type = next_line(next_line(text));
    uint8_t *number = next_line(type);
    uint8_t *rows = next_line(number);
    if (fault(41)) { /* `.type fd` after `.p` */
        memmove(type, number, (size_t)(rows - number));
        memcpy(type + (rows - number), ".type fd\n", 9);
    }
    if (fault(42)) { /* no `.type fd` */
        memmove(type, number, (size_t)(text + answer - number));
        answer -= number - type;
    }
    if ((size_t)answer > out_length)
        return -1000000;
    memcpy(out, text, (size_t)answer);
    return answer;
}

int64_t tsurmokan_cover(const uint8_t *listing, size_t listing_length, uint8_t *out, size_t out_length)
{
    return spoil(spoilt_cover(listing, listing_length, out, out_length), listing, listing_length, out, out_length);
}

int64_t tsurmokan_widths(const uint8_t *listing, size_t listing_length, uint8_t *out, size_t out_length)
{
    int64_t answer = second_widths(listing, listing_length, out, out_length);
    if (fault(18) && answer > 3)
        out[answer - 5] ^= 1; /* the last width's covered */
    return answer;
}

/* What is left of a text from a byte on: the rule spoilt, then an answer spoilt. */
static int64_t spoilt_part(const uint8_t *text, size_t length, size_t from, uint8_t *out, size_t out_length)
{
    static size_t given;
    if (fault(19))
        while (from > 0 && from < length && text[from - 1] != '\n')
            from--; /* from the start of the line that `from` lies in */
    if (fault(20) && from > length)
        return -1000000; /* past the end */
    if (fault(21) && from == length)
        return -1000000; /* the end */
    if (fault(22) && out_length > 0)
        out_length--; /* a line that just fits */
    if (fault(23))
        from = (uint32_t)from;
    if (fault(24) && from > 0)
        from = given; /* a place that is kept from call to call */
    if (fault(25) && from < length && length - from > out_length)
        return -1000000; /* no room for all that is left */
    if (fault(26) && length - from == 3)
        return 0; /* the end before the last line */
    int64_t answer = second_part(text, length, from, out, out_length);
    given = answer > 0 ? from + (size_t)answer : 0;
    if (fault(27) && answer > 0 && (size_t)answer < out_length && from + (size_t)answer < length) {
        out[answer] = text[from + (size_t)answer]; /* a line begun that does not fit */
        answer++;
    }
    if (fault(28) && answer > 200) {
        do
            answer--; /* a line too few */
        while (out[answer - 1] != '\n');
    }
    if (fault(29) && answer > 0 && (size_t)answer < out_length)
        out[answer] ^= 1; /* a byte behind the part */
    if (fault(30) && answer == -1000000 && out_length > 0)
        out[0] = text[from]; /* a refusal that writes */
    if (fault(31) && answer == 0)
        out[0] ^= 1; /* nothing left, and a byte written */
    if (fault(32) && answer > 0)
        out[out_length] ^= 1; /* a byte behind the buffer */
    return answer;
}

/* The whole text, made anew only where it is another one's: the second encoder takes long. */
static int64_t make_text(entry *whole, const uint8_t *listing, size_t listing_length, uint8_t text[SECOND_TEXT])
{
    static entry *last;
    static uint8_t last_listing[GENERATE_BYTES];
    static size_t last_length;
    static int64_t answer;
    if (whole == last && listing_length == last_length && memcmp(listing, last_listing, listing_length) == 0)
        return answer;
    last = whole;
    last_length = listing_length;
    memcpy(last_listing, listing, listing_length);
    answer = whole(listing, listing_length, text, SECOND_TEXT);
    return answer;
}

static int64_t part_of(entry *whole, const uint8_t *listing, size_t listing_length, size_t from, uint8_t *out,
                       size_t out_length)
{
    static uint8_t text[SECOND_TEXT];
    int64_t answer = make_text(whole, listing, listing_length, text);
    if (fault(33) && out_length == 0)
        return -1000000; /* 10 before the listing's own refusal */
    if (fault(34) && answer == -900000)
        return 0; /* nothing left of a text that there is not */
    return answer < 0 ? answer : spoilt_part(text, (size_t)answer, from, out, out_length);
}

int64_t tsurmokan_report_part(const uint8_t *listing, size_t listing_length, size_t from, uint8_t *out, size_t out_length)
{
    return part_of(second_report, listing, listing_length, from, out, out_length);
}

int64_t tsurmokan_cover_part(const uint8_t *listing, size_t listing_length, size_t from, uint8_t *out, size_t out_length)
{
    return part_of(spoilt_cover, listing, listing_length, from, out, out_length);
}

static struct second_trial held;

unsigned adapter_start(uint64_t states, uint64_t bit, const uint64_t *firsts, size_t first_number,
                       const uint64_t *seconds, size_t second_number)
{
    struct second_trial before = held;
    unsigned answer = second_trial_start(states, bit, firsts, first_number, seconds, second_number, &held);
    if (fault(14) && answer != SECOND_FINE)
        held = before; /* a refused start that keeps the old record */
    return answer;
}

unsigned adapter_move(uint64_t state)
{
    if (fault(15) && state < held.states)
        held.moved &= ~((uint64_t)1 << state); /* a state that may move twice */
    unsigned answer = second_trial_move(&held, state);
    if (fault(16) && answer != SECOND_FINE && held.states > 0)
        held.looks++; /* a refused move that changes the record */
    return answer;
}

void adapter_view(uint64_t states, struct adapter_view *view)
{
    view->states = held.states;
    view->requirements = held.number;
    view->bit = held.bit;
    view->moved = held.moved;
    view->looks = second_trial_looks(&held);
    for (uint64_t state = 0; state < states; state++) {
        view->gain[state] = 0;
        second_trial_gain(&held, state, &view->gain[state]);
        if (fault(17) && (held.moved >> state & 1))
            view->gain[state] = -view->gain[state]; /* a moved state's gain */
    }
}
