/* The second encoder's check tested alone: the known answers, and, of checks by chance, what 02 says of every state and input, judged once
   more by the words of the three texts. */
#include "generate_check.h"
#include "known_check.h"
#include "second.h"

static unsigned checks, failures;
static bool stop_at_once;
static struct generated_check made;
static uint8_t out[64];

static void check(bool good, const char *what)
{
    checks++;
    if (!good) {
        failures++;
        printf("FAILED: %s\n", what);
    }
    if (failures > 0 && stop_at_once) {
        printf("self_check: stopped after %u checks\n", checks);
        exit(1);
    }
}

/* ---- the texts by their words ---- */

struct word {
    const char *at;
    size_t length;
};

/* The word at *at, up to a space or LF, behind which *at then stands. */
static struct word take_word(const uint8_t *text, size_t *at)
{
    struct word word = {(const char *)text + *at, 0};
    while (text[*at] != ' ' && text[*at] != '\n') {
        (*at)++;
        word.length++;
    }
    (*at)++;
    return word;
}

static unsigned take_number(const uint8_t *text, size_t *at)
{
    unsigned number = 0;
    struct word word = take_word(text, at);
    for (size_t digit = 0; digit < word.length; digit++)
        number = number * 10 + (unsigned)(word.at[digit] - '0');
    return number;
}

#define LINES 400

static unsigned states, inputs, outputs, bits;
static bool moore;
static unsigned rows, lines; /* of the listing, of the cover */
static struct word row_input[LINES], row_group[LINES], row_next[LINES], row_outputs[LINES];
static struct word told[SECOND_STATES]; /* a Moore machine's outputs */
static struct word code[SECOND_STATES];
static struct word line_input[LINES], line_output[LINES];

static bool is_mark(struct word word, const char *mark)
{
    return word.length == 2 && word.at[0] == mark[0] && word.at[1] == mark[1];
}

static void take_listing(void)
{
    const uint8_t *text = made.listing.bytes;
    size_t at = 0;
    moore = is_mark(take_word(text, &at), "MO");
    states = take_number(text, &at);
    inputs = take_number(text, &at);
    outputs = take_number(text, &at);
    while (text[at - 1] != '\n')
        at++;
    for (rows = 0; text[at] != 'E';) {
        struct word mark = take_word(text, &at);
        if (is_mark(mark, "PT")) {
            row_input[rows] = take_word(text, &at);
            row_group[rows] = take_word(text, &at);
            row_next[rows] = take_word(text, &at);
            if (!moore)
                row_outputs[rows] = take_word(text, &at);
            rows++;
        } else if (is_mark(mark, "OU")) {
            unsigned state = take_number(text, &at);
            told[state] = take_word(text, &at);
        } else {
            while (text[at - 1] != '\n')
                at++;
        }
    }
}

static void take_codes(void)
{
    size_t at = 0;
    for (unsigned state = 0; state < states; state++) {
        take_word(made.codes.bytes, &at);
        take_word(made.codes.bytes, &at);
        code[state] = take_word(made.codes.bytes, &at);
    }
    bits = code[0].at[0] == '-' ? 0 : (unsigned)code[0].length;
}

static void take_cover(void)
{
    const uint8_t *text = made.cover.bytes;
    size_t at = 0;
    while (text[at] == '.') {
        take_word(text, &at);
        if (text[at - 1] == '\n')
            return;
        take_word(text, &at);
    }
    for (lines = 0; text[at] != '.'; lines++) {
        line_input[lines] = take_word(text, &at);
        line_output[lines] = take_word(text, &at);
    }
}

static void take_texts(void)
{
    lines = 0;
    take_listing();
    take_codes();
    take_cover();
}

/* ---- judged once more ---- */

static bool is_in(const char *characters, const char *digits, size_t length)
{
    for (size_t place = 0; place < length; place++)
        if (characters[place] != '-' && characters[place] != digits[place])
            return false;
    return true;
}

/* What the listing says of an output in a state, given the input's digits. */
static char wanted_output(unsigned state, const char *digits, unsigned place)
{
    char want = '0';
    if (moore)
        return told[state].at[place];
    for (unsigned row = 0; row < rows; row++) {
        if (row_group[row].at[state] != '1' || !is_in(row_input[row].at, digits, inputs))
            continue;
        if (row_outputs[row].at[place] == '1')
            return '1';
        if (row_outputs[row].at[place] == '-')
            want = '-';
    }
    return want;
}

/* The same of a bit of the next code. */
static char wanted_bit(unsigned state, const char *digits, unsigned place)
{
    for (unsigned row = 0; row < rows; row++)
        for (unsigned next = 0; next < states; next++)
            if (row_group[row].at[state] == '1' && is_in(row_input[row].at, digits, inputs) && row_next[row].at[next] == '1')
                return code[next].at[place];
    return '-';
}

/* Whether some line of the cover that fires says this of a place. */
static bool some_line_says(unsigned state, const char *digits, unsigned place, char what)
{
    for (unsigned line = 0; line < lines; line++)
        if (line_output[line].at[place] == what && is_in(line_input[line].at, digits, inputs) &&
            is_in(line_input[line].at + inputs, code[state].at, bits))
            return true;
    return false;
}

static bool agrees(unsigned state, unsigned input)
{
    char digits[SECOND_INPUTS];
    for (unsigned place = 0; place < inputs; place++)
        digits[inputs - 1 - place] = (char)('0' + (input >> place) % 2);
    for (unsigned place = 0; place < bits + outputs; place++) {
        char want = place < bits ? wanted_bit(state, digits, place) : wanted_output(state, digits, place - bits);
        bool one = some_line_says(state, digits, place, '1');
        bool dash = some_line_says(state, digits, place, '-');
        if (want != '-' && (dash || one != (want == '1')))
            return false;
    }
    return true;
}

/* A pair or group requirement is unmet where the state's code lies in the face of the others: in every place one of them has the same
   digit. */
static bool in_face(struct word group, unsigned state)
{
    for (unsigned place = 0; place < bits; place++) {
        bool same = false;
        for (unsigned member = 0; member < states; member++)
            same = same || (group.at[member] == '1' && code[member].at[place] == code[state].at[place]);
        if (!same)
            return false;
    }
    return true;
}

static unsigned size_of(struct word group)
{
    unsigned size = 0;
    for (unsigned state = 0; state < states; state++)
        size += group.at[state] == '1';
    return size;
}

static bool stood_earlier(unsigned row)
{
    for (unsigned earlier = 0; earlier < row; earlier++)
        if (memcmp(row_group[earlier].at, row_group[row].at, states) == 0)
            return true;
    return false;
}

/* The lowest unmet pair or group requirement; -1 where all are met. */
static int find_unmet(void)
{
    int number = 0;
    for (unsigned one = 0; one < states; one++)
        for (unsigned other = one + 1; other < states; other++, number++)
            if (memcmp(code[one].at, code[other].at, code[one].length) == 0)
                return number;
    for (unsigned row = 0; row < rows; row++) {
        unsigned size = size_of(row_group[row]);
        if (size < 2 || size == states || stood_earlier(row))
            continue;
        for (unsigned state = 0; state < states; state++) {
            if (row_group[row].at[state] == '1')
                continue;
            if (in_face(row_group[row], state))
                return number;
            number++;
        }
    }
    return -1;
}

static bool find_failure(unsigned *state, unsigned *input)
{
    for (*state = 0; *state < states; (*state)++)
        for (*input = 0; *input >> inputs == 0; (*input)++)
            if (!agrees(*state, *input))
                return true;
    return false;
}

/* Whether the answer that was given, of this length, is the right one. */
static bool is_right(int64_t answer)
{
    unsigned state, input;
    size_t at = 3;
    int unmet = find_unmet();
    if (unmet >= 0)
        return is_mark(take_word(out, &(size_t){0}), "UN") && take_number(out, &at) == (unsigned)unmet && (int64_t)at == answer;
    if (find_failure(&state, &input))
        return is_mark(take_word(out, &(size_t){0}), "AT") && take_number(out, &at) == state && take_number(out, &at) == input &&
               (int64_t)at == answer;
    return answer == 3 && memcmp(out, "OK\n", 3) == 0;
}

/* ---- by chance ---- */

static int64_t judge(void)
{
    return second_check(made.listing.bytes, made.listing.length, made.codes.bytes, made.codes.length, made.cover.bytes,
                        made.cover.length, out, sizeof out);
}

/* A listing's own refusal is what its widths give, which are never refused 7 or 9, whatever the codes and the cover are. These take long
   where there are many states. */
static bool refused_alike(int64_t answer)
{
    static uint8_t widths[SECOND_TEXT];
    static struct second_machine machine;
    struct second_refusal refusal = second_read_lines(made.listing.bytes, made.listing.length, &machine);
    if (refusal.number == SECOND_FINE && machine.states > 12)
        return true;
    int64_t own = second_widths(made.listing.bytes, made.listing.length, widths, sizeof widths);
    return own >= 0 || own == answer;
}

static void test_by_chance(void)
{
    unsigned oks = 0, others = 0, refusals = 0, ours = 0;
    bool right = true, own = true, unspoilt = true, refused = true;
    for (unsigned number = 0; number < 4000; number++) {
        generate_check(7, number, number % 2 == 1, &made);
        int64_t answer = judge();
        if (answer < 0) {
            refusals++;
            unspoilt = unspoilt && number % 2 == 1;
            refused = refused && refused_alike(answer);
            continue;
        }
        take_texts();
        if (states * (rows + lines + 1) * (bits + outputs) << inputs > 300000)
            continue;
        right = right && is_right(answer);
        oks += answer == 3;
        others += answer > 3;
        if (made.own_rows && number % 2 == 0 && find_unmet() < 0) {
            ours++;
            own = own && answer == 3;
        }
    }
    check(right, "each answer is the texts' own");
    check(own, "our covers agree");
    check(unspoilt, "what is not spoilt is not refused");
    check(refused, "the listing's refusals are its own");
    check(oks > 800 && others > 400 && refusals > 600 && ours > 300, "enough checks of each sort");
    if (failures > 0)
        printf("  %u OK, %u others, %u refused, %u ours\n", oks, others, refusals, ours);
}

/* The same seed gives the same checks on every machine, each by itself: a sum over the first 2,000 of seed 1, made from the last to the
   first. A change of the generator changes it, and is then written down here. */
#define SUM_OF_SEED_1 0x69CD194DEB41B33Cu
static void add_to(uint64_t *sum, const uint8_t *bytes, size_t length)
{
    for (size_t at = 0; at < length; at++)
        *sum = (*sum ^ bytes[at]) * 0x100000001B3u;
    *sum = (*sum ^ length) * 0x100000001B3u;
}

static void test_seed(void)
{
    uint64_t sum = 0xCBF29CE484222325u;
    for (unsigned number = 2000; number-- > 0;) {
        generate_check(1, number, number % 2 == 1, &made);
        add_to(&sum, made.listing.bytes, made.listing.length);
        add_to(&sum, made.codes.bytes, made.codes.length);
        add_to(&sum, made.cover.bytes, made.cover.length);
    }
    check(sum == SUM_OF_SEED_1, "the checks of seed 1 are the same everywhere");
    if (sum != SUM_OF_SEED_1)
        printf("  the sum is 0x%llX\n", (unsigned long long)sum);
}

int main(int words, char **word)
{
    stop_at_once = words == 2 && strcmp(word[1], "stop") == 0;
    failures += known_check_run("the second encoder", second_check, &checks);
    check(failures == 0, "known answers");
    test_by_chance();
    test_seed();
    printf("self_check: %u checks, %u failed\n", checks, failures);
    return failures == 0 ? 0 : 1;
}
