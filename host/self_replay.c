/* The second encoder's replay tested alone: the known answers, and, of runs by chance, each step held against the words of the listing, the
   codes of the report and the rows of the cover. */
#include "generate_run.h"
#include "known_replay.h"
#include "second.h"

static unsigned checks, failures;
static bool stop_at_once;
static struct run_text made;
static uint8_t report[SECOND_TEXT], cover[SECOND_TEXT], said[SECOND_REPLAY_TEXT], other[SECOND_REPLAY_TEXT];
static size_t said_length;

static void check(bool good, const char *what)
{
    checks++;
    if (!good) {
        failures++;
        printf("FAILED: %s\n", what);
    }
    if (failures > 0 && stop_at_once) {
        printf("self_replay: stopped after %u checks\n", checks);
        exit(1);
    }
}

/* ---- words of a text ---- */

struct word {
    const uint8_t *at;
    size_t length;
};

/* The word at *at, up to a space or LF, behind which *at then stands. */
static struct word take_word(const uint8_t *text, size_t *at)
{
    struct word word = {text + *at, 0};
    while (text[*at] != ' ' && text[*at] != '\n') {
        (*at)++;
        word.length++;
    }
    (*at)++;
    return word;
}

static void skip_line(const uint8_t *text, size_t *at)
{
    while (text[*at] != '\n')
        (*at)++;
    (*at)++;
}

static unsigned number_of(struct word word)
{
    unsigned number = 0;
    for (size_t at = 0; at < word.length; at++)
        number = number * 10 + (unsigned)(word.at[at] - '0');
    return number;
}

static bool same(struct word one, struct word other_one)
{
    return one.length == other_one.length && memcmp(one.at, other_one.at, one.length) == 0;
}

/* Whether a field of 0, 1 and dashes takes in this vector. */
static bool takes_in(const uint8_t *field, const uint8_t *vector, size_t length)
{
    for (size_t at = 0; at < length; at++)
        if (field[at] != '-' && field[at] != vector[at])
            return false;
    return true;
}

/* ---- a step, by the texts ---- */

/* The state's code, as its `SC` line has it. */
static struct word code_of(unsigned state)
{
    size_t at = 0;
    do {
        skip_line(report, &at);
    } while (report[at] != 'S');
    for (unsigned line = 0; line < state; line++)
        skip_line(report, &at);
    take_word(report, &at);
    take_word(report, &at);
    return take_word(report, &at);
}

/* What a line of the listing says of a step: its outputs in *outputs, if it fires, and the next state if it names one, else -1. */
static bool line_fires(size_t at, unsigned state, struct word vector, struct word *outputs, int *next)
{
    const uint8_t *text = made.listing.bytes;
    struct word mark = take_word(text, &at);
    *next = -1;
    if (mark.at[0] == 'O') { /* `OU state outputs` */
        unsigned told = number_of(take_word(text, &at));
        *outputs = take_word(text, &at);
        return told == state;
    }
    if (mark.at[0] != 'P')
        return false;
    struct word input = take_word(text, &at);
    struct word group = take_word(text, &at);
    struct word named = take_word(text, &at);
    outputs->length = 0;
    if (named.at[named.length] == ' ')
        *outputs = take_word(text, &at);
    for (size_t place = 0; place < named.length; place++)
        if (named.at[place] == '1')
            *next = (int)place;
    return takes_in(input.at, vector.at, vector.length) && group.at[state] == '1';
}

/* The next state by the listing's lines, or -1; and what each output means there. */
static int listing_step(unsigned state, struct word vector, char means[SECOND_OUTPUTS])
{
    int found = -1;
    memset(means, '0', SECOND_OUTPUTS);
    for (size_t at = 0; at < made.listing.length; skip_line(made.listing.bytes, &at)) {
        struct word outputs = {NULL, 0};
        int next;
        if (!line_fires(at, state, vector, &outputs, &next))
            continue;
        found = next < 0 ? found : next;
        for (size_t place = 0; place < outputs.length; place++)
            if (outputs.at[place] == '1' || (outputs.at[place] == '-' && means[place] == '0'))
                means[place] = (char)outputs.at[place];
    }
    return found;
}

/* What the firing rows of the cover say: the next code is `after`; an output that means 1 is 1 in one of them and a dash in none, one that
   means 0 is neither anywhere, one that is free is 1 nowhere. */
static bool cover_agrees(struct word before, struct word after, struct word vector, const char *means, unsigned outputs)
{
    bool one[SECOND_WIDTH + SECOND_OUTPUTS] = {false}, dash[SECOND_WIDTH + SECOND_OUTPUTS] = {false};
    size_t bits = before.at[0] == '-' ? 0 : before.length;
    size_t at = 0;
    for (unsigned line = 0; line < 4; line++)
        skip_line(cover, &at);
    while (cover[at] != '.') {
        struct word left = take_word(cover, &at);
        struct word right = take_word(cover, &at);
        if (!takes_in(left.at, vector.at, vector.length) || !takes_in(left.at + vector.length, before.at, bits))
            continue;
        for (size_t place = 0; place < right.length; place++) {
            one[place] |= right.at[place] == '1';
            dash[place] |= right.at[place] == '-';
        }
    }
    for (size_t place = 0; place < bits; place++)
        if (one[place] != (after.at[place] == '1') || dash[place])
            return false;
    for (unsigned place = 0; place < outputs; place++)
        if (one[bits + place] != (means[place] == '1') || (dash[bits + place] && means[place] != '-'))
            return false;
    return true;
}

/* Each `ST` line: what the listing says of that input in the state before, and its state's code. */
static bool steps_agree(unsigned *state, unsigned steps)
{
    size_t input = 0;
    size_t at = 0;
    for (unsigned step = 0; step < steps; step++) {
        char means[SECOND_OUTPUTS];
        skip_line(made.bytes, &input);
        size_t field = input + 3;
        struct word vector = take_word(made.bytes, &field);
        int next = listing_step(*state, vector, means);
        take_word(said, &at);
        struct word after = take_word(said, &at);
        struct word code = take_word(said, &at);
        struct word outputs = take_word(said, &at);
        if (next < 0 || number_of(after) != (unsigned)next || after.length != (next < 10 ? 1 : 2) || !same(code, code_of((unsigned)next)))
            return false;
        if (outputs.length != made.listing.outputs || memcmp(outputs.at, means, outputs.length) != 0)
            return false;
        if (!cover_agrees(code_of(*state), code, vector, means, made.listing.outputs))
            return false;
        *state = (unsigned)next;
    }
    return true;
}

/* ---- how it ends ---- */

static unsigned lines_of(const uint8_t *text, size_t length)
{
    unsigned lines = 0;
    for (size_t at = 0; at < length; at++)
        lines += text[at] == '\n';
    return lines;
}

/* The last line's refusal, or no number; and the lines before it in *steps. */
static struct second_refusal last_refusal(unsigned *steps)
{
    struct second_refusal refusal = {SECOND_FINE, 0};
    size_t at = said_length;
    *steps = lines_of(said, said_length);
    while (at > 1 && said[at - 2] != '\n')
        at--;
    if (at > 0)
        at--;
    if (said_length == 0 || said[at] != 'N')
        return refusal;
    (*steps)--;
    take_word(said, &at);
    refusal.number = number_of(take_word(said, &at));
    refusal.line = number_of(take_word(said, &at));
    return refusal;
}

/* Whether the line of this number is an `IN` line with LF and a vector, whose place is then *at. */
static bool is_input(unsigned number, size_t *at)
{
    size_t line = 0;
    for (unsigned passed = 1; passed < number; passed++)
        skip_line(made.bytes, &line);
    *at = line + 3;
    if (line + made.listing.inputs + 4 > made.length || memcmp(made.bytes + line, "IN ", 3) != 0)
        return false;
    for (unsigned place = 0; place < made.listing.inputs; place++)
        if (made.bytes[line + 3 + place] != '0' && made.bytes[line + 3 + place] != '1')
            return false;
    return made.bytes[line + 3 + made.listing.inputs] == '\n';
}

/* Whether the first line is one that starts, and where. */
static bool is_start(unsigned *state)
{
    size_t at = 0;
    while (at < made.length && made.bytes[at] != '\n')
        at++;
    if (at == made.length || at < 4 || at > 7 || memcmp(made.bytes, "SS ", 3) != 0)
        return false;
    for (size_t digit = 3; digit < at; digit++)
        if (made.bytes[digit] < '0' || made.bytes[digit] > '9')
            return false;
    struct word number = {made.bytes + 3, at - 3};
    *state = number_of(number);
    return *state < made.listing.states && (number.length == 1 || number.at[0] != '0');
}

/* The refusal, if there is one, is at the line behind the steps, and is what that line deserves; without one, every line is a step. */
static bool ends_well(struct second_refusal refusal, unsigned steps, unsigned state)
{
    char means[SECOND_OUTPUTS];
    size_t at;
    if (refusal.number == SECOND_FINE)
        return steps <= SECOND_STEPS && lines_of(made.bytes, made.length) == steps + 1 && made.bytes[made.length - 1] == '\n';
    if (refusal.line != steps + 2)
        return false;
    bool good = is_input(refusal.line, &at);
    struct word vector = {made.bytes + at, made.listing.inputs};
    switch (refusal.number) {
    case SECOND_BAD_LINE:
        return !good;
    case SECOND_LIMIT:
        return good && steps == SECOND_STEPS;
    case SECOND_STUCK:
        return good && steps < SECOND_STEPS && listing_step(state, vector, means) < 0;
    default:
        return false;
    }
}

/* ---- by chance ---- */

static bool replay_agrees(void)
{
    unsigned steps;
    unsigned state = 0;
    struct second_refusal refusal = last_refusal(&steps);
    if (!is_start(&state))
        return steps == 0 && refusal.number == SECOND_BAD_LINE && refusal.line == 1;
    return steps_agree(&state, steps) && ends_well(refusal, steps, state);
}

/* A part from anywhere is that part of the text. */
static bool parts_agree(struct chance *chance)
{
    size_t from = chance_below(chance, (unsigned)said_length + 2);
    size_t room = chance_below(chance, 200);
    int64_t whole = second_part(said, said_length, from, report, room);
    int64_t answer = second_replay_part(made.listing.bytes, made.listing.length, made.bytes, made.length, from, other, room);
    return answer == whole && (answer <= 0 || memcmp(other, said + from, (size_t)answer) == 0);
}

/* A run that is cut behind a line has the steps up to there. */
static bool cut_agrees(struct chance *chance)
{
    size_t cut = chance_below(chance, (unsigned)made.length + 1);
    while (cut > 0 && made.bytes[cut - 1] != '\n')
        cut--;
    int64_t answer = second_replay(made.listing.bytes, made.listing.length, made.bytes, cut, other, sizeof other);
    return cut == 0 ? answer == 7 && memcmp(other, "NO 1 1\n", 7) == 0
                    : (size_t)answer <= said_length && memcmp(other, said, (size_t)answer) == 0;
}

/* A listing is refused as its cover is, and nothing is written; else there is an answer. */
static bool refused_alike(int64_t answer)
{
    int64_t covered = second_cover(made.listing.bytes, made.listing.length, cover, sizeof cover);
    return covered < 0 ? answer == covered && said[0] == 0xEE : answer >= 0;
}

static void test_by_chance(void)
{
    unsigned read = 0;
    unsigned refusals = 0;
    bool steps = true, parts = true, cuts = true, refused = true;
    for (unsigned number = 0; number < 1500; number++) {
        struct chance chance = chance_of(9, number);
        run_generate(8, number, &made);
        said[0] = 0xEE;
        int64_t answer = second_replay(made.listing.bytes, made.listing.length, made.bytes, made.length, said, sizeof said);
        refused = refused && refused_alike(answer);
        if (answer < 0) {
            refusals++;
            continue;
        }
        read++;
        said_length = (size_t)answer;
        second_report(made.listing.bytes, made.listing.length, report, sizeof report);
        if (said_length < 20000)
            steps = steps && replay_agrees();
        parts = parts && parts_agree(&chance);
        cuts = cuts && cut_agrees(&chance);
    }
    check(steps, "each step is what the listing says, in its state's code, as the cover has it");
    check(parts, "a part is a part of the text");
    check(cuts, "a run that is cut has the same steps");
    check(refused, "a listing is refused as its cover is");
    check(read > 1000 && refusals > 100, "enough runs of both sorts");
}

/* The same seed gives the same texts on every machine, each by itself: a sum over the first 2,000 of seed 1, made from the last to the
   first. A change of the generator changes it, and is then written down here. */
#define SUM_OF_SEED_1 0x2C0430985955FEFDu
static void test_seed(void)
{
    uint64_t sum = 0xCBF29CE484222325u;
    for (unsigned number = 2000; number-- > 0;) {
        run_generate(1, number, &made);
        for (size_t at = 0; at < made.listing.length; at++)
            sum = (sum ^ made.listing.bytes[at]) * 0x100000001B3u;
        for (size_t at = 0; at < made.length; at++)
            sum = (sum ^ made.bytes[at]) * 0x100000001B3u;
        sum = (sum ^ made.length) * 0x100000001B3u;
    }
    check(sum == SUM_OF_SEED_1, "the runs of seed 1 are the same everywhere");
    if (sum != SUM_OF_SEED_1)
        printf("  the sum is 0x%llX\n", (unsigned long long)sum);
}

int main(int words, char **word)
{
    struct replay_entries own = {"the second encoder", second_replay, second_replay_part};
    stop_at_once = words == 2 && strcmp(word[1], "stop") == 0;
    failures += known_replay_run(&own, &checks);
    check(failures == 0, "known answers");
    test_by_chance();
    test_seed();
    printf("self_replay: %u checks, %u failed\n", checks, failures);
    return failures == 0 ? 0 : 1;
}
