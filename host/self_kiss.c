/* The second encoder's KISS2 tested alone: the known answers, and, of texts by chance, what 02 says of every line. */
#include "generate_kiss.h"
#include "known_kiss.h"
#include "second.h"

static unsigned checks, failures;
static bool stop_at_once;
static struct kiss_text made;
static uint8_t listing[SECOND_TEXT], names[SECOND_TEXT], one[SECOND_TEXT], other[SECOND_TEXT];

static void check(bool good, const char *what)
{
    checks++;
    if (!good) {
        failures++;
        printf("FAILED: %s\n", what);
    }
    if (failures > 0 && stop_at_once) {
        printf("self_kiss: stopped after %u checks\n", checks);
        exit(1);
    }
}

/* ---- a listing held against the text's lines ---- */

struct word {
    const uint8_t *at;
    size_t length;
};

/* The word at *at, up to a space or LF, behind which *at then stands. */
static struct word take_word(const uint8_t *text, size_t *at)
{
    struct word word = {text + *at, 0};
    while (text[*at] != ' ' && text[*at] != '\n') {
        (*at)++;
        word.length++;
    }
    (*at)++;
    return word;
}

static bool same_word(struct word word, const uint8_t *bytes, size_t length)
{
    return word.length == length && memcmp(word.at, bytes, length) == 0;
}

/* The state of a name, as the `NM` lines have it; -1 for none. */
static int state_of(struct word name)
{
    size_t at = 0;
    for (int state = 0;; state++) {
        if (names[at] == 'E')
            return -1;
        take_word(names, &at);
        take_word(names, &at);
        struct word known = take_word(names, &at);
        if (same_word(known, name.at, name.length))
            return state;
    }
}

/* The listing's rows, each with the states that lines were found for. */
struct row {
    struct word input, group, next, outputs;
    uint64_t found;
    bool any;
};

static struct row rows[SECOND_ROWS];
static unsigned row_number;

static void take_rows(void)
{
    size_t at = 0;
    for (unsigned word = 0; word < 5; word++)
        take_word(listing, &at);
    for (row_number = 0; listing[at] == 'P'; row_number++) {
        struct row *row = &rows[row_number];
        take_word(listing, &at);
        row->input = take_word(listing, &at);
        row->group = take_word(listing, &at);
        row->next = take_word(listing, &at);
        row->outputs = take_word(listing, &at);
        row->found = 0;
        row->any = false;
    }
}

static int next_of(const struct row *row)
{
    for (size_t state = 0; state < row->next.length; state++)
        if (row->next.at[state] == '1')
            return (int)state;
    return -1;
}

/* Where the first row stands behind the headers. */
static size_t first_row(void)
{
    size_t at = 0;
    while (made.bytes[at] == '.' && made.bytes[at + 1] != 'e') {
        take_word(made.bytes, &at);
        take_word(made.bytes, &at);
    }
    return at;
}

/* Each line has a row of its input, next state and outputs, and no two rows are alike in these; rows stand in the order of their
   first lines; each group is made of the lines' present states and nothing else. */
static bool lines_agree(void)
{
    unsigned opened = 0;
    take_rows();
    for (size_t at = first_row(); made.bytes[at] != '.';) {
        struct word input = take_word(made.bytes, &at);
        struct word present = take_word(made.bytes, &at);
        struct word next = take_word(made.bytes, &at);
        struct word outputs = take_word(made.bytes, &at);
        unsigned found = SECOND_ROWS;
        for (unsigned row = row_number; row-- > 0;)
            if (same_word(rows[row].input, input.at, input.length) && same_word(rows[row].outputs, outputs.at, outputs.length) &&
                next_of(&rows[row]) == (same_word(next, (const uint8_t *)"*", 1) ? -1 : state_of(next))) {
                if (found < SECOND_ROWS)
                    return false;
                found = row;
            }
        if (found > opened)
            return false;
        opened += found == opened;
        if (same_word(present, (const uint8_t *)"*", 1))
            rows[found].any = true;
        else
            rows[found].found |= (uint64_t)1 << state_of(present);
    }
    for (unsigned row = 0; row < row_number; row++)
        for (unsigned state = 0; state < rows[row].group.length; state++)
            if ((rows[row].group.at[state] == '1') != (rows[row].any || (rows[row].found >> state & 1)))
                return false;
    return opened == row_number;
}

/* The names in the order in which `.r`, then each line's present and next state, first have them. */
static bool names_agree(unsigned states)
{
    int latest = -1;
    size_t at = 0;
    while (made.bytes[at] == '.' && made.bytes[at + 1] != 'e') {
        struct word mark = take_word(made.bytes, &at);
        struct word value = take_word(made.bytes, &at);
        if (mark.at[1] == 'r') {
            latest = 0;
            if (state_of(value) != 0)
                return false;
        }
    }
    while (made.bytes[at] != '.') {
        take_word(made.bytes, &at);
        for (unsigned field = 0; field < 2; field++) {
            int state = state_of(take_word(made.bytes, &at));
            if (state > latest + 1)
                return false;
            latest = state > latest ? state : latest;
        }
        take_word(made.bytes, &at);
    }
    return latest + 1 == (int)states;
}

/* ---- by chance ---- */

/* The listing gives the report and the cover that the text gives. */
static bool texts_agree(size_t length, entry *kiss, entry *plain)
{
    int64_t answer = kiss(made.bytes, made.length, one, sizeof one);
    return plain(listing, length, other, sizeof other) == answer && (answer < 0 || memcmp(one, other, (size_t)answer) == 0);
}

/* A refusal of the text is the same by all four entries; 7 and 9 can be given by two of them only. */
static bool refused_alike(int64_t answer)
{
    return second_kiss_report(made.bytes, made.length, one, sizeof one) == answer &&
           second_kiss_cover(made.bytes, made.length, one, sizeof one) == answer &&
           second_kiss_names(made.bytes, made.length, one, sizeof one) == answer;
}

static unsigned count_states(void)
{
    unsigned states = 0;
    for (size_t at = 3; listing[at] != ' '; at++)
        states = states * 10 + (unsigned)(listing[at] - '0');
    return states;
}

static void test_by_chance(void)
{
    unsigned read = 0;
    unsigned refusals = 0;
    bool lines = true, order = true, texts = true, refused = true;
    for (unsigned number = 0; number < 1500; number++) {
        kiss_generate(8, number, number % 4 == 3, &made);
        int64_t answer = second_kiss_listing(made.bytes, made.length, listing, sizeof listing);
        if (answer < 0) {
            refusals++;
            refused = refused && refused_alike(answer);
            continue;
        }
        read++;
        second_kiss_names(made.bytes, made.length, names, sizeof names);
        lines = lines && lines_agree();
        order = order && names_agree(count_states());
        if (made.states <= 32)
            texts = texts && texts_agree((size_t)answer, second_kiss_report, second_report) &&
                    texts_agree((size_t)answer, second_kiss_cover, second_cover);
    }
    check(lines, "each row is made of its lines, where the first stood");
    check(order, "names are numbered as they first appear");
    check(texts, "the listing gives the text's report and cover");
    check(refused, "a text is refused alike by all entries");
    check(read > 700 && refusals > 300, "enough texts of both sorts");
}

/* The same seed gives the same texts on every machine, each by itself: a sum over the first 2,000 of seed 1, made from the
   last to the first. A change of the generator changes it, and is then written down here. */
#define SUM_OF_SEED_1 0xF48599111FAD4D47u
static void test_seed(void)
{
    uint64_t sum = 0xCBF29CE484222325u;
    for (unsigned number = 2000; number-- > 0;) {
        kiss_generate(1, number, number % 2 == 1, &made);
        for (size_t at = 0; at < made.length; at++)
            sum = (sum ^ made.bytes[at]) * 0x100000001B3u;
        sum = (sum ^ made.length) * 0x100000001B3u;
    }
    check(sum == SUM_OF_SEED_1, "the texts of seed 1 are the same everywhere");
    if (sum != SUM_OF_SEED_1)
        printf("  the sum is 0x%llX\n", (unsigned long long)sum);
}

int main(int words, char **word)
{
    struct kiss_entries own = {"the second encoder", second_kiss_report, second_kiss_cover, second_kiss_listing,
                               second_kiss_names};
    stop_at_once = words == 2 && strcmp(word[1], "stop") == 0;
    failures += known_kiss_run(&own, &checks);
    check(failures == 0, "known answers");
    test_by_chance();
    test_seed();
    printf("self_kiss: %u checks, %u failed\n", checks, failures);
    return failures == 0 ? 0 : 1;
}
