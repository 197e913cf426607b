/* What the bit rule costs: the bits of its code against the fewest, on small machines by chance, by the second encoder. Prints the rows of the
   tables of docs/FEWEST.md. */
#include "chance.h"
#include "second.h"

#define STATES SECOND_LEAST_STATES
#define LONGER 4 /* as short, 1 longer, 2 longer, and 3 or more */

static uint8_t listing[4096], out[SECOND_TEXT];
static size_t length;

/* What was found of the machines of one number of states. */
struct found {
    unsigned machines;
    unsigned by[LONGER];
    unsigned most; /* the most bits that a code is longer */
    unsigned rule_bits;
    unsigned least_bits;
    unsigned limits; /* those passed over: more than 32 requirements */
    unsigned none;   /* and those with no code of 5 bits */
};

static void put(const char *text)
{
    size_t more = strlen(text);
    memcpy(listing + length, text, more);
    length += more;
}

static void put_digit(unsigned digit)
{
    listing[length++] = (uint8_t)('0' + digit);
}

static void put_head(unsigned states)
{
    length = 0;
    put("MC ");
    put_digit(states);
    put(" 1 1 0\n");
}

/* 1 to 8 rows, each of which holds in any set of states but the empty one, all alike likely. */
static void draw_rows(struct chance *chance, unsigned states)
{
    put_head(states);
    for (unsigned rows = chance_from(chance, 1, 8); rows > 0; rows--) {
        unsigned group = chance_from(chance, 1, (1u << states) - 1);
        put("PT - ");
        for (unsigned state = 0; state < states; state++)
            put_digit(group >> state & 1);
        put(" ");
        for (unsigned state = 0; state < states; state++)
            put("0");
        put(" 1\n");
    }
    put("EN\n");
}

/* 2 or 3 stable states, any, or 2 where there are no more; each other state goes to one of them, or has a dash once in five times. */
static void draw_column(struct chance *chance, unsigned states, int next[STATES])
{
    unsigned order[STATES];
    unsigned stable = states == 2 ? 2 : chance_from(chance, 2, 3);
    for (unsigned state = 0; state < states; state++)
        order[state] = state;
    for (unsigned at = 0; at < states; at++) {
        unsigned other = at + chance_below(chance, states - at);
        unsigned state = order[other];
        order[other] = order[at];
        order[at] = state;
        bool dash = at >= stable && chance_part(chance, 1, 5);
        next[state] = dash ? SECOND_NO_STATE : (int)order[at < stable ? at : chance_below(chance, stable)];
    }
}

/* 1 to 6 columns. */
static void draw_flow(struct chance *chance, unsigned states)
{
    int next[6][STATES];
    unsigned columns = chance_from(chance, 1, LENGTH_OF(next));
    for (unsigned column = 0; column < columns; column++)
        draw_column(chance, states, next[column]);
    put_head(states);
    for (unsigned state = 0; state < states; state++) {
        put("FT");
        for (unsigned column = 0; column < columns; column++) {
            put(" ");
            if (next[column][state] == SECOND_NO_STATE)
                put("-");
            else
                put_digit((unsigned)next[column][state]);
        }
        put("\n");
    }
    put("EN\n");
}

/* The bits of a report: the first number of its first line. */
static unsigned bits_of(int64_t (*run)(const uint8_t *, size_t, uint8_t *, size_t), int64_t *answer)
{
    unsigned bits = 0;
    *answer = run(listing, length, out, sizeof out);
    for (const uint8_t *at = out + 3; *answer > 0 && *at != ' '; at++)
        bits = bits * 10 + (*at - '0');
    return bits;
}

static void measure(struct found *found)
{
    int64_t answer;
    unsigned rule = bits_of(second_report, &answer);
    unsigned least = bits_of(second_least, &answer);
    found->limits += answer == -100000 * SECOND_LIMIT;
    found->none += answer == -100000 * SECOND_NO_CODE;
    if (answer < 0)
        return;
    unsigned longer = rule - least;
    found->machines++;
    found->by[longer < LONGER - 1 ? longer : LONGER - 1]++;
    found->most = longer > found->most ? longer : found->most;
    found->rule_bits += rule;
    found->least_bits += least;
}

/* With two digits behind the point, rounded. */
static void print_mean(unsigned sum, unsigned number)
{
    unsigned hundredths = (200 * sum + number) / (2 * number);
    printf(" %u.%02u |", hundredths / 100, hundredths % 100);
}

static void print_found(const char *name, const struct found *found)
{
    printf("| %s | %u |", name, found->machines);
    for (unsigned longer = 0; longer < LONGER; longer++)
        printf(" %u |", found->by[longer]);
    printf(" %u |", found->most);
    print_mean(found->rule_bits, found->machines);
    print_mean(found->least_bits, found->machines);
    printf(" %u | %u |\n", found->limits, found->none);
}

static void add_found(const struct found *one, struct found *sum)
{
    sum->machines += one->machines;
    for (unsigned longer = 0; longer < LONGER; longer++)
        sum->by[longer] += one->by[longer];
    sum->most = one->most > sum->most ? one->most : sum->most;
    sum->rule_bits += one->rule_bits;
    sum->least_bits += one->least_bits;
    sum->limits += one->limits;
    sum->none += one->none;
}

/* Machines of 2 to 6 states, so many of each that have a code of 5 bits. */
static void run_kind(void (*draw)(struct chance *, unsigned), uint64_t seed, unsigned each)
{
    static const char *const name[] = {"", "", "2", "3", "4", "5", "6"};
    struct found sum = {0};
    printf("| states | machines | as short | 1 bit longer | 2 longer | 3 or more | at most | bits, rule | bits, fewest | over 32 | none of 5 bits |\n"
           "|---|---:|---:|---:|---:|---:|---:|---:|---:|---:|---:|\n");
    for (unsigned states = 2; states <= STATES; states++) {
        struct found found = {0};
        for (uint64_t number = 0; found.machines < each; number++) {
            struct chance chance = chance_of(seed * 10 + states, number);
            draw(&chance, states);
            measure(&found);
        }
        print_found(name[states], &found);
        add_found(&found, &sum);
    }
    print_found("all", &sum);
}

int main(int words, char **word)
{
    unsigned count[2] = {0, 0};
    for (int at = 1; at < words && at <= 2; at++)
        for (const char *digit = word[at]; *digit >= '0' && *digit <= '9'; digit++)
            count[at - 1] = count[at - 1] * 10 + (unsigned)(*digit - '0');
    if (words != 3 || count[0] < 5) {
        printf("usage: fewest MACHINES SEED\n");
        return 2;
    }
    printf("%u machines of seed %u, of rows:\n\n", count[0] / 5 * 5, count[1]);
    run_kind(draw_rows, count[1], count[0] / 5);
    printf("\n%u flow tables:\n\n", count[0] / 5 * 5);
    run_kind(draw_flow, count[1], count[0] / 5);
    return 0;
}
