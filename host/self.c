/* The second encoder tested alone: against the answers printed in 01, the readings, examples worked by hand, and what 01
   says of every bit, look and face. */
#include "generate.h"
#include "known.h"
#include "second.h"
#include "self_flow.h"

static unsigned checks;
static unsigned failures;
static bool stop_at_once; /* the word `stop`: end at the first failure */

static void end_if_failed(void)
{
    if (failures > 0 && stop_at_once) {
        printf("self: stopped after %u checks\n", checks);
        exit(1);
    }
}

static void check(bool good, const char *what)
{
    checks++;
    if (!good) {
        failures++;
        printf("FAILED: %s\n", what);
    }
    end_if_failed();
}

static uint64_t only(unsigned state)
{
    return (uint64_t)1 << state;
}

/* ---- refusals, each a whole listing with the number and the line that both entries must give ---- */

struct refused {
    const char *listing;
    size_t length; /* 0: up to the NUL that ends the string */
    unsigned number;
    unsigned line;
};

static const struct refused refused[] = {
    /* Reading 1: bytes behind the last LF are a line; its place first, then the missing LF, then its fields. */
    {"MC 1 1 1 0\nEN", 0, 1, 2},
    {"MC 65 1 1 0", 0, 1, 1},
    {"MC 1 1 1 0", 0, 1, 1},
    {"M", 0, 3, 1},
    {"MC", 0, 1, 1},
    {"E", 0, 3, 1},
    {"EN", 0, 3, 1},
    {" ", 0, 3, 1},
    {"MC 1 1 1 0\nMC", 0, 3, 2},
    {"MC 1 1 1 0\nMC 1 1 1 0", 0, 3, 2},
    {"MC 1 1 1 0\nMC 65 1", 0, 3, 2},
    {"MC 1 1 1 0\nM", 0, 1, 2},
    {"MC 1 1 1 0\nMCX", 0, 1, 2},
    {"MC 1 1 1 0\nPT 0 1 0 1", 0, 1, 2},
    {"MC 1 1 1 0\nPT 0 0 0 1", 0, 1, 2},
    {"MC 2 1 1 0\nPT 0 11 11 1", 0, 1, 2},
    {"MC 1 1 1 0\nDI +", 0, 1, 2},
    {"MC 1 1 1 0\nX", 0, 1, 2},
    {"MC 1 1 1 0\n ", 0, 1, 2},
    {"MC 1 1 1 0\nEN\nX", 0, 3, 3},

    /* Reading 2: the mark is everything up to the first space. */
    {"\n", 0, 3, 1},
    {"\nMC 1 1 1 0\nEN\n", 0, 3, 1},
    {" MC 1 1 1 0\nEN\n", 0, 3, 1},
    {"MC\t3 1 1 0\nEN\n", 0, 3, 1},
    {"MCX 1 1 1 0\nEN\n", 0, 3, 1},
    {"MC\r\nEN\n", 0, 3, 1},
    {"mc 1 1 1 0\nEN\n", 0, 3, 1},
    {"PT 0 1 0 1\nEN\n", 0, 3, 1},
    {"DI +\nEN\n", 0, 3, 1},
    {"EN\n", 0, 3, 1},
    {"XX\n", 0, 3, 1},
    {"M\0C 1 1 1 0\nEN\n", 15, 3, 1},
    {"MC 1 1 1 0\n\nEN\n", 0, 1, 2},
    {"MC 1 1 1 0\n EN\n", 0, 1, 2},
    {"MC 1 1 1 0\nPT\r\nEN\n", 0, 1, 2},
    {"MC 1 1 1 0\nENX\nEN\n", 0, 1, 2},
    {"MC 1 1 1 0\nEN\r\n", 0, 1, 2},
    {"MC 1 1 1 0\nPTX 0 1 0 1\nEN\n", 0, 1, 2},
    {"MC 1 1 1 0\nDIX +\nEN\n", 0, 1, 2},
    {"MC 1 1 1 0\nDI\t+\nEN\n", 0, 1, 2},
    {"MC 1 1 1 0\npt 0 1 0 1\nEN\n", 0, 1, 2},
    {"MC 1 1 1 0\nSC 0 0\nEN\n", 0, 1, 2},
    {"MC 1 1 1 0\nMCX\nEN\n", 0, 1, 2},
    {"MC\nEN\n", 0, 1, 1},
    {"MC 1\nEN\n", 0, 1, 1},
    {"MC 1 1 1\nEN\n", 0, 1, 1},
    {"MC 1 1 1 0\nMC\nEN\n", 0, 3, 2},
    {"MC 1 1 1 0\nMC x\nEN\n", 0, 3, 2},
    {"MC 1 1 1 0\nMC 65 1 1 0\nEN\n", 0, 3, 2},
    {"MC 1 1 1 0\nMC 1 1 1 0\nEN\n", 0, 3, 2},
    {"MC 1 1 1 0\nDI +\nMC 1 1 1 0\nEN\n", 0, 3, 3},

    /* Reading 3: every space parts two fields. */
    {"MC  1 1 1 0\nEN\n", 0, 1, 1},
    {"MC 1 1  1 0\nEN\n", 0, 1, 1},
    {"MC 1 1 1 0 \nEN\n", 0, 1, 1},
    {"MC \nEN\n", 0, 1, 1},
    {"MC 1 1 1 0\nPT\nEN\n", 0, 1, 2},
    {"MC 1 1 1 0\nPT \nEN\n", 0, 1, 2},
    {"MC 1 1 1 0\nDI\nEN\n", 0, 1, 2},
    {"MC 1 1 1 0\nDI \nEN\n", 0, 1, 2},
    {"MC 1 1 1 0\nEN \n", 0, 1, 2},
    {"MC 1 1 1 0\nEN 1\n", 0, 1, 2},
    {"MC 1 1 1 0\nPT  0 1 0 1\nEN\n", 0, 1, 2},
    {"MC 1 1 1 0\nPT 0  1 0 1\nEN\n", 0, 1, 2},
    {"MC 1 1 1 0\nPT 0 1 0 1 \nEN\n", 0, 1, 2},
    {"MC 1 1 1 0\nPT 0 1 0 1 1\nEN\n", 0, 1, 2},
    {"MC 1 1 1 0\nPT 0 1 0\nEN\n", 0, 1, 2},
    {"MC 1 1 1 0\nPT 0 1 01\nEN\n", 0, 1, 2},
    {"MC 1 1 1 0\n PT 0 1 0 1\nEN\n", 0, 1, 2},
    {"MC 1 1 1 0\nDI + \nEN\n", 0, 1, 2},
    {"MC 1 1 1 0\nDI  +\nEN\n", 0, 1, 2},
    {"MC 1 1 1 0\nDI + +\nEN\n", 0, 1, 2},

    /* Reading 4: bytes after `EN`, whatever they are; a faulty `EN` line comes first. */
    {"MC 1 1 1 0\nEN\n\n", 0, 3, 3},
    {"MC 1 1 1 0\nEN\n\0", 15, 3, 3},
    {"MC 1 1 1 0\nEN\nEN\n", 0, 3, 3},
    {"MC 1 1 1 0\nEN\nMC 1 1 1 0\n", 0, 3, 3},
    {"MC 1 1 1 0\nEN\nPT 0 1 0 1\nEN\n", 0, 3, 3},
    {"MC 1 1 1 0\nEN \nX", 0, 1, 2},
    {"MC 1 1 1 0\nEN 1\n\n", 0, 1, 2},

    /* Reading 5: no `EN`. */
    {"", 0, 3, 1},
    {"MC 1 1 1 0\n", 0, 3, 2},
    {"MC 1 1 1 0\nPT 0 1 0 1\n", 0, 3, 3},
    {"MC 1 1 1 0\nDI +\nDI -\n", 0, 3, 4},

    /* Reading 6: numbers, 1 before 2. */
    {"MC 00 1 1 0\nEN\n", 0, 1, 1},
    {"MC 01 1 1 0\nEN\n", 0, 1, 1},
    {"MC 1 1 1 00\nEN\n", 0, 1, 1},
    {"MC 1 1 1 01\nEN\n", 0, 1, 1},
    {"MC 10000 1 1 0\nEN\n", 0, 1, 1},
    {"MC 1 1 1 10000\nEN\n", 0, 1, 1},
    {"MC 1 00001 1 0\nEN\n", 0, 1, 1},
    {"MC 4294967297 1 1 0\nEN\n", 0, 1, 1},
    {"MC +1 1 1 0\nEN\n", 0, 1, 1},
    {"MC -1 1 1 0\nEN\n", 0, 1, 1},
    {"MC 1 1 1 -\nEN\n", 0, 1, 1},
    {"MC 1 1 1 \nEN\n", 0, 1, 1},
    {"MC 1a 1 1 0\nEN\n", 0, 1, 1},
    {"MC 1 1 1 :\nEN\n", 0, 1, 1},
    {"MC 1 1 1 /\nEN\n", 0, 1, 1},
    {"MC 1 1 1 0\r\nEN\n", 0, 1, 1},
    {"MC 65 1 1 x\nEN\n", 0, 1, 1},
    {"MC 65 1 1\nEN\n", 0, 1, 1},
    {"MC 65 1 1 0\nEN\n", 0, 2, 1},
    {"MC 0 1 1 0\nEN\n", 0, 2, 1},
    {"MC 1 0 1 0\nEN\n", 0, 2, 1},
    {"MC 1 17 1 0\nEN\n", 0, 2, 1},
    {"MC 1 1 0 0\nEN\n", 0, 2, 1},
    {"MC 1 1 33 0\nEN\n", 0, 2, 1},
    {"MC 1 1 1 65\nEN\n", 0, 2, 1},
    {"MC 9999 1 1 0\nEN\n", 0, 2, 1},
    {"MC 1 9999 1 0\nEN\n", 0, 2, 1},
    {"MC 1 1 9999 0\nEN\n", 0, 2, 1},
    {"MC 1 1 1 9999\nEN\n", 0, 2, 1},
    {"MC 257 1 1 0\nEN\n", 0, 2, 1},
    {"MC 0 17 33 65\nEN\n", 0, 2, 1},
    {"MC 65 1 1 0\nX\n", 0, 2, 1},
    {"MC 65 1 1 0\n", 0, 2, 1},

    /* Reading 24: the fifth number, written as the others are, 1 before 2, and no sixth. */
    {"MC 1 1 1 0 2\nEN\n", 0, 2, 1},
    {"MC 1 1 1 0 10\nEN\n", 0, 2, 1},
    {"MC 1 1 1 0 256\nEN\n", 0, 2, 1},
    {"MC 1 1 1 0 257\nEN\n", 0, 2, 1},
    {"MC 1 1 1 0 9999\nEN\n", 0, 2, 1},
    {"MC 0 0 0 0 0\nEN\n", 0, 2, 1},
    {"MC 65 1 1 0 1\nEN\n", 0, 2, 1},
    {"MC 65 1 1 0 2\nEN\n", 0, 2, 1},
    {"MC 1 1 1 0 00\nEN\n", 0, 1, 1},
    {"MC 1 1 1 0 01\nEN\n", 0, 1, 1},
    {"MC 1 1 1 0 10000\nEN\n", 0, 1, 1},
    {"MC 1 1 1 0 x\nEN\n", 0, 1, 1},
    {"MC 1 1 1 0 -\nEN\n", 0, 1, 1},
    {"MC 1 1 1 0 +1\nEN\n", 0, 1, 1},
    {"MC 1 1 1 0 1\r\nEN\n", 0, 1, 1},
    {"MC 1 1 1  1\nEN\n", 0, 1, 1},
    {"MC 1 1 1 0  1\nEN\n", 0, 1, 1},
    {"MC 1 1 1 0 1 \nEN\n", 0, 1, 1},
    {"MC 1 1 1 0 1 1\nEN\n", 0, 1, 1},
    {"MC 1 1 1 0 0 0\nEN\n", 0, 1, 1},
    {"MC 1 1 1 0 1 0 0\nEN\n", 0, 1, 1},
    {"MC 1 1 1 0 2 0\nEN\n", 0, 1, 1},
    {"MC 65 1 1 0 x\nEN\n", 0, 1, 1},
    {"MC 65 1 1 0 01\nEN\n", 0, 1, 1},
    {"MC 65 1 1 0 1 1\nEN\n", 0, 1, 1},
    {"MC 1 1 1 x 2\nEN\n", 0, 1, 1},
    {"MC 1 1 1 0 1", 0, 1, 1},
    {"MC 1 1 1 0 2", 0, 1, 1},
    {"MC 1 1 1 0 1\n", 0, 3, 2},
    {"MC 1 1 1 0 1\nMC 1 1 1 0 1\nEN\n", 0, 3, 2},
    {"MC 1 1 1 0 1\nPT 0 1 0 1 1\nEN\n", 0, 1, 2},

    /* Fields of a row and of a dichotomy: lengths and characters. */
    {"MC 2 2 2 0\nPT 0 11 01 11\nEN\n", 0, 1, 2},
    {"MC 2 2 2 0\nPT 000 11 01 11\nEN\n", 0, 1, 2},
    {"MC 2 2 2 0\nPT 00 1 01 11\nEN\n", 0, 1, 2},
    {"MC 2 2 2 0\nPT 00 111 01 11\nEN\n", 0, 1, 2},
    {"MC 2 2 2 0\nPT 00 11 1 11\nEN\n", 0, 1, 2},
    {"MC 2 2 2 0\nPT 00 11 011 11\nEN\n", 0, 1, 2},
    {"MC 2 2 2 0\nPT 00 11 01 1\nEN\n", 0, 1, 2},
    {"MC 2 2 2 0\nPT 00 11 01 111\nEN\n", 0, 1, 2},
    {"MC 2 2 2 0\nPT 0x 11 01 11\nEN\n", 0, 1, 2},
    {"MC 2 2 2 0\nPT 0+ 11 01 11\nEN\n", 0, 1, 2},
    {"MC 2 2 2 0\nPT 00 1- 01 11\nEN\n", 0, 1, 2},
    {"MC 2 2 2 0\nPT 00 12 01 11\nEN\n", 0, 1, 2},
    {"MC 2 2 2 0\nPT 00 11 0- 11\nEN\n", 0, 1, 2},
    {"MC 2 2 2 0\nPT 00 11 01 1.\nEN\n", 0, 1, 2},
    {"MC 2 2 2 0\nPT 00 11 01 12\nEN\n", 0, 1, 2},
    {"MC 2 2 2 0\nPT 00 11 01 1\0\nEN\n", 29, 1, 2},
    {"MC 2 2 2 0\nDI +\nEN\n", 0, 1, 2},
    {"MC 2 2 2 0\nDI +-.\nEN\n", 0, 1, 2},
    {"MC 2 2 2 0\nDI +1\nEN\n", 0, 1, 2},
    {"MC 2 2 2 0\nDI +x\nEN\n", 0, 1, 2},

    /* Reading 7 and the order 1, 4, 5 within a row; the first faulty line decides between lines. */
    {"MC 2 1 1 0\nPT 0 00 01 1\nEN\n", 0, 4, 2},
    {"MC 2 1 1 0\nPT 0 00 00 1\nEN\n", 0, 4, 2},
    {"MC 2 1 1 0\nPT 0 11 11 1\nEN\n", 0, 5, 2},
    {"MC 4 1 1 0\nPT 0 1111 1101 1\nEN\n", 0, 5, 2},
    {"MC 2 1 1 0\nPT 0 00 11 1\nEN\n", 0, 4, 2},
    {"MC 2 1 1 0\nPT x 00 11 1\nEN\n", 0, 1, 2},
    {"MC 2 1 1 0\nPT 0 00 11 x\nEN\n", 0, 1, 2},
    {"MC 2 1 1 0\nPT 0 00 11 1 1\nEN\n", 0, 1, 2},
    {"MC 2 1 1 0\nPT 0 00 01 1\nX\n", 0, 4, 2},
    {"MC 2 1 1 0\nPT 0 11 11 1\nPT 0 00 01 1\nEN\n", 0, 5, 2},
    {"MC 2 1 1 0\nDI +x\nPT 0 00 01 1\nEN\n", 0, 1, 2},
    {"MC 2 1 1 0\nPT 0 10 01 1\nPT 0 00 01 1\n", 0, 4, 3},
    {"MC 2 1 1 0\nPT 0 00 01 1\nMC 2 1 1 0\n", 0, 4, 2},
    {"MC 2 1 1 0\nPT 0 00 01 1\n", 0, 4, 2},

    /* Reading 9: refusal 6, its pairs and its line. */
    {"MC 3 1 1 0\nPT 0 110 100 1\nPT - 010 001 1\nEN\n", 0, 6, 3},
    {"MC 3 1 1 0\nPT 0 110 100 1\nDI +-.\nPT - 010 001 1\nDI ...\nEN\n", 0, 6, 4},
    {"MC 2 2 1 0\nPT -0 01 10 1\nPT 1- 11 01 1\nEN\n", 0, 6, 3},
    {"MC 2 1 1 0\nPT 0 10 10 1\nPT 0 10 00 1\nPT 0 10 01 1\nEN\n", 0, 6, 4},
    /* rows 2 and 3 clash at line 4, but rows 1 and 4 come first and give line 5 */
    {"MC 2 2 1 0\nPT 00 10 10 1\nPT 11 10 10 1\nPT 11 10 01 1\nPT 00 10 01 1\nEN\n", 0, 6, 5},
    /* row 1 clashes with rows 3 and 4: the lower later row */
    {"MC 2 2 1 0\nPT 00 10 10 1\nPT 11 10 10 1\nPT 0- 10 01 1\nPT -- 10 01 1\nEN\n", 0, 6, 4},
    /* 6 comes after every line */
    {"MC 3 1 1 0\nPT 0 110 100 1\nPT - 010 001 1\nPT 0 000 001 1\nEN\n", 0, 4, 4},
    {"MC 3 1 1 0\nPT 0 110 100 1\nPT - 010 001 1\n", 0, 3, 4},
    {"MC 3 1 1 0\nPT 0 110 100 1\nPT - 010 001 1\nEN\nX", 0, 3, 5},
};

static void test_refused_tables(void)
{
    static uint8_t out[256];
    for (unsigned at = 0; at < LENGTH_OF(refused); at++) {
        const struct refused *one = &refused[at];
        size_t length = one->length == 0 ? strlen(one->listing) : one->length;
        int64_t wanted = -((int64_t)one->number * 100000 + one->line);
        for (unsigned cover = 0; cover < 2; cover++) {
            memset(out, 0xEE, sizeof out);
            entry *run = cover ? second_cover : second_report;
            int64_t answer = run((const uint8_t *)one->listing, length, out, sizeof out);
            bool untouched = true;
            for (size_t byte = 0; byte < sizeof out; byte++)
                untouched = untouched && out[byte] == 0xEE;
            check(answer == wanted && untouched, one->listing);
            if (answer != wanted)
                printf("  answered %lld, wanted %lld\n", (long long)answer, (long long)wanted);
        }
    }
}

/* ---- listings that are put together ---- */

static uint8_t listing[SECOND_BYTES + 2];
static size_t length;
static uint8_t out[SECOND_TEXT];

static void put(const char *text)
{
    size_t more = strlen(text);
    memcpy(listing + length, text, more);
    length += more;
}

static void put_times(unsigned times, const char *text)
{
    for (; times > 0; times--)
        put(text);
}

static void gives(const char *what, int64_t report, int64_t cover)
{
    int64_t reported = second_report(listing, length, out, sizeof out);
    int64_t covered = second_cover(listing, length, out, sizeof out);
    check(reported == report && covered == cover, what);
    if (reported != report || covered != cover)
        printf("  answered %lld and %lld\n", (long long)reported, (long long)covered);
}

static bool is_read(void)
{
    return second_report(listing, length, out, sizeof out) >= 0;
}

static void start(const char *text)
{
    length = 0;
    put(text);
}

/* Reading 7: the 129th `PT` and the 65th `DI`: 1 if malformed, else 2, before 4 and 5. */
static void test_limits(void)
{
    static const struct {
        const char *row;
        int64_t answer;
    } row[] = {
        {"PT 0 11 10 1\n", -200130}, {"PT 0 00 10 1\n", -200130}, {"PT 0 11 11 1\n", -200130},
        {"PT 0 00 11 1\n", -200130}, {"PT x 11 10 1\n", -100130}, {"PT 0 0 10 1\n", -100130},
        {"PT\n", -100130},           {"PT 0 00 11 1", -100130},   {"MC 2 1 1 0\n", -300130},
        {"MC", -300130},             {"X\n", -100130},            {"DI ++\nDI +-\nX\n", -100132},
    };
    for (unsigned at = 0; at < LENGTH_OF(row); at++) {
        start("MC 2 1 1 0\n");
        put_times(128, "PT 0 11 10 1\n");
        put(row[at].row);
        gives(row[at].row, row[at].answer, row[at].answer);
    }
    start("MC 2 1 1 0\n");
    put_times(64, "DI ++\n");
    put_times(128, "PT 0 11 10 1\n");
    put("EN\n");
    check(is_read(), "128 rows and 64 dichotomies");
    start("MC 2 1 1 0\n");
    put_times(64, "DI ++\n");
    put_times(129, "PT 0 11 10 1\n");
    put("EN\n");
    gives("the 129th row behind 64 dichotomies", -200194, -200194);
    start("MC 2 1 1 0\n");
    put_times(64, "DI ++\n");
    put("DI +-\nEN\n");
    gives("the 65th dichotomy", -200066, -200066);
    start("MC 2 1 1 0\n");
    put_times(64, "DI ++\n");
    put("DI +1\nEN\n");
    gives("the 65th dichotomy, malformed", -100066, -100066);
    start("MC 2 1 1 0\n");
    put_times(64, "DI ++\n");
    put("DI ++");
    gives("the 65th dichotomy without LF", -100066, -100066);
}

/* Reading 8: over 65,536 bytes is 2 at line 0 before anything else; exactly 65,536 is read. */
static void test_length(void)
{
    start("MC 1 1 1 0\nEN\n");
    memset(listing + length, '0', sizeof listing - length);
    length = 65536;
    gives("65,536 bytes, some after EN", -300003, -300003);
    length = 65537;
    gives("65,537 bytes", -200000, -200000);
    memset(listing, 'x', sizeof listing);
    length = 65536;
    gives("65,536 bytes of x", -300001, -300001);
    length = 65537;
    gives("65,537 bytes of x", -200000, -200000);
    start("MC 1 1 1 0\nDI ");
    memset(listing + length, '+', sizeof listing - length);
    memcpy(listing + 65536 - 4, "\nEN\n", 4);
    length = 65536;
    gives("a line of over 65,000 bytes", -100002, -100002);
    memset(listing, '\n', sizeof listing);
    memcpy(listing, "MC 1 1 1 0", 10);
    length = 65536;
    gives("65,536 bytes of LF", -100002, -100002);
}

/* Reading 9: rows that do not clash. */
static void test_no_conflict(void)
{
    static const char *const rows[] = {
        "PT 0 110 100 1\nPT - 010 100 1\n",                 /* the same next state */
        "PT 0 110 100 1\nPT - 010 000 1\n",                 /* the later names none */
        "PT 0 110 000 1\nPT - 010 001 1\n",                 /* the earlier names none */
        "PT 0 110 100 1\nPT - 001 001 1\n",                 /* no state in both */
        "PT 0 110 100 1\nPT 1 010 001 1\n",                 /* no input vector in both */
        "PT 1 110 100 1\nPT 0 010 001 1\n",                 /* the same, the other way round */
        "PT 0 100 100 1\nPT 0 010 010 1\nPT 0 001 001 1\n", /* three states, three ways */
    };
    for (unsigned at = 0; at < LENGTH_OF(rows); at++) {
        start("MC 3 1 1 0\n");
        put(rows[at]);
        put("EN\n");
        check(is_read(), rows[at]);
    }
}

/* ---- examples worked by hand from the words of 01 ---- */

static const struct {
    const char *listing;
    const char *report;
    const char *cover;
} worked[] = {
    /* Reading 12: one state and one dichotomy build exactly one bit, 0; for `-` it is complemented. */
    {"MC 1 1 1 0\nDI +\nEN\n", "CT 1 1 0 1 1\nSC 0 0\nBY 0 0\nEN\n", ".i 2\n.o 2\n.type fd\n.p 0\n.e\n"},
    {"MC 1 1 1 0\nDI -\nEN\n", "CT 1 1 0 1 1\nSC 0 0\nBY 0 0\nEN\n", ".i 2\n.o 2\n.type fd\n.p 0\n.e\n"},
    {"MC 1 1 1 0\nDI .\nEN\n", "CT 1 1 0 1 0\nSC 0 0\nBY 0 0\nEN\n", ".i 2\n.o 2\n.type fd\n.p 0\n.e\n"},
    /* Reading 20: no bits. */
    {"MC 1 2 3 5\nPT -1 1 0 1-0\nEN\n", "CT 0 0 0 0 0\nSC 0 -\nEN\n", ".i 2\n.o 3\n.type fd\n.p 1\n-1 1-0\n.e\n"},
    /* The pair first; the second bit begins and ends as all 0, or as all 1 and is complemented. */
    {"MC 2 1 1 0\nDI ++\nEN\n", "CT 2 2 0 2 6\nSC 0 00\nSC 1 10\nBY 0 0\nBY 1 1\nEN\n", ".i 3\n.o 3\n.type fd\n.p 0\n.e\n"},
    {"MC 2 1 1 0\nDI --\nEN\n", "CT 2 2 0 2 6\nSC 0 00\nSC 1 10\nBY 0 0\nBY 1 1\nEN\n", ".i 3\n.o 3\n.type fd\n.p 0\n.e\n"},
    /* A dichotomy may stay unmet in a cover. */
    {"MC 2 1 1 1\nDI ++\nEN\n", "CT 1 2 1 1 4\nSC 0 0\nSC 1 1\nBY 0 0\nUN 1\nEN\n", ".i 2\n.o 2\n.type fd\n.p 0\n.e\n"},
    /* Three states: no move stands; in the second bit state 1 is in no live requirement and moves all the same. */
    {"MC 3 1 1 0\nEN\n", "CT 2 3 0 2 8\nSC 0 00\nSC 1 10\nSC 2 01\nBY 0 0\nBY 1 1\nBY 2 0\nEN\n",
     ".i 3\n.o 3\n.type fd\n.p 0\n.e\n"},
    /* Four states: each bit has a pass whose first move stands; the first bit is complemented. */
    {"MC 4 1 1 0\nEN\n",
     "CT 2 6 0 4 32\nSC 0 00\nSC 1 01\nSC 2 11\nSC 3 10\nBY 0 1\nBY 1 0\nBY 2 0\nBY 3 0\nBY 4 0\nBY 5 1\nEN\n",
     ".i 3\n.o 3\n.type fd\n.p 0\n.e\n"},
    /* Output dashes, a row that names no next state, a face of one state and one of all. */
    {"MC 2 2 3 0\nPT 0- 10 01 1-0\nPT -1 01 00 -11\nPT 11 11 10 000\nEN\n",
     "CT 1 1 0 1 2\nSC 0 0\nSC 1 1\nBY 0 0\nEN\n",
     ".i 3\n.o 4\n.type fd\n.p 2\n0-0 11-0\n-11 0-11\n.e\n"},
    {"MC 2 2 3 0 1\nPT 0- 10 01 1-0\nPT -1 01 00 -11\nPT 11 11 10 000\nEN\n",
     "CT 1 1 0 1 2\nSC 0 0\nSC 1 1\nBY 0 0\nEN\n",
     ".i 3\n.o 4\n.type fd\n.p 3\n0-0 11-0\n-11 0-11\n11- 0000\n.e\n"},
    /* Dashes of one row that meet a 1 behind it or none, of one that meet a 1 before it, and of one that share only the inputs
       with a 1, or only the state. */
    {"MC 2 2 3 0\nPT 0- 11 00 -1-\nPT -1 10 01 1-0\nPT 1- 01 00 --1\nEN\n",
     "CT 1 1 0 1 2\nSC 0 0\nSC 1 1\nBY 0 0\nEN\n",
     ".i 3\n.o 4\n.type fd\n.p 3\n0-- 001-\n-10 1100\n1-1 0--1\n.e\n"},
    /* Reading 24: no bits are zeros, and so is the one bit that a dichotomy asks of one state. */
    {"MC 1 1 2 0\nPT 0 1 1 00\nPT 1 1 1 01\nEN\n", "CT 0 0 0 0 0\nSC 0 -\nEN\n", ".i 1\n.o 2\n.type fd\n.p 1\n1 01\n.e\n"},
    {"MC 1 1 1 0\nDI +\nPT 0 1 1 0\nPT 1 1 0 -\nEN\n", "CT 1 1 0 1 1\nSC 0 0\nBY 0 0\nEN\n",
     ".i 2\n.o 2\n.type fd\n.p 1\n10 0-\n.e\n"},
    /* A row is kept for the second bit of its next code; a dash keeps one though the row behind it has it written 0. */
    {"MC 3 1 1 0 0\nPT 0 100 001 0\nPT 1 100 000 -\nPT 1 100 000 1\nPT 1 010 100 0\nEN\n",
     "CT 2 3 0 2 8\nSC 0 00\nSC 1 10\nSC 2 01\nBY 0 0\nBY 1 1\nBY 2 0\nEN\n",
     ".i 3\n.o 3\n.type fd\n.p 3\n000 010\n100 000\n100 001\n.e\n"},
    /* Reading 16: a width above need builds fewer bits. P1 again. */
    {"MC 3 1 1 64 1\nPT 0 110 001 1\nPT 1 101 100 0\nEN\n",
     "CT 2 5 0 2 17\nSC 0 00\nSC 1 10\nSC 2 01\nBY 0 0\nBY 1 1\nBY 2 0\nBY 3 1\nBY 4 0\nEN\n",
     ".i 3\n.o 3\n.type fd\n.p 2\n0-0 011\n10- 000\n.e\n"},
    {"MC 3 1 1 2\nPT 0 110 001 1\nPT 1 101 100 0\nEN\n",
     "CT 2 5 0 2 17\nSC 0 00\nSC 1 10\nSC 2 01\nBY 0 0\nBY 1 1\nBY 2 0\nBY 3 1\nBY 4 0\nEN\n",
     ".i 3\n.o 3\n.type fd\n.p 1\n0-0 011\n.e\n"},
};

static bool answers(entry *run, const char *text)
{
    memset(out, 0xEE, 1024);
    int64_t answer = run(listing, length, out, sizeof out);
    return answer == (int64_t)strlen(text) && memcmp(out, text, strlen(text)) == 0 && out[strlen(text)] == 0xEE;
}

static void test_worked(void)
{
    for (unsigned at = 0; at < LENGTH_OF(worked); at++) {
        start(worked[at].listing);
        check(answers(second_report, worked[at].report), worked[at].report);
        check(answers(second_cover, worked[at].cover), worked[at].cover);
    }
}

/* Refusal 10 and what stands behind an answer; and that 10 comes last. */
static void test_room(void)
{
    static const char text[] = 
     "CT 2 5 0 2 17\nSC 0 00\nSC 1 10\nSC 2 01\nBY 0 0\nBY 1 1\nBY 2 0\nBY 3 1\nBY 4 0\nEN\n";
    size_t wanted = strlen(text);
    start("MC 3 1 1 0\nPT 0 110 001 1\nPT 1 101 100 0\nEN\n");
    for (size_t room = 0; room <= wanted + 5; room++) {
        memset(out, 0xEE, 256);
        int64_t answer = second_report(listing, length, out + 8, room);
        bool good = answer == (room < wanted ? -1000000 : (int64_t)wanted);
        for (size_t at = 0; at < 256; at++) {
            uint8_t byte = 0xEE;
            if (room >= wanted && at >= 8 && at < 8 + wanted)
                byte = (uint8_t)text[at - 8];
            good = good && out[at] == byte;
        }
        check(good, "room for P1's report");
    }
    check(second_cover(listing, length, out, 0) == -1000000, "no room for P1's cover");
    start("MC 3 1 1 1\nPT 0 110 001 1\nPT 1 101 100 0\nEN\n");
    check(second_cover(listing, length, out, 0) == -900000, "9 before 10");
    check(second_report(listing, length, out, 0) == -1000000, "10 for P2's report");
    start("MC 3 1 1 0\nPT 0 110 100 1\nPT - 010 001 1\nEN\n");
    check(second_report(listing, length, out, 0) == -600003, "6 before 10");
}

/* Different dichotomies that name all states with state 0 `+`, states 1 to 6 by the number's digits and any other with `+`;
   there are 64, and a bit meets one at most. */
static void put_crowd(unsigned states, unsigned dichotomies)
{
    for (unsigned k = 0; k < dichotomies; k++) {
        put("DI +");
        for (unsigned j = 1; j < states; j++)
            put(j < 7 && k >> (j - 1) & 1 ? "-" : "+");
        put("\n");
    }
    put("EN\n");
}

/* Refusal 7, in the report as in the cover: "width 0, and ... bits leave something unmet", 64 of them. So width 0 is refused
   exactly where width 64 leaves something unmet, and answers the same where it does not. Answers the report's number. */
static int64_t check_too_wide(const char *head, const char *wide_head, unsigned states, unsigned dichotomies)
{
    static uint8_t wide[SECOND_TEXT];
    start(wide_head);
    put_crowd(states, dichotomies);
    int64_t with_64 = second_report(listing, length, wide, sizeof wide);
    bool unmet = false;
    for (int64_t at = 1; at < with_64; at++)
        unmet = unmet || (wide[at - 1] == '\n' && wide[at] == 'U');
    check(with_64 > 0 && second_cover(listing, length, out, sizeof out) != -700000, "width 64 is never 7");
    start(head);
    put_crowd(states, dichotomies);
    check(second_report(listing, length, out, 0) == (unmet ? -700000 : -1000000), "7 before 10");
    int64_t cover = second_cover(listing, length, out, sizeof out);
    int64_t report = second_report(listing, length, out, sizeof out);
    check((report == -700000) == (cover == -700000), "7 in the report and in the cover");
    check(unmet ? report == -700000 : report == with_64 && memcmp(out, wide, (size_t)report) == 0,
          "width 0 is refused 7 exactly where width 64 leaves something unmet");
    return report;
}

/* Seven states have 64 bits with state 0 at 0, so all are met by 64 bits. The eighth is `+` in every dichotomy, so the bit that
   parts it from state 0 is none of theirs, and the 64 need one bit more than there is. */
static void test_too_wide(void)
{
    for (unsigned dichotomies = 0; dichotomies <= 64; dichotomies += dichotomies < 56 ? 8 : 1) {
        check(check_too_wide("MC 7 1 1 0\n", "MC 7 1 1 64\n", 7, dichotomies) > 0, "seven states are never too wide");
        int64_t report = check_too_wide("MC 8 1 1 0\n", "MC 8 1 1 64\n", 8, dichotomies);
        check(dichotomies > 56 || report > 0, "56 and the bits for the pairs are not too wide");
        check(dichotomies < 64 || report == -700000, "eight states and 64 dichotomies are refused 7");
    }
    start("MC 7 1 1 0\n");
    put_crowd(7, 64);
    check(is_read() && memcmp(out, "CT 64 85 0 ", 11) == 0, "a code of exactly 64 bits is not refused");
    start("MC 8 1 1 0\nPT 0 10000000 10000000 1\nPT 0 10000000 01000000 1\n");
    put_crowd(8, 64);
    gives("6 before 7", -600003, -600003);
}

/* ---- parts ---- */

/* The part of a text by the words, line by line: where each line ends, and whether there is room as far as that. */
static size_t part_by_words(const char *text, size_t from, size_t room)
{
    size_t fits = 0;
    for (size_t end = 1; end <= strlen(text); end++) {
        bool ends_line = text[end - 1] == '\n';
        if (ends_line && end > from && end - from <= room)
            fits = end - from;
    }
    return fits;
}

/* Every place and every room of a text: the answer, the bytes, and those behind them. */
static void check_all_parts(part_entry *part, const char *text)
{
    bool good = true;
    for (size_t from = 0; from <= strlen(text) + 3; from++) {
        for (size_t room = 0; room <= strlen(text) + 3; room++) {
            size_t fits = part_by_words(text, from, room);
            int64_t wanted = from >= strlen(text) ? 0 : fits == 0 ? -1000000 : (int64_t)fits;
            memset(out, 0xEE, 256);
            good = good && part(listing, length, from, out + 8, room) == wanted;
            for (size_t at = 0; at < 256; at++) {
                bool written = at >= 8 && at < 8 + fits;
                good = good && out[at] == (written ? (uint8_t)text[from + at - 8] : 0xEE);
            }
        }
    }
    check(good, text);
}

static void test_parts(void)
{
    start("MC 3 1 1 0\nPT 0 110 001 1\nPT 1 101 100 0\nEN\n");
    check_all_parts(second_report_part,
                    "CT 2 5 0 2 17\nSC 0 00\nSC 1 10\nSC 2 01\nBY 0 0\nBY 1 1\nBY 2 0\nBY 3 1\nBY 4 0\nEN\n");
    check_all_parts(second_cover_part, ".i 3\n.o 3\n.type fd\n.p 1\n0-0 011\n.e\n");
    check(second_report_part(listing, length, SIZE_MAX, out, 100) == 0, "nothing is left far past the end");
    start("MC 3 1 1 0 1\nPT 0 110 001 1\nPT 1 101 100 0\nEN\n");
    check_all_parts(second_cover_part, ".i 3\n.o 3\n.type fd\n.p 2\n0-0 011\n10- 000\n.e\n");
    start("MC 3 1 1 1\nPT 0 110 001 1\nPT 1 101 100 0\nEN\n");
    check(second_cover_part(listing, length, 0, out, 0) == -900000, "9 before 10, in parts");
    check(second_cover_part(listing, length, SIZE_MAX, out, 0) == -900000, "9 past the end");
    check(second_report_part(listing, length, 0, out, 0) == -1000000, "10 for P2's first line");
    start("MC 8 1 1 0\n");
    put_crowd(8, 64);
    check(second_report_part(listing, length, 0, out, 0) == -700000, "7 before 10, in parts");
    check(second_report_part(listing, length, SIZE_MAX, out, 0) == -700000, "7 past the end");
}

/* ---- requirements ---- */

static bool read_machine(const char *text, struct second_machine *machine)
{
    struct second_refusal refusal = second_read_lines((const uint8_t *)text, strlen(text), machine);
    return refusal.number == SECOND_FINE;
}

/* The most requirements that so many states can have: 128 rows of different groups of two, and 64 dichotomies. */
static void put_most(const char *head, unsigned states)
{
    start(head);
    for (unsigned row = 0; row < 128; row++) {
        put("PT 0 ");
        for (unsigned state = 0; state < states; state++)
            put(state == row % states || state == (row + 1 + row / states) % states ? "1" : "0");
        put(" ");
        put_times(states, "0");
        put(" 0\n");
    }
    for (unsigned dichotomy = 0; dichotomy < 64; dichotomy++) {
        put("DI ");
        put_times(states, ".");
        put("\n");
    }
    put("EN\n");
}

static void test_requirements(void)
{
    static struct second_machine machine;
    static struct second_requirements drawn;
    static const struct second_requirement wanted[] = {
        {1, 2}, {1, 4}, {1, 8}, {2, 4}, {2, 8}, {4, 8},   /* pairs, by i and then j */
        {3, 4}, {3, 8},                                   /* group 1100 */
        {14, 1},                                          /* group 0111 */
        {9, 2}, {9, 4},                                   /* group 1001 */
        {9, 2}, {0, 0}, {0, 15}, {4, 0},                  /* each DI, also one that a group asks already */
    };
    check(read_machine("MC 4 1 1 0\nDI +-.+\nPT 0 1100 0000 1\nPT 0 0010 0000 1\nPT 0 1111 0000 1\nPT 1 1100 0000 1\n"
                       "DI ....\nPT 0 0111 0000 1\nPT - 1001 0000 0\nPT - 0111 0000 0\nDI ----\nDI ..+.\nEN\n",
                       &machine),
          "a listing of four states");
    second_draw_up(&machine, &drawn);
    check(drawn.number == LENGTH_OF(wanted) && drawn.pairs_groups == 11, "how many requirements");
    for (unsigned r = 0; r < LENGTH_OF(wanted) && r < drawn.number; r++)
        check(drawn.list[r].first == wanted[r].first && drawn.list[r].second == wanted[r].second, "a requirement");
    check(read_machine("MC 3 1 1 0\nPT 0 110 000 1\nPT 1 110 000 1\nPT - 101 000 1\nPT - 101 000 1\nEN\n", &machine),
          "groups that stood in the row before");
    second_draw_up(&machine, &drawn);
    check(drawn.number == 5, "a group asks once");
    /* Reading 11: for two states a group asks nothing, and for one state there is nothing at all. */
    check(read_machine("MC 2 1 1 0\nPT 0 11 00 1\nPT 1 10 00 1\nPT 1 01 00 1\nEN\n", &machine), "two states");
    second_draw_up(&machine, &drawn);
    check(drawn.number == 1 && drawn.pairs_groups == 1, "two states ask one pair");
    check(read_machine("MC 1 1 1 0\nPT 0 1 0 1\nEN\n", &machine), "one state");
    second_draw_up(&machine, &drawn);
    check(drawn.number == 0, "one state asks nothing");
    /* "496 + 3,840 + 64 = 4,400" of 32 states, and of 64 "2,016 + 7,936 + 64 = 10,016". */
    put_most("MC 32 1 1 1\n", 32);
    check(is_read() && memcmp(out, "CT 1 4400 ", 10) == 0, "a listing of 4,400 requirements");
    put_most("MC 64 1 1 1\n", 64);
    check(is_read() && memcmp(out, "CT 1 10016 ", 11) == 0, "a listing of 10,016 requirements");
    check(SECOND_REQUIREMENTS == 10016, "at most 10,016");
}

/* ---- P5 to P8 and P10 ---- */

/* The columns of a code given state by state. */
static struct second_code columns(const char *const *code, unsigned states)
{
    struct second_code made = {.bits = (unsigned)strlen(code[0])};
    for (unsigned place = 0; place < made.bits; place++)
        for (unsigned state = 0; state < states; state++)
            if (code[state][place] == '1')
                made.bit[place] |= only(state);
    return made;
}

/* The face of a group, and that the code meets the group's requirements: (group, {s}) for each state s outside. */
static void check_face(const struct second_code *code, unsigned states, uint64_t group, const char *face,
                       const char *what)
{
    bool same = strlen(face) == code->bits;
    for (unsigned place = 0; place < code->bits; place++)
        same = same && second_face_place(group, code->bit[place]) == face[place];
    check(same, what);
    for (unsigned s = 0; s < states; s++) {
        struct second_requirement outside = {group, only(s)};
        if ((group & only(s)) == 0)
            check(second_met_by(outside, code) != SECOND_NO_BIT, what);
    }
}

static void test_papers(void)
{
    static const char *const p5[] = {"001", "111", "101", "100"};
    struct second_code code = columns(p5, 4);
    check_face(&code, 4, only(0) | only(2) | only(3), "-0-", "P5, {0,2,3}");
    check_face(&code, 4, only(0) | only(2), "-01", "P5, {0,2}");
    check_face(&code, 4, only(1) | only(2) | only(3), "1--", "P5, {1,2,3}");

    /* START is state 0; the state that 000 calls k is state k - 1. */
    static const char *const p6[] = {"010", "110", "101", "000", "001", "011", "100"};
    code = columns(p6, 7);
    check_face(&code, 7, only(1) | only(2) | only(6), "1--", "P6, {2,3,7}");
    check_face(&code, 7, only(0) | only(3), "0-0", "P6, {START,4}");
    check_face(&code, 7, only(3) | only(6), "-00", "P6, {4,7}");

    /* The state that 001 calls k is state k - 1. */
    static const char *const p7[] = {"100", "101", "010", "111"};
    static const struct second_requirement asked[] = {
        {1 | 2 | 8, 0}, {1 | 4, 2}, {1 | 4, 8}, {4 | 8, 1}, {4 | 8, 2},
    };
    code = columns(p7, 4);
    for (unsigned r = 0; r < LENGTH_OF(asked); r++)
        check(second_met_by(asked[r], &code) != SECOND_NO_BIT, "P7");
    code.bits = 0;
    for (unsigned r = 0; r < LENGTH_OF(asked); r++)
        check(second_met_by(asked[r], &code) == SECOND_NO_BIT, "a code of no bits meets none");

    static const unsigned looks_after[] = {1, 2, 2, 3, 4};
    static struct second_trial trial;
    uint64_t first = 31;
    uint64_t second = 0;
    check(second_trial_start(5, 0, &first, 1, &second, 1, &trial) == SECOND_FINE, "P8, start");
    for (unsigned state = 0; state < 5; state++) {
        check(second_trial_move(&trial, state) == SECOND_FINE, "P8, move");
        check(second_trial_looks(&trial) == looks_after[state], "P8, looks at moves 1, 2, 4, 5");
    }

    static struct second_machine machine;
    static const uint8_t good[] = "MC 64 1 1 64\n";
    static const uint8_t bad[] = "MC 65 1 1 0\n";
    struct second_refusal refusal = second_read_head(good, sizeof good - 1, &machine);
    check(refusal.number == SECOND_FINE && machine.states == 64 && machine.width == 64, "P10, 64 states");
    refusal = second_read_head(bad, sizeof bad - 1, &machine);
    check(refusal.number == SECOND_LIMIT && refusal.line == 1, "P10, 65 states");
}

/* "An optional fifth number on `MC`, 1, keeps every row; 0 or absence drops them", whatever the head line before it said. */
static void test_fifth(void)
{
    static const struct {
        const char *head;
        unsigned keep;
    } case_of[] = {
        {"MC 3 1 1 0\n", 0}, {"MC 3 1 1 0 1\n", 1}, {"MC 3 1 1 1\n", 0}, {"MC 3 1 1 1 1\n", 1}, {"MC 3 1 1 1 0\n", 0},
    };
    static struct second_machine machine;
    for (unsigned at = 0; at < LENGTH_OF(case_of); at++) {
        const char *head = case_of[at].head;
        struct second_refusal refusal = second_read_head((const uint8_t *)head, strlen(head), &machine);
        check(refusal.number == SECOND_FINE && machine.keep == case_of[at].keep, head);
    }
}

/* ---- meeting, nearness, gains and looks: every case of up to five states ---- */

/* "one value on the whole first block and the other on the whole second", value by value and state by state. */
static bool meets_by_words(struct second_requirement requirement, uint64_t bit, unsigned states)
{
    for (unsigned value = 0; value < 2; value++) {
        bool holds = true;
        for (unsigned state = 0; state < states; state++) {
            unsigned has = bit >> state & 1;
            if (requirement.first >> state & 1)
                holds = holds && has == value;
            if (requirement.second >> state & 1)
                holds = holds && has == 1 - value;
        }
        if (holds)
            return true;
    }
    return false;
}

/* The k-th requirement of so many states: the digits of k, to the base 3, are its states' blocks. */
static struct second_requirement kth_requirement(unsigned k, unsigned states)
{
    struct second_requirement requirement = {0, 0};
    for (unsigned state = 0; state < states; state++) {
        if (k % 3 == 1)
            requirement.first |= only(state);
        if (k % 3 == 2)
            requirement.second |= only(state);
        k /= 3;
    }
    return requirement;
}

static unsigned most_looks;
static bool looks_bounded = true;
static bool shares_kept = true;

/* All orders of the states not yet moved: "At most four looks fall on a requirement in a pass" and "A move that doesn't
   look at a requirement leaves its share in every state's gain as it was". */
static void move_on(const struct second_trial *trial, unsigned states)
{
    for (unsigned state = 0; state < states; state++) {
        if (trial->moved >> state & 1)
            continue;
        static struct second_trial deeper[6];
        struct second_trial *next = &deeper[second_size(trial->moved)];
        next->states = trial->states;
        next->bit = trial->bit;
        next->moved = trial->moved;
        next->looks = trial->looks;
        next->number = trial->number;
        next->list[0] = trial->list[0];
        second_trial_move(next, state);
        if (next->looks == trial->looks) {
            for (unsigned other = 0; other < states; other++) {
                int64_t before = 0;
                int64_t after = 0;
                second_trial_gain(trial, other, &before);
                second_trial_gain(next, other, &after);
                shares_kept = shares_kept && before == after;
            }
        }
        if (next->looks > most_looks)
            most_looks = (unsigned)next->looks;
        looks_bounded = looks_bounded && next->looks <= 4;
        move_on(next, states);
    }
}

static void test_every_small_case(void)
{
    bool met_right = true;
    bool gain_right = true;
    bool near_right = true;
    bool look_right = true;
    unsigned power = 1;
    for (unsigned states = 1; states <= 5; states++) {
        power *= 3;
        for (unsigned k = 0; k < power; k++) {
            struct second_requirement requirement = kth_requirement(k, states);
            uint64_t members = requirement.first | requirement.second;
            for (uint64_t bit = 0; bit < only(states); bit++) {
                static struct second_trial trial;
                bool met = meets_by_words(requirement, bit, states);
                met_right = met_right && second_bit_meets(requirement, bit) == met;
                /* Reading 15: at most three members are always near. */
                near_right = near_right && (second_size(members) > 3 || second_near(requirement, bit));
                int64_t gain[SECOND_STATES];
                second_gains(&requirement, 1, bit, gain);
                for (unsigned state = 0; state < states; state++) {
                    int64_t share = (int64_t)meets_by_words(requirement, bit ^ only(state), states) - met;
                    gain_right = gain_right && second_gain(&requirement, 1, bit, state) == share && gain[state] == share;
                    bool looks = second_looks_at(requirement, bit, state);
                    /* A share that is not 0 is near, and a state that is no member is not looked at. */
                    look_right = look_right && (looks || share == 0) && ((members & only(state)) != 0 || !looks);
                }
                second_trial_start(states, bit, &requirement.first, 1, &requirement.second, 1, &trial);
                move_on(&trial, states);
            }
        }
    }
    check(met_right, "meeting, for every requirement and bit of up to five states");
    check(gain_right, "gains, for every requirement and bit of up to five states");
    check(near_right, "three members are always near");
    check(look_right, "looks fall on members, and on every share that is not 0");
    check(looks_bounded, "at most four looks fall on a requirement in a pass");
    check(most_looks == 4, "four looks do fall on some requirement");
    check(shares_kept, "a move that does not look leaves every share");
}

/* Nearness by counts that are written down: first {0,1,2,3}, second {4,5}, of six members. */
static void test_near(void)
{
    static const struct second_requirement requirement = {15, 48};
    static const struct {
        uint64_t bit;
        bool near;
    } case_of[] = {
        {48, true},      /* first 0, second 1: none must change */
        {15, true},      /* the reverse: none must change */
        {48 | 1, true},  /* one */
        {32, true},      /* one */
        {15 | 16, true}, /* one for the reverse */
        {48 | 3, false}, /* two, and four for the reverse */
        {32 | 1, false}, /* two, and four */
        {7 | 32, false}, /* four, and two */
        {3 | 16, false}, /* three, and three */
        {0, false},      /* two, and four */
    };
    for (unsigned at = 0; at < LENGTH_OF(case_of); at++)
        check(second_near(requirement, case_of[at].bit) == case_of[at].near, "near, of six members");
}

/* ---- the trial record ---- */

static bool is_empty(const struct second_trial *trial)
{
    return trial->states == 0 && trial->number == 0 && trial->looks == 0;
}

static void refuses_start(uint64_t states, uint64_t bit, const uint64_t *first, size_t first_number,
                          const uint64_t *second, size_t second_number, const char *what)
{
    static struct second_trial trial;
    int64_t gain = 0;
    memset(&trial, 0x55, sizeof trial);
    check(second_trial_start(states, bit, first, first_number, second, second_number, &trial) == 11, what);
    check(is_empty(&trial), "a refused start hands back the empty record");
    bool refused_all = true;
    for (unsigned state = 0; state < 70; state++) {
        refused_all = refused_all && second_trial_move(&trial, state) == 11;
        refused_all = refused_all && second_trial_gain(&trial, state, &gain) == 11;
    }
    check(refused_all && is_empty(&trial), "every move on the empty record is refused");
}

static int64_t gain_of(const struct second_trial *trial, unsigned state)
{
    int64_t gain = 1000;
    second_trial_gain(trial, state, &gain);
    return gain;
}

static void test_trial(void)
{
    static struct second_trial trial, before;
    static uint64_t first[257], second[257];
    for (unsigned r = 0; r < 257; r++) {
        first[r] = 1;
        second[r] = 2;
    }
    refuses_start(0, 0, first, 1, second, 1, "no states");
    refuses_start(0, 0, first, 0, second, 0, "no states and no requirements");
    refuses_start(SECOND_STATES + 1, 0, first, 1, second, 1, "too many states");
    refuses_start((uint64_t)1 << 32, 0, first, 1, second, 1, "far too many states");
    refuses_start(2, 0, first, 257, second, 257, "257 requirements");
    refuses_start(2, 0, first, 2, second, 1, "block lists of unlike length");
    refuses_start(2, 0, first, 0, second, 1, "block lists of unlike length");
    refuses_start(2, 4, first, 1, second, 1, "the bit not below n");
    refuses_start(2, (uint64_t)1 << 63, first, 1, second, 1, "the bit far above n");
    refuses_start(1, 0, first, 1, second, 1, "a second block not below n");
    refuses_start(1, 0, second, 1, first, 1, "a first block not below n");
    first[200] = 3;
    refuses_start(2, 0, first, 256, second, 256, "blocks that overlap");
    check(second_trial_start(2, 0, first, 200, second, 200, &trial) == SECOND_FINE, "no overlap before the 201st");
    first[200] = 1;
    check(second_trial_start(2, 3, first, 256, second, 256, &trial) == SECOND_FINE, "256 requirements");
    check(gain_of(&trial, 0) == 256 && gain_of(&trial, 1) == 256, "256 requirements that any flip meets");
    check(second_trial_move(&trial, 1) == SECOND_FINE && second_trial_looks(&trial) == 256, "256 looks");
    check(gain_of(&trial, 0) == -256 && gain_of(&trial, 1) == -256, "a moved state's gain is shown too");
    before = trial;
    check(second_trial_move(&trial, 1) == 11, "a state already moved");
    check(second_trial_move(&trial, 2) == 11, "a state not below n");
    check(second_trial_move(&trial, ~(uint64_t)0) == 11, "a state far above n");
    check(memcmp(&before, &trial, sizeof trial) == 0, "a refused move hands back the same record");
    check(second_trial_move(&trial, 0) == SECOND_FINE && second_trial_looks(&trial) == 512, "512 looks");
    check(second_trial_start(SECOND_STATES, second_all_states(SECOND_STATES), first, 0, second, 0, &trial) == SECOND_FINE,
          "no requirements");
    check(gain_of(&trial, SECOND_STATES - 1) == 0, "no requirements, no gain");
    check(second_trial_move(&trial, SECOND_STATES) == 11, "state 64 of 64");
    check(second_trial_move(&trial, SECOND_STATES - 1) == SECOND_FINE && second_trial_looks(&trial) == 0, "no looks");

    /* "Errors that look reasonable" */
    uint64_t one = 4;
    uint64_t none = 0;
    second_trial_start(3, 0, &one, 1, &none, 1, &trial);
    check(gain_of(&trial, 2) == 0, "a met requirement of one state stays met when that state flips");
    check(second_trial_move(&trial, 2) == SECOND_FINE && second_trial_looks(&trial) == 1, "and is looked at");
    uint64_t two = 1;
    second_trial_start(3, 0, &one, 1, &two, 1, &trial);
    check(gain_of(&trial, 0) == 1 && gain_of(&trial, 2) == 1 && gain_of(&trial, 1) == 0,
          "an unmet requirement of two states gives +1 to both");
    struct second_requirement pair = {1, 2};
    check(second_bit_meets(pair, 1) && second_bit_meets(pair, 2), "({a},{b}) is met by 1, 0 and by 0, 1");
    check(!second_bit_meets(pair, 0) && !second_bit_meets(pair, 3), "({a},{b}) is not met by 0, 0 and 1, 1");
}

/* ---- what 01 says of every bit, over listings made by chance ---- */

static struct second_requirement live[SECOND_REQUIREMENTS];

static unsigned collect_live(const struct second_requirements *drawn, struct second_code code, unsigned bits)
{
    unsigned number = 0;
    code.bits = bits;
    for (unsigned r = 0; r < drawn->number; r++)
        if (second_met_by(drawn->list[r], &code) == SECOND_NO_BIT)
            live[number++] = drawn->list[r];
    return number;
}

/* "Then no single flip raises the number met." "A bit takes at most as many passes as it had live requirements." State
   0 has value 0; each bit meets something that was unmet. */
static bool bits_are_right(const struct second_requirements *drawn, const struct second_code *code, unsigned states)
{
    uint64_t passes = 0;
    uint64_t looks = 0;
    bool right = true;
    for (unsigned place = 0; place < code->bits; place++) {
        unsigned number = collect_live(drawn, *code, place);
        uint64_t bit_passes = 0;
        uint64_t bit_looks = 0;
        uint64_t bit = second_build_bit(live, number, states, &bit_passes, &bit_looks);
        right = right && bit == code->bit[place] && (bit & 1) == 0 && (bit & ~second_all_states(states)) == 0;
        right = right && second_met_number(live, number, bit) >= 1;
        right = right && bit_passes >= 1 && bit_passes <= number;
        right = right && bit_looks <= 4 * bit_passes * number;
        int64_t gain[SECOND_STATES];
        second_gains(live, number, bit, gain);
        for (unsigned state = 0; state < states; state++)
            right = right && gain[state] <= 0 && gain[state] == second_gain(live, number, bit, state);
        passes += bit_passes;
        looks += bit_looks;
    }
    return right && passes == code->passes && looks == code->looks;
}

/* Req 12's order, which follows from 01's rule: a narrower code is the leading part of a wider one. */
static bool widths_agree(const struct second_requirements *drawn, const struct second_code *code, unsigned states)
{
    for (unsigned width = 1; width <= code->bits; width++) {
        struct second_code narrow;
        second_build_code(drawn, states, width, &narrow);
        if (narrow.bits != width || memcmp(narrow.bit, code->bit, width * sizeof narrow.bit[0]) != 0)
            return false;
    }
    return true;
}

/* "Given distinct codes and met groups, a state's code lies in the face exactly when the state is in the group." */
static bool faces_are_right(const struct second_machine *machine, const struct second_requirements *drawn,
                            const struct second_code *code)
{
    for (unsigned r = 0; r < drawn->pairs_groups; r++)
        if (second_met_by(drawn->list[r], code) == SECOND_NO_BIT)
            return true;
    for (unsigned row = 0; row < machine->cover_rows; row++) {
        uint64_t group = machine->row[row].group;
        for (unsigned state = 0; state < machine->states; state++) {
            bool inside = true;
            for (unsigned place = 0; place < code->bits; place++) {
                char face = second_face_place(group, code->bit[place]);
                char has = code->bit[place] >> state & 1 ? '1' : '0';
                inside = inside && (face == '-' || face == has);
            }
            if (inside != (group >> state & 1))
                return false;
        }
    }
    return true;
}

/* ---- what a cover says, over every input vector and state ---- */

/* A vector, its highest digit leftmost, agrees with an input of a row. */
static bool agrees(const uint8_t *input, unsigned inputs, unsigned vector)
{
    for (unsigned place = 0; place < inputs; place++)
        if (input[place] != '-' && (unsigned)(input[place] - '0') != (vector >> (inputs - 1 - place) & 1))
            return false;
    return true;
}

static bool fires(const struct second_machine *machine, unsigned row, unsigned vector, unsigned state)
{
    return (machine->row[row].group >> state & 1) && agrees(machine->row[row].input, machine->inputs, vector);
}

/* A cover's text, what its first lines say, and its rows' lines. */
struct cover {
    int64_t answer;
    unsigned inputs;
    unsigned outputs;
    unsigned rows;
    size_t line_length;
    const uint8_t *lines;
    uint8_t text[SECOND_TEXT];
};

static bool take_word(const uint8_t **at, const char *word)
{
    if (memcmp(*at, word, strlen(word)) != 0)
        return false;
    *at += strlen(word);
    return true;
}

/* A line of a word and a number. */
static bool take_count(const uint8_t **at, const char *word, unsigned *count)
{
    if (!take_word(at, word))
        return false;
    *count = 0;
    for (; **at >= '0' && **at <= '9'; (*at)++)
        *count = *count * 10 + (unsigned)(**at - '0');
    return take_word(at, "\n");
}

/* The cover of a listing: its first lines, as many lines of rows as `.p` says, and `.e`. True for a refusal too. */
static bool make_cover(const struct generated *made, struct cover *cover)
{
    const uint8_t *at = cover->text;
    cover->answer = second_cover(made->bytes, made->length, cover->text, sizeof cover->text);
    if (cover->answer < 0)
        return true;
    if (!take_count(&at, ".i ", &cover->inputs) || !take_count(&at, ".o ", &cover->outputs) ||
        !take_word(&at, ".type fd\n") || !take_count(&at, ".p ", &cover->rows))
        return false;
    cover->line_length = cover->inputs + 1 + cover->outputs + 1;
    cover->lines = at;
    at += cover->rows * cover->line_length;
    return take_word(&at, ".e\n") && at == cover->text + cover->answer;
}

/* What a cover that has every row says of an output of a row: the lines are matched by their position. */
static uint8_t said_at(const struct second_machine *machine, const struct cover *all, unsigned row, unsigned place)
{
    return all->lines[(row + 1) * all->line_length - 1 - machine->outputs + place];
}

/* 02, request 02: "a listing's output now means 1 if a firing row says 1; free if none says 1 and some firing row says dash;
   otherwise 0". Where it is 1, a firing line of the cover says 1 and none a dash; where it is 0, none says 1 or a dash; where it
   is free, none says 1. The same rows fire in both, as faces_are_right shows. */
static bool output_is_right(const struct second_machine *machine, const struct cover *all, unsigned vector, unsigned state,
                            unsigned place)
{
    bool asked_one = false;
    bool asked_dash = false;
    bool said_one = false;
    bool said_dash = false;
    for (unsigned row = 0; row < machine->cover_rows; row++) {
        if (!fires(machine, row, vector, state))
            continue;
        uint8_t said = said_at(machine, all, row, place);
        asked_one = asked_one || machine->row[row].outputs[place] == '1';
        asked_dash = asked_dash || machine->row[row].outputs[place] == '-';
        said_one = said_one || said == '1';
        said_dash = said_dash || said == '-';
    }
    return said_one == asked_one && (!said_dash || (asked_dash && !asked_one));
}

/* "Carry the dash through": a dash is lost only where the row and one that says 1 both fire at some vector and state. */
static bool dash_is_right(const struct second_machine *machine, unsigned row, unsigned place, uint8_t said)
{
    bool beside = false;
    if (machine->row[row].outputs[place] != '-')
        return said == machine->row[row].outputs[place];
    for (unsigned other = 0; other < machine->cover_rows; other++)
        for (unsigned state = 0; state < machine->states && machine->row[other].outputs[place] == '1'; state++)
            for (unsigned vector = 0; vector >> machine->inputs == 0; vector++)
                beside = beside || (fires(machine, row, vector, state) && fires(machine, other, vector, state));
    return said == (beside ? '0' : '-');
}

/* The outputs of a cover that has every row. */
static bool outputs_are_right(const struct second_machine *machine, const struct cover *all)
{
    bool right = true;
    for (unsigned place = 0; place < machine->outputs; place++) {
        for (unsigned row = 0; row < machine->cover_rows; row++)
            right = right && dash_is_right(machine, row, place, said_at(machine, all, row, place));
        for (unsigned state = 0; state < machine->states; state++)
            for (unsigned vector = 0; vector >> machine->inputs == 0; vector++)
                right = right && output_is_right(machine, all, vector, state, place);
    }
    return right;
}

/* 02, request 07: "A row whose next code and outputs are all zeros adds nothing to an array", by the row's line; "A row with an
   output dash in the listing isn't dropped." */
static bool adds_nothing(const struct second_machine *machine, const struct cover *all, unsigned row)
{
    const uint8_t *right_side = all->lines + row * all->line_length + all->inputs + 1;
    for (unsigned place = 0; place < all->outputs; place++)
        if (right_side[place] != '0')
            return false;
    for (unsigned place = 0; place < machine->outputs; place++)
        if (machine->row[row].outputs[place] == '-')
            return false;
    return true;
}

/* What the cover leaves out of the one that has every row adds nothing; the rest is in order, as it stands there. */
static bool left_out_is_right(const struct second_machine *machine, const struct cover *all, const struct cover *some)
{
    unsigned printed = 0;
    for (unsigned row = 0; row < machine->cover_rows; row++) {
        const uint8_t *line = all->lines + row * all->line_length;
        if (adds_nothing(machine, all, row))
            continue;
        if (printed == some->rows || memcmp(some->lines + printed * some->line_length, line, all->line_length) != 0)
            return false;
        printed++;
    }
    return printed == some->rows && some->inputs == all->inputs && some->outputs == all->outputs;
}

/* The listing with these words behind the four numbers of its head line. */
static void put_fifth(const struct generated *made, const char *fifth, struct generated *other)
{
    size_t four = 0;
    size_t end = 0;
    for (unsigned spaces = 0; made->bytes[end] != '\n'; end++) {
        spaces += made->bytes[end] == ' ';
        four = spaces < 5 ? end + 1 : four;
    }
    memcpy(other->bytes, made->bytes, four);
    memcpy(other->bytes + four, fifth, strlen(fifth));
    memcpy(other->bytes + four + strlen(fifth), made->bytes + end, made->length - end);
    other->length = four + strlen(fifth) + made->length - end;
}

static unsigned covers_short; /* covers that left a row out */

/* A listing that is read, with each fifth number: the cover that has every row, and those that leave rows out. */
static bool covers_are_right(const struct generated *made, const struct second_machine *machine)
{
    static const char *const drops[] = {"", " 0"};
    static struct generated other;
    static struct cover all, some;
    put_fifth(made, " 1", &other);
    bool right = make_cover(&other, &all);
    right = right && (all.answer < 0 || (all.rows == machine->cover_rows && outputs_are_right(machine, &all)));
    for (unsigned at = 0; at < LENGTH_OF(drops); at++) {
        put_fifth(made, drops[at], &other);
        right = right && make_cover(&other, &some);
        right = right && (all.answer < 0 ? some.answer == all.answer
                                         : some.answer >= 0 && left_out_is_right(machine, &all, &some));
        covers_short += right && all.answer >= 0 && some.rows < all.rows;
    }
    return right;
}

/* ---- Moore machines, by the words of the listing and of the cover ---- */

/* What the `OU` line of a state says, in the listing's text; NULL if it has none. */
static const uint8_t *outputs_of(const struct generated *made, unsigned state)
{
    const uint8_t *end = made->bytes + made->length;
    for (const uint8_t *at = made->bytes; at < end; at++) {
        unsigned number = 0;
        const uint8_t *field = at + 3;
        bool is_line = (at == made->bytes || at[-1] == '\n') && end - at > 6 && memcmp(at, "OU ", 3) == 0;
        for (; is_line && *field != ' '; field++)
            number = number * 10 + (unsigned)(*field - '0');
        if (is_line && number == state)
            return field + 1;
    }
    return NULL;
}

/* A line of a cover fires where its left side agrees with the vector and with the state's code. */
static bool line_fires(const struct cover *cover, unsigned line, const struct second_code *code, unsigned vector, unsigned state)
{
    const uint8_t *left = cover->lines + line * cover->line_length;
    const uint8_t *face = left + cover->inputs - code->bits;
    bool fires = agrees(left, cover->inputs - code->bits, vector);
    for (unsigned place = 0; place < code->bits; place++)
        fires = fires && (face[place] == '-' || face[place] == (code->bit[place] >> state & 1 ? '1' : '0'));
    return fires;
}

/* "in each state the outputs are those of its `OU` line whatever the input": of an output some firing line says 1 exactly where
   that has 1, and some says dash exactly where it has a dash. */
static bool says_outputs(const struct cover *cover, const struct second_code *code, unsigned vector, unsigned state,
                         const uint8_t *outputs)
{
    bool right = outputs != NULL;
    for (unsigned place = 0; right && place < cover->outputs - code->bits; place++) {
        bool one = false;
        bool dash = false;
        for (unsigned line = 0; line < cover->rows; line++) {
            uint8_t said = cover->lines[line * cover->line_length + cover->inputs + 1 + code->bits + place];
            bool fires = line_fires(cover, line, code, vector, state);
            one = one || (fires && said == '1');
            dash = dash || (fires && said == '-');
        }
        right = one == (outputs[place] == '1') && dash == (outputs[place] == '-');
    }
    return right;
}

/* "Demand 2 counts the added rows as firing in their own state only", at every vector; they are the last lines of a cover that
   has every row, in state order. */
static bool added_fire_alone(const struct second_machine *machine, const struct cover *all, const struct second_code *code,
                             unsigned vector, unsigned state)
{
    bool right = all->rows == machine->rows + machine->states;
    for (unsigned added = 0; right && added < machine->states; added++)
        right = line_fires(all, machine->rows + added, code, vector, state) == (added == state);
    return right;
}

static unsigned moore_covers;

/* A Moore machine's cover with each fifth number, at every vector and state. */
static bool moore_is_right(const struct generated *made, const struct second_machine *machine, const struct second_code *code)
{
    static const char *const each[] = {"", " 0", " 1"};
    static struct generated other;
    static struct cover cover;
    bool right = true;
    for (unsigned at = 0; right && at < LENGTH_OF(each); at++) {
        put_fifth(made, each[at], &other);
        right = make_cover(&other, &cover);
        if (cover.answer < 0)
            continue;
        moore_covers++;
        for (unsigned state = 0; right && state < machine->states; state++)
            for (unsigned vector = 0; right && vector >> machine->inputs == 0; vector++)
                right = says_outputs(&cover, code, vector, state, outputs_of(made, state)) &&
                        (at < 2 || added_fire_alone(machine, &cover, code, vector, state));
    }
    return right;
}

/* The fifth number is the cover's alone: the report is the same with each. */
static bool reports_are_alike(const struct generated *made)
{
    static const char *const each[] = {"", " 0", " 1"};
    static struct generated other;
    static uint8_t text[SECOND_TEXT];
    int64_t answer = second_report(made->bytes, made->length, out, sizeof out);
    for (unsigned at = 0; at < LENGTH_OF(each); at++) {
        put_fifth(made, each[at], &other);
        if (second_report(other.bytes, other.length, text, sizeof text) != answer)
            return false;
        if (answer >= 0 && memcmp(text, out, (size_t)answer) != 0)
            return false;
    }
    return true;
}

/* Both entries leave all bytes behind an answer and, when refused, all bytes; they refuse 10 exactly when short. */
static bool room_is_right(const struct generated *made, entry *run)
{
    int64_t answer = run(made->bytes, made->length, out, sizeof out);
    static uint8_t small[SECOND_TEXT];
    memset(small, 0xEE, answer < 0 ? 64 : (size_t)answer + 64);
    if (answer < 0)
        return run(made->bytes, made->length, small, 64) == answer &&
               run(made->bytes, made->length, small, 0) == answer && small[0] == 0xEE && small[63] == 0xEE;
    size_t exact = (size_t)answer;
    if (run(made->bytes, made->length, small, exact - 1) != -1000000 || small[0] != 0xEE || small[exact - 1] != 0xEE)
        return false;
    if (run(made->bytes, made->length, small, exact) != answer || small[exact] != 0xEE)
        return false;
    return memcmp(small, out, exact) == 0;
}

/* The parts that fit a buffer of the longest line, one after the other, are the text; a refusal is the same. */
static bool parts_are_right(const struct generated *made, entry *run, part_entry *part)
{
    static uint8_t small[SECOND_TEXT];
    int64_t answer = run(made->bytes, made->length, out, sizeof out);
    if (answer < 0)
        return part(made->bytes, made->length, 0, small, 0) == answer &&
               part(made->bytes, made->length, SIZE_MAX, small, sizeof small) == answer;
    size_t longest = 0;
    size_t line = 0;
    for (size_t at = 0; at < (size_t)answer; at++) {
        line++;
        longest = line > longest ? line : longest;
        line = out[at] == '\n' ? 0 : line;
    }
    size_t have = 0;
    for (;;) {
        int64_t more = part(made->bytes, made->length, have, small, longest);
        if (more <= 0)
            return more == 0 && have == (size_t)answer;
        if ((size_t)more > longest || have + (size_t)more > (size_t)answer || memcmp(small, out + have, (size_t)more) != 0)
            return false;
        have += (size_t)more;
    }
}

static void test_by_chance(void)
{
    static struct generated made;
    static struct second_machine machine;
    static struct second_requirements drawn;
    unsigned read = 0;
    unsigned refusals = 0;
    bool bits = true;
    bool widths = true;
    bool faces = true;
    bool room = true;
    bool parts = true;
    bool covers = true;
    bool moore = true;
    bool flow = true;
    struct self_flow_counts flows = {0, 0, 0};
    for (unsigned number = 0; number < 1500; number++) {
        generate_listing(8, number, number % 4 == 3, &made);
        if (made.states <= 32 || number % 8 == 0) /* it encodes six times, which is dear above that */
            room = room && room_is_right(&made, second_report) && room_is_right(&made, second_cover);
        if (made.states <= 6)
            parts = parts && parts_are_right(&made, second_report, second_report_part) &&
                    parts_are_right(&made, second_cover, second_cover_part);
        struct second_refusal refusal = second_read_lines(made.bytes, made.length, &machine);
        if (refusal.number != SECOND_FINE) {
            refusals++;
            continue;
        }
        struct second_code code;
        second_draw_up(&machine, &drawn);
        refusal = second_build_code(&drawn, machine.states, machine.width, &code);
        read++;
        check(refusal.number == SECOND_FINE || (refusal.number == SECOND_TOO_WIDE && machine.width == 0), "never 8");
        bits = bits && bits_are_right(&drawn, &code, machine.states);
        if (machine.states <= 10)
            widths = widths && widths_agree(&drawn, &code, machine.states);
        faces = faces && faces_are_right(&machine, &drawn, &code);
        if (machine.states <= 8 && machine.inputs <= 6 && machine.rows <= 16)
            covers = covers && covers_are_right(&made, &machine) && reports_are_alike(&made);
        if (machine.moore && machine.states <= 8 && machine.inputs <= 6)
            moore = moore && moore_is_right(&made, &machine, &code);
        if (machine.flow_lines > 0)
            flow = flow && self_flow(made.bytes, made.length, &flows);
    }
    check(bits, "every bit is as 01 says");
    check(widths, "a narrower code leads a wider one");
    check(faces, "a state's code lies in a face exactly when the state is in the group");
    check(covers, "a cover says of each output what the listing does, keeps each dash that it may, leaves out what says nothing");
    check(covers_short > 100, "enough covers that leave a row out");
    check(moore, "at every vector and state a Moore machine's cover says what the state's OU line does");
    check(moore_covers > 300, "enough Moore machines' covers");
    check(flow, "of each two destinations of a column the report says whether a bit tells them apart");
    check(flows.tables > 100 && flows.all_met > 60 && flows.races > 10, "enough flow tables, with and without races");
    check(room, "room and the bytes behind an answer");
    check(parts, "the parts, one after the other, are the text");
    check(read > 500 && refusals > 200, "enough listings of both sorts");
}

/* The same seed gives the same listings on every machine: a sum over the first 2,000 of seed 1. A change of the generator
   changes it, and is then written down here. */
#define SUM_OF_SEED_1 0x7EA2B32103BFB718u
static void test_seed(void)
{
    static struct generated made;
    uint64_t sum = 0xCBF29CE484222325u;
    for (unsigned number = 0; number < 2000; number++) {
        generate_listing(1, number, number % 2 == 1, &made);
        for (size_t at = 0; at < made.length; at++)
            sum = (sum ^ made.bytes[at]) * 0x100000001B3u;
        sum = (sum ^ made.length) * 0x100000001B3u;
    }
    check(sum == SUM_OF_SEED_1, "the listings of seed 1 are the same everywhere");
    if (sum != SUM_OF_SEED_1)
        printf("  the sum is 0x%llX\n", (unsigned long long)sum);
}

int main(int words, char **word)
{
    stop_at_once = words == 2 && strcmp(word[1], "stop") == 0;
    struct entries own = {"the second encoder", second_report,      second_cover,
                          second_widths,        second_report_part, second_cover_part};
    failures += known_run(&own, &checks);
    end_if_failed();
    test_refused_tables();
    test_limits();
    test_length();
    test_no_conflict();
    test_worked();
    test_room();
    test_too_wide();
    test_parts();
    test_requirements();
    test_papers();
    test_fifth();
    test_every_small_case();
    test_near();
    test_trial();
    test_by_chance();
    test_seed();
    printf("self: %u checks, %u failed\n", checks, failures);
    return failures == 0 ? 0 : 1;
}
