/* Known answers for recorded runs: the steps of good ones, and the number and line of each refusal, named after the words of 02's request 08
   and of reading 25 that decide them. */
#include "known_replay.h"
#include "second.h"

static const struct replay_entries *tested;
static unsigned failed;
static unsigned *checked;
static uint8_t out[SECOND_REPLAY_TEXT + 64];

static void check(bool good, const char *entry, const char *what)
{
    (*checked)++;
    if (good)
        return;
    failed++;
    printf("FAILED: %s, %s: %s\n", tested->name, entry, what);
}

/* A run of a listing has this text. */
static bool says(const char *listing, const char *run, size_t run_length, const char *text)
{
    size_t length = strlen(text);
    int64_t answer = tested->replay((const uint8_t *)listing, strlen(listing), (const uint8_t *)run, run_length, out, sizeof out);
    return answer == (int64_t)length && memcmp(out, text, length) == 0;
}

/* ---- worked by hand ---- */

/* P1: codes 00, 10, 01. Three states, one input, one output. */
#define THREE "MC 3 1 1 0\nPT 0 110 001 1\nPT 1 101 100 0\nEN\n"

/* Two inputs, codes 0 and 1. A free output beside a 1 of a row that does not fire: the dash of the first row is written 0, since it shares
   state 0 and the vector 11 with the second one. */
#define BESIDE "MC 2 2 2 0\nPT -1 10 01 0-\nPT 1- 10 00 01\nPT -- 01 10 -1\nEN\n"

/* One state, no bits. */
#define ALONE "MC 1 2 1 0\nPT 0- 1 1 1\nPT -1 1 0 -\nEN\n"

/* A Moore machine: outputs of the state before, whatever the vector. */
#define SEQUENCE "MO 2 1 2 0\nPT 1 10 01\nPT - 01 10\nOU 0 1-\nOU 1 01\nEN\n"

/* The same row twice over, by two rows that name one next state, and rows that say nothing left out or kept. */
#define SILENT "MC 2 1 1 0\nPT 0 11 10 0\nPT - 10 10 0\nPT 1 01 01 1\nEN\n"
#define KEPT "MC 2 1 1 0 1\nPT 0 11 10 0\nPT - 10 10 0\nPT 1 01 01 1\nEN\n"

#define FLOW "MC 2 1 1 0\nFT 0 1\nFT 0 1\nEN\n"

/* Twelve states, each of which goes to state 11. */
#define TWELVE "MC 12 1 1 0\nPT - 111111111111 000000000001 1\nEN\n"

struct known {
    const char *name;
    const char *listing;
    const char *run;
    const char *text;
};

static const struct known known[] = {
    /* "print for each step `ST state code outputs`, with the state and code after it"; the outputs of the state before */
    {"one step", THREE, "SS 0\nIN 0\n", "ST 2 01 1\n"},
    {"two steps", THREE, "SS 1\nIN 0\nIN 1\n", "ST 2 01 1\nST 0 00 0\n"},
    {"a loop", THREE, "SS 0\nIN 1\nIN 1\nIN 0\nIN 1\n", "ST 0 00 0\nST 0 00 0\nST 2 01 1\nST 0 00 0\n"},
    {"no step", THREE, "SS 2\n", ""},

    /* "A free output (Req 02) prints as a dash", "even where the cover had to write 0" */
    {"free where the cover says 0", BESIDE, "SS 0\nIN 01\n", "ST 1 1 0-\n"},
    {"1 where another firing row says dash", BESIDE, "SS 0\nIN 11\n", "ST 1 1 01\n"},
    {"a free first output", BESIDE, "SS 1\nIN 00\nIN 11\nIN 10\n", "ST 0 0 -1\nST 1 1 01\nST 0 0 -1\n"},

    /* "No bits prints a dash." */
    {"no bits", ALONE, "SS 0\nIN 00\nIN 01\n", "ST 0 - 1\nST 0 - 1\n"},
    {"no bits, and no next state", ALONE, "SS 0\nIN 01\nIN 11\nIN 00\n", "ST 0 - 1\nNO 14 3\n"},

    {"a Moore machine", SEQUENCE, "SS 0\nIN 1\nIN 0\nIN 1\nIN 1\n", "ST 1 1 1-\nST 0 0 01\nST 1 1 1-\nST 0 0 01\n"},
    {"rows left out", SILENT, "SS 1\nIN 1\nIN 0\nIN 0\nIN 1\n", "ST 1 1 1\nST 0 0 0\nST 0 0 0\nST 0 0 0\n"},
    {"rows kept", KEPT, "SS 1\nIN 1\nIN 0\nIN 0\nIN 1\n", "ST 1 1 1\nST 0 0 0\nST 0 0 0\nST 0 0 0\n"},

    /* 14: "the step that names no next state, with the `IN` line's number"; it "prints no `ST` and hides later faults" */
    {"14 at the first input", THREE, "SS 1\nIN 1\n", "NO 14 2\n"},
    {"14 after a step", THREE, "SS 0\nIN 0\nIN 0\n", "ST 2 01 1\nNO 14 3\n"},
    {"14 before a bad line", THREE, "SS 1\nIN 1\nIN x\n", "NO 14 2\n"},
    {"14 before a line without LF", THREE, "SS 1\nIN 1\nIN 1", "NO 14 2\n"},
    {"14 before good lines", THREE, "SS 1\nIN 1\nIN 0\nIN 0\n", "NO 14 2\n"},
    {"14 where a row fires", BESIDE, "SS 0\nIN 10\n", "NO 14 2\n"},
    {"14 in a Moore machine", SEQUENCE, "SS 0\nIN 0\n", "NO 14 2\n"},
    {"14 in a flow table", FLOW, "SS 1\nIN 0\n", "NO 14 2\n"},
    {"a flow table without a step", FLOW, "SS 1\n", ""},
    {"1 in a flow table", FLOW, "SS 1\nIN 2\n", "NO 1 2\n"},
    {"a start not below n in a flow table", FLOW, "SS 2\nIN 0\n", "NO 1 1\n"},
    {"14 without rows", "MC 2 1 1 0\nEN\n", "SS 0\nIN 0\n", "NO 14 2\n"},

    /* 1: "a first line that isn't `SS` or is missing" */
    {"no bytes", THREE, "", "NO 1 1\n"},
    {"a LF", THREE, "\n", "NO 1 1\n"},
    {"an input first", THREE, "IN 0\n", "NO 1 1\n"},
    {"an input first, then the start", THREE, "IN 0\nSS 0\n", "NO 1 1\n"},
    {"mark ss", THREE, "ss 0\nIN 0\n", "NO 1 1\n"},
    {"mark SSX", THREE, "SSX 0\n", "NO 1 1\n"},
    {"mark S", THREE, "S 0\n", "NO 1 1\n"},
    {"mark SC", THREE, "SC 0\n", "NO 1 1\n"},
    {"a leading space", THREE, " SS 0\n", "NO 1 1\n"},
    {"a tab", THREE, "SS\t0\n", "NO 1 1\n"},

    /* 1: "`SS`'s number is written as in `MC`" */
    {"SS alone", THREE, "SS\n", "NO 1 1\n"},
    {"SS and a space", THREE, "SS \n", "NO 1 1\n"},
    {"SS 00", THREE, "SS 00\n", "NO 1 1\n"},
    {"SS 01", THREE, "SS 01\n", "NO 1 1\n"},
    {"SS +0", THREE, "SS +0\n", "NO 1 1\n"},
    {"SS 00000", THREE, "SS 00000\n", "NO 1 1\n"},
    {"SS x", THREE, "SS x\n", "NO 1 1\n"},
    {"SS /", THREE, "SS /\n", "NO 1 1\n"},
    {"SS :", THREE, "SS :\n", "NO 1 1\n"},
    {"SS and two spaces", THREE, "SS  0\n", "NO 1 1\n"},
    {"SS and a trailing space", THREE, "SS 0 \n", "NO 1 1\n"},
    {"SS and two numbers", THREE, "SS 0 0\n", "NO 1 1\n"},
    {"SS and CR LF", THREE, "SS 0\r\n", "NO 1 1\n"},
    {"SS without LF", THREE, "SS 0", "NO 1 1\n"},

    /* 1: "a state not below n" */
    {"SS 3 of three", THREE, "SS 3\nIN 0\n", "NO 1 1\n"},
    {"SS 9999", THREE, "SS 9999\n", "NO 1 1\n"},
    {"SS 10000", THREE, "SS 10000\n", "NO 1 1\n"},
    {"SS 11 of twelve", TWELVE, "SS 11\n", ""},
    {"SS 12 of twelve", TWELVE, "SS 12\n", "NO 1 1\n"},
    {"SS : of twelve", TWELVE, "SS :\n", "NO 1 1\n"},
    {"SS 1/ of twelve", TWELVE, "SS 1/\n", "NO 1 1\n"},
    {"SS 1- of twelve", TWELVE, "SS 1-\n", "NO 1 1\n"},
    {"SS 2^32", THREE, "SS 4294967296\n", "NO 1 1\n"},
    {"SS 2^64", THREE, "SS 18446744073709551616\n", "NO 1 1\n"},
    {"SS 1 of one", ALONE, "SS 1\n", "NO 1 1\n"},

    /* 1: "a bad line or vector" */
    {"a dash in a vector", BESIDE, "SS 0\nIN 0-\n", "NO 1 2\n"},
    {"2 in a vector", BESIDE, "SS 0\nIN 02\n", "NO 1 2\n"},
    {"/ in a vector", BESIDE, "SS 0\nIN /0\n", "NO 1 2\n"},
    {"a short vector", BESIDE, "SS 0\nIN 0\n", "NO 1 2\n"},
    {"a long vector", BESIDE, "SS 0\nIN 000\n", "NO 1 2\n"},
    {"no vector", BESIDE, "SS 0\nIN\n", "NO 1 2\n"},
    {"an empty vector", BESIDE, "SS 0\nIN \n", "NO 1 2\n"},
    {"a parted vector", BESIDE, "SS 0\nIN 0 1\n", "NO 1 2\n"},
    {"two spaces", BESIDE, "SS 0\nIN  01\n", "NO 1 2\n"},
    {"a trailing space", BESIDE, "SS 0\nIN 01 \n", "NO 1 2\n"},
    {"a leading space before IN", BESIDE, "SS 0\n IN 01\n", "NO 1 2\n"},
    {"mark in", BESIDE, "SS 0\nin 01\n", "NO 1 2\n"},
    {"mark INX", BESIDE, "SS 0\nINX 01\n", "NO 1 2\n"},
    {"mark I", BESIDE, "SS 0\nI 01\n", "NO 1 2\n"},
    {"mark EN", BESIDE, "SS 0\nEN\n", "NO 1 2\n"},
    {"CR LF", BESIDE, "SS 0\nIN 01\r\n", "NO 1 2\n"},
    {"a second start", BESIDE, "SS 0\nIN 01\nSS 0\nIN 01\n", "ST 1 1 0-\nNO 1 3\n"},
    {"a second start at once", BESIDE, "SS 0\nSS 0\n", "NO 1 2\n"},
    {"a blank line", BESIDE, "SS 0\nIN 01\n\nIN 01\n", "ST 1 1 0-\nNO 1 3\n"},
    {"a blank last line", BESIDE, "SS 0\nIN 01\n\n", "ST 1 1 0-\nNO 1 3\n"},
    {"a line without LF", BESIDE, "SS 0\nIN 01\nIN 01", "ST 1 1 0-\nNO 1 3\n"},
    {"a line without LF that would be 14", BESIDE, "SS 0\nIN 10", "NO 1 2\n"},
    {"a byte without LF", BESIDE, "SS 0\nIN 01\nI", "ST 1 1 0-\nNO 1 3\n"},
    {"a bad line before 14", BESIDE, "SS 0\nIN 0x\nIN 10\n", "NO 1 2\n"},
};

/* The listing's own, 7 and 9 come first, whatever the run is like. */
struct refused {
    const char *name;
    const char *listing;
    unsigned number;
    unsigned line;
};

static const struct refused refused[] = {
    {"no bytes", "", 3, 1},
    {"a bad line", "MC 2 1 1 0\nPT 0 11 1 1\nEN\n", 1, 2},
    {"a limit", "MC 65 1 1 0\nEN\n", 2, 1},
    {"no EN", "MC 2 1 1 0\n", 3, 2},
    {"an empty group", "MC 2 1 1 0\nPT 0 00 10 1\nEN\n", 4, 2},
    {"two next states", "MC 2 1 1 0\nPT 0 10 11 1\nEN\n", 5, 2},
    {"a conflict", "MC 3 1 1 0\nPT 0 110 100 1\nPT - 010 001 1\nEN\n", 6, 3},
    {"not stable", "MC 2 1 1 0\nFT 1\nFT -\nEN\n", 13, 2},
    {"no outputs", "MO 1 1 1 0\nEN\n", 17, 2},
    {"unmet", "MC 3 1 1 1\nPT 0 110 001 1\nPT 1 101 100 0\nEN\n", 9, 0},
    {"unmet pairs", "MC 3 1 1 1\nEN\n", 9, 0},
};

static const char *const runs[] = {"SS 0\n", "SS 0\nIN 0\n", "", "SS 9\n", "IN"};

static void test_tables(void)
{
    for (unsigned at = 0; at < LENGTH_OF(known); at++)
        check(says(known[at].listing, known[at].run, strlen(known[at].run), known[at].text), "replay", known[at].name);
    for (unsigned at = 0; at < LENGTH_OF(refused); at++) {
        const uint8_t *listing = (const uint8_t *)refused[at].listing;
        size_t length = strlen(refused[at].listing);
        int64_t wanted = -((int64_t)refused[at].number * 100000 + refused[at].line);
        for (unsigned run = 0; run < LENGTH_OF(runs); run++) {
            memset(out, 0xEE, 64);
            check(tested->replay(listing, length, (const uint8_t *)runs[run], strlen(runs[run]), out, 0) == wanted, "replay",
                  refused[at].name);
            check(tested->replay(listing, length, (const uint8_t *)runs[run], strlen(runs[run]), out, 64) == wanted && out[0] == 0xEE,
                  "replay", refused[at].name);
            check(tested->part(listing, length, (const uint8_t *)runs[run], strlen(runs[run]), run, out, 64) == wanted &&
                      out[0] == 0xEE,
                  "replay part", refused[at].name);
        }
    }
}

/* Bytes that no C text has. */
static void test_bytes(void)
{
    check(says(THREE, "SS 0\nIN 0\n\0", 11, "ST 2 01 1\nNO 1 3\n"), "replay", "a NUL behind the last line");
    check(says(THREE, "SS 0\0\n", 6, "NO 1 1\n"), "replay", "a NUL behind the start");
    check(says(THREE, "SS 0\nIN \0\n", 10, "NO 1 2\n"), "replay", "a NUL for a vector");
    check(says(THREE, "SS 0\nIN 0\xFF\n", 11, "NO 1 2\n"), "replay", "a byte of 255 behind a vector");
}

/* ---- long runs ---- */

static char made[260000];

/* `SS 0`, so many inputs, and a last line. */
static size_t make_run(unsigned inputs, const char *last)
{
    size_t length = 5;
    memcpy(made, "SS 0\n", 5);
    for (unsigned at = 0; at < inputs; at++) {
        memcpy(made + length, at % 2 == 0 ? "IN 0\n" : "IN 1\n", 5);
        length += 5;
    }
    memcpy(made + length, last, strlen(last));
    return length + strlen(last);
}

/* 10,000 steps of P1, to and fro between the states 0 and 2, and what stands behind them. */
static bool says_long(size_t run_length, unsigned steps, const char *last)
{
    size_t length = steps * 10 + strlen(last);
    int64_t answer = tested->replay((const uint8_t *)THREE, strlen(THREE), (const uint8_t *)made, run_length, out, sizeof out);
    bool good = answer == (int64_t)length && memcmp(out + steps * 10, last, strlen(last)) == 0;
    for (unsigned at = 0; good && at < steps; at++)
        good = memcmp(out + at * 10, at % 2 == 0 ? "ST 2 01 1\n" : "ST 0 00 0\n", 10) == 0;
    return good;
}

/* "the 10,001st `IN` is 2 at its line"; "1 if malformed, else 2, before its step is tried" */
static void test_limit(void)
{
    check(says_long(make_run(9999, ""), 9999, ""), "replay", "9,999 inputs");
    check(says_long(make_run(10000, ""), 10000, ""), "replay", "10,000 inputs");
    check(says_long(make_run(10001, ""), 10000, "NO 2 10002\n"), "replay", "10,001 inputs");
    check(says_long(make_run(10002, ""), 10000, "NO 2 10002\n"), "replay", "10,002 inputs");
    check(says_long(make_run(10000, "IN 1\n"), 10000, "NO 2 10002\n"), "replay", "a 10,001st input, good");
    check(says_long(make_run(10000, "IN x\n"), 10000, "NO 1 10002\n"), "replay", "a 10,001st input, malformed");
    check(says_long(make_run(10000, "IN 0"), 10000, "NO 1 10002\n"), "replay", "a 10,001st input without LF");
    check(says_long(make_run(10000, "\n"), 10000, "NO 1 10002\n"), "replay", "a blank line behind 10,000 inputs");
    check(says_long(make_run(10000, "SS 0\n"), 10000, "NO 1 10002\n"), "replay", "a second start behind 10,000 inputs");
    check(says_long(make_run(9998, "IN 0\nIN 0\n"), 9999, "NO 14 10001\n"), "replay", "14 at the 10,000th input");
}

/* The 10,001st names no next state, which is not seen. */
static void test_limit_before_stuck(void)
{
    static const char one_way[] = "MC 1 1 1 0\nPT 0 1 1 1\nEN\n";
    size_t length = make_run(10001, "");
    for (size_t at = 8; at < length; at += 5)
        made[at] = at + 2 == length ? '1' : '0';
    int64_t answer = tested->replay((const uint8_t *)one_way, strlen(one_way), (const uint8_t *)made, length, out, sizeof out);
    check(answer == 90011 && memcmp(out + 90000 - 9, "ST 0 - 1\nNO 2 10002\n", 20) == 0, "replay",
          "a 10,001st input that names no next state");
    made[length - 2] = 'x';
    answer = tested->replay((const uint8_t *)one_way, strlen(one_way), (const uint8_t *)made, length, out, sizeof out);
    check(answer == 90011 && memcmp(out + 90000 - 9, "ST 0 - 1\nNO 1 10002\n", 20) == 0, "replay", "a 10,001st input of x");
}

/* "the run has no limit of bytes" */
static void test_bytes_number(void)
{
    size_t length = make_run(1, "");
    memset(made + length, 'x', 250000 - length);
    check(says(THREE, made, 250000, "ST 2 01 1\nNO 1 3\n"), "replay", "a line of nearly 250,000 bytes");
    memset(made, '\n', 250000);
    check(says(THREE, made, 250000, "NO 1 1\n"), "replay", "250,000 LF");
}

/* ---- room, and parts ---- */

/* "the lent output is shorter than the answer" is 10; nothing behind an answer is touched. */
static void test_room(void)
{
    const uint8_t *listing = (const uint8_t *)THREE;
    const uint8_t *run = (const uint8_t *)"SS 0\nIN 0\nIN 1\nIN 0\nIN 0\n";
    size_t length = strlen((const char *)run);
    memset(out, 0xEE, 64);
    check(tested->replay(listing, strlen(THREE), run, length, out, 37) == -1000000 && out[0] == 0xEE, "replay", "one byte short");
    check(tested->replay(listing, strlen(THREE), run, length, out, 30) == -1000000 && out[0] == 0xEE, "replay", "no room for the refusal");
    check(tested->replay(listing, strlen(THREE), run, length, out, 0) == -1000000, "replay", "no room at all");
    check(tested->replay(listing, strlen(THREE), run, length, out, 38) == 38 && out[38] == 0xEE, "replay", "just enough room");
    memset(out, 0xEE, 64);
    check(tested->replay(listing, strlen(THREE), run, 5, out, 0) == 0, "replay", "no step, and no room");
    check(tested->replay(listing, strlen(THREE), run, 5, out, 8) == 0 && out[0] == 0xEE, "replay", "no step");
}

/* "ST 2 01 1", "ST 0 00 0", "ST 2 01 1", each with its LF, then "NO 14 5". */
static const struct {
    const char *name;
    size_t from;
    size_t room;
    int64_t answer;
    const char *text;
} parts[] = {
    {"all of it", 0, 64, 38, "ST 2 01 1\nST 0 00 0\nST 2 01 1\nNO 14 5\n"},
    {"just all of it", 0, 38, 38, "ST 2 01 1\nST 0 00 0\nST 2 01 1\nNO 14 5\n"},
    {"but the refusal", 0, 37, 30, "ST 2 01 1\nST 0 00 0\nST 2 01 1\n"},
    {"the first step", 0, 10, 10, "ST 2 01 1\n"},
    {"the first step, and more room", 0, 19, 10, "ST 2 01 1\n"},
    {"no room for a step", 0, 9, -1000000, ""},
    {"no room", 0, 0, -1000000, ""},
    {"the second step", 10, 12, 10, "ST 0 00 0\n"},
    {"within the first step", 3, 9, 7, "2 01 1\n"},
    {"within the first step, too little room", 3, 6, -1000000, ""},
    {"a LF", 9, 1, 1, "\n"},
    {"the refusal", 30, 8, 8, "NO 14 5\n"},
    {"the refusal, too little room", 30, 7, -1000000, ""},
    {"the last byte", 37, 64, 1, "\n"},
    {"nothing left", 38, 64, 0, ""},
    {"nothing left, and no room", 38, 0, 0, ""},
    {"behind the end", 39, 64, 0, ""},
    {"far behind the end", SIZE_MAX, 64, 0, ""},
};

static void test_parts(void)
{
    const uint8_t *run = (const uint8_t *)"SS 0\nIN 0\nIN 1\nIN 0\nIN 0\n";
    for (unsigned at = 0; at < LENGTH_OF(parts); at++) {
        size_t written = strlen(parts[at].text);
        memset(out, 0xEE, 80);
        int64_t answer = tested->part((const uint8_t *)THREE, strlen(THREE), run, strlen((const char *)run), parts[at].from, out,
                                      parts[at].room);
        check(answer == parts[at].answer && memcmp(out, parts[at].text, written) == 0 && out[written] == 0xEE, "replay part",
              parts[at].name);
    }
    check(tested->part((const uint8_t *)THREE, strlen(THREE), run, 5, 0, out, 0) == 0, "replay part", "no step");
}

unsigned known_replay_run(const struct replay_entries *encoder, unsigned *checks)
{
    tested = encoder;
    failed = 0;
    checked = checks;
    test_tables();
    test_bytes();
    test_limit();
    test_limit_before_stuck();
    test_bytes_number();
    test_room();
    test_parts();
    return failed;
}
