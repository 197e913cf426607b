/* Known answers for KISS2 texts: what becomes of good ones, and the number and line of each refusal, named after the words of
   02's request 01 and of reading 21 that decide them. */
#include "known_kiss.h"
#include "second.h"

#define NAME_31 "abcdefghijklmnopqrstuvwxyz01234"
#define NAME_32 "abcdefghijklmnopqrstuvwxyz012345"

/* ---- texts that are refused ---- */

struct refused {
    const char *name;
    const char *text;
    unsigned number;
    unsigned line;
};

#define HEAD ".i 1\n.o 1\n"

static const struct refused refused[] = {
    /* 3: "no `.e`, bytes after it" */
    {"no bytes", "", 3, 1},
    {"no .e, headers alone", ".i 1\n", 3, 2},
    {"no .e", HEAD "0 a b 1\n", 3, 4},
    {"no .e, wrong counts", ".p 7\n" HEAD "0 a b 1\n", 3, 5},
    {"an empty line after .e", HEAD ".r a\n.e\n\n", 3, 5},
    {"a second .e", HEAD ".r a\n.e\n.e\n", 3, 5},
    {"bytes without LF after .e", HEAD ".r a\n.e\nx", 3, 5},
    {"a header after .e", HEAD ".r a\n.e\n.s 1\n", 3, 5},
    {"bytes after .e, wrong counts", ".s 9\n" HEAD ".r a\n.e\n\n", 3, 6},

    /* 3: "a header repeated or after a row", "even if malformed" */
    {".i repeated", ".i 1\n.i 1\n.o 1\n.r a\n.e\n", 3, 2},
    {".i repeated, malformed", ".i 1\n.i x\n", 3, 2},
    {".i repeated, out of range", ".i 1\n.i 17\n", 3, 2},
    {".i repeated, no LF", ".i 1\n.i 1", 3, 2},
    {".o repeated", HEAD ".o 2\n", 3, 3},
    {".s repeated", ".s 1\n.s 1\n", 3, 2},
    {".p repeated", ".p 1\n.p 1\n", 3, 2},
    {".r repeated", ".r a\n.r a\n", 3, 2},
    {".r repeated, a long name", ".r a\n.r " NAME_32 "\n", 3, 2},
    {".r repeated, *", ".r a\n.r *\n", 3, 2},
    {".r repeated, no fields", ".r a\n.r\n", 3, 2},
    {".r after a row", HEAD "0 a b 1\n.r a\n.e\n", 3, 4},
    {".r after a row, a long name", HEAD "0 a b 1\n.r " NAME_32 "\n.e\n", 3, 4},
    {".s after a row", HEAD "0 a b 1\n.s 2\n.e\n", 3, 4},
    {".s after a row, malformed", HEAD "0 a b 1\n.s\n.e\n", 3, 4},
    {".p after a row", HEAD "0 a b 1\n.p 1\n.e\n", 3, 4},
    {".i after a row", HEAD "0 a b 1\n.i 1\n.e\n", 3, 4},
    {".o after a row, out of range", HEAD "0 a b 1\n.o 99\n.e\n", 3, 4},

    /* 3: "a row or `.e` with `.i` or `.o` missing" */
    {"a row first", "0 a b 1\n", 3, 1},
    {"a row without .o", ".i 1\n0 a b 1\n.o 1\n.e\n", 3, 2},
    {"a row without .i", ".o 1\n0 a b 1\n.i 1\n.e\n", 3, 2},
    {"a row without .o, malformed", ".i 1\nxyz\n", 3, 2},
    {"a row without .o, no LF", ".i 1\n0 a b 1", 3, 2},
    {"a row without .o, a long name", ".i 1\n0 " NAME_32 " b 1\n", 3, 2},
    {"an empty line first", "\n" HEAD ".r a\n.e\n", 3, 1},
    {"a comment first", "# kiss\n" HEAD ".r a\n.e\n", 3, 1},
    {".e first", ".e\n", 3, 1},
    {".e without .i", ".o 1\n.r a\n.e\n", 3, 3},
    {".e without .o", ".i 1\n.r a\n.e\n", 3, 3},
    {".e without .o, a field more", ".i 1\n.r a\n.e x\n", 3, 3},
    {".e without .o, no LF", ".i 1\n.r a\n.e", 3, 3},
    {".e without .o, no state", ".i 1\n.e\n", 3, 2},

    /* 1: "any other field beginning with `.` is an unknown mark" */
    {"mark .", ".\n", 1, 1},
    {"mark .x", ".x 1\n" HEAD, 1, 1},
    {"mark .end", HEAD ".r a\n.end\n", 1, 4},
    {"mark .E", HEAD ".r a\n.E\n", 1, 4},
    {"mark .ilb", HEAD ".ilb x\n", 1, 3},
    {"mark .ii", ".ii 1\n", 1, 1},
    {"mark .i and a tab", ".i\t1\n", 1, 1},
    {"mark .e and CR", HEAD ".r a\n.e\r\n", 1, 4},
    {"mark .s0, meant as an input", HEAD ".s0 a b 1\n", 1, 3},
    {"mark .x after a row", HEAD "0 a b 1\n.x\n.e\n", 1, 4},
    {"mark .x without LF", ".x", 1, 1},

    /* 1: "LF missing" */
    {".e without LF", HEAD ".r a\n.e", 1, 4},
    {".i without LF", ".i 1", 1, 1},
    {".i without LF, out of range", ".i 17", 1, 1},
    {".r without LF, a long name", ".r " NAME_32, 1, 1},
    {"a row without LF", HEAD "0 a b 1", 1, 3},
    {"a row without LF, a long name", HEAD "0 a " NAME_32 " 1", 1, 3},
    {"a header in part", ".", 1, 1},

    /* 1: headers */
    {".i alone", ".i\n", 1, 1},
    {".i and a space", ".i \n", 1, 1},
    {".i of two numbers", ".i 1 1\n", 1, 1},
    {".i of two spaces", ".i  1\n", 1, 1},
    {".i and a trailing space", ".i 1 \n", 1, 1},
    {".i 01", ".i 01\n", 1, 1},
    {".i 10000", ".i 10000\n", 1, 1},
    {".i +1", ".i +1\n", 1, 1},
    {".i 1 and CR", ".i 1\r\n", 1, 1},
    {".i 17 and a field more", ".i 17 1\n", 1, 1},
    {".o x", ".o x\n", 1, 1},
    {".s x", ".s x\n", 1, 1},
    {".s 00", ".s 00\n", 1, 1},
    {".p -", ".p -\n", 1, 1},
    {".p 10000", ".p 10000\n", 1, 1},
    {".r *", ".r *\n", 1, 1},
    {".r alone", ".r\n", 1, 1},
    {".r of no bytes", ".r \n", 1, 1},
    {".r of two names", ".r a b\n", 1, 1},
    {".r of a long name and another", ".r " NAME_32 " b\n", 1, 1},
    {".e and a field", HEAD ".r a\n.e x\n", 1, 4},
    {".e and a space", HEAD ".r a\n.e \n", 1, 4},
    {".e and a field, no state", HEAD ".e x\n", 1, 3},
    {".e and a field, bytes behind", HEAD ".r a\n.e x\n\n", 1, 4},

    /* 1: rows */
    {"an empty line", HEAD ".r a\n\n.e\n", 1, 4},
    {"a comment", HEAD ".r a\n# x\n.e\n", 1, 4},
    {"three fields", HEAD "0 a b\n.e\n", 1, 3},
    {"five fields", HEAD "0 a b 1 1\n.e\n", 1, 3},
    {"five fields, a long name", HEAD "0 " NAME_32 " b 1 1\n.e\n", 1, 3},
    {"a trailing space", HEAD "0 a b 1 \n.e\n", 1, 3},
    {"a leading space", HEAD " 0 a b 1\n.e\n", 1, 3},
    {"two spaces", HEAD "0  a b 1\n.e\n", 1, 3},
    {"a tab for a space", HEAD "0\ta b 1\n.e\n", 1, 3},
    {"CR LF", HEAD "0 a b 1\r\n.e\n", 1, 3},
    {"no present state", HEAD "0  b 1\n.e\n", 1, 3},
    {"no next state", HEAD "0 a  1\n.e\n", 1, 3},
    {"a long input", HEAD "00 a b 1\n.e\n", 1, 3},
    {"a short input", ".i 2\n.o 1\n0 a b 1\n.e\n", 1, 3},
    {"an input of *", HEAD "* a b 1\n.e\n", 1, 3},
    {"an input of 2", HEAD "2 a b 1\n.e\n", 1, 3},
    {"long outputs", HEAD "0 a b 11\n.e\n", 1, 3},
    {"short outputs", ".i 1\n.o 2\n0 a b 1\n.e\n", 1, 3},
    {"outputs of x", HEAD "0 a b x\n.e\n", 1, 3},
    {"outputs of x, a long name", HEAD "0 a " NAME_32 " x\n.e\n", 1, 3},
    {"an input of x, a long name", HEAD "x " NAME_32 " b 1\n.e\n", 1, 3},

    /* 12: "a name over 31 bytes, at its line, after 1 and before 2" */
    {".r of 32 bytes", ".r " NAME_32 "\n", 12, 1},
    {".r of 64 bytes", ".r " NAME_32 NAME_32 "\n", 12, 1},
    {"a present state of 32 bytes", HEAD "0 " NAME_32 " b 1\n.e\n", 12, 3},
    {"a next state of 32 bytes", HEAD "0 a " NAME_32 " 1\n.e\n", 12, 3},
    {"32 stars", HEAD "0 a ******************************** 1\n.e\n", 12, 3},
    {"a long name at line 3, a bad line 4", HEAD "0 a " NAME_32 " 1\nx\n", 12, 3},

    /* 12: "a `.s` or `.p` that disagrees with the lines, at that line, the earlier first, after all lines and before 6" */
    {".s too small", ".s 1\n" HEAD "0 a b 1\n.e\n", 12, 1},
    {".s too large", HEAD ".s 3\n0 a b 1\n.e\n", 12, 3},
    {".s 0", HEAD ".s 0\n0 a b 1\n.e\n", 12, 3},
    {".s 9999", HEAD ".s 9999\n0 a b 1\n.e\n", 12, 3},
    {".s without an unused .r", HEAD ".r c\n.s 2\n0 a b 1\n.e\n", 12, 4},
    {".s with *", HEAD ".s 2\n0 a * 1\n.e\n", 12, 3},
    {".p too small", HEAD ".p 0\n0 a b 1\n.e\n", 12, 3},
    {".p too large", HEAD ".p 2\n0 a b 1\n.e\n", 12, 3},
    {".p of the rows after joining", HEAD ".p 1\n0 a b 1\n0 b b 1\n.e\n", 12, 3},
    {".s before .p, both wrong", ".s 9\n.p 9\n" HEAD "0 a b 1\n.e\n", 12, 1},
    {".p before .s, both wrong", ".p 9\n.s 9\n" HEAD "0 a b 1\n.e\n", 12, 1},
    {".s right, .p wrong behind it", ".s 2\n.p 9\n" HEAD "0 a b 1\n.e\n", 12, 2},
    {".p right, .s wrong behind it", ".p 1\n.s 9\n" HEAD "0 a b 1\n.e\n", 12, 2},
    {".p wrong, a clash", HEAD ".p 9\n0 a b 1\n0 a a 1\n.e\n", 12, 3},
    {".s wrong, a clash", HEAD ".s 9\n0 a b 1\n0 a a 1\n.e\n", 12, 3},
    {".s wrong, a bad line", ".s 9\n" HEAD "0 a b x\n.e\n", 1, 4},
    {".s wrong, a long name", ".s 9\n" HEAD "0 a " NAME_32 " 1\n.e\n", 12, 4},
    {".p wrong, no state", ".p 9\n" HEAD ".e\n", 2, 4},

    /* 2 */
    {".i 0", ".i 0\n", 2, 1},
    {".i 17", ".i 17\n.o 1\n.e\n", 2, 1},
    {".i 272", ".i 272\n", 2, 1},
    {".o 0", ".o 0\n", 2, 1},
    {".o 33", ".i 1\n.o 33\n", 2, 2},
    {".i 17 at line 1, a bad line 2", ".i 17\nx\n", 2, 1},
    {".e with no state", HEAD ".e\n", 2, 3},
    {".e with no state but *", HEAD "0 * * 1\n.e\n", 2, 4},
    {".e with no state, .s 0", ".s 0\n" HEAD ".e\n", 2, 4},
    {".e with no state, bytes behind", HEAD ".e\n\n", 2, 3},

    /* 6: "a row's line is that of its first line" */
    {"a clash", HEAD "0 a b 1\n0 a a 1\n.e\n", 6, 4},
    {"a clash by *", HEAD "0 a b 1\n- * a 1\n.e\n", 6, 4},
    {"a clash with a * before", HEAD "0 * b 1\n0 c a 1\n.e\n", 6, 4},
    {"a clash with a state named later", HEAD "0 * a 1\n1 a b 1\n0 b b 1\n.e\n", 6, 5},
    {"a clash by a joined line", HEAD "0 a b 1\n0 b c 1\n1 a b 1\n0 a c 1\n.e\n", 6, 4},
    {"a clash of an unused .r by two *", HEAD ".r c\n0 * a 1\n0 * b 1\n.e\n", 6, 5},
    {"a clash of lines with unlike outputs", HEAD "0 a b 1\n0 a c 0\n.e\n", 6, 4},
};

/* ---- texts that are read ---- */

struct taken {
    const char *name;
    const char *text;
    const char *listing;
    const char *names;
};

static const struct taken taken[] = {
    {"a row", HEAD "0 a b 1\n.e\n", "MC 2 1 1 0\nPT 0 10 01 1\nEN\n", "NM 0 a\nNM 1 b\nEN\n"},
    {"no rows, .r alone", HEAD ".r a\n.e\n", "MC 1 1 1 0\nEN\n", "NM 0 a\nEN\n"},
    {"headers in another order", ".p 1\n.r b\n.o 2\n.s 2\n.i 1\n0 a b 1-\n.e\n", "MC 2 1 2 0\nPT 0 01 10 1-\nEN\n",
     "NM 0 b\nNM 1 a\nEN\n"},
    {"present before next, line by line", HEAD "0 c a 1\n0 b d 1\n.e\n", "MC 4 1 1 0\nPT 0 1000 0100 1\nPT 0 0010 0001 1\nEN\n",
     "NM 0 c\nNM 1 a\nNM 2 b\nNM 3 d\nEN\n"},
    {".r is state 0", HEAD ".r d\n0 c a 1\n0 b d 1\n.e\n", "MC 4 1 1 0\nPT 0 0100 0010 1\nPT 0 0001 1000 1\nEN\n",
     "NM 0 d\nNM 1 c\nNM 2 a\nNM 3 b\nEN\n"},
    {".r that no line names, counted by .s", HEAD ".r z\n.s 3\n0 a b 1\n.e\n", "MC 3 1 1 0\nPT 0 010 001 1\nEN\n",
     "NM 0 z\nNM 1 a\nNM 2 b\nEN\n"},
    {"lines that join where the first stood", HEAD ".p 4\n0 a b 1\n1 a a 0\n0 c b 1\n0 b b 1\n.e\n",
     "MC 3 1 1 0\nPT 0 111 010 1\nPT 1 100 100 0\nEN\n", "NM 0 a\nNM 1 b\nNM 2 c\nEN\n"},
    {"the same line twice", HEAD ".p 2\n0 a b 1\n0 a b 1\n.e\n", "MC 2 1 1 0\nPT 0 10 01 1\nEN\n", "NM 0 a\nNM 1 b\nEN\n"},
    {"lines with unlike inputs do not join", HEAD "0 a b 1\n- b b 1\n.e\n", "MC 2 1 1 0\nPT 0 10 01 1\nPT - 01 01 1\nEN\n",
     "NM 0 a\nNM 1 b\nEN\n"},
    {"lines with unlike outputs do not join", HEAD "0 a b 0\n0 b b -\n.e\n", "MC 2 1 1 0\nPT 0 10 01 0\nPT 0 01 01 -\nEN\n",
     "NM 0 a\nNM 1 b\nEN\n"},
    {"lines with unlike next states do not join", HEAD "0 a b 1\n0 b a 1\n0 a * 1\n.e\n",
     "MC 2 1 1 0\nPT 0 10 01 1\nPT 0 01 10 1\nPT 0 10 00 1\nEN\n", "NM 0 a\nNM 1 b\nEN\n"},
    {"lines without a next state join", HEAD "0 a * 1\n0 b * 1\n.e\n", "MC 2 1 1 0\nPT 0 11 00 1\nEN\n", "NM 0 a\nNM 1 b\nEN\n"},
    {"a present * takes in states named later", HEAD "0 * a 1\n1 b c 0\n.e\n", "MC 3 1 1 0\nPT 0 111 100 1\nPT 1 010 001 0\nEN\n",
     "NM 0 a\nNM 1 b\nNM 2 c\nEN\n"},
    {"a present * takes in an unused .r", HEAD ".r z\n0 * a 1\n.e\n", "MC 2 1 1 0\nPT 0 11 01 1\nEN\n", "NM 0 z\nNM 1 a\nEN\n"},
    {"a state and * join", HEAD "0 a b 1\n0 * b 1\n1 c c 0\n.e\n", "MC 3 1 1 0\nPT 0 111 010 1\nPT 1 001 001 0\nEN\n",
     "NM 0 a\nNM 1 b\nNM 2 c\nEN\n"},
    {"* and a state join", HEAD "0 * b 1\n0 a b 1\n1 c c 0\n.e\n", "MC 3 1 1 0\nPT 0 111 100 1\nPT 1 001 001 0\nEN\n",
     "NM 0 b\nNM 1 a\nNM 2 c\nEN\n"},
    {"no state is named by *", HEAD ".s 1\n0 * * 1\n1 a * 1\n.e\n", "MC 1 1 1 0\nPT 0 1 0 1\nPT 1 1 0 1\nEN\n", "NM 0 a\nEN\n"},
    {"names of any bytes", HEAD ".r .e\n0 ** - 1\n0 #\t .i\r 1\n.e\n",
     "MC 5 1 1 0\nPT 0 01000 00100 1\nPT 0 00010 00001 1\nEN\n", "NM 0 .e\nNM 1 **\nNM 2 -\nNM 3 #\t\nNM 4 .i\r\nEN\n"},
    {"names that begin alike", HEAD "0 a aa 1\n0 aa aaa 1\n0 aaa b 1\n.e\n",
     "MC 4 1 1 0\nPT 0 1000 0100 1\nPT 0 0100 0010 1\nPT 0 0010 0001 1\nEN\n", "NM 0 a\nNM 1 aa\nNM 2 aaa\nNM 3 b\nEN\n"},
    {"a name of 31 bytes", HEAD ".r " NAME_31 "\n0 " NAME_31 " a 1\n.e\n", "MC 2 1 1 0\nPT 0 10 01 1\nEN\n",
     "NM 0 " NAME_31 "\nNM 1 a\nEN\n"},
    {"digits and marks of rows as names", HEAD "0 0 1 1\n1 1 0 0\n.e\n", "MC 2 1 1 0\nPT 0 10 01 1\nPT 1 01 10 0\nEN\n",
     "NM 0 0\nNM 1 1\nEN\n"},
    {"the most inputs and outputs", ".i 16\n.o 32\n-----------01010 a * 01-01-01-01-01-01-01-01-01-01-01\n.e\n",
     "MC 1 16 32 0\nPT -----------01010 1 0 01-01-01-01-01-01-01-01-01-01-01\nEN\n", "NM 0 a\nEN\n"},
};

/* ---- checking ---- */

static uint8_t out[SECOND_TEXT];
static const struct kiss_entries *tested;
static unsigned failed;
static unsigned *checked;

static void check(bool good, const char *entry_name, const char *what)
{
    (*checked)++;
    if (good)
        return;
    failed++;
    printf("FAILED: %s, %s: %s\n", tested->name, entry_name, what);
}

static bool says(entry *run, const void *text, size_t length, const char *wanted)
{
    int64_t answer = run(text, length, out, sizeof out);
    return answer == (int64_t)strlen(wanted) && memcmp(out, wanted, strlen(wanted)) == 0;
}

/* All four entries refuse, and write nothing. */
static void refuses(const void *text, size_t length, unsigned number, unsigned line, const char *name)
{
    int64_t wanted = -(int64_t)(number * 100000 + line);
    out[0] = 0xEE;
    check(tested->report(text, length, out, sizeof out) == wanted, "report", name);
    check(tested->cover(text, length, out, sizeof out) == wanted, "cover", name);
    check(tested->listing(text, length, out, sizeof out) == wanted, "listing", name);
    check(tested->names(text, length, out, sizeof out) == wanted, "names", name);
    check(out[0] == 0xEE, "all entries", "a refusal writes nothing");
}

/* The report and the cover are those of the listing, which the second encoder gives. */
static void same_as_listing(const void *text, size_t length, const char *listing, const char *name)
{
    static uint8_t wanted[SECOND_TEXT];
    int64_t answer = second_report((const uint8_t *)listing, strlen(listing), wanted, sizeof wanted);
    check(answer > 0 && tested->report(text, length, out, sizeof out) == answer && memcmp(out, wanted, (size_t)answer) == 0,
          "report", name);
    answer = second_cover((const uint8_t *)listing, strlen(listing), wanted, sizeof wanted);
    check(answer > 0 && tested->cover(text, length, out, sizeof out) == answer && memcmp(out, wanted, (size_t)answer) == 0,
          "cover", name);
}

static void test_tables(void)
{
    for (unsigned at = 0; at < LENGTH_OF(refused); at++)
        refuses(refused[at].text, strlen(refused[at].text), refused[at].number, refused[at].line, refused[at].name);
    for (unsigned at = 0; at < LENGTH_OF(taken); at++) {
        const struct taken *one = &taken[at];
        check(says(tested->listing, one->text, strlen(one->text), one->listing), "listing", one->name);
        check(says(tested->names, one->text, strlen(one->text), one->names), "names", one->name);
        same_as_listing(one->text, strlen(one->text), one->listing, one->name);
    }
}

/* NUL bytes are bytes of names like any other. */
static void test_nul(void)
{
    static const char text[] = HEAD "0 a a\0 1\n0 a\0 a\0b 1\n.e\n";
    static const char names[] = "NM 0 a\nNM 1 a\0\nNM 2 a\0b\nEN\n";
    int64_t answer = tested->names((const uint8_t *)text, sizeof text - 1, out, sizeof out);
    check(answer == sizeof names - 1 && memcmp(out, names, sizeof names - 1) == 0, "names", "NUL bytes in names");
    static const char behind[] = HEAD ".r a\n.e\n\0";
    refuses(behind, sizeof behind - 1, 3, 5, "a NUL after .e");
}

/* ---- limits, in texts that are built ---- */

static struct {
    size_t length;
    char bytes[SECOND_BYTES + 600];
} made;

static void put(const char *word)
{
    memcpy(made.bytes + made.length, word, strlen(word));
    made.length += strlen(word);
}

static void put_number(unsigned number)
{
    char digit[2] = {(char)('0' + number % 10), 0};
    if (number >= 10)
        put_number(number / 10);
    put(digit);
}

/* Rows from 0 on that differ in input or outputs, each in state a. */
static void put_rows(unsigned number)
{
    for (unsigned row = 0; row < number; row++) {
        char line[] = "0000 a * 0000\n";
        for (unsigned place = 0; place < 8; place++)
            line[place < 4 ? place : 5 + place] = row >> place & 1 ? '1' : '0';
        put(line);
    }
}

static bool is_read(void)
{
    return tested->listing((const uint8_t *)made.bytes, made.length, out, sizeof out) > 0;
}

/* "2 for the line that opens a 129th row": one that joins is no row, and a malformed one is 1, a long name 12 first. */
static void test_rows(void)
{
    made.length = 0;
    put(".i 4\n.o 4\n");
    put_rows(128);
    size_t before = made.length;
    put("0000 b * 0000\n1111 * * 1110\n.e\n");
    check(is_read(), "listing", "128 rows, and lines that join");
    struct {
        const char *line;
        unsigned number;
    } last[] = {
        {"1111 a * 1111\n", 2}, {"0000 a a 0000\n", 2},          {"1111 a * 111x\n", 1},
        {"1111 a * 1111", 1},   {"1111 " NAME_32 " * 1111\n", 12}, {"0000 a " NAME_32 " 0000\n", 12},
        {".i 4\n", 3},
    };
    for (unsigned at = 0; at < LENGTH_OF(last); at++) {
        made.length = before;
        put(last[at].line);
        refuses(made.bytes, made.length, last[at].number, 131, "a 129th row");
    }
}

/* "or names a 33rd state", which is a 65th since request 09 (reading 26). */
static void test_states(void)
{
    made.length = 0;
    put(".o 1\n.i 1\n.r s0\n");
    for (unsigned state = 1; state < 64; state++) {
        put("0 s");
        put_number(state - 1);
        put(" s");
        put_number(state);
        put(" 1\n");
    }
    size_t before = made.length;
    put("1 s63 s5 1\n1 * s5 0\n.e\n");
    check(is_read(), "listing", "64 states");
    struct {
        const char *line;
        unsigned number;
    } last[] = {
        {"1 s64 s5 1\n", 2}, {"1 s5 s64 1\n", 2},          {"1 s64 s64 1\n", 2},
        {"x s64 s5 1\n", 1}, {"1 " NAME_32 " s5 1\n", 12}, {"1 s64 " NAME_32 " 1\n", 12},
        {"1 s64 s5 1", 1},   {".s 64\n", 3},
    };
    for (unsigned at = 0; at < LENGTH_OF(last); at++) {
        made.length = before;
        put(last[at].line);
        refuses(made.bytes, made.length, last[at].number, 67, "a 65th state");
    }
    made.length = before - strlen("0 s62 s63 1\n");
    put("0 s63 s63 1\n.e\n");
    check(is_read(), "listing", "a 64th state that is named twice in its line");
    made.length = before - strlen("0 s62 s63 1\n");
    put("0 s64 s65 1\n");
    refuses(made.bytes, made.length, 2, 66, "a 64th and a 65th state in one line");
}

/* Over 65,536 bytes is 2 at line 0 before anything else; exactly 65,536 is read, with as many lines as they hold. */
static void test_length(void)
{
    made.length = 0;
    put(".i 1\n.o 1\n.p 8190\n"); /* 18 bytes, and 3 for `.e`, of 65,536: 8,189 lines of 8, of which 3 have a byte more */
    while (made.length + 3 + 27 < SECOND_BYTES)
        put("0 a a 1\n");
    while (made.length + 3 < SECOND_BYTES)
        put((SECOND_BYTES - 3 - made.length) % 8 == 0 ? "0 a a 1\n" : "0 bb a 1\n");
    size_t before = made.length;
    unsigned lines = 0;
    for (size_t at = 18; at < before; at++)
        lines += made.bytes[at] == '\n';
    made.bytes[13] = (char)('0' + lines / 1000);
    made.bytes[14] = (char)('0' + lines / 100 % 10);
    made.bytes[15] = (char)('0' + lines / 10 % 10);
    made.bytes[16] = (char)('0' + lines % 10);
    put(".e\n");
    check(made.length == SECOND_BYTES, "listing", "a text of 65,536 bytes is made");
    check(says(tested->listing, made.bytes, made.length, "MC 2 1 1 0\nPT 0 11 10 1\nEN\n"), "listing", "65,536 bytes");
    put("x");
    refuses(made.bytes, made.length, 2, 0, "65,537 bytes");
    memset(made.bytes, '\n', sizeof made.bytes);
    refuses(made.bytes, SECOND_BYTES, 3, 1, "65,536 LF");
    refuses(made.bytes, SECOND_BYTES + 1, 2, 0, "65,537 LF");
}

/* "the lent output is shorter than the answer" is 10; nothing behind an answer is touched. */
static void test_room(void)
{
    static const char text[] = HEAD ".r b\n0 a b 1\n1 * a -\n.e\n";
    entry *run[] = {tested->report, tested->cover, tested->listing, tested->names};
    const char *name[] = {"report", "cover", "listing", "names"};
    for (unsigned at = 0; at < LENGTH_OF(run); at++) {
        int64_t answer = run[at]((const uint8_t *)text, sizeof text - 1, out, sizeof out);
        check(answer > 0, name[at], "an answer");
        if (answer <= 0)
            continue;
        memset(out, 0xEE, (size_t)answer + 1);
        check(run[at]((const uint8_t *)text, sizeof text - 1, out, (size_t)answer - 1) == -1000000 && out[0] == 0xEE,
              name[at], "one byte short");
        check(run[at]((const uint8_t *)text, sizeof text - 1, out, 0) == -1000000, name[at], "no room at all");
        check(run[at]((const uint8_t *)text, sizeof text - 1, out, (size_t)answer) == answer && out[answer] == 0xEE,
              name[at], "just enough room");
    }
}

/* An example from text to cover, worked by hand: rows {a, c} of input 0 and {b} of input 1; states b, a, c. */
static void test_worked(void)
{
    static const char text[] = ".i 1\n.o 2\n.s 3\n.p 4\n.r b\n0 a b 1-\n1 b a 00\n0 c b 1-\n1 c * 00\n.e\n";
    check(says(tested->listing, text, sizeof text - 1, "MC 3 1 2 0\nPT 0 011 100 1-\nPT 1 100 010 00\nPT 1 001 000 00\nEN\n"),
          "listing", "the worked example");
    check(says(tested->report, text, sizeof text - 1,
               "CT 2 4 0 3 20\nSC 0 00\nSC 1 10\nSC 2 11\nBY 0 0\nBY 1 0\nBY 2 1\nBY 3 0\nEN\n"),
          "report", "the worked example");
    check(says(tested->cover, text, sizeof text - 1, ".i 3\n.o 4\n.type fd\n.p 2\n01- 001-\n100 1000\n.e\n"), "cover",
          "the worked example, whose last row says nothing");
}

unsigned known_kiss_run(const struct kiss_entries *encoder, unsigned *checks)
{
    tested = encoder;
    failed = 0;
    checked = checks;
    test_tables();
    test_nul();
    test_rows();
    test_states();
    test_length();
    test_room();
    test_worked();
    return failed;
}
