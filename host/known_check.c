/* Known answers for codes and covers from elsewhere: what they are worth, and the number and line of each refusal, named after the words
   of 02's request 10 and of reading 27 that decide them. */
#include "known_check.h"
#include "second.h"

/* 01's example P1, whose requirements are three pairs, ({0,1},{2}) and ({0,2},{1}); in state 1 at input 1 and in state 2 at input 0 no
   row fires. */
#define P1 "MC 3 1 1 0\nPT 0 110 001 1\nPT 1 101 100 0\nEN\n"
#define P1_CODES "SC 0 00\nSC 1 10\nSC 2 01\n"
#define P1_HEAD ".i 3\n.o 3\n"
#define P1_COVER P1_HEAD ".p 2\n0-0 011\n10- 000\n.e\n"

/* One state and no bits: two inputs of which 10 gives 1; and a free output at input 0. */
#define TEN "MC 1 2 1 0\nPT 10 1 1 1\nEN\n"
#define FREE "MC 1 1 1 0\nPT 0 1 1 -\nEN\n"
#define NO_BITS "SC 0 -\n"

/* A Moore machine: state 1 gives 1, state 0 anything. */
#define MOORE "MO 2 1 1 0\nPT 1 10 01\nPT 1 01 10\nOU 1 1\nOU 0 -\nEN\n"
#define TWO_CODES "SC 0 0\nSC 1 1\n"
#define FLOW "MC 3 2 1 0\nFT 0 1\nFT 0 1\nFT 2 -\nEN\n"

#define NINES "99999999999999999999999999999999"
#define ZEROS_64 "0000000000000000000000000000000000000000000000000000000000000000"

struct judged {
    const char *name;
    const char *listing;
    const char *codes;
    const char *cover;
    const char *answer;
};

static const struct judged judged[] = {
    /* "print `OK` exactly when .. the cover agrees with the listing" */
    {"P1's own", P1, P1_CODES, P1_COVER, "OK\n"},
    {"with .type fd", P1, P1_CODES, P1_HEAD ".type fd\n.p 2\n0-0 011\n10- 000\n.e\n", "OK\n"},
    {"a row of zeros is missing", P1, P1_CODES, P1_HEAD ".p 1\n0-0 011\n.e\n", "OK\n"},
    {"rows in another order", P1, P1_CODES, P1_HEAD ".p 2\n10- 000\n0-0 011\n.e\n", "OK\n"},
    {"a row twice", P1, P1_CODES, P1_HEAD ".p 2\n0-0 011\n0-0 011\n.e\n", "OK\n"},
    {"a row split", P1, P1_CODES, P1_HEAD ".p 2\n000 011\n010 011\n.e\n", "OK\n"},
    {"a row split by its outputs", P1, P1_CODES, P1_HEAD ".p 2\n0-0 010\n0-0 001\n.e\n", "OK\n"},
    {"codes that no state has", P1, P1_CODES, P1_HEAD ".p 2\n0-0 011\n-11 11-\n.e\n", "OK\n"},
    {"other codes", P1, "SC 0 10\nSC 1 11\nSC 2 00\n", P1_HEAD ".p 2\n01- 001\n1-0 100\n.e\n", "OK\n"},
    {"one-hot codes", P1, "SC 0 100\nSC 1 010\nSC 2 001\n", ".i 4\n.o 4\n.p 2\n0--0 0011\n1-0- 1000\n.e\n", "OK\n"},
    {"a dichotomy is not judged", "MC 3 1 1 0\nDI ++-\nDI +-+\nDI -++\nDI +++\nEN\n", P1_CODES, P1_HEAD ".p 0\n.e\n", "OK\n"},
    {"the width is not judged", "MC 3 1 1 1\nPT 0 110 001 1\nPT 1 101 100 0\nEN\n", P1_CODES, P1_COVER, "OK\n"},
    {"more bits than are asked for", "MC 1 1 1 0\nEN\n", "SC 0 " ZEROS_64 "\n", ".i 65\n.o 65\n.p 0\n.e\n", "OK\n"},
    {"no rows at all", "MC 2 1 1 0\nEN\n", TWO_CODES, ".i 2\n.o 2\n.p 0\n.e\n", "OK\n"},
    {"no bits", TEN, NO_BITS, ".i 2\n.o 1\n.p 1\n10 1\n.e\n", "OK\n"},

    /* "where an output or a bit of the next code is 1 a firing row must say 1 and none a dash" */
    {"no row says 1", P1, P1_CODES, P1_HEAD ".p 0\n.e\n", "AT 0 0\n"},
    {"an output 1 is missing", P1, P1_CODES, P1_HEAD ".p 1\n0-0 010\n.e\n", "AT 0 0\n"},
    {"a next bit 1 is missing", P1, P1_CODES, P1_HEAD ".p 1\n0-0 001\n.e\n", "AT 0 0\n"},
    {"a 1 is missing in state 1", P1, P1_CODES, P1_HEAD ".p 1\n000 011\n.e\n", "AT 1 0\n"},
    {"a dash for an output 1", P1, P1_CODES, P1_HEAD ".p 1\n0-0 01-\n.e\n", "AT 0 0\n"},
    {"a dash for a next bit 1", P1, P1_CODES, P1_HEAD ".p 1\n0-0 0-1\n.e\n", "AT 0 0\n"},
    {"a dash beside an output 1", P1, P1_CODES, P1_HEAD ".p 2\n0-0 011\n010 00-\n.e\n", "AT 1 0\n"},
    {"a dash beside a next bit 1, before it", P1, P1_CODES, P1_HEAD ".type fd\n.p 2\n010 0-0\n0-0 011\n.e\n", "AT 1 0\n"},

    /* "where it is 0 none may say 1 or dash" */
    {"1 for an output 0", P1, P1_CODES, P1_HEAD ".p 2\n0-0 011\n10- 001\n.e\n", "AT 0 1\n"},
    {"a dash for an output 0", P1, P1_CODES, P1_HEAD ".p 2\n0-0 011\n10- 00-\n.e\n", "AT 0 1\n"},
    {"1 for a next bit 0", P1, P1_CODES, P1_HEAD ".p 2\n0-0 011\n10- 100\n.e\n", "AT 0 1\n"},
    {"a dash for a next bit 0", P1, P1_CODES, P1_HEAD ".p 2\n0-0 111\n10- 0-0\n.e\n", "AT 0 0\n"},
    {"a dash for a next bit 0, in state 2", P1, P1_CODES, P1_HEAD ".p 2\n0-0 011\n101 0-0\n.e\n", "AT 2 1\n"},
    {"a row that fires in one state too many", P1, P1_CODES, P1_HEAD ".p 1\n0-- 011\n.e\n", "AT 2 0\n"},

    /* "Where no row of the listing fires the outputs are 0 and the next code is free." */
    {"the next code where no row fires", P1, P1_CODES, P1_HEAD ".p 3\n0-0 011\n110 110\n001 1-0\n.e\n", "OK\n"},
    {"an output 1 where no row fires", P1, P1_CODES, P1_HEAD ".p 2\n0-0 011\n110 001\n.e\n", "AT 1 1\n"},
    {"an output dash where no row fires", P1, P1_CODES, P1_HEAD ".p 2\n0-0 011\n001 00-\n.e\n", "AT 2 0\n"},
    {"a row that names no next state", "MC 2 1 1 0\nPT 0 11 00 1\nEN\n", TWO_CODES, ".i 2\n.o 2\n.p 1\n0- -1\n.e\n", "OK\n"},

    /* "a free output may be anything" */
    {"nothing for a free output", FREE, NO_BITS, ".i 1\n.o 1\n.p 0\n.e\n", "OK\n"},
    {"1 for a free output", FREE, NO_BITS, ".i 1\n.o 1\n.p 1\n0 1\n.e\n", "OK\n"},
    {"a dash for a free output", FREE, NO_BITS, ".i 1\n.o 1\n.p 1\n0 -\n.e\n", "OK\n"},
    {"1 and a dash for a free output", FREE, NO_BITS, ".i 1\n.o 1\n.type fd\n.p 2\n0 -\n0 1\n.e\n", "OK\n"},
    {"beside a free output", FREE, NO_BITS, ".i 1\n.o 1\n.p 1\n- 1\n.e\n", "AT 0 1\n"},
    {"a row that says 1 and one that says dash", "MC 1 1 1 0\nPT 0 1 1 -\nPT - 1 1 1\nEN\n", NO_BITS, ".i 1\n.o 1\n.p 1\n1 1\n.e\n", "AT 0 0\n"},
    {"a row that says 0 and one that says dash", "MC 1 1 1 0\nPT 0 1 1 -\nPT - 1 1 0\nEN\n", NO_BITS, ".i 1\n.o 1\n.p 1\n0 1\n.e\n", "OK\n"},

    /* "the lowest state where it fails and for it the first such input, read as a binary number" */
    {"the leftmost input is the highest digit", TEN, NO_BITS, ".i 2\n.o 1\n.p 0\n.e\n", "AT 0 2\n"},
    {"the first input of two", TEN, NO_BITS, ".i 2\n.o 1\n.p 1\n-1 1\n.e\n", "AT 0 1\n"},
    {"the lowest state, whatever its input", P1, P1_CODES, P1_HEAD ".p 1\n0-0 011\n.e\n", "OK\n"},
    {"state 0 at input 1 before state 1 at input 0", P1, P1_CODES, P1_HEAD ".p 2\n000 011\n10- 001\n.e\n", "AT 0 1\n"},
    {"the last of 65,536 inputs", "MC 1 16 1 0\nPT 1111111111111111 1 1 1\nEN\n", NO_BITS, ".i 16\n.o 1\n.p 0\n.e\n", "AT 0 65535\n"},
    {"among 65,536 inputs", "MC 1 16 1 0\nPT 1000000000000000 1 1 1\nEN\n", NO_BITS, ".i 16\n.o 1\n.p 1\n1-00000000000000 1\n.e\n", "AT 0 49152\n"},

    /* "Otherwise print `UN` and the lowest unmet pair or group requirement" */
    {"states 0 and 1 have one code", P1, "SC 0 00\nSC 1 00\nSC 2 01\n", P1_COVER, "UN 0\n"},
    {"states 0 and 2 have one code", P1, "SC 0 00\nSC 1 10\nSC 2 00\n", P1_COVER, "UN 1\n"},
    {"states 1 and 2 have one code", P1, "SC 0 00\nSC 1 10\nSC 2 10\n", P1_COVER, "UN 2\n"},
    {"a group with another state inside", P1, "SC 0 00\nSC 1 11\nSC 2 10\n", P1_COVER, "UN 3\n"},
    {"the second group", P1, "SC 0 00\nSC 1 01\nSC 2 11\n", P1_COVER, "UN 4\n"},
    {"unmet, and no row fires where it must", P1, "SC 0 00\nSC 1 01\nSC 2 11\n", P1_HEAD ".p 0\n.e\n", "UN 4\n"},
    {"no bits for two states", "MC 2 1 1 0\nEN\n", "SC 0 -\nSC 1 -\n", ".i 1\n.o 1\n.p 0\n.e\n", "UN 0\n"},
    {"a group of all states asks nothing", "MC 2 1 1 0\nPT 0 11 00 0\nEN\n", TWO_CODES, ".i 2\n.o 2\n.p 0\n.e\n", "OK\n"},

    /* Moore machines and flow tables */
    {"a Moore machine", MOORE, TWO_CODES, ".i 2\n.o 2\n.p 2\n10 10\n-1 01\n.e\n", "OK\n"},
    {"its free output", MOORE, TWO_CODES, ".i 2\n.o 2\n.p 3\n10 10\n-1 01\n-0 01\n.e\n", "OK\n"},
    {"its output is missing at one input", MOORE, TWO_CODES, ".i 2\n.o 2\n.p 2\n10 10\n01 01\n.e\n", "AT 1 1\n"},
    {"its next code", MOORE, TWO_CODES, ".i 2\n.o 2\n.p 1\n-1 01\n.e\n", "AT 0 1\n"},
    {"a flow table has no rows", FLOW, P1_CODES, ".i 4\n.o 3\n.p 0\n.e\n", "OK\n"},
    {"any next code in a flow table", FLOW, P1_CODES, ".i 4\n.o 3\n.p 1\n---- -10\n.e\n", "OK\n"},
    {"an output in a flow table", FLOW, P1_CODES, ".i 4\n.o 3\n.p 1\n1001 001\n.e\n", "AT 2 2\n"},
    {"a flow table's dichotomies are not judged", "MC 4 1 1 0\nFT 0\nFT 1\nFT 0\nFT 1\nEN\n", "SC 0 00\nSC 1 01\nSC 2 11\nSC 3 10\n",
     ".i 3\n.o 3\n.p 0\n.e\n", "OK\n"},
};

struct refused {
    const char *name;
    const char *listing;
    const char *codes;
    const char *cover;
    unsigned number;
    unsigned line;
};

static const struct refused refused[] = {
    /* "the listing's own first, without 7 and 9" */
    {"no listing", "", "", "", 3, 1},
    {"a bad listing, bad codes, a bad cover", "MC 3 1 1\nEN\n", "x", "x", 1, 1},
    {"a listing without EN", "MC 2 1 1 0\n", TWO_CODES, "", 3, 2},
    {"an empty group", "MC 2 1 1 0\nPT 0 00 01 1\nEN\n", "", "", 4, 2},
    {"two next states", "MC 2 1 1 0\nPT 0 10 11 1\nEN\n", "", "", 5, 2},
    {"rows that clash", "MC 2 1 1 0\nPT 0 10 01 1\nPT - 11 10 1\nEN\n", "", "", 6, 3},
    {"a table that is not stable", "MC 2 1 1 0\nFT 1\nFT 0\nEN\n", "", "", 13, 2},
    {"a state without outputs", "MO 2 1 1 0\nOU 0 1\nEN\n", "", "", 17, 3},

    /* codes: "a bad, missing or extra line of codes .. is 1 at its line there" */
    {"no codes", P1, "", P1_COVER, 1, 1},
    {"one line is missing", P1, "SC 0 00\nSC 1 10\n", P1_COVER, 1, 3},
    {"one line too many", P1, P1_CODES "SC 3 11\n", P1_COVER, 1, 4},
    {"an empty line too many", P1, P1_CODES "\n", P1_COVER, 1, 4},
    {"a byte too many", P1, P1_CODES "x", P1_COVER, 1, 4},
    {"EN behind the codes", P1, P1_CODES "EN\n", P1_COVER, 1, 4},
    {"a report, not its lines", P1, "CT 2 5 0 2 17\n" P1_CODES "EN\n", P1_COVER, 1, 1},
    {"no LF", P1, "SC 0 00\nSC 1 10\nSC 2 01", P1_COVER, 1, 3},
    {"lines in another order", P1, "SC 0 00\nSC 2 01\nSC 1 10\n", P1_COVER, 1, 2},
    {"a line twice", P1, "SC 0 00\nSC 0 00\nSC 1 10\nSC 2 01\n", P1_COVER, 1, 2},
    {"a needless 0", P1, "SC 0 00\nSC 01 10\nSC 2 01\n", P1_COVER, 1, 2},
    {"five digits", P1, "SC 00000 00\nSC 1 10\nSC 2 01\n", P1_COVER, 1, 1},
    {"an empty number", P1, "SC  00\nSC 1 10\nSC 2 01\n", P1_COVER, 1, 1},
    {"no number", P1, "SC 0 00\nSC x 10\nSC 2 01\n", P1_COVER, 1, 2},
    {"another mark", P1, "SC 0 00\nST 1 10\nSC 2 01\n", P1_COVER, 1, 2},
    {"a longer mark", P1, "SCX 0 00\nSC 1 10\nSC 2 01\n", P1_COVER, 1, 1},
    {"a field too many", P1, "SC 0 00 1\nSC 1 10\nSC 2 01\n", P1_COVER, 1, 1},
    {"a space behind the code", P1, "SC 0 00 \nSC 1 10\nSC 2 01\n", P1_COVER, 1, 1},
    {"no code", P1, "SC 0 00\nSC 1\nSC 2 01\n", P1_COVER, 1, 2},
    {"an empty code", P1, "SC 0 \nSC 1 \nSC 2 \n", P1_COVER, 1, 1},
    {"another digit", P1, "SC 0 00\nSC 1 12\nSC 2 01\n", P1_COVER, 1, 2},
    {"CR", P1, "SC 0 00\r\nSC 1 10\r\nSC 2 01\r\n", P1_COVER, 1, 1},

    /* "over 64 bits or unlike the first in length is bad" */
    {"65 bits", "MC 1 1 1 0\nEN\n", "SC 0 " ZEROS_64 "0\n", ".i 66\n.o 66\n.p 0\n.e\n", 1, 1},
    {"a longer code", P1, "SC 0 00\nSC 1 10\nSC 2 010\n", P1_COVER, 1, 3},
    {"a shorter code", P1, "SC 0 00\nSC 1 1\nSC 2 01\n", P1_COVER, 1, 2},
    {"a dash behind a code of one bit", "MC 2 1 1 0\nEN\n", "SC 0 0\nSC 1 -\n", ".i 2\n.o 2\n.p 0\n.e\n", 1, 2},
    {"a code of one bit behind a dash", "MC 2 1 1 0\nEN\n", "SC 0 -\nSC 1 0\n", ".i 1\n.o 1\n.p 0\n.e\n", 1, 2},
    {"two dashes", "MC 1 1 1 0\nEN\n", "SC 0 --\n", ".i 1\n.o 1\n.p 0\n.e\n", 1, 1},
    {"bad codes, a bad cover", P1, "SC 0 00\nSC 1 10\n", "", 1, 3},

    /* the cover: "`.i`, `.o`, optional `.type fd`, `.p`, that many rows, `.e`, in this order" */
    {"no cover", P1, P1_CODES, "", 1, 1},
    {"no .i", P1, P1_CODES, ".o 3\n.i 3\n.p 0\n.e\n", 1, 1},
    {"no .o", P1, P1_CODES, ".i 3\n.p 0\n.e\n", 1, 2},
    {"no .p", P1, P1_CODES, P1_HEAD ".e\n", 1, 3},
    {"no .p, but .type", P1, P1_CODES, P1_HEAD ".type fd\n.e\n", 1, 4},
    {"nothing behind .i", P1, P1_CODES, ".i 3\n", 1, 2},
    {"nothing behind .o", P1, P1_CODES, P1_HEAD, 1, 3},
    {"nothing behind .type", P1, P1_CODES, P1_HEAD ".type fd\n", 1, 4},
    {"nothing behind .p", P1, P1_CODES, P1_HEAD ".p 2\n", 1, 4},
    {".i without LF", P1, P1_CODES, ".i 3", 1, 1},
    {".type fr", P1, P1_CODES, P1_HEAD ".type fr\n.p 0\n.e\n", 1, 3},
    {".type f", P1, P1_CODES, P1_HEAD ".type f\n.p 0\n.e\n", 1, 3},
    {".type fd and a space", P1, P1_CODES, P1_HEAD ".type fd \n.p 0\n.e\n", 1, 3},
    {".type twice", P1, P1_CODES, P1_HEAD ".type fd\n.type fd\n.p 0\n.e\n", 1, 4},
    {".type before .o", P1, P1_CODES, ".i 3\n.type fd\n.o 3\n.p 0\n.e\n", 1, 2},
    {".type behind .p", P1, P1_CODES, P1_HEAD ".p 0\n.type fd\n.e\n", 1, 4},
    {".ilb", P1, P1_CODES, P1_HEAD ".ilb a b c\n.p 0\n.e\n", 1, 3},
    {"a comment", P1, P1_CODES, "# cover\n" P1_COVER, 1, 1},
    {"a needless 0 in .i", P1, P1_CODES, ".i 03\n.o 3\n.p 0\n.e\n", 1, 1},
    {"a long number in .o", P1, P1_CODES, ".i 3\n.o 10000\n.p 0\n.e\n", 1, 2},
    {"a very long number in .p", P1, P1_CODES, P1_HEAD ".p " NINES "\n.e\n", 1, 3},
    {"a second number in .i", P1, P1_CODES, ".i 3 3\n.o 3\n.p 0\n.e\n", 1, 1},
    {"an empty number in .p", P1, P1_CODES, P1_HEAD ".p \n.e\n", 1, 3},
    {"a colon, which follows 9, in .p", P1, P1_CODES,
     P1_HEAD ".p :\n0-0 011\n0-0 011\n0-0 011\n0-0 011\n0-0 011\n0-0 011\n0-0 011\n0-0 011\n0-0 011\n0-0 011\n.e\n", 1, 3},
    {"no number in .p", P1, P1_CODES, P1_HEAD ".p\n.e\n", 1, 3},

    /* "a row" */
    {"an empty row", P1, P1_CODES, P1_HEAD ".p 1\n\n.e\n", 1, 4},
    {"a row of one field", P1, P1_CODES, P1_HEAD ".p 1\n0-0011\n.e\n", 1, 4},
    {"a row of three fields", P1, P1_CODES, P1_HEAD ".p 1\n0-0 01 1\n.e\n", 1, 4},
    {"a row and a field more", P1, P1_CODES, P1_HEAD ".p 1\n0-0 011 1\n.e\n", 1, 4},
    {"two spaces", P1, P1_CODES, P1_HEAD ".p 1\n0-0  011\n.e\n", 1, 4},
    {"a row too short in the inputs", P1, P1_CODES, P1_HEAD ".p 2\n0-0 011\n10 000\n.e\n", 1, 5},
    {"a row too long in the outputs", P1, P1_CODES, P1_HEAD ".p 2\n0-0 0110\n10- 000\n.e\n", 1, 4},
    {"another character in the inputs", P1, P1_CODES, P1_HEAD ".p 1\n0-2 011\n.e\n", 1, 4},
    {"another character in the outputs", P1, P1_CODES, P1_HEAD ".p 1\n0-0 01~\n.e\n", 1, 4},
    {"a row without LF", P1, P1_CODES, P1_HEAD ".p 1\n0-0 011", 1, 4},
    {"rows of the listing's lengths under another .i", P1, P1_CODES, ".i 4\n.o 3\n.p 1\n0-0 011\n.e\n", 1, 4},
    {"a row under .i 0", P1, P1_CODES, ".i 0\n.o 3\n.p 1\n 011\n.e\n", 1, 4},
    {"a row under .o 0", P1, P1_CODES, ".i 3\n.o 0\n.p 1\n0-0 \n.e\n", 1, 4},

    /* "`.p` too high is 1 at the `.e` line, too low 1 at the first row too many" */
    {".p too high", P1, P1_CODES, P1_HEAD ".p 3\n0-0 011\n10- 000\n.e\n", 1, 6},
    {".p too low", P1, P1_CODES, P1_HEAD ".p 1\n0-0 011\n10- 000\n.e\n", 1, 5},
    {".p 0 and a row", P1, P1_CODES, P1_HEAD ".type fd\n.p 0\n0-0 011\n.e\n", 1, 5},
    {".p 9999", P1, P1_CODES, P1_HEAD ".p 9999\n0-0 011\n.e\n", 1, 5},
    {"no .e", P1, P1_CODES, P1_HEAD ".p 1\n0-0 011\n", 1, 5},
    {".e without LF", P1, P1_CODES, P1_HEAD ".p 0\n.e", 1, 4},
    {".end", P1, P1_CODES, P1_HEAD ".p 0\n.end\n", 1, 4},
    {".e and a space", P1, P1_CODES, P1_HEAD ".p 0\n.e \n", 1, 4},
    {"an LF behind .e", P1, P1_CODES, P1_COVER "\n", 1, 7},
    {"a byte behind .e", P1, P1_CODES, P1_COVER "x", 1, 7},
    {"a second .e", P1, P1_CODES, P1_COVER ".e\n", 1, 7},

    /* "15 for a cover whose `.i` or `.o` doesn't fit the listing and codes, with its line, after 1" */
    {".i does not fit", P1, P1_CODES, ".i 4\n.o 3\n.p 0\n.e\n", 15, 1},
    {".i 0", P1, P1_CODES, ".i 0\n.o 3\n.p 0\n.e\n", 15, 1},
    {".o does not fit", P1, P1_CODES, ".i 3\n.o 2\n.p 1\n0-0 01\n.e\n", 15, 2},
    {".o 9999", P1, P1_CODES, ".i 3\n.o 9999\n.p 0\n.e\n", 15, 2},
    {"neither fits", P1, P1_CODES, ".i 2\n.o 2\n.p 1\n0- 01\n.e\n", 15, 1},
    {"they fit other codes", P1, "SC 0 000\nSC 1 100\nSC 2 010\n", P1_COVER, 15, 1},
    {"15 before UN", P1, "SC 0 00\nSC 1 00\nSC 2 00\n", ".i 3\n.o 4\n.p 0\n.e\n", 15, 2},
    {"1 before 15", P1, P1_CODES, ".i 4\n.o 4\n.p 1\n0-0 011\n.e\n", 1, 4},
    {"an extra line before 15", P1, P1_CODES, ".i 4\n.o 4\n.p 0\n.e\n.e\n", 1, 5},
};

static const char *tested;
static check_entry *run;
static unsigned failed;
static unsigned *checked;
static uint8_t out[64];

static void check(bool good, const char *what)
{
    (*checked)++;
    if (!good) {
        failed++;
        printf("FAILED: %s, check: %s\n", tested, what);
    }
}

static int64_t ask(const char *listing, const char *codes, const char *cover)
{
    return run((const uint8_t *)listing, strlen(listing), (const uint8_t *)codes, strlen(codes), (const uint8_t *)cover,
               strlen(cover), out, sizeof out);
}

static void test_tables(void)
{
    for (unsigned at = 0; at < LENGTH_OF(judged); at++) {
        const struct judged *one = &judged[at];
        int64_t answer = ask(one->listing, one->codes, one->cover);
        check(answer == (int64_t)strlen(one->answer) && memcmp(out, one->answer, (size_t)answer) == 0, one->name);
    }
    for (unsigned at = 0; at < LENGTH_OF(refused); at++) {
        const struct refused *one = &refused[at];
        memset(out, 0xEE, sizeof out);
        check(ask(one->listing, one->codes, one->cover) == -((int64_t)one->number * 100000 + one->line) && out[0] == 0xEE, one->name);
    }
}

/* A cover of so many rows that say nothing, of which `.p` says another number, and another row behind them. */
static char rows_text[4096];

static void make_rows(unsigned said, unsigned rows, const char *behind)
{
    size_t length = 0;
    char *at = rows_text;
    const char head[] = ".i 3\n.o 3\n.p 000\n";
    memcpy(at, head, sizeof head - 1);
    length = sizeof head - 1;
    at[length - 4] = (char)('0' + said / 100 % 10);
    at[length - 3] = (char)('0' + said / 10 % 10);
    at[length - 2] = (char)('0' + said % 10);
    for (unsigned row = 0; row < rows; row++, length += 8)
        memcpy(at + length, "111 000\n", 8);
    memcpy(at + length, behind, strlen(behind) + 1);
}

/* "a 257th cover row is 2"; "257th row: 1 if malformed or one more than `.p` says, else 2". */
static void test_rows(void)
{
    make_rows(256, 255, "0-0 011\n.e\n");
    check(ask(P1, P1_CODES, rows_text) == 3 && out[0] == 'O', "256 rows");
    make_rows(257, 257, ".e\n");
    check(ask(P1, P1_CODES, rows_text) == -200260, "257 rows");
    make_rows(300, 300, ".e\n");
    check(ask(P1, P1_CODES, rows_text) == -200260, "300 rows");
    make_rows(300, 257, "x");
    check(ask(P1, P1_CODES, rows_text) == -200260, "a bad line behind the 257th row");
    make_rows(257, 256, "0-0 01\n.e\n");
    check(ask(P1, P1_CODES, rows_text) == -100260, "a malformed 257th row");
    make_rows(257, 256, "0-0 011");
    check(ask(P1, P1_CODES, rows_text) == -100260, "a 257th row without LF");
    make_rows(257, 256, ".e\n");
    check(ask(P1, P1_CODES, rows_text) == -100260, "no 257th row, though .p says so");
    make_rows(256, 257, ".e\n");
    check(ask(P1, P1_CODES, rows_text) == -100260, "a 257th row, one more than .p says");
    make_rows(257, 257, ".e\n");
    check(ask(P1, "SC 0 0\nSC 1 1\nSC 2 0\n", rows_text) == -200260, "257 rows, before 15");
    check(ask(P1, "SC 0 00\nSC 1 00\nSC 2 00\n", rows_text) == -200260, "257 rows, before UN");
}

/* "no byte is too many": NUL is a byte like another, and a listing may be too long. */
static void test_bytes(void)
{
    static uint8_t listing[SECOND_BYTES + 1];
    static const char codes[] = "SC 0 0\0\nSC 1 10\nSC 2 01\n";
    memset(listing, '\n', sizeof listing);
    check(run(listing, sizeof listing, (const uint8_t *)"", 0, (const uint8_t *)"", 0, out, sizeof out) == -200000, "65,537 bytes");
    check(run((const uint8_t *)P1, strlen(P1), (const uint8_t *)codes, sizeof codes - 1, (const uint8_t *)P1_COVER, strlen(P1_COVER),
              out, sizeof out) == -100001,
          "a NUL in a code");
}

/* "the lent output is shorter than the answer" is 10; nothing behind an answer is touched. */
static void test_room(void)
{
    static const char *const covers[] = {P1_COVER, P1_HEAD ".p 0\n.e\n"};
    for (unsigned at = 0; at < LENGTH_OF(covers); at++) {
        int64_t length = ask(P1, P1_CODES, covers[at]);
        for (int64_t room = 0; room <= length + 1; room++) {
            memset(out, 0xEE, sizeof out);
            int64_t answer = run((const uint8_t *)P1, strlen(P1), (const uint8_t *)P1_CODES, strlen(P1_CODES),
                                 (const uint8_t *)covers[at], strlen(covers[at]), out, (size_t)room);
            check(answer == (room < length ? -1000000 : length), "room");
            check(out[room < length ? 0 : length] == 0xEE, "what lies behind");
        }
    }
}

unsigned known_check_run(const char *name, check_entry *entry, unsigned *checks)
{
    tested = name;
    run = entry;
    failed = 0;
    checked = checks;
    test_tables();
    test_rows();
    test_bytes();
    test_room();
    return failed;
}
