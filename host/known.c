/* The known answers of 01 that are whole listings: P1 to P4, P9, P10, 128 and 129 rows, and the 64 dichotomies; what 02 says of
   dashes in the outputs (request 02), of rows that say nothing (request 07), of Moore machines (request 13) and of flow tables
   (request 05); and parts of P1's report and cover, worked by hand. */
#include "known.h"

/* What an entry must answer: a text, or, where that is NULL, a number; the widths have the number of the report. */
struct known {
    const char *name;
    const char *listing;
    const char *report;
    int64_t report_number;
    const char *cover;
    int64_t cover_number;
    const char *widths;
};

static const struct known known[] = {
    {"P1", "MC 3 1 1 0\nPT 0 110 001 1\nPT 1 101 100 0\nEN\n",
     "CT 2 5 0 2 17\nSC 0 00\nSC 1 10\nSC 2 01\nBY 0 0\nBY 1 1\nBY 2 0\nBY 3 1\nBY 4 0\nEN\n", 0,
     ".i 3\n.o 3\n.type fd\n.p 1\n0-0 011\n.e\n", 0, "WD 1 2 0\nWD 2 0 1\nEN\n"},
    {"P1, every row kept", "MC 3 1 1 0 1\nPT 0 110 001 1\nPT 1 101 100 0\nEN\n",
     "CT 2 5 0 2 17\nSC 0 00\nSC 1 10\nSC 2 01\nBY 0 0\nBY 1 1\nBY 2 0\nBY 3 1\nBY 4 0\nEN\n", 0,
     ".i 3\n.o 3\n.type fd\n.p 2\n0-0 011\n10- 000\n.e\n", 0, "WD 1 2 0\nWD 2 0 1\nEN\n"},
    {"P1, a fifth number 0", "MC 3 1 1 0 0\nPT 0 110 001 1\nPT 1 101 100 0\nEN\n",
     "CT 2 5 0 2 17\nSC 0 00\nSC 1 10\nSC 2 01\nBY 0 0\nBY 1 1\nBY 2 0\nBY 3 1\nBY 4 0\nEN\n", 0,
     ".i 3\n.o 3\n.type fd\n.p 1\n0-0 011\n.e\n", 0, "WD 1 2 0\nWD 2 0 1\nEN\n"},
    {"P2", "MC 3 1 1 1\nPT 0 110 001 1\nPT 1 101 100 0\nEN\n",
     "CT 1 5 2 1 12\nSC 0 0\nSC 1 1\nSC 2 0\nBY 0 0\nBY 2 0\nBY 4 0\nUN 1\nUN 3\nEN\n", 0,
     NULL, -900000, "WD 1 2 0\nWD 2 0 1\nEN\n"},
    {"P3", "MC 1 1 1 0\nPT 0 1 1 1\nEN\n",
     "CT 0 0 0 0 0\nSC 0 -\nEN\n", 0,
     ".i 1\n.o 1\n.type fd\n.p 1\n0 1\n.e\n", 0, "EN\n"},
    {"P4", "MC 2 1 1 0\nEN\n",
     "CT 1 1 0 1 2\nSC 0 0\nSC 1 1\nBY 0 0\nEN\n", 0,
     ".i 2\n.o 2\n.type fd\n.p 0\n.e\n", 0, "WD 1 0 1\nEN\n"},
    /* 02, request 02: a dash beside no 1 of its output, beside one, and beside one in half of what makes rows meet. */
    {"a dash that stays", "MC 2 1 2 0\nPT 0 10 01 1-\nPT - 10 01 00\nEN\n",
     "CT 1 1 0 1 2\nSC 0 0\nSC 1 1\nBY 0 0\nEN\n", 0,
     ".i 2\n.o 3\n.type fd\n.p 2\n00 11-\n-0 100\n.e\n", 0, "WD 1 0 1\nEN\n"},
    {"a dash written 0 for an earlier row", "MC 2 1 1 0\nPT 0 10 01 1\nPT - 11 00 -\nEN\n",
     "CT 1 1 0 1 2\nSC 0 0\nSC 1 1\nBY 0 0\nEN\n", 0,
     ".i 2\n.o 2\n.type fd\n.p 2\n00 11\n-- 00\n.e\n", 0, "WD 1 0 1\nEN\n"},
    {"a dash written 0 for a later row", "MC 2 1 1 0\nPT - 11 00 -\nPT 0 10 01 1\nEN\n",
     "CT 1 1 0 1 2\nSC 0 0\nSC 1 1\nBY 0 0\nEN\n", 0,
     ".i 2\n.o 2\n.type fd\n.p 2\n-- 00\n00 11\n.e\n", 0, "WD 1 0 1\nEN\n"},
    {"a dash kept where only the inputs are shared", "MC 2 1 1 0\nPT 0 10 01 1\nPT - 01 10 -\nEN\n",
     "CT 1 1 0 1 2\nSC 0 0\nSC 1 1\nBY 0 0\nEN\n", 0,
     ".i 2\n.o 2\n.type fd\n.p 2\n00 11\n-1 0-\n.e\n", 0, "WD 1 0 1\nEN\n"},
    {"a dash kept where only the states are shared", "MC 2 1 1 0\nPT 0 11 01 1\nPT 1 10 10 -\nEN\n",
     "CT 1 1 0 1 2\nSC 0 0\nSC 1 1\nBY 0 0\nEN\n", 0,
     ".i 2\n.o 2\n.type fd\n.p 2\n0- 11\n10 0-\n.e\n", 0, "WD 1 0 1\nEN\n"},
    /* 02, request 07: rows that say nothing, and rows that would but for one thing. */
    {"rows left out: no next state, and state 0", "MC 2 1 2 0\nPT 0 10 00 00\nPT 1 10 01 00\nPT - 01 10 00\nPT 0 10 00 01\nEN\n",
     "CT 1 1 0 1 2\nSC 0 0\nSC 1 1\nBY 0 0\nEN\n", 0,
     ".i 2\n.o 3\n.type fd\n.p 2\n10 100\n00 001\n.e\n", 0, "WD 1 0 1\nEN\n"},
    {"all rows left out", "MC 2 1 1 0\nPT 0 11 10 0\nPT 1 11 00 0\nEN\n",
     "CT 1 1 0 1 2\nSC 0 0\nSC 1 1\nBY 0 0\nEN\n", 0,
     ".i 2\n.o 2\n.type fd\n.p 0\n.e\n", 0, "WD 1 0 1\nEN\n"},
    {"a dash that keeps its row", "MC 2 1 2 0\nPT 0 10 00 00\nPT 1 10 10 0-\nEN\n",
     "CT 1 1 0 1 2\nSC 0 0\nSC 1 1\nBY 0 0\nEN\n", 0,
     ".i 2\n.o 3\n.type fd\n.p 1\n10 00-\n.e\n", 0, "WD 1 0 1\nEN\n"},
    {"a dash written 0 that keeps its row", "MC 2 1 1 0\nPT 0 11 01 1\nPT 0 10 00 -\nPT 0 01 00 0\nEN\n",
     "CT 1 1 0 1 2\nSC 0 0\nSC 1 1\nBY 0 0\nEN\n", 0,
     ".i 2\n.o 2\n.type fd\n.p 2\n0- 11\n00 00\n.e\n", 0, "WD 1 0 1\nEN\n"},
    {"rows left out of a machine of no bits", "MC 1 1 1 0 0\nPT 0 1 1 0\nPT 1 1 0 0\nPT - 1 1 -\nEN\n",
     "CT 0 0 0 0 0\nSC 0 -\nEN\n", 0,
     ".i 1\n.o 1\n.type fd\n.p 1\n- -\n.e\n", 0, "EN\n"},
    /* 02, request 13: a sequencer whose states give 00, 10 and -1, and whose OU lines are out of order. */
    {"a sequencer", "MO 3 1 2 0\nPT 0 100 100\nOU 2 -1\nPT 1 100 010\nPT - 010 001\nOU 0 00\nPT - 001 100\nOU 1 10\nEN\n",
     "CT 2 3 0 2 8\nSC 0 00\nSC 1 10\nSC 2 01\nBY 0 0\nBY 1 1\nBY 2 0\nEN\n", 0,
     ".i 3\n.o 4\n.type fd\n.p 4\n100 1000\n-10 0100\n-10 0010\n-01 00-1\n.e\n", 0, "WD 1 1 0\nWD 2 0 1\nEN\n"},
    {"a sequencer, a fifth number 0",
     "MO 3 1 2 0 0\nOU 2 -1\nOU 1 10\nOU 0 00\nPT 0 100 100\nPT 1 100 010\nPT - 010 001\nPT - 001 100\nEN\n",
     "CT 2 3 0 2 8\nSC 0 00\nSC 1 10\nSC 2 01\nBY 0 0\nBY 1 1\nBY 2 0\nEN\n", 0,
     ".i 3\n.o 4\n.type fd\n.p 4\n100 1000\n-10 0100\n-10 0010\n-01 00-1\n.e\n", 0, "WD 1 1 0\nWD 2 0 1\nEN\n"},
    {"a sequencer, every row kept",
     "MO 3 1 2 0 1\nPT 0 100 100\nOU 2 -1\nPT 1 100 010\nPT - 010 001\nOU 0 00\nPT - 001 100\nOU 1 10\nEN\n",
     "CT 2 3 0 2 8\nSC 0 00\nSC 1 10\nSC 2 01\nBY 0 0\nBY 1 1\nBY 2 0\nEN\n", 0,
     ".i 3\n.o 4\n.type fd\n.p 7\n000 0000\n100 1000\n-10 0100\n-01 0000\n-00 0000\n-10 0010\n-01 00-1\n.e\n", 0,
     "WD 1 1 0\nWD 2 0 1\nEN\n"},
    {"P1 as a Moore machine", "MO 3 1 1 0\nOU 1 1\nPT 0 110 001\nPT 1 101 100\nOU 0 0\nOU 2 -\nEN\n",
     "CT 2 5 0 2 17\nSC 0 00\nSC 1 10\nSC 2 01\nBY 0 0\nBY 1 1\nBY 2 0\nBY 3 1\nBY 4 0\nEN\n", 0,
     ".i 3\n.o 3\n.type fd\n.p 3\n0-0 010\n-10 001\n-01 00-\n.e\n", 0, "WD 1 2 0\nWD 2 0 1\nEN\n"},
    {"P2 as a Moore machine", "MO 3 1 1 1\nOU 1 1\nPT 0 110 001\nPT 1 101 100\nOU 0 0\nOU 2 -\nEN\n",
     "CT 1 5 2 1 12\nSC 0 0\nSC 1 1\nSC 2 0\nBY 0 0\nBY 2 0\nBY 4 0\nUN 1\nUN 3\nEN\n", 0,
     NULL, -900000, "WD 1 2 0\nWD 2 0 1\nEN\n"},
    {"a Moore machine without rows", "MO 2 1 1 0\nOU 1 0\nOU 0 1\nEN\n",
     "CT 1 1 0 1 2\nSC 0 0\nSC 1 1\nBY 0 0\nEN\n", 0,
     ".i 2\n.o 2\n.type fd\n.p 1\n-0 01\n.e\n", 0, "WD 1 0 1\nEN\n"},
    {"all added rows left out", "MO 2 1 1 0\nPT 0 10 01\nOU 0 0\nOU 1 0\nEN\n",
     "CT 1 1 0 1 2\nSC 0 0\nSC 1 1\nBY 0 0\nEN\n", 0,
     ".i 2\n.o 2\n.type fd\n.p 1\n00 10\n.e\n", 0, "WD 1 0 1\nEN\n"},
    {"a Moore machine of no bits", "MO 1 2 2 0\nPT 01 1 1\nOU 0 1-\nEN\n",
     "CT 0 0 0 0 0\nSC 0 -\nEN\n", 0,
     ".i 2\n.o 2\n.type fd\n.p 1\n-- 1-\n.e\n", 0, "EN\n"},
    {"a Moore machine of no bits, every row kept", "MO 1 2 2 0 1\nOU 0 00\nPT 01 1 1\nEN\n",
     "CT 0 0 0 0 0\nSC 0 -\nEN\n", 0,
     ".i 2\n.o 2\n.type fd\n.p 2\n01 00\n-- 00\n.e\n", 0, "EN\n"},
    {"a dichotomy of a Moore machine", "MO 2 1 1 0\nOU 0 1\nDI ++\nOU 1 -\nEN\n",
     "CT 2 2 0 2 6\nSC 0 00\nSC 1 10\nBY 0 0\nBY 1 1\nEN\n", 0,
     ".i 3\n.o 3\n.type fd\n.p 2\n-00 001\n-10 00-\n.e\n", 0, "WD 1 1 1\nWD 2 0 1\nEN\n"},
    /* 02, request 05. Table III of 001: "column 00: ({s1},{s2,s3,s4}); column 01: ({s1,s2,s3},{s4}); column 11: ({s1,s3},{s2,s4});
       column 10: ({s1},{s3}), ({s1},{s2,s4}), ({s3},{s2,s4})", those of the last column in our order, which is by lowest member;
       they are requirements 6 to 11, and the same as dichotomies of the designer's. */
    {"Table III", "MC 4 2 1 0\nFT 0 1 0 0\nFT 2 1 1 3\nFT 2 1 0 2\nFT 2 3 1 3\nEN\n",
     "CT 4 12 0 6 104\nSC 0 0000\nSC 1 1110\nSC 2 0110\nSC 3 1011\nBY 0 0\nBY 1 1\nBY 2 0\nBY 3 0\nBY 4 1\nBY 5 0\n"
     "BY 6 2\nBY 7 3\nBY 8 0\nBY 9 0\nBY 10 1\nBY 11 0\nEN\n", 0,
     ".i 6\n.o 5\n.type fd\n.p 0\n.e\n", 0, "WD 1 5 0\nWD 2 2 1\nWD 3 1 1\nWD 4 0 1\nEN\n"},
    {"Table III's dichotomies", "MC 4 2 1 0\nDI +---\nDI +++-\nDI +-+-\nDI +-.-\nDI +.-.\nDI .+-+\nEN\n",
     "CT 4 12 0 6 104\nSC 0 0000\nSC 1 1110\nSC 2 0110\nSC 3 1011\nBY 0 0\nBY 1 1\nBY 2 0\nBY 3 0\nBY 4 1\nBY 5 0\n"
     "BY 6 2\nBY 7 3\nBY 8 0\nBY 9 0\nBY 10 1\nBY 11 0\nEN\n", 0,
     ".i 6\n.o 5\n.type fd\n.p 0\n.e\n", 0, "WD 1 5 0\nWD 2 2 1\nWD 3 1 1\nWD 4 0 1\nEN\n"},
    {"Table III, two bits", "MC 4 2 1 2\nFT 0 1 0 0\nFT 2 1 1 3\nFT 2 1 0 2\nFT 2 3 1 3\nEN\n",
     "CT 2 12 2 4 92\nSC 0 00\nSC 1 11\nSC 2 01\nSC 3 10\nBY 0 0\nBY 1 1\nBY 2 0\nBY 3 0\nBY 4 1\nBY 5 0\n"
     "BY 8 0\nBY 9 0\nBY 10 1\nBY 11 0\nUN 6\nUN 7\nEN\n", 0,
     ".i 4\n.o 3\n.type fd\n.p 0\n.e\n", 0, "WD 1 5 0\nWD 2 2 1\nWD 3 1 1\nWD 4 0 1\nEN\n"},
    {"a four-phase handshake", "MC 4 2 2 0\nFT 0 - - 1\nFT - - 2 1\nFT - - 2 3\nFT 0 - - 3\nEN\n",
     "CT 2 7 0 4 40\nSC 0 00\nSC 1 01\nSC 2 11\nSC 3 10\nBY 0 1\nBY 1 0\nBY 2 0\nBY 3 0\nBY 4 0\nBY 5 1\nBY 6 0\nEN\n", 0,
     ".i 4\n.o 4\n.type fd\n.p 0\n.e\n", 0, "WD 1 2 0\nWD 2 0 1\nEN\n"},
    {"equal dichotomies of two columns", "MC 2 2 1 0\nFT 0 0 1 0\nFT 0 1 1 1\nEN\n",
     "CT 1 3 0 1 6\nSC 0 0\nSC 1 1\nBY 0 0\nBY 1 0\nBY 2 0\nEN\n", 0,
     ".i 3\n.o 2\n.type fd\n.p 0\n.e\n", 0, "WD 1 0 1\nEN\n"},
    {"a flow table of one state", "MC 1 1 1 0\nFT 0\nEN\n",
     "CT 0 0 0 0 0\nSC 0 -\nEN\n", 0,
     ".i 1\n.o 1\n.type fd\n.p 0\n.e\n", 0, "EN\n"},
    {"a flow table of dashes, with a fifth number", "MC 2 1 1 0 1\nFT - -\nFT - -\nEN\n",
     "CT 1 1 0 1 2\nSC 0 0\nSC 1 1\nBY 0 0\nEN\n", 0,
     ".i 2\n.o 2\n.type fd\n.p 0\n.e\n", 0, "WD 1 0 1\nEN\n"},
    {"a dash in no set", "MC 3 1 1 0\nFT 0\nFT -\nFT 2\nEN\n",
     "CT 2 4 0 3 18\nSC 0 00\nSC 1 01\nSC 2 10\nBY 0 1\nBY 1 0\nBY 2 0\nBY 3 0\nEN\n", 0,
     ".i 3\n.o 3\n.type fd\n.p 0\n.e\n", 0, "WD 1 1 0\nWD 2 0 1\nEN\n"},
    {"sets by lowest member", "MC 4 1 1 0\nFT 3\nFT 1\nFT 2\nFT 3\nEN\n",
     "CT 2 9 0 4 52\nSC 0 00\nSC 1 11\nSC 2 10\nSC 3 01\nBY 0 0\nBY 1 0\nBY 2 1\nBY 3 1\nBY 4 0\nBY 5 0\nBY 6 0\nBY 7 0\n"
     "BY 8 1\nEN\n", 0,
     ".i 3\n.o 3\n.type fd\n.p 0\n.e\n", 0, "WD 1 3 0\nWD 2 0 1\nEN\n"},
    {"columns left to right", "MC 3 1 1 0\nFT 0 0\nFT 1 0\nFT 0 2\nEN\n",
     "CT 2 5 0 2 17\nSC 0 00\nSC 1 10\nSC 2 01\nBY 0 0\nBY 1 1\nBY 2 0\nBY 3 0\nBY 4 1\nEN\n", 0,
     ".i 3\n.o 3\n.type fd\n.p 0\n.e\n", 0, "WD 1 2 0\nWD 2 0 1\nEN\n"},
    {"Table III, one bit", "MC 4 2 1 1\nFT 0 1 0 0\nFT 2 1 1 3\nFT 2 1 0 2\nFT 2 3 1 3\nEN\n",
     "CT 1 12 5 2 64\nSC 0 0\nSC 1 1\nSC 2 0\nSC 3 1\nBY 0 0\nBY 2 0\nBY 3 0\nBY 5 0\nBY 8 0\nBY 9 0\nBY 11 0\n"
     "UN 1\nUN 4\nUN 6\nUN 7\nUN 10\nEN\n", 0, NULL, -900000, "WD 1 5 0\nWD 2 2 1\nWD 3 1 1\nWD 4 0 1\nEN\n"},
    {"a fifth number above 1", "MC 3 1 1 0 2\nEN\n", NULL, -200001, NULL, -200001, NULL},
    {"a fifth number 01", "MC 3 1 1 0 01\nEN\n", NULL, -100001, NULL, -100001, NULL},
    {"an empty fifth field", "MC 3 1 1 0 \nEN\n", NULL, -100001, NULL, -100001, NULL},
    {"a sixth number", "MC 3 1 1 0 1 0\nEN\n", NULL, -100001, NULL, -100001, NULL},
    {"1 for the fifth number before 2 for another", "MC 65 1 1 0 x\nEN\n", NULL, -100001, NULL, -100001, NULL},
    {"P9", "MC 3 1 1 0\nPT 0 110 100 1\nPT - 010 001 1\nEN\n", NULL, -600003, NULL, -600003, NULL},
    /* P10, which 02's request 09 moves to 64 and 65, speaks of first lines alone: with a bare `EN` behind it the first is
       accepted, the second refused. Read, but with nothing behind it, the first lacks its `EN`. */
    {"P10, 65 states", "MC 65 1 1 0\nEN\n", NULL, -200001, NULL, -200001, NULL},
    {"P10, 65 states, alone", "MC 65 1 1 0\n", NULL, -200001, NULL, -200001, NULL},
    {"P10, 64 states, alone", "MC 64 1 1 64\n", NULL, -300002, NULL, -300002, NULL},
    {"width 65", "MC 64 1 1 65\nEN\n", NULL, -200001, NULL, -200001, NULL},
};

/* Listings that every entry refuses: 02, request 13, and reading 29; request 05, and reading 23. */
static const struct {
    const char *name;
    const char *listing;
    int64_t number;
} refused[] = {
    {"an MO of 65 states", "MO 65 1 1 0\nEN\n", -200001},
    {"an MO with a fifth number above 1", "MO 1 1 1 0 2\nOU 0 0\nEN\n", -200001},
    {"an MO with a fifth number 01", "MO 1 1 1 0 01\nOU 0 0\nEN\n", -100001},
    {"an MO with a sixth number", "MO 1 1 1 0 1 1\nOU 0 0\nEN\n", -100001},
    {"an MO alone", "MO\nEN\n", -100001},
    {"an MO without LF", "MO 1 1 1 0", -100001},
    {"a mark that begins with MO", "MOX 1 1 1 0\nEN\n", -300001},
    {"an OU on line 1", "OU 0 0\nEN\n", -300001},
    {"an MC under MO", "MO 1 1 1 0\nMC 1 1 1 0\nOU 0 0\nEN\n", -300002},
    {"an MO under MC", "MC 1 1 1 0\nMO 1 1 1 0\nEN\n", -300002},
    {"an MO under MO", "MO 1 1 1 0\nOU 0 0\nMO 1 1 1 0\nEN\n", -300003},
    {"an MO under MC, malformed and without LF", "MC 1 1 1 0\nMO x", -300002},
    {"an OU under MC", "MC 1 1 1 0\nOU 0 0\nEN\n", -300002},
    {"an OU under MC, alone", "MC 1 1 1 0\nOU\nEN\n", -300002},
    {"an OU under MC, no number", "MC 1 1 1 0\nOU x 0\nEN\n", -300002},
    {"an OU under MC, no such state", "MC 1 1 1 0\nOU 1 0\nEN\n", -300002},
    {"an OU under MC, without LF", "MC 1 1 1 0\nOU 0 0", -300002},
    {"a mark that begins with OU", "MO 1 1 1 0\nOUX 0 0\nEN\n", -100002},
    {"a row with outputs under MO", "MO 2 1 1 0\nPT 0 10 01 1\nOU 0 0\nOU 1 0\nEN\n", -100002},
    {"a row without outputs under MC", "MC 2 1 1 0\nPT 0 10 01\nEN\n", -100002},
    {"a row of two fields under MO", "MO 2 1 1 0\nPT 0 10\nOU 0 0\nOU 1 0\nEN\n", -100002},
    {"an empty group under MO", "MO 2 1 1 0\nPT 0 00 11\nOU 0 0\nOU 1 0\nEN\n", -400002},
    {"two next states under MO", "MO 2 1 1 0\nPT 0 10 11\nOU 0 0\nOU 1 0\nEN\n", -500002},
    {"a second OU", "MO 2 1 1 0\nOU 1 0\nOU 0 0\nOU 1 0\nEN\n", -300004},
    {"a second OU, other outputs", "MO 2 1 1 0\nOU 0 0\nOU 0 1\nOU 1 0\nEN\n", -300003},
    {"a second OU, no outputs", "MO 2 1 1 0\nOU 1 0\nOU 1\nEN\n", -300003},
    {"a second OU, outputs too long", "MO 2 1 1 0\nOU 1 0\nOU 1 00\nEN\n", -300003},
    {"a second OU, a wrong character", "MO 2 1 1 0\nOU 1 0\nOU 1 x\nEN\n", -300003},
    {"a second OU, a field more", "MO 2 1 1 0\nOU 1 0\nOU 1 0 0\nEN\n", -300003},
    {"a second OU, many fields more", "MO 2 1 1 0\nOU 1 0\nOU 1 0 0 0 0 0 0 0\nEN\n", -300003},
    {"a second OU without LF", "MO 2 1 1 0\nOU 1 0\nOU 1 0", -300003},
    {"a second OU of a number alone, without LF", "MO 2 1 1 0\nOU 1 0\nOU 1", -300003},
    {"a second OU of state 63", "MO 64 1 1 0\nOU 63 0\nOU 63 0\nEN\n", -300003},
    {"a second OU whose number is 01", "MO 2 1 1 0\nOU 1 0\nOU 01 0\nEN\n", -100003},
    {"a second OU whose number is nothing", "MO 2 1 1 0\nOU 0 0\nOU  0\nEN\n", -100003},
    {"an OU without LF", "MO 2 1 1 0\nOU 1 0\nOU 0 0", -100003},
    {"an OU without LF, no number", "MO 2 1 1 0\nOU x", -100002},
    {"an OU without LF, no such state", "MO 2 1 1 0\nOU 2 0", -100002},
    {"an OU of state n", "MO 2 1 1 0\nOU 2 0\nOU 0 0\nOU 1 0\nEN\n", -200002},
    {"an OU of state 64", "MO 64 1 1 0\nOU 0 0\nOU 64 0\nEN\n", -200003},
    {"an OU of state 9999", "MO 2 1 1 0\nOU 9999 0\nEN\n", -200002},
    {"an OU of state n, twice", "MO 1 1 1 0\nOU 0 0\nOU 1 0\nOU 1 0\nEN\n", -200003},
    {"1 for the outputs before 2 for the state", "MO 2 1 1 0\nOU 2 x\nEN\n", -100002},
    {"an OU alone", "MO 1 1 1 0\nOU\nEN\n", -100002},
    {"an OU and a space", "MO 1 1 1 0\nOU \nEN\n", -100002},
    {"an OU whose number is 00", "MO 1 1 1 0\nOU 00 0\nEN\n", -100002},
    {"an OU whose number is x", "MO 1 1 1 0\nOU x 0\nEN\n", -100002},
    {"an OU whose number is -1", "MO 1 1 1 0\nOU -1 0\nEN\n", -100002},
    {"an OU whose number is 10000", "MO 1 1 1 0\nOU 10000 0\nEN\n", -100002},
    {"an OU without outputs", "MO 1 1 2 0\nOU 0\nEN\n", -100002},
    {"an OU with empty outputs", "MO 1 1 2 0\nOU 0 \nEN\n", -100002},
    {"an OU, outputs too short", "MO 1 1 2 0\nOU 0 0\nEN\n", -100002},
    {"an OU, outputs too long", "MO 1 1 2 0\nOU 0 000\nEN\n", -100002},
    {"an OU, a wrong character", "MO 1 1 2 0\nOU 0 0+\nEN\n", -100002},
    {"an OU, a field more", "MO 1 1 2 0\nOU 0 00 0\nEN\n", -100002},
    {"an OU, a space more", "MO 1 1 2 0\nOU 0 00 \nEN\n", -100002},
    {"a state without its OU", "MO 2 1 1 0\nOU 1 0\nEN\n", -1700003},
    {"no OU at all", "MO 2 1 1 0\nEN\n", -1700002},
    {"one OU of 64 states", "MO 64 1 1 0\nOU 0 0\nEN\n", -1700003},
    {"17 before 6", "MO 3 1 1 0\nPT 0 110 100\nPT - 010 001\nOU 0 0\nOU 2 0\nEN\n", -1700006},
    {"6 where each state has its OU", "MO 3 1 1 0\nPT 0 110 100\nOU 1 0\nPT - 010 001\nOU 0 0\nOU 2 0\nEN\n", -600004},
    {"bytes after EN before 17", "MO 2 1 1 0\nOU 1 0\nEN\n\n", -300004},
    {"no EN before 17", "MO 2 1 1 0\nOU 1 0\n", -300003},
    {"an EN without LF before 17", "MO 2 1 1 0\nOU 1 0\nEN", -100003},
    {"an EN with a field before 17", "MO 2 1 1 0\nOU 1 0\nEN 1\n", -100003},
    {"an FT on line 1", "FT 0\nEN\n", -300001},
    {"an FT alone", "MC 1 1 1 0\nFT\nEN\n", -100002},
    {"an FT and a space", "MC 1 1 1 0\nFT \nEN\n", -100002},
    {"17 columns", "MC 1 1 1 0\nFT - - - - - - - - - - - - - - - - -\nEN\n", -100002},
    {"a mark that begins with FT", "MC 1 1 1 0\nFTX 0\nEN\n", -100002},
    {"a column too few", "MC 2 1 1 0\nFT 0 0\nFT 1\nEN\n", -100003},
    {"a column too many", "MC 2 1 1 0\nFT 0 0\nFT 1 0 0\nEN\n", -100003},
    {"no column on a later line", "MC 2 1 1 0\nFT 0\nFT\nEN\n", -100003},
    {"17 columns on a later line", "MC 2 1 1 0\nFT 0\nFT - - - - - - - - - - - - - - - - -\nEN\n", -100003},
    {"a next state n", "MC 2 1 1 0\nFT 2\nFT 1\nEN\n", -100002},
    {"a next state n on the last line", "MC 2 1 1 0\nFT 0 0\nFT 1 2\nEN\n", -100003},
    {"a next state 64 of 64", "MC 64 1 1 0\nFT 64\nEN\n", -100002},
    {"a next state 9999", "MC 2 1 1 0\nFT 9999\nEN\n", -100002},
    {"a next state 00", "MC 2 1 1 0\nFT 00\nEN\n", -100002},
    {"a next state 01", "MC 2 1 1 0\nFT 01\nEN\n", -100002},
    {"a next state 10000", "MC 2 1 1 0\nFT 10000\nEN\n", -100002},
    {"a next state -1", "MC 2 1 1 0\nFT -1\nEN\n", -100002},
    {"a next state +1", "MC 2 1 1 0\nFT +1\nEN\n", -100002},
    {"a next state x", "MC 2 1 1 0\nFT 0 x\nEN\n", -100002},
    {"two dashes for one", "MC 2 1 1 0\nFT --\nEN\n", -100002},
    {"a trailing space in a flow table", "MC 1 1 1 0\nFT 0 \nEN\n", -100002},
    {"a doubled space in a flow table", "MC 1 1 1 0\nFT 0  0\nEN\n", -100002},
    {"an FT without LF", "MC 2 1 1 0\nFT 0\nFT 1", -100003},
    {"an FT without LF, no number", "MC 2 1 1 0\nFT x", -100002},
    {"an FT behind a row", "MC 2 1 1 0\nPT 0 10 01 1\nFT 0\nFT 1\nEN\n", -300003},
    {"an FT behind a row, malformed", "MC 2 1 1 0\nPT 0 10 01 1\nFT x\nEN\n", -300003},
    {"an FT behind a row, alone", "MC 2 1 1 0\nPT 0 10 01 1\nFT\nEN\n", -300003},
    {"an FT behind a row, without LF", "MC 2 1 1 0\nPT 0 10 01 1\nFT 0", -300003},
    {"an FT behind a dichotomy", "MC 2 1 1 0\nDI +-\nFT 0\nFT 1\nEN\n", -300003},
    {"an FT behind a dichotomy, malformed", "MC 2 1 1 0\nDI +-\nFT 2\nEN\n", -300003},
    {"an FT behind a dichotomy, without LF", "MC 2 1 1 0\nDI +-\nFT", -300003},
    {"a row behind an FT", "MC 2 1 1 0\nFT 0\nPT 0 10 01 1\nFT 1\nEN\n", -300003},
    {"a row behind all FT", "MC 2 1 1 0\nFT 0\nFT 1\nPT 0 10 01 1\nEN\n", -300004},
    {"a row behind an FT, malformed", "MC 2 1 1 0\nFT 0\nPT\nFT 1\nEN\n", -300003},
    {"a row behind an FT, of an empty group", "MC 2 1 1 0\nFT 0\nPT 0 00 11 1\nEN\n", -300003},
    {"a row behind an FT, without LF", "MC 2 1 1 0\nFT 0\nPT 0", -300003},
    {"a dichotomy behind an FT", "MC 2 1 1 0\nFT 0\nDI +-\nFT 1\nEN\n", -300003},
    {"a dichotomy behind all FT", "MC 2 1 1 0\nFT 0\nFT 1\nDI +-\nEN\n", -300004},
    {"a dichotomy behind an FT, malformed", "MC 2 1 1 0\nFT 0\nDI x\nEN\n", -300003},
    {"a dichotomy behind an FT, without LF", "MC 2 1 1 0\nFT 0\nDI", -300003},
    {"an OU behind an FT", "MC 2 1 1 0\nFT 0\nOU 0 0\nFT 1\nEN\n", -300003},
    {"an MC behind an FT", "MC 2 1 1 0\nFT 0\nMC 2 1 1 0\nEN\n", -300003},
    {"an unknown mark behind an FT", "MC 2 1 1 0\nFT 0\nXX\nEN\n", -100003},
    {"a malformed row before an FT", "MC 2 1 1 0\nPT\nFT 0\nEN\n", -100002},
    {"a malformed FT before a row", "MC 2 1 1 0\nFT x\nPT 0 10 01 1\nEN\n", -100002},
    {"an FT too many", "MC 1 1 1 0\nFT 0\nFT 0\nEN\n", -300003},
    {"an FT too many, alone", "MC 1 1 1 0\nFT 0\nFT\nEN\n", -300003},
    {"an FT too many, no number", "MC 1 1 1 0\nFT 0\nFT x\nEN\n", -300003},
    {"an FT too many, a column more", "MC 1 1 1 0\nFT 0\nFT 0 0\nEN\n", -300003},
    {"an FT too many, without LF", "MC 1 1 1 0\nFT 0\nFT 0", -300003},
    {"an FT too few", "MC 2 1 1 0\nFT 0\nEN\n", -300003},
    {"one FT of 64 states", "MC 64 1 1 0\nFT 0\nEN\n", -300003},
    {"an FT too few, EN with a field", "MC 2 1 1 0\nFT 0\nEN 1\n", -300003},
    {"an FT too few, EN with a space", "MC 2 1 1 0\nFT 0\nEN \n", -300003},
    {"an FT too few, EN without LF", "MC 2 1 1 0\nFT 0\nEN", -300003},
    {"an FT too few, no EN", "MC 3 1 1 0\nFT 0\nFT 0\n", -300004},
    {"an FT too few, an unknown mark", "MC 2 1 1 0\nFT 0\nENX\n", -100003},
    {"an FT too few before 13", "MC 3 1 1 0\nFT 1\nFT 0\nEN\n", -300004},
    {"an EN with a field behind all FT", "MC 1 1 1 0\nFT 0\nEN 1\n", -100003},
    {"an EN without LF behind all FT", "MC 1 1 1 0\nFT 0\nEN", -100003},
    {"an FT under MO", "MO 1 1 1 0\nFT 0\nOU 0 0\nEN\n", -300002},
    {"an FT under MO, behind an OU", "MO 1 1 1 0\nOU 0 0\nFT 0\nEN\n", -300003},
    {"an FT under MO, malformed", "MO 1 1 1 0\nFT\nOU 0 0\nEN\n", -300002},
    {"an FT under MO, without LF", "MO 1 1 1 0\nFT 0", -300002},
    {"a destination that goes elsewhere", "MC 2 1 1 0\nFT 1\nFT 0\nEN\n", -1300002},
    {"a destination that is a dash", "MC 3 1 1 0\nFT 0\nFT 2\nFT -\nEN\n", -1300003},
    {"a destination on an earlier line", "MC 3 1 1 0\nFT -\nFT 1\nFT 0\nEN\n", -1300004},
    {"a destination stable in another column", "MC 2 1 1 0\nFT 0 1\nFT 1 0\nEN\n", -1300002},
    {"a destination on the way to another", "MC 3 1 1 0\nFT 1\nFT 2\nFT 2\nEN\n", -1300002},
    {"the lowest line, whatever the column", "MC 3 1 1 0\nFT 0 1\nFT - -\nFT 1 2\nEN\n", -1300002},
    {"the lowest of three lines", "MC 4 1 1 0\nFT 0\nFT 2\nFT -\nFT 2\nEN\n", -1300003},
    {"bytes after EN before 13", "MC 2 1 1 0\nFT 1\nFT 0\nEN\n\n", -300005},
    {"no EN before 13", "MC 2 1 1 0\nFT 1\nFT 0\n", -300004},
    {"an EN without LF before 13", "MC 2 1 1 0\nFT 1\nFT 0\nEN", -100004},
    {"an FT too many before 13", "MC 2 1 1 0\nFT 1\nFT 0\nFT 0\nEN\n", -300004},
    {"a bad line before 13", "MC 2 1 1 0\nFT 1\nFT x\nEN\n", -100003},
};

/* What is left of P1's report, which has 76 bytes, or of its cover, which has 35, lent so much room: a text, or, where that is
   NULL, a number. */
static const struct known_part {
    bool cover;
    size_t from;
    size_t room;
    const char *text;
    int64_t number;
} known_parts[] = {
    {false, 0, 0, NULL, -1000000},
    {false, 0, 13, NULL, -1000000},
    {false, 0, 14, "CT 2 5 0 2 17\n", 0},
    {false, 0, 21, "CT 2 5 0 2 17\n", 0},
    {false, 0, 22, "CT 2 5 0 2 17\nSC 0 00\n", 0},
    {false, 0, 75, "CT 2 5 0 2 17\nSC 0 00\nSC 1 10\nSC 2 01\nBY 0 0\nBY 1 1\nBY 2 0\nBY 3 1\nBY 4 0\n", 0},
    {false, 3, 10, NULL, -1000000},
    {false, 3, 11, "2 5 0 2 17\n", 0},
    {false, 13, 0, NULL, -1000000},
    {false, 13, 1, "\n", 0},
    {false, 13, 9, "\nSC 0 00\n", 0},
    {false, 14, 8, "SC 0 00\n", 0},
    {false, 14, 16, "SC 0 00\nSC 1 10\n", 0},
    {false, 73, 2, NULL, -1000000},
    {false, 73, 3, "EN\n", 0},
    {false, 73, 100, "EN\n", 0},
    {false, 75, 1, "\n", 0},
    {false, 76, 0, NULL, 0},
    {false, 76, 100, NULL, 0},
    {false, 77, 100, NULL, 0},
    {false, (size_t)1 << 32, 100, NULL, 0},
    {false, SIZE_MAX, 100, NULL, 0},
    {true, 0, 4, NULL, -1000000},
    {true, 0, 5, ".i 3\n", 0},
    {true, 0, 100, ".i 3\n.o 3\n.type fd\n.p 1\n0-0 011\n.e\n", 0},
    {true, 10, 8, NULL, -1000000},
    {true, 10, 13, ".type fd\n", 0},
    {true, 10, 14, ".type fd\n.p 1\n", 0},
    {true, 24, 8, "0-0 011\n", 0},
    {true, 27, 5, " 011\n", 0},
    {true, 32, 3, ".e\n", 0},
    {true, 35, 3, NULL, 0},
    {true, SIZE_MAX, 0, NULL, 0},
};

/* A refusal of a listing comes before anything about the part, whatever is asked for: P9, and P2's cover. */
static const struct refused_part {
    const char *listing;
    bool cover;
    int64_t number;
} refused_parts[] = {
    {"MC 3 1 1 0\nPT 0 110 100 1\nPT - 010 001 1\nEN\n", false, -600003},
    {"MC 3 1 1 0\nPT 0 110 100 1\nPT - 010 001 1\nEN\n", true, -600003},
    {"MC 3 1 1 1\nPT 0 110 001 1\nPT 1 101 100 0\nEN\n", true, -900000},
    {"MC 65 1 1 0\nEN\n", false, -200001},
    {"MO 2 1 1 0\nOU 1 0\nEN\n", false, -1700003},
    {"MO 2 1 1 0\nOU 1 0\nEN\n", true, -1700003},
    {"MC 2 1 1 0\nFT 1\nFT 0\nEN\n", false, -1300002},
    {"MC 2 1 1 0\nFT 1\nFT 0\nEN\n", true, -1300002},
};

static uint8_t listing[32768];
static size_t length;
static uint8_t out[131072];

static void put(const char *text)
{
    size_t more = strlen(text);
    memcpy(listing + length, text, more);
    length += more;
}

static bool judge(const char *name, const char *which, bool good, int64_t answer)
{
    if (!good)
        printf("%s %s: answered %lld\n", name, which, (long long)answer);
    return good;
}

static bool answers(const char *name, const char *which, entry *run, const char *text, int64_t number)
{
    memset(out, 0xEE, 1024);
    int64_t answer = run(listing, length, out, sizeof out);
    bool good = text == NULL ? answer == number && out[0] == 0xEE
                             : answer == (int64_t)strlen(text) && memcmp(out, text, strlen(text)) == 0 &&
                                   out[strlen(text)] == 0xEE;
    bool right = judge(name, which, good, answer);
    if (!right && answer > 0)
        printf("%.*s", (int)answer, (const char *)out);
    return right;
}

/* A listing of so many rows, all alike. */
static void make_rows(unsigned rows)
{
    length = 0;
    put("MC 2 1 1 0\n");
    for (unsigned row = 0; row < rows; row++)
        put("PT 1 10 01 1\n");
    put("EN\n");
}

/* "64 different dichotomies, each naming all ... states with state 0 `+`", by three rules for the states with `-` in
   dichotomy k, of k from 0 to 63. Each needs a bit of its own, so 64 bits meet all of them and the pairs only if the bits that
   part the pairs are among them. */
typedef bool rule(unsigned state, unsigned k);

/* States 1 to 6 by k's binary digits, the others never: states 7 and 8 are alike in all 64, so the bit that parts them is none
   of the 64. */
static bool by_digits(unsigned state, unsigned k)
{
    return state >= 1 && state <= 6 && (k >> (state - 1) & 1);
}

/* Those that have an odd number of binary digits 1 in common with k. The bits that the encoder takes for the pairs of 64 states
   are such, so all is met (examples/dichotomies_answered.txt). */
static bool by_parity(unsigned state, unsigned k)
{
    return __builtin_parity(state & k);
}

/* Those above k. These 64 as a code would part all pairs; but of the six bits that the encoder takes for the pairs only the first
   is such (examples/dichotomies_refused.txt). */
static bool by_steps(unsigned state, unsigned k)
{
    return state > k;
}

static void make_dichotomies(const char *head, unsigned states, rule *second)
{
    length = 0;
    put(head);
    for (unsigned k = 0; k < 64; k++) {
        put("DI ");
        for (unsigned state = 0; state < states; state++)
            put(second(state, k) ? "-" : "+");
        put("\n");
    }
    put("EN\n");
}

static void put_times(unsigned times, const char *text)
{
    for (; times > 0; times--)
        put(text);
}

/* The longest cover: 64 bits, which the 64 dichotomies by parity take; 16 inputs and 32 outputs; 128 rows and an added one for each
   of 64 states, all kept. */
static void make_longest(void)
{
    make_dichotomies("MO 64 16 32 0 1\n", 64, by_parity);
    length -= strlen("EN\n");
    for (unsigned row = 0; row < 128; row++) {
        put("PT ---------------- ");
        put_times(row % 64, "0");
        put("1");
        put_times(63 - row % 64, "0");
        put(" ");
        put_times(64, "0");
        put("\n");
    }
    for (unsigned state = 64; state-- > 0;) {
        char number[] = {(char)('0' + state / 10), (char)('0' + state % 10), 0};
        put("OU ");
        put(state < 10 ? number + 1 : number);
        put(" 10101010101010101010101010101010\n");
    }
    put("EN\n");
}

/* A flow table of four states: ten columns in which each is stable, so many in which states 0 to 2 go to state 0, and what stands
   in the last field of each line. A column of the first sort has six dichotomies, one of the second has one. */
#define FULL_COLUMNS 10

static void make_flow(unsigned columns, const char *const *last)
{
    static const char *const stays[] = {" 0", " 1", " 2", " 3"};
    length = 0;
    put("MC 4 1 1 0\n");
    for (unsigned state = 0; state < 4; state++) {
        put("FT");
        put_times(FULL_COLUMNS, stays[state]);
        put_times(columns, state < 3 ? " 0" : " 3");
        put(last == NULL ? "" : last[state]);
        put("\n");
    }
    put("EN\n");
}

/* So many states that all go to state 0 in 16 columns, and so many lines. */
static void make_wide_flow(const char *head, unsigned lines)
{
    length = 0;
    put(head);
    for (unsigned line = 0; line < lines; line++) {
        put("FT");
        put_times(16, " 0");
        put("\n");
    }
    put("EN\n");
}

static bool starts(const char *name, const char *which, entry *run, const char *text)
{
    int64_t answer = run(listing, length, out, sizeof out);
    bool good = answer >= (int64_t)strlen(text) && memcmp(out, text, strlen(text)) == 0;
    return judge(name, which, good, answer);
}

/* The part is written to the buffer's start, and the bytes behind it are as they came, as are all where nothing is given. */
static bool gives_part(const struct entries *encoder, bool cover, size_t from, size_t room, const char *text, int64_t number)
{
    static uint8_t fresh[256];
    memset(fresh, 0xEE, sizeof fresh);
    memset(out, 0xEE, sizeof fresh);
    int64_t wanted = text == NULL ? number : (int64_t)strlen(text);
    if (text != NULL)
        memcpy(fresh, text, strlen(text));
    part_entry *part = cover ? encoder->cover_part : encoder->report_part;
    int64_t answer = part(listing, length, from, out, room);
    bool good = answer == wanted && memcmp(out, fresh, sizeof fresh) == 0;
    if (!good)
        printf("from %llu, room %llu: ", (unsigned long long)from, (unsigned long long)room);
    return judge("a part of a", cover ? "cover" : "report", good, answer);
}

static unsigned run_parts(const struct entries *encoder)
{
    unsigned right = 0;
    length = 0;
    put(known[0].listing);
    for (unsigned at = 0; at < LENGTH_OF(known_parts); at++) {
        const struct known_part *one = &known_parts[at];
        right += gives_part(encoder, one->cover, one->from, one->room, one->text, one->number);
    }
    for (unsigned at = 0; at < LENGTH_OF(refused_parts); at++) {
        const struct refused_part *one = &refused_parts[at];
        length = 0;
        put(one->listing);
        right += gives_part(encoder, one->cover, 0, 0, NULL, one->number);
        right += gives_part(encoder, one->cover, 5, 200, NULL, one->number);
        right += gives_part(encoder, one->cover, SIZE_MAX, 200, NULL, one->number);
    }
    return right;
}

/* What the 64 dichotomies answer, with width 0 (a report's head line or, where that is NULL, refusal 7) and with width 64. */
static const struct known_dichotomies {
    const char *name;
    unsigned states;
    rule *second;
    const char *width_0;
    const char *width_64;
} known_dichotomies[] = {
    {"64 dichotomies by digits, 32 states", 32, by_digits, NULL, "CT 64 560 5 "},
    {"64 dichotomies by digits", 64, by_digits, NULL, "CT 64 2080 6 "},
    {"64 dichotomies by parity", 64, by_parity, "CT 64 2080 0 70 15780\n", "CT 64 2080 0 70 15780\n"},
    {"64 dichotomies by steps", 64, by_steps, NULL, "CT 64 2080 5 70 19780\n"},
};

static unsigned run_dichotomies(const struct entries *encoder, const struct known_dichotomies *one)
{
    unsigned right = 0;
    make_dichotomies(one->states == 64 ? "MC 64 1 1 0\n" : "MC 32 1 1 0\n", one->states, one->second);
    if (one->width_0 == NULL) {
        right += answers(one->name, "report, width 0", encoder->report, NULL, -700000);
        right += answers(one->name, "cover, width 0", encoder->cover, NULL, -700000);
    } else {
        right += starts(one->name, "report, width 0", encoder->report, one->width_0);
        right += starts(one->name, "cover, width 0", encoder->cover, ".i 65\n.o 65\n.type fd\n.p 0\n.e\n");
    }
    make_dichotomies(one->states == 64 ? "MC 64 1 1 64\n" : "MC 32 1 1 64\n", one->states, one->second);
    right += starts(one->name, "report, width 64", encoder->report, one->width_64);
    right += starts(one->name, "cover, width 64", encoder->cover, ".i 65\n.o 65\n.type fd\n.p 0\n.e\n");
    return right;
}

/* 28 bytes of first lines, 192 rows of 178, and the end. */
#define LONGEST_COVER (28 + 192 * 178 + 3)

static unsigned run_longest(const struct entries *encoder)
{
    make_longest();
    int64_t answer = encoder->cover(listing, length, out, sizeof out);
    return judge("the longest cover", "cover", answer == LONGEST_COVER, answer) +
           starts("the longest cover", "cover", encoder->cover, ".i 80\n.o 96\n.type fd\n.p 192\n----------------0");
}

static unsigned refuses_all(const struct entries *encoder, const char *name, int64_t number)
{
    return answers(name, "report", encoder->report, NULL, number) + answers(name, "cover", encoder->cover, NULL, number) +
           answers(name, "widths", encoder->widths, NULL, number);
}

/* 64 dichotomies of a flow table, and 65; what comes before the latter; 64 states and 16 columns. */
#define FLOW_CHECKS 19

static unsigned run_flow(const struct entries *encoder)
{
    static const char *const unstable[] = {" 0", " 0", " 1", " 3"};
    unsigned right = 0;
    make_flow(4, NULL);
    right += starts("64 dichotomies of a flow table", "report", encoder->report, "CT 3 70 0 ");
    right += starts("64 dichotomies of a flow table", "cover", encoder->cover, ".i 4\n.o 4\n.type fd\n.p 0\n.e\n");
    make_flow(5, NULL);
    right += refuses_all(encoder, "65 dichotomies of a flow table", -200000);
    make_flow(6, NULL);
    right += refuses_all(encoder, "66 dichotomies of a flow table", -200000);
    make_flow(5, unstable);
    right += refuses_all(encoder, "13 before 65 dichotomies", -1300004);
    make_flow(6, NULL);
    put("\n");
    right += refuses_all(encoder, "bytes after EN before 66 dichotomies", -300007);
    make_wide_flow("MC 64 1 1 0\n", 64);
    right += starts("a flow table of 64 states", "report", encoder->report, "CT 6 2016 0 ");
    right += starts("a flow table of 64 states", "cover", encoder->cover, ".i 7\n.o 7\n.type fd\n.p 0\n.e\n");
    make_wide_flow("MC 64 1 1 0\n", 65);
    right += refuses_all(encoder, "the 65th line of a flow table", -300066);
    return right;
}

static unsigned run_refused(const struct entries *encoder)
{
    unsigned right = 0;
    for (unsigned at = 0; at < LENGTH_OF(refused); at++) {
        length = 0;
        put(refused[at].listing);
        right += refuses_all(encoder, refused[at].name, refused[at].number);
    }
    return right;
}

unsigned known_run(const struct entries *encoder, unsigned *checks)
{
    entry *report = encoder->report;
    entry *cover = encoder->cover;
    unsigned right = 0;
    unsigned asked = 0;
    for (unsigned at = 0; at < LENGTH_OF(known); at++) {
        const struct known *one = &known[at];
        length = 0;
        put(one->listing);
        right += answers(one->name, "report", report, one->report, one->report_number);
        right += answers(one->name, "cover", cover, one->cover, one->cover_number);
        right += answers(one->name, "widths", encoder->widths, one->widths, one->report_number);
        asked += 3;
    }

    right += run_refused(encoder);
    asked += 3 * LENGTH_OF(refused);

    length = 0;
    put("MC 64 1 1 64\nEN\n");
    right += starts("P10, 64 states", "report", report, "CT ");
    right += starts("P10, 64 states", "cover", cover, ".i ");
    asked += 2;

    right += run_parts(encoder);
    asked += LENGTH_OF(known_parts) + 3 * LENGTH_OF(refused_parts);

    make_rows(128);
    right += answers("128 rows", "report", report, "CT 1 1 0 1 2\nSC 0 0\nSC 1 1\nBY 0 0\nEN\n", 0);
    right += starts("128 rows", "cover", cover, ".i 2\n.o 2\n.type fd\n.p 128\n10 11\n10 11\n");
    make_rows(129);
    right += answers("129 rows", "report", report, NULL, -200130);
    right += answers("129 rows", "cover", cover, NULL, -200130);
    asked += 4;

    length = 0;
    put("MC 2 1 1 0\nDI ++\nEN\n");
    right += answers("a dichotomy that a cover does without", "widths", encoder->widths, "WD 1 1 1\nWD 2 0 1\nEN\n", 0);
    asked += 1;

    for (unsigned at = 0; at < LENGTH_OF(known_dichotomies); at++)
        right += run_dichotomies(encoder, &known_dichotomies[at]);
    asked += 4 * LENGTH_OF(known_dichotomies);

    right += run_longest(encoder);
    asked += 2;

    right += run_flow(encoder);
    asked += FLOW_CHECKS;

    make_dichotomies("MC 64 1 1 0\n", 64, by_parity);
    right += starts("64 dichotomies by parity", "widths", encoder->widths, "WD 1 1055 0\nWD 2 ");
    asked += 1;

    if (right != asked)
        printf("%s: %u of 01's %u known answers are wrong\n", encoder->name, asked - right, asked);
    *checks += asked;
    return asked - right;
}
