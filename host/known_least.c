/* Known answers for the fewest bits: worked by hand from 02's request 11 and reading 28, and checked by a program of another language. */
#include "known_least.h"

/* The report, or NULL where both entries are refused, with the number; and the cover. */
struct known {
    const char *name;
    const char *listing;
    const char *least;
    int64_t number;
    const char *cover;
};

#define P1_LEAST "CT 2 5 0 0 0\nSC 0 00\nSC 1 01\nSC 2 10\nBY 0 1\nBY 1 0\nBY 2 0\nBY 3 0\nBY 4 1\nEN\n"
#define P1_COVER ".i 3\n.o 3\n.type fd\n.p 1\n00- 101\n.e\n"

static const struct known answered[] = {
    {"P1", "MC 3 1 1 0\nPT 0 110 001 1\nPT 1 101 100 0\nEN\n", P1_LEAST, 0, P1_COVER},
    {"P2, whose width is not used", "MC 3 1 1 1\nPT 0 110 001 1\nPT 1 101 100 0\nEN\n", P1_LEAST, 0, P1_COVER},
    {"P1, every row kept", "MC 3 1 1 64 1\nPT 0 110 001 1\nPT 1 101 100 0\nEN\n", P1_LEAST, 0,
     ".i 3\n.o 3\n.type fd\n.p 2\n00- 101\n1-0 000\n.e\n"},
    {"P3, no bits", "MC 1 1 1 0\nPT 0 1 1 1\nEN\n", "CT 0 0 0 0 0\nSC 0 -\nEN\n", 0, ".i 1\n.o 1\n.type fd\n.p 1\n0 1\n.e\n"},
    {"P4", "MC 2 1 1 0\nEN\n", "CT 1 1 0 0 0\nSC 0 0\nSC 1 1\nBY 0 0\nEN\n", 0, ".i 2\n.o 2\n.type fd\n.p 0\n.e\n"},
    /* "a code of no bits meets none": a bit is needed, and the constant column is the only one. */
    {"one state, one dichotomy", "MC 1 1 1 0\nDI +\nEN\n", "CT 1 1 0 0 0\nSC 0 0\nBY 0 0\nEN\n", 0,
     ".i 2\n.o 2\n.type fd\n.p 0\n.e\n"},
    {"one state, two empty blocks", "MC 1 1 1 64\nDI .\nDI .\nEN\n", "CT 1 2 0 0 0\nSC 0 0\nBY 0 0\nBY 1 0\nEN\n", 0,
     ".i 2\n.o 2\n.type fd\n.p 0\n.e\n"},
    /* The columns are 011 and 101 of states 1 to 3, which are 3 and 5. */
    {"state 1 is the highest digit", "MC 4 1 1 0\nEN\n",
     "CT 2 6 0 0 0\nSC 0 00\nSC 1 01\nSC 2 10\nSC 3 11\nBY 0 1\nBY 1 0\nBY 2 0\nBY 3 0\nBY 4 0\nBY 5 1\nEN\n", 0,
     ".i 3\n.o 3\n.type fd\n.p 0\n.e\n"},
    {"the constant column", "MC 2 1 1 0\nDI ++\nEN\n", "CT 2 2 0 0 0\nSC 0 00\nSC 1 01\nBY 0 1\nBY 1 0\nEN\n", 0,
     ".i 3\n.o 3\n.type fd\n.p 0\n.e\n"},
    {"the constant column for an empty block", "MC 3 1 1 0\nPT - 110 010 1\nDI .--\nDI ---\nEN\n",
     "CT 3 6 0 0 0\nSC 0 000\nSC 1 001\nSC 2 010\nBY 0 2\nBY 1 1\nBY 2 1\nBY 3 1\nBY 4 0\nBY 5 0\nEN\n", 0,
     ".i 4\n.o 4\n.type fd\n.p 1\n-00- 0011\n.e\n"},
    {"Table III of 001", "MC 4 2 1 2\nFT 0 1 0 0\nFT 2 1 1 3\nFT 2 1 0 2\nFT 2 3 1 3\nEN\n",
     "CT 3 12 0 0 0\nSC 0 000\nSC 1 011\nSC 2 001\nSC 3 111\nBY 0 1\nBY 1 2\nBY 2 0\nBY 3 1\nBY 4 0\nBY 5 0\nBY 6 2\nBY 7 0\n"
     "BY 8 1\nBY 9 1\nBY 10 2\nBY 11 1\nEN\n",
     0, ".i 5\n.o 4\n.type fd\n.p 0\n.e\n"},
    {"a Moore machine",
     "MO 4 2 3 0\nPT 1- 1000 0100\nPT -1 0100 0010\nPT -1 0011 0001\nOU 0 000\nOU 1 100\nOU 2 010\nOU 3 0-1\nEN\n",
     "CT 2 8 0 0 0\nSC 0 00\nSC 1 01\nSC 2 10\nSC 3 11\nBY 0 1\nBY 1 0\nBY 2 0\nBY 3 0\nBY 4 0\nBY 5 1\nBY 6 0\nBY 7 0\nEN\n", 0,
     ".i 4\n.o 5\n.type fd\n.p 6\n1-00 01000\n-101 10000\n-11- 11000\n--01 00100\n--10 00010\n--11 000-1\n.e\n"},
    /* Each dichotomy that names all states asks for a column of its own; they stand in the order of their numbers. */
    {"five columns", "MC 4 1 1 0\nDI +++-\nDI ++-+\nDI ++--\nDI +-++\nDI ----\nEN\n",
     "CT 5 11 0 0 0\nSC 0 00000\nSC 1 00001\nSC 2 00110\nSC 3 01010\nBY 0 4\nBY 1 2\nBY 2 1\nBY 3 2\nBY 4 1\nBY 5 1\nBY 6 1\n"
     "BY 7 2\nBY 8 3\nBY 9 4\nBY 10 0\nEN\n",
     0, ".i 6\n.o 6\n.type fd\n.p 0\n.e\n"},
    {"five columns, asked for backwards", "MC 4 1 1 0\nDI +---\nDI -++-\nDI +-+-\nDI +-++\nDI ++--\nEN\n",
     "CT 5 11 0 0 0\nSC 0 00000\nSC 1 01111\nSC 2 10011\nSC 3 10101\nBY 0 1\nBY 1 0\nBY 2 0\nBY 3 0\nBY 4 0\nBY 5 2\nBY 6 4\n"
     "BY 7 3\nBY 8 2\nBY 9 1\nBY 10 0\nEN\n",
     0, ".i 6\n.o 6\n.type fd\n.p 0\n.e\n"},
};

static const struct known refused[] = {
    {"six columns of four states", "MC 4 1 1 0\nDI +++-\nDI ++-+\nDI ++--\nDI +-++\nDI ----\nDI +-+-\nEN\n", NULL, -1600000, NULL},
    {"16, whatever the width", "MC 4 1 1 64\nDI +++-\nDI ++-+\nDI ++--\nDI +-++\nDI ----\nDI +-+-\nEN\n", NULL, -1600000, NULL},
    {"16 of a Moore machine",
     "MO 4 1 1 0\nDI +++-\nDI ++-+\nDI ++--\nDI +-++\nDI ----\nDI +-+-\nOU 0 0\nOU 1 0\nOU 2 0\nOU 3 0\nEN\n", NULL, -1600000, NULL},
    {"16 of a flow table", "MC 4 1 1 0\nFT 0 0 0 0 0 0\nFT 0 0 0 1 1 1\nFT 0 2 2 0 0 1\nFT 3 0 2 0 1 0\nEN\n", NULL, -1600000, NULL},
    {"7 states", "MC 7 1 1 0\nEN\n", NULL, -200001, NULL},
    {"64 states", "MC 64 1 1 0\nEN\n", NULL, -200001, NULL},
    {"65 states", "MC 65 1 1 0\nEN\n", NULL, -200001, NULL},
    {"7 states of a Moore machine", "MO 7 1 1 0\nEN\n", NULL, -200001, NULL},
    {"7 states of a flow table", "MC 7 1 1 0\nFT 1\nEN\n", NULL, -200001, NULL},
    {"7 states before a bad line", "MC 7 1 1 0\nPT x\nEN\n", NULL, -200001, NULL},
    {"7 states before a second head line", "MC 7 1 1 0\nMC 7 1 1 0\nEN\n", NULL, -200001, NULL},
    {"7 states before no EN", "MC 7 1 1 0\n", NULL, -200001, NULL},
    {"7 states before bytes after EN", "MC 7 1 1 0\nEN\nEN\n", NULL, -200001, NULL},
    {"7 states after what is no number", "MC 7 1 1 x\nEN\n", NULL, -100001, NULL},
    {"7 states after a field too few", "MC 7 1 1\nEN\n", NULL, -100001, NULL},
    {"7 states after LF missing", "MC 7 1 1 0", NULL, -100001, NULL},
    {"7 states after an unknown mark", "MX 7 1 1 0\nEN\n", NULL, -300001, NULL},
    {"7 states, a fifth number 2", "MC 7 1 1 0 2\nEN\n", NULL, -200001, NULL},
    {"a width of 65, though it is not used", "MC 2 1 1 65\nEN\n", NULL, -200001, NULL},
    {"a fifth number 2", "MC 2 1 1 0 2\nEN\n", NULL, -200001, NULL},
    {"nothing at all", "", NULL, -300001, NULL},
    {"a bad line", "MC 2 1 1 0\nPT x\nEN\n", NULL, -100002, NULL},
    {"an empty group", "MC 2 1 1 0\nPT 0 00 01 1\nEN\n", NULL, -400002, NULL},
    {"two nexts", "MC 2 1 1 0\nPT 0 01 11 1\nEN\n", NULL, -500002, NULL},
    {"P9", "MC 3 1 1 0\nPT 0 110 100 1\nPT - 010 001 1\nEN\n", NULL, -600003, NULL},
    {"6 before 16",
     "MC 4 1 1 0\nPT 0 1000 1000 1\nPT 0 1000 0100 1\nDI +++-\nDI ++-+\nDI ++--\nDI +-++\nDI ----\nDI +-+-\nEN\n", NULL, -600003, NULL},
    {"not stable", "MC 3 1 1 0\nFT 0 1\nFT 0 2\nFT - 2\nEN\n", NULL, -1300002, NULL},
    {"no outputs", "MO 2 1 1 0\nOU 1 1\nEN\n", NULL, -1700003, NULL},
};

/* In the first, six dichotomies of all states ask for a column each; so do five in the second, whose numbers are 23, 27, 29, 30 and 31: a
   code of five columns above 23 would not tell state 1 from state 2. In the third, rows that hold in all states but one ask for them. The
   last two were found by changing one dichotomy after the other, so that a search has the most steps that, of each column, tries only those that meet
   the lowest requirement left, or only those that meet some requirement left. */
const struct known_least_long known_least_long[KNOWN_LEAST_LONG] = {
    {"no code of 5 bits",
     "MC 6 1 1 0\nDI +-+---\nDI +--+--\nDI +---+-\nDI +----+\nDI +-----\nDI ++----\nDI +-....\nDI +.-...\nDI +..-..\nDI +...-.\n"
     "DI +....-\nDI .+-...\nDI .+.-..\nDI .+..-.\nDI .+...-\nDI ..+-..\nDI ..+.-.\nEN\n",
     NULL},
    {"a code that comes late",
     "MC 6 1 1 0\nDI +-....\nDI +.-...\nDI +..-..\nDI +...-.\nDI +....-\nDI .+-...\nDI .+.-..\nDI .+..-.\nDI .+...-\nDI ..+-..\n"
     "DI ..+.-.\nDI ..+..-\nDI +-----\nDI +----+\nDI +---+-\nDI +--+--\nDI +-+---\nEN\n",
     "CT 5 32 0 0 0\nSC 0 00000\nSC 1 11111\nSC 2 01111\nSC 3 10111\nSC 4 11011\nSC 5 11101\n"},
    {"rows for all states but one",
     "MC 6 3 1 0\nPT 000 111110 000000 1\nPT 001 111101 000000 1\nPT 010 111011 000000 1\nPT 011 110111 000000 1\n"
     "PT 100 101111 000000 1\nPT 101 011111 000000 1\nPT 110 110000 000000 1\nPT 111 001100 000000 1\nDI ++++..\nDI ....++\nDI +.+.+.\nEN\n",
     NULL},
    {"dichotomies of few states",
     "MC 6 1 1 0\nDI ..--..\nDI --....\nDI .-..-.\nDI ..+..+\nDI -.-...\nDI ....++\nDI ..-.-.\nDI .+++..\nDI +-..-.\nDI +..++.\n"
     "DI --...-\nDI -+.--+\nDI .-.-++\nDI .+.+.+\nDI -..-.-\nDI --++.+\nDI ++.-.+\nEN\n",
     NULL},
    {"dichotomies of many states",
     "MC 6 1 1 0\nDI +.+-+.\nDI .++-..\nDI --...-\nDI .+.+++\nDI +-.-.+\nDI -+..+.\nDI .----.\nDI -.+--.\nDI +..-+-\nDI .-..+-\n"
     "DI ++-+--\nDI +--+--\nDI +-+++-\nDI .-.+++\nDI +-+..+\nDI -.++..\nDI +.++--\nEN\n",
     NULL},
};

/* ---- checks ---- */

static uint8_t listing[70000], out[20000];
static size_t length;

static void put(const char *text)
{
    size_t more = strlen(text);
    memcpy(listing + length, text, more);
    length += more;
}

static unsigned judge(const struct least_entries *encoder, const char *name, const char *what, bool right, int64_t answer)
{
    if (!right)
        printf("%s: %s, %s: wrong, the answer is %lld\n", encoder->name, name, what, (long long)answer);
    return right ? 0 : 1;
}

/* A text, or, where that is NULL, a number; and where it is a text, a buffer that is one byte too short. */
static unsigned answers(const struct least_entries *encoder, const char *name, const char *what, entry *run, const char *text,
                        int64_t number)
{
    memset(out, 0xEE, sizeof out);
    int64_t answer = run(listing, length, out, sizeof out);
    if (text == NULL)
        return judge(encoder, name, what, answer == number && out[0] == 0xEE, answer);
    size_t wanted = strlen(text);
    bool right = answer == (int64_t)wanted && memcmp(out, text, wanted) == 0 && out[wanted] == 0xEE;
    memset(out, 0xEE, wanted);
    int64_t short_answer = run(listing, length, out, wanted - 1);
    right = right && short_answer == -1000000 && out[0] == 0xEE && out[wanted - 1] == 0xEE;
    return judge(encoder, name, what, right, answer);
}

static unsigned run_one(const struct least_entries *encoder, const struct known *one)
{
    length = 0;
    put(one->listing);
    return answers(encoder, one->name, "least", encoder->least, one->least, one->number) +
           answers(encoder, one->name, "least cover", encoder->cover, one->cover, one->number);
}

/* Both entries refuse what stands in `listing`, or both answer it. */
static unsigned both(const struct least_entries *encoder, const char *name, const char *start, int64_t number)
{
    int64_t least = encoder->least(listing, length, out, sizeof out);
    bool right = start == NULL ? least == number : least > 0 && memcmp(out, start, strlen(start)) == 0;
    int64_t cover = encoder->cover(listing, length, out, sizeof out);
    bool cover_right = start == NULL ? cover == number : cover > 0;
    return judge(encoder, name, "least", right, least) + judge(encoder, name, "least cover", cover_right, cover);
}

/* A head line, other lines, and so many dichotomies: as many requirements as there may be, or one more. */
static void make_asked(const char *head, const char *dichotomy, unsigned number, const char *end)
{
    length = 0;
    put(head);
    for (; number > 0; number--)
        put(dichotomy);
    put(end);
}

#define ASKED_CHECKS 26

static unsigned run_asked(const struct least_entries *encoder)
{
    static const char six[] = "MC 6 1 1 0\nPT 0 111110 100000 1\n";
    static const char clash[] = "MC 6 1 1 0\nPT 0 111110 100000 1\nPT - 000010 010000 1\n";
    unsigned wrong = 0;
    make_asked("MC 1 1 1 0\n", "DI .\n", 32, "EN\n");
    wrong += both(encoder, "32 requirements of one state", "CT 1 32 0 0 0\nSC 0 0\nBY 0 0\n", 0);
    make_asked("MC 1 1 1 0\n", "DI .\n", 33, "EN\n");
    wrong += both(encoder, "33 requirements of one state", NULL, -200000);
    make_asked(six, "DI ++++..\n", 16, "EN\n");
    wrong += both(encoder, "32 requirements of six states", "CT 4 32 0 0 0\n", 0);
    make_asked(six, "DI ++++..\n", 17, "EN\n");
    wrong += both(encoder, "33 requirements of six states", NULL, -200000);
    make_asked(six, "DI ++++..\n", 64, "EN\n");
    wrong += both(encoder, "80 requirements of six states", NULL, -200000);
    make_asked(six, "DI ++++..\n", 65, "EN\n");
    wrong += both(encoder, "the 65th dichotomy", NULL, -200067);
    make_asked(clash, "DI ++++..\n", 17, "EN\n");
    wrong += both(encoder, "6 before 33 requirements", NULL, -600003);
    make_asked(six, "DI ++++..\n", 17, "EN\n\n");
    wrong += both(encoder, "bytes after EN before 33 requirements", NULL, -300021);
    make_asked("MO 2 1 1 0\nOU 0 0\n", "DI ++\n", 32, "EN\n");
    wrong += both(encoder, "17 before 33 requirements", NULL, -1700035);
    make_asked("MO 2 1 1 0\nOU 0 0\n", "DI ++\n", 32, "OU 1 0\nEN\n");
    wrong += both(encoder, "33 requirements of a Moore machine", NULL, -200000);
    make_asked("MC 4 1 1 0\n", "FT 0 0 0 0 0 0 0 0 0 0 0 0 0 0\n", 4, "EN\n");
    wrong += both(encoder, "a flow table of one destination a column", "CT 2 6 0 0 0\n", 0);
    make_asked("MC 4 1 1 0\nFT 0 0 0 0 0 0\nFT 1 1 1 1 1 1\nFT 2 2 2 2 2 2\n", "FT 3 3 3 3 3 3\n", 1, "EN\n");
    wrong += both(encoder, "42 requirements of a flow table", NULL, -200000);
    make_asked("MC 4 1 1 0\nFT 0 0 0 0 0 0\nFT 1 1 1 1 1 1\nFT 2 2 2 2 2 2\n", "FT 3 3 3 3 3 2\n", 1, "EN\n");
    wrong += both(encoder, "39 requirements of a flow table", NULL, -200000);
    return wrong;
}

/* More than 65,536 bytes come before all else, of a large machine too; exactly so many are read. */
#define LENGTH_CHECKS 6

static void make_long(const char *head, size_t wanted)
{
    length = 0;
    put(head);
    memset(listing + length, 'x', wanted - length);
    length = wanted;
}

static unsigned run_lengths(const struct least_entries *encoder)
{
    unsigned wrong = 0;
    make_long("MC 7 1 1 0\n", 65537);
    wrong += both(encoder, "too long, and 7 states", NULL, -200000);
    make_long("MC 7 1 1 0\n", 65536);
    wrong += both(encoder, "65,536 bytes, and 7 states", NULL, -200001);
    make_long("MC 6 1 1 0\n", 65537);
    wrong += both(encoder, "too long", NULL, -200000);
    return wrong;
}

unsigned known_least_run(const struct least_entries *encoder, unsigned *checks)
{
    unsigned wrong = 0;
    for (unsigned at = 0; at < LENGTH_OF(answered); at++)
        wrong += run_one(encoder, &answered[at]);
    for (unsigned at = 0; at < LENGTH_OF(refused); at++)
        wrong += run_one(encoder, &refused[at]);
    for (unsigned at = 0; at < KNOWN_LEAST_LONG; at++) {
        length = 0;
        put(known_least_long[at].listing);
        wrong += both(encoder, known_least_long[at].name, known_least_long[at].least, -1600000);
    }
    wrong += run_asked(encoder);
    wrong += run_lengths(encoder);
    *checks += 2 * (LENGTH_OF(answered) + LENGTH_OF(refused) + KNOWN_LEAST_LONG) + ASKED_CHECKS + LENGTH_CHECKS;
    return wrong;
}
