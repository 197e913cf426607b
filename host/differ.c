/* The differential test: the library against the second encoder, on the known answers of 01 and on listings, whole and in
   parts, and trial records made by chance; any difference in an answer or in a byte of a buffer ends it. */
#include "adapter.h"
#include "generate.h"
#include "known.h"
#include "tsurmokan.h"
#include "second.h"
#include "seen.h"

/* In a run of at least so many listings, each refusal number must be seen at least so often. */
#ifndef FULL_RUN
#define FULL_RUN 20000
#endif
#define SEEN_LEAST 20
#define LATE_LEAST 100 /* 13 and 17, which later requests brought */

/* Bytes of chance before and behind a lent buffer, which nobody may change. */
#define GUARD 64
#define BUFFER (SECOND_TEXT + 4096)
#define ARENA (GUARD + BUFFER + GUARD)

/* ---- what was seen ---- */

/* The refusal numbers that are counted apart, 0 being an answer, and a place for any other. */
static const unsigned numbers[] = {0, 1, 2, 3, 4, 5, 6, 7, 8, 9, 10, 11, 13, 17};
#define NUMBERS (LENGTH_OF(numbers) + 1)
#define OTHER LENGTH_OF(numbers)
#define CLASSES 8

struct tally {
    const char *name;
    uint64_t seen[NUMBERS]; /* by the place of the refusal number */
    uint64_t second_time;
    uint64_t library_time;
};

static struct tally report_tally = {.name = "report"};
static struct tally cover_tally = {.name = "cover"};
static struct tally widths_tally = {.name = "widths"};
static struct tally report_part_tally = {.name = "report part"};
static struct tally cover_part_tally = {.name = "cover part"};
static uint64_t parts_at_end; /* calls of parts with nothing left */
static uint64_t texts_gathered, steps_gathered;

static const struct entries second_entries = {"the second encoder", second_report,      second_cover,
                                              second_widths,        second_report_part, second_cover_part};
static const struct entries library_entries = {"the library",    tsurmokan_report,      tsurmokan_cover,
                                               tsurmokan_widths, tsurmokan_report_part, tsurmokan_cover_part};

static const struct {
    const char *name;
    unsigned least;
} size_class[CLASSES] = {
    {"1 state", 1},   {"2 to 4", 2},    {"5 to 8", 5},    {"9 to 16", 9},
    {"17 to 24", 17}, {"25 to 32", 25}, {"33 to 48", 33}, {"49 and more", 49},
};

static struct {
    uint64_t listings;
    uint64_t reports;
    uint64_t covers;
} by_class[CLASSES], by_kind[GENERATE_KINDS];

static uint64_t kind_seen[GENERATE_KINDS][NUMBERS];

static unsigned class_of(unsigned states)
{
    unsigned class = 0;
    while (class + 1 < CLASSES && size_class[class + 1].least <= states)
        class++;
    return class;
}

/* The place of an answer's refusal number. */
static unsigned place_of(int64_t answer)
{
    int64_t number = answer >= 0 ? 0 : -answer / 100000;
    unsigned place = 0;
    while (place < OTHER && numbers[place] != number)
        place++;
    return place;
}

/* This process's own time (CLOCK_PROCESS_CPUTIME_ID), so that a busy machine changes nothing. */
static uint64_t now(void)
{
    struct timespec time;
    clock_gettime(2, &time);
    return (uint64_t)time.tv_sec * 1000000000 + (uint64_t)time.tv_nsec;
}

/* ---- printing a difference ---- */

static void print_bytes(const uint8_t *bytes, size_t length)
{
    size_t most = length < 6000 ? length : 6000;
    for (size_t at = 0; at < most; at++) {
        if (bytes[at] == '\n')
            printf("\\n\n");
        else if (bytes[at] >= ' ' && bytes[at] < 127)
            printf("%c", bytes[at]);
        else
            printf("\\x%02X", bytes[at]);
    }
    if (most < length)
        printf(".. and %llu bytes more", (unsigned long long)(length - most));
    printf("|\n");
}

static void print_answer(const char *who, int64_t answer, const uint8_t *buffer, size_t buffer_length)
{
    printf("%s answers %lld", who, (long long)answer);
    if (answer >= 0 && (uint64_t)answer <= buffer_length) {
        printf(":\n");
        print_bytes(buffer, (size_t)answer);
    } else {
        printf("\n");
    }
}

/* ---- one listing, one entry ---- */

static uint8_t came[ARENA], ours[ARENA], theirs[ARENA], ample[SECOND_TEXT];
static struct generated listing;
static uint8_t listing_came[GENERATE_BYTES];

static void fill(struct chance *chance, uint8_t *bytes, size_t length)
{
    for (size_t at = 0; at < length; at += 8) {
        uint64_t more = chance_next(chance);
        size_t step = length - at < 8 ? length - at : 8;
        memcpy(bytes + at, &more, step);
    }
}

/* How long a buffer to lend for an answer of this length: often enough, sometimes just enough, one short, or none. */
static size_t draw_buffer(struct chance *chance, int64_t answer)
{
    if (answer < 0)
        return chance_part(chance, 1, 4) ? 0 : chance_below(chance, 200);
    unsigned length = (unsigned)answer;
    switch (chance_below(chance, 12)) {
    case 0:
    case 1:
        return length;
    case 2:
        return length - 1;
    case 3:
        return chance_part(chance, 1, 2) ? 0 : chance_below(chance, length);
    case 4:
        return length + 1;
    case 5:
        return chance_part(chance, 1, 20) ? BUFFER : length + 2;
    default:
        return length + chance_below(chance, 300);
    }
}

/* The second encoder's answer, which stands in `ample`, as it is where a buffer of this length is lent: "no room: the lent output
   is shorter than the answer". It encodes once for both, since some listings take it long. */
static int64_t lend(int64_t answer, uint8_t *out, size_t length)
{
    if (answer < 0)
        return answer;
    if ((size_t)answer > length)
        return -100000 * SECOND_NO_ROOM;
    memcpy(out, ample, (size_t)answer);
    return answer;
}

/* The two buffers that are lent, alike, and the listing as it came. */
static void lay_out(struct chance *chance, size_t length)
{
    size_t arena = GUARD + length + GUARD;
    fill(chance, came, arena);
    memcpy(ours, came, arena);
    memcpy(theirs, came, arena);
    memcpy(listing_came, listing.bytes, listing.length);
}

/* Whether two calls with a buffer of this length, one on `ours` and one on `theirs`, agree in everything. */
static bool same_call(const struct tally *tally, size_t from, size_t length, int64_t our_answer, int64_t their_answer)
{
    const char *what = NULL;
    size_t arena = GUARD + length + GUARD;
    size_t written = our_answer < 0 ? 0 : (size_t)our_answer;
    if (our_answer != their_answer)
        what = "the answers differ";
    else if (memcmp(theirs, came, GUARD) != 0)
        what = "the library changed bytes before the buffer";
    else if (memcmp(theirs + GUARD + length, came + GUARD + length, GUARD) != 0)
        what = "the library changed bytes behind the buffer";
    else if (memcmp(theirs + GUARD + written, came + GUARD + written, length - written) != 0)
        what = "the library changed bytes behind its answer's length";
    else if (memcmp(ours, theirs, arena) != 0)
        what = "the bytes differ";
    else if (memcmp(listing_came, listing.bytes, listing.length) != 0)
        what = "the library changed the listing";
    if (what == NULL)
        return true;
    printf("DIFFERENCE in %s: %s\n", tally->name, what);
    printf("from %llu, buffer of %llu bytes; listing of %llu bytes (%s):\n", (unsigned long long)from,
           (unsigned long long)length, (unsigned long long)listing.length, generate_kind_name(listing.kind));
    print_bytes(listing_came, listing.length);
    print_answer("the library", their_answer, theirs + GUARD, length);
    print_answer("the second encoder", our_answer, ours + GUARD, length);
    for (size_t at = 0; at < arena; at++) {
        if (ours[at] != theirs[at]) {
            printf("first other byte: %lld from the buffer's start: the library's %02X, the second encoder's %02X\n",
                   (long long)at - GUARD, theirs[at], ours[at]);
            break;
        }
    }
    return false;
}

/* Runs both, and answers whether they agree in everything. The whole answer of the second encoder is left in `ample`. */
static bool compare_entry(struct chance *chance, struct tally *tally, entry *library, entry *second, int64_t *answered)
{
    uint64_t start = now();
    int64_t answer = second(listing.bytes, listing.length, ample, sizeof ample);
    uint64_t middle = now();
    tally->second_time += middle - start;

    size_t length = draw_buffer(chance, answer);
    lay_out(chance, length);
    int64_t our_answer = lend(answer, ours + GUARD, length);
    start = now();
    int64_t their_answer = library(listing.bytes, listing.length, theirs + GUARD, length);
    tally->library_time += now() - start;

    tally->seen[place_of(our_answer)]++;
    kind_seen[listing.kind][place_of(our_answer)]++;
    *answered = answer;
    return same_call(tally, 0, length, our_answer, their_answer);
}

/* ---- one listing in parts ---- */

/* The byte behind the line that has this one. */
static size_t line_end(size_t at, size_t length)
{
    while (at < length && ample[at] != '\n')
        at++;
    return at < length ? at + 1 : length;
}

/* Where a part begins: at the start, within, where a line does, at the end, past it, and far past it, where a number of 32
   digits would be within. */
static size_t draw_from(struct chance *chance, size_t length)
{
    size_t within = chance_below(chance, (unsigned)length + 1);
    switch (chance_below(chance, 12)) {
    case 0:
        return 0;
    case 1:
        return length;
    case 2:
        return length + 1 + chance_below(chance, 100);
    case 3:
        return SIZE_MAX - (chance_part(chance, 1, 2) ? 0 : within);
    case 4:
        return ((size_t)1 << chance_from(chance, 32, 63)) + within;
    case 5:
        return length < 3 ? 0 : length - chance_from(chance, 1, 3);
    case 6:
    case 7:
    case 8:
        return line_end(within, length);
    default:
        return within;
    }
}

/* How long a buffer to lend for a part that begins here: none, one byte, a line or one byte to either side of it, two lines
   and so, all that is left and so, any. */
static size_t draw_room(struct chance *chance, size_t from, size_t length)
{
    if (from >= length)
        return chance_below(chance, 100);
    size_t line = line_end(from, length);
    size_t edges[] = {line, line, line_end(line, length), length};
    size_t edge = edges[chance_below(chance, LENGTH_OF(edges))] - from;
    switch (chance_below(chance, 8)) {
    case 0:
        return chance_below(chance, 2);
    case 1:
    case 2:
        return edge - 1;
    case 3:
    case 4:
        return edge;
    case 5:
        return edge + 1;
    case 6:
        return length - from + chance_below(chance, 300);
    default:
        return chance_below(chance, (unsigned)(length - from) + 1);
    }
}

/* One part: the second encoder's is cut from its whole answer, which stands in `ample`; a refusal is the same. */
static bool compare_part(struct chance *chance, struct tally *tally, part_entry *library, int64_t answer)
{
    size_t text = answer < 0 ? 0 : (size_t)answer;
    size_t from = draw_from(chance, text);
    size_t length = draw_room(chance, from, text);
    lay_out(chance, length);
    int64_t our_answer = answer < 0 ? answer : second_part(ample, text, from, ours + GUARD, length);
    uint64_t start = now();
    int64_t their_answer = library(listing.bytes, listing.length, from, theirs + GUARD, length);
    tally->library_time += now() - start;
    tally->seen[place_of(our_answer)]++;
    parts_at_end += our_answer == 0;
    return same_call(tally, from, length, our_answer, their_answer);
}

/* A buffer that has room for the longest line, and so long that a long text takes no more than about so many steps. */
#define GATHER_STEPS 24

static size_t draw_gather_room(struct chance *chance, size_t longest, size_t length)
{
    size_t room = longest + (chance_part(chance, 1, 2) ? 0 : chance_below(chance, 200));
    return room * GATHER_STEPS < length ? length / GATHER_STEPS + longest : room;
}

static size_t longest_line(size_t length)
{
    size_t longest = 0;
    for (size_t at = 0; at < length; at = line_end(at, length))
        if (line_end(at, length) - at > longest)
            longest = line_end(at, length) - at;
    return longest;
}

/* The whole text by parts, as a host that is short of memory gets it: each step gives some bytes until all are there, and
   they are the text's. */
static bool gather(struct chance *chance, struct tally *tally, part_entry *library, int64_t answer)
{
    size_t text = (size_t)answer;
    size_t longest = longest_line(text);
    size_t room = draw_gather_room(chance, longest, text);
    size_t have = 0;
    if (longest > TSURMOKAN_LINE || text > TSURMOKAN_ROOM) {
        printf("DIFFERENCE in %s: a line or a text is longer than tsurmokan.h says\n", tally->name);
        return false;
    }
    lay_out(chance, room);
    texts_gathered++;
    for (;;) {
        int64_t more = library(listing.bytes, listing.length, have, theirs + GUARD, room);
        steps_gathered++;
        if (more == 0 && have == text)
            return true;
        bool good = more > 0 && (size_t)more <= room && (size_t)more <= text - have;
        if (!good || memcmp(theirs + GUARD, ample + have, (size_t)more) != 0) {
            printf("DIFFERENCE in %s: gathered by a buffer of %llu bytes, at byte %llu of %llu the step answers %lld\n",
                   tally->name, (unsigned long long)room, (unsigned long long)have, (unsigned long long)text,
                   (long long)more);
            print_bytes(listing.bytes, listing.length);
            return false;
        }
        have += (size_t)more;
    }
}

/* The parts of a text whose whole answer is known and stands in `ample`; one answer in eight is gathered as well. */
static bool compare_parts(struct chance *chance, struct tally *tally, part_entry *library, int64_t answer)
{
    if (!compare_part(chance, tally, library, answer))
        return false;
    if (answer >= 0 && !compare_part(chance, tally, library, answer))
        return false;
    return answer < 0 || !chance_part(chance, 1, 8) || gather(chance, tally, library, answer);
}

/* ---- one listing, all entries ---- */

/* The second encoder encodes once for each width, which is dear above 32 states: of those one in 16 is compared, and of the long
   ones, which can take it ten seconds, one in 200. */
static bool has_widths(struct chance *chance)
{
    return listing.states <= 32 || chance_part(chance, 1, listing.length < 4096 ? 16 : 200);
}

/* Every second listing is damaged. */
static bool compare_listing(uint64_t seed, uint64_t number)
{
    struct chance chance = chance_of(~seed, number);
    int64_t report = 0;
    int64_t cover = 0;
    int64_t widths = 0;
    generate_listing(seed, number, number % 2 == 1, &listing);
    bool same = compare_entry(&chance, &report_tally, tsurmokan_report, second_report, &report) &&
                compare_parts(&chance, &report_part_tally, tsurmokan_report_part, report) &&
                compare_entry(&chance, &cover_tally, tsurmokan_cover, second_cover, &cover) &&
                compare_parts(&chance, &cover_part_tally, tsurmokan_cover_part, cover) &&
                (!has_widths(&chance) ||
                 compare_entry(&chance, &widths_tally, tsurmokan_widths, second_widths, &widths));
    if (!same) {
        printf("seed %llu, listing %llu\n", (unsigned long long)seed, (unsigned long long)number);
        return false;
    }
    seen_head(listing.bytes, listing.length, report);
    if (cover >= 0)
        seen_cover(listing.bytes, listing.length);
    seen_moore(listing.bytes, listing.length, cover >= 0);
    seen_flow(listing.bytes, listing.length, report, cover);
    unsigned class = class_of(listing.states);
    by_class[class].listings++;
    by_class[class].reports += report >= 0;
    by_class[class].covers += cover >= 0;
    by_kind[listing.kind].listings++;
    by_kind[listing.kind].reports += report >= 0;
    by_kind[listing.kind].covers += cover >= 0;
    return true;
}

/* ---- trial records ---- */

#define TRIAL_LIST (SECOND_TRIAL_REQUIREMENTS + 1)

struct trial_call {
    uint64_t states;
    uint64_t bit;
    size_t first_number;
    size_t second_number;
    uint64_t first[TRIAL_LIST];
    uint64_t second[TRIAL_LIST];
};

static struct trial_call call;
static struct second_trial trial;
static uint64_t trial_starts, trial_refused_starts, trial_moves, trial_refused_moves;

static uint64_t any_mask(struct chance *chance, uint64_t states)
{
    uint64_t mask = chance_next(chance) & second_all_states((unsigned)states);
    return chance_part(chance, 1, 2) ? mask : mask & chance_next(chance) & chance_next(chance);
}

/* A start that is good most often; otherwise it has one of the faults of refusal 11. */
static void draw_call(struct chance *chance)
{
    call.states = chance_from(chance, 1, chance_part(chance, 1, 4) ? SECOND_STATES : 6);
    call.bit = any_mask(chance, call.states);
    unsigned number = chance_below(chance, chance_part(chance, 1, 20) ? SECOND_TRIAL_REQUIREMENTS + 1 : 12);
    if (chance_part(chance, 1, 30))
        number = SECOND_TRIAL_REQUIREMENTS;
    for (unsigned r = 0; r < TRIAL_LIST; r++) {
        call.first[r] = any_mask(chance, call.states);
        call.second[r] = any_mask(chance, call.states) & ~call.first[r];
    }
    call.first_number = number;
    call.second_number = number;
    if (chance_part(chance, 3, 4))
        return;
    unsigned at = chance_below(chance, number == 0 ? 1 : number);
    uint64_t beyond = call.states < 64 ? (uint64_t)1 << chance_from(chance, (unsigned)call.states, 63) : 0;
    if (chance_part(chance, 1, 2) && call.states < 64)
        beyond = (uint64_t)1 << call.states;
    switch (chance_below(chance, 8)) {
    case 0:
        call.states = chance_part(chance, 1, 2) ? 0 : SECOND_STATES + 1;
        break;
    case 1:
        call.states = SECOND_STATES + 1 + chance_below(chance, 1000);
        break;
    case 2:
        call.bit |= beyond;
        break;
    case 3:
        call.first[at] |= beyond;
        break;
    case 4:
        call.second[at] |= beyond;
        break;
    case 5:
        call.second[at] |= call.first[at] & any_mask(chance, call.states);
        break;
    case 6:
        call.first_number = number == 0 ? 1 : number - 1;
        break;
    case 7:
        call.first_number = TRIAL_LIST;
        call.second_number = TRIAL_LIST;
        break;
    }
}

static bool same_record(unsigned our_answer, unsigned their_answer)
{
    static struct adapter_view view;
    bool same = our_answer == their_answer;
    adapter_view(trial.states, &view);
    same = same && view.states == trial.states && view.requirements == trial.number;
    same = same && view.bit == trial.bit && view.moved == trial.moved;
    same = same && view.looks == second_trial_looks(&trial);
    for (unsigned state = 0; state < trial.states; state++) {
        int64_t gain = 0;
        second_trial_gain(&trial, state, &gain);
        same = same && view.gain[state] == gain;
    }
    if (same)
        return true;
    printf("DIFFERENCE in a trial record: the library answers %u and shows %llu looks, gains", their_answer,
           (unsigned long long)view.looks);
    for (unsigned state = 0; state < trial.states; state++)
        printf(" %lld", (long long)view.gain[state]);
    printf("\nthe second encoder answers %u and shows %llu looks, gains", our_answer,
           (unsigned long long)second_trial_looks(&trial));
    for (unsigned state = 0; state < trial.states; state++) {
        int64_t gain = 0;
        second_trial_gain(&trial, state, &gain);
        printf(" %lld", (long long)gain);
    }
    printf("\n");
    return false;
}

static void print_call(uint64_t seed, uint64_t number)
{
    printf("seed %llu, trial %llu: states %llu, bit %llx, lists of %llu and %llu:", (unsigned long long)seed,
           (unsigned long long)number, (unsigned long long)call.states, (unsigned long long)call.bit,
           (unsigned long long)call.first_number, (unsigned long long)call.second_number);
    for (size_t r = 0; r < call.first_number && r < call.second_number; r++)
        printf(" (%llx,%llx)", (unsigned long long)call.first[r], (unsigned long long)call.second[r]);
    printf("\n");
}

/* A state to move: most often one that is not moved yet, if there is one; now and then one that must be refused. */
static uint64_t draw_move(struct chance *chance)
{
    unsigned state = chance_below(chance, trial.states + 1);
    if (chance_part(chance, 1, 20))
        return chance_part(chance, 1, 2) ? chance_below(chance, 70) : 0xFFFFFFFF;
    if (chance_part(chance, 1, 6))
        return state;
    for (unsigned step = 0; step < trial.states; step++)
        if ((trial.moved >> (state + step) % trial.states & 1) == 0)
            return (state + step) % trial.states;
    return state;
}

/* A start and then moves, all states in a chance order or as far as it comes. */
static bool compare_trial(uint64_t seed, uint64_t number)
{
    struct chance chance = chance_of(seed ^ 0x7472, number);
    draw_call(&chance);
    unsigned ours_said = second_trial_start(call.states, call.bit, call.first, call.first_number, call.second,
                                            call.second_number, &trial);
    unsigned theirs_said = adapter_start(call.states, call.bit, call.first, call.first_number, call.second,
                                         call.second_number);
    trial_starts++;
    trial_refused_starts += ours_said != SECOND_FINE;
    if (!same_record(ours_said, theirs_said)) {
        print_call(seed, number);
        return false;
    }
    for (unsigned moves = chance_below(&chance, trial.states + 6); moves > 0; moves--) {
        uint64_t state = draw_move(&chance);
        ours_said = second_trial_move(&trial, state);
        theirs_said = adapter_move(state);
        trial_moves++;
        trial_refused_moves += ours_said != SECOND_FINE;
        if (!same_record(ours_said, theirs_said)) {
            printf("after a move of state %llu\n", (unsigned long long)state);
            print_call(seed, number);
            return false;
        }
    }
    return true;
}

/* ---- the run ---- */

static void print_tally(const struct tally *tally)
{
    printf("%-11s: %llu answered; refused", tally->name, (unsigned long long)tally->seen[0]);
    for (unsigned place = 1; place < OTHER; place++)
        printf(" %u:%llu", numbers[place], (unsigned long long)tally->seen[place]);
    printf("; time: second encoder %llu ms, library %llu ms\n", (unsigned long long)(tally->second_time / 1000000),
           (unsigned long long)(tally->library_time / 1000000));
}

static void print_kinds(void)
{
    printf("%-24s %8s %8s %8s  answers of all entries by number, 0 to 11, 13 and 17\n", "kind", "listings", "reports", "covers");
    for (unsigned kind = 0; kind < GENERATE_KINDS; kind++) {
        printf("%-24s %8llu %8llu %8llu ", generate_kind_name(kind), (unsigned long long)by_kind[kind].listings,
               (unsigned long long)by_kind[kind].reports, (unsigned long long)by_kind[kind].covers);
        for (unsigned place = 0; place < OTHER; place++)
            printf(" %llu", (unsigned long long)kind_seen[kind][place]);
        printf("\n");
    }
}

/* Whether an entry can be refused by this number: not by 8, which is unused, not by 11, which is the trial records', and not by
   those named here. */
static bool is_given(unsigned number, const char *never)
{
    if (number == 8 || number == 11)
        return false;
    for (const char *digit = never; *digit != 0; digit++)
        if (number == (unsigned)(*digit - '0'))
            return false;
    return true;
}

/* Every number that an entry can be refused by seen often enough, and no other seen at all. */
static bool numbers_enough(const struct tally *tally, const char *never)
{
    bool enough = tally->seen[OTHER] == 0;
    for (unsigned place = 1; place < OTHER; place++) {
        unsigned number = numbers[place];
        uint64_t seen = tally->seen[place];
        bool given = is_given(number, never);
        if (given ? seen >= (number > SECOND_BAD_CALL ? LATE_LEAST : SEEN_LEAST) : seen == 0)
            continue;
        printf("FAILED: %s was refused %u %llu times\n", tally->name, number, (unsigned long long)seen);
        enough = false;
    }
    return enough;
}

static bool read_count(const char *word, uint64_t *count)
{
    *count = 0;
    if (*word == 0)
        return false;
    for (; *word != 0; word++) {
        if (*word < '0' || *word > '9')
            return false;
        *count = *count * 10 + (uint64_t)(*word - '0');
    }
    return true;
}

int main(int words, char **word)
{
    uint64_t count = 0;
    uint64_t seed = 0;
    unsigned checks = 0;
    bool kinds = words == 4 && strcmp(word[3], "kinds") == 0;
    if ((words != 3 && !kinds) || !read_count(word[1], &count) || !read_count(word[2], &seed)) {
        printf("usage: differ LISTINGS SEED [kinds]\n");
        return 2;
    }

    if (known_run(&second_entries, &checks) != 0 || known_run(&library_entries, &checks) != 0) {
        printf("FAILED: known answers of 01\n");
        return 1;
    }
    printf("known answers of 01: %u checks passed\n", checks);

    uint64_t start = now();
    for (uint64_t number = 0; number < count; number++) {
        if (!compare_listing(seed, number)) {
            printf("FAILED\n");
            return 1;
        }
    }
    uint64_t took = now() - start;

    for (uint64_t number = 0; number < count / 4; number++) {
        if (!compare_trial(seed, number)) {
            printf("FAILED\n");
            return 1;
        }
    }
    printf("trial records: %llu starts (%llu refused), %llu moves (%llu refused), all alike\n",
           (unsigned long long)trial_starts, (unsigned long long)trial_refused_starts,
           (unsigned long long)trial_moves, (unsigned long long)trial_refused_moves);

    uint64_t reports = 0;
    uint64_t covers = 0;
    printf("by states (before damage):");
    for (unsigned class = 0; class < CLASSES; class++) {
        reports += by_class[class].reports;
        covers += by_class[class].covers;
        printf(" %s: %llu (%llu reports, %llu covers);", size_class[class].name,
               (unsigned long long)by_class[class].listings, (unsigned long long)by_class[class].reports,
               (unsigned long long)by_class[class].covers);
    }
    printf("\n");
    if (kinds)
        print_kinds();
    print_tally(&report_tally);
    print_tally(&cover_tally);
    print_tally(&widths_tally);
    print_tally(&report_part_tally);
    print_tally(&cover_part_tally);
    printf("parts: %llu calls with nothing left; %llu texts gathered in %llu steps\n", (unsigned long long)parts_at_end,
           (unsigned long long)texts_gathered, (unsigned long long)steps_gathered);
    seen_print();
    seen_moore_print();
    seen_flow_print();
    printf("%llu listings of seed %llu, half of them damaged, all alike; "
           "%llu have a report and %llu a cover, given room; %llu ms\n",
           (unsigned long long)count, (unsigned long long)seed, (unsigned long long)reports,
           (unsigned long long)covers, (unsigned long long)(took / 1000000));
    if (count >= FULL_RUN) {
        bool enough = numbers_enough(&report_tally, "9");
        enough = numbers_enough(&cover_tally, "") && enough;
        enough = numbers_enough(&widths_tally, "79") && enough;
        enough = numbers_enough(&report_part_tally, "9") && enough;
        enough = numbers_enough(&cover_part_tally, "") && enough;
        enough = parts_at_end >= SEEN_LEAST && texts_gathered >= SEEN_LEAST && enough;
        enough = trial_refused_starts >= SEEN_LEAST && trial_refused_moves >= SEEN_LEAST && enough;
        enough = seen_each() && enough;
        enough = seen_moore_each() && enough;
        enough = seen_flow_each() && enough;
        if (!enough)
            return 1;
    }
    return 0;
}
