/* The differential test of replay: the library against the second encoder, on the known answers and on runs made by chance; any difference
   in an answer or in a byte of a buffer ends it. */
#include "compare.h"
#include "generate_run.h"
#include "known_replay.h"
#include "seen_replay.h"
#include "tsurmokan.h"

/* In a run of at least so many runs, each common refusal number must be seen at least so often. */
#ifndef FULL_RUN
#define FULL_RUN 10000
#endif
#define SEEN_LEAST 40

/* No text is longer than tsurmokan.h says. */
_Static_assert(SECOND_REPLAY_TEXT <= TSURMOKAN_REPLAY_ROOM, "the room of a replay");
_Static_assert(RUN_BYTES <= COMPARE_GIVEN, "the room of a run");

static const struct replay_entries second_entries = {"the second encoder", second_replay, second_replay_part};
static const struct replay_entries library_entries = {"the library", tsurmokan_replay, tsurmokan_replay_part};

static struct compare_tally replay_tally = {.name = "replay"};
static struct compare_tally part_tally = {.name = "replay part"};
static uint64_t none_left, gathered;
static uint64_t by_kind[RUN_KINDS], steps_by_kind[RUN_KINDS], time_by_kind[RUN_KINDS];

static struct run_text run;

/* ---- the entries as the comparison wants them: the run and the place stand here ---- */

static size_t part_from;
static uint8_t whole[SECOND_REPLAY_TEXT]; /* the second encoder's whole answer, of which each part is one */
static int64_t whole_answer;

static int64_t library_replay(const uint8_t *listing, size_t length, uint8_t *out, size_t out_length)
{
    return tsurmokan_replay(listing, length, run.bytes, run.length, out, out_length);
}

static int64_t our_replay(const uint8_t *listing, size_t length, uint8_t *out, size_t out_length)
{
    return second_replay(listing, length, run.bytes, run.length, out, out_length);
}

static int64_t library_part(const uint8_t *listing, size_t length, uint8_t *out, size_t out_length)
{
    return tsurmokan_replay_part(listing, length, run.bytes, run.length, part_from, out, out_length);
}

/* The second encoder replays once for all parts. */
static int64_t our_part(const uint8_t *listing, size_t length, uint8_t *out, size_t out_length)
{
    (void)listing;
    (void)length;
    return whole_answer < 0 ? whole_answer : second_part(whole, (size_t)whole_answer, part_from, out, out_length);
}

/* ---- one run ---- */

/* From any place of the text or behind it, often where a line begins; with any room, often about that of a line or some. */
static void draw_part(struct chance *chance, size_t *room)
{
    size_t length = whole_answer < 0 ? 0 : (size_t)whole_answer;
    part_from = length == 0 || chance_part(chance, 1, 4) ? 0 : chance_below(chance, (unsigned)length);
    if (chance_part(chance, 1, 2))
        while (part_from > 0 && whole[part_from - 1] != '\n')
            part_from--;
    if (chance_part(chance, 1, 10))
        part_from = length + chance_below(chance, 3);
    if (chance_part(chance, 1, 40))
        part_from = SIZE_MAX - chance_below(chance, 3);
    *room = chance_below(chance, chance_part(chance, 1, 2) ? 24 : 400);
    if (chance_part(chance, 1, 4) && part_from < length)
        *room = length - part_from + chance_below(chance, 2);
    if (chance_part(chance, 1, 20))
        *room = TSURMOKAN_REPLAY_LINE;
}

static bool compare_part(struct chance *chance, const struct compare_given *given, size_t room, int64_t *answer)
{
    bool same = compare_lent(chance, &part_tally, library_part, our_part, given, room, answer);
    if (!same)
        printf("from %llu\n", (unsigned long long)part_from);
    none_left += *answer == 0;
    return same;
}

/* The parts from the start to the end: each goes on where the one before ended. */
static bool gather(struct chance *chance, const struct compare_given *given)
{
    size_t room = TSURMOKAN_REPLAY_LINE + (size_t)whole_answer / chance_from(chance, 1, 6);
    int64_t answer;
    part_from = 0;
    do {
        if (!compare_part(chance, given, room, &answer))
            return false;
        if (answer < 0) {
            printf("DIFFERENCE: a part is refused though the longest line has room\n");
            return false;
        }
        part_from += (size_t)answer;
    } while (answer > 0);
    gathered++;
    return part_from == (size_t)whole_answer;
}

/* A long run takes the library long, so it has one part. */
static bool compare_parts(struct chance *chance, const struct compare_given *given)
{
    unsigned parts = whole_answer > 20000 ? 1 : 3;
    for (unsigned at = 0; at < parts; at++) {
        size_t room;
        int64_t answer;
        draw_part(chance, &room);
        if (!compare_part(chance, given, room, &answer))
            return false;
    }
    return whole_answer < 0 || !chance_part(chance, 1, 8) || gather(chance, given);
}

static bool compare_run(uint64_t seed, uint64_t number)
{
    struct chance chance = chance_of(~seed, number);
    uint64_t start = compare_now();
    run_generate(seed, number, &run);
    struct compare_given given = {{{run.listing.bytes, run.listing.length}, {run.bytes, run.length}}, run_kind_name(run.kind)};
    bool same = compare_entry(&chance, &replay_tally, library_replay, our_replay, &given, &whole_answer);
    if (same && whole_answer > 0)
        memcpy(whole, compare_ample, (size_t)whole_answer);
    if (!same || !compare_parts(&chance, &given)) {
        printf("seed %llu, run %llu\n", (unsigned long long)seed, (unsigned long long)number);
        return false;
    }
    by_kind[run.kind]++;
    steps_by_kind[run.kind] += seen_replay(run.listing.bytes, run.listing.length, run.bytes, run.length, whole_answer, whole);
    time_by_kind[run.kind] += compare_now() - start;
    return true;
}

/* ---- the run ---- */

static void print_kinds(void)
{
    for (unsigned kind = 0; kind < RUN_KINDS; kind++)
        printf("%-20s %8llu runs, %8llu steps, %8llu ms\n", run_kind_name((enum run_kind)kind), (unsigned long long)by_kind[kind],
               (unsigned long long)steps_by_kind[kind], (unsigned long long)(time_by_kind[kind] / 1000000));
}

/* 1 to 7, 9, 10, 13 and 17 are given by each entry, and no other number: 1, 2 and 14 of the run stand in the text. The listings of 4, 5, 7,
   13 and 17 are drawn seldom, as differ has many of them. */
static bool numbers_enough(const struct compare_tally *tally)
{
    bool enough = true;
    for (unsigned number = 1; number <= COMPARE_NUMBERS; number++) {
        bool given = number <= 7 || number == 9 || number == 10 || number == 13 || number == 17;
        unsigned least = number <= 3 || number == 6 || number == 9 || number == 10 ? SEEN_LEAST : 2;
        if (given ? tally->seen[number] >= least : tally->seen[number] == 0)
            continue;
        printf("FAILED: %s was refused %u %llu times\n", tally->name, number, (unsigned long long)tally->seen[number]);
        enough = false;
    }
    return enough;
}

static bool parts_enough(void)
{
    if (none_left >= 100 && gathered >= 100)
        return true;
    printf("FAILED: %llu parts had nothing left, %llu texts were gathered\n", (unsigned long long)none_left, (unsigned long long)gathered);
    return false;
}

static bool read_count(const char *word, uint64_t *count)
{
    *count = 0;
    for (const char *digit = word; *digit != 0; digit++) {
        if (*digit < '0' || *digit > '9')
            return false;
        *count = *count * 10 + (uint64_t)(*digit - '0');
    }
    return *word != 0;
}

static bool compare_known(void)
{
    unsigned checks = 0;
    bool good = known_replay_run(&second_entries, &checks) == 0 && known_replay_run(&library_entries, &checks) == 0;
    printf("known answers of recorded runs: %u checks %s\n", checks, good ? "passed" : "made");
    return good;
}

static bool compare_all(uint64_t count, uint64_t seed)
{
    for (uint64_t number = 0; number < count; number++)
        if (!compare_run(seed, number))
            return false;
    return true;
}

int main(int words, char **word)
{
    uint64_t count = 0;
    uint64_t seed = 0;
    bool kinds = words == 4 && strcmp(word[3], "kinds") == 0;
    bool chance = words == 4 && strcmp(word[3], "chance") == 0; /* what these runs find alone, without the known answers */
    if ((words != 3 && !kinds && !chance) || !read_count(word[1], &count) || !read_count(word[2], &seed)) {
        printf("usage: differ_replay RUNS SEED [kinds|chance]\n");
        return 2;
    }
    uint64_t start = compare_now();
    if ((!chance && !compare_known()) || !compare_all(count, seed)) {
        printf("FAILED\n");
        return 1;
    }
    if (kinds)
        print_kinds();
    compare_print(&replay_tally);
    compare_print(&part_tally);
    seen_replay_print();
    printf("%llu recorded runs of seed %llu all alike; %llu parts had nothing left, %llu texts gathered by parts; %llu ms\n",
           (unsigned long long)count, (unsigned long long)seed, (unsigned long long)none_left, (unsigned long long)gathered,
           (unsigned long long)((compare_now() - start) / 1000000));
    if (count < FULL_RUN)
        return 0;
    bool enough = numbers_enough(&replay_tally);
    enough = numbers_enough(&part_tally) && enough;
    enough = parts_enough() && enough;
    return seen_replay_each() && enough ? 0 : 1;
}
