/* The differential test of the fewest bits: the library against the second encoder, on the known answers and on small machines made by
   chance; any difference in an answer or in a byte of a buffer ends it. */
#include "compare.h"
#include "generate_least.h"
#include "known_least.h"
#include "seen_least.h"
#include "tsurmokan.h"

/* In a run of at least so many listings, each refusal number must be seen at least so often. */
#ifndef FULL_RUN
#define FULL_RUN 20000
#endif
#define SEEN_LEAST 50

static const struct least_entries second_entries = {"the second encoder", second_least, second_least_cover};
static const struct least_entries library_entries = {"the library", tsurmokan_least, tsurmokan_least_cover};

static struct compare_tally least_tally = {.name = "least"};
static struct compare_tally cover_tally = {.name = "least cover"};
static uint64_t by_kind[LEAST_KINDS], answered_by_kind[LEAST_KINDS], time_by_kind[LEAST_KINDS];

static struct generated listing;
static uint64_t longest, longest_number; /* the listing that took the library longest */

/* Every third listing is damaged. */
static bool compare_listing(uint64_t seed, uint64_t number)
{
    struct chance chance = chance_of(~seed, number);
    int64_t least, cover;
    generate_least(seed, number, number % 3 == 2, &listing);
    struct compare_given given = {{{listing.bytes, listing.length}}, generate_least_name(listing.kind)};
    uint64_t start = compare_now();
    bool same = compare_entry(&chance, &cover_tally, tsurmokan_least_cover, second_least_cover, &given, &cover);
    uint64_t before = least_tally.library_time;
    same = same && compare_entry(&chance, &least_tally, tsurmokan_least, second_least, &given, &least);
    if (!same) {
        printf("seed %llu, listing %llu\n", (unsigned long long)seed, (unsigned long long)number);
        return false;
    }
    if (least_tally.library_time - before > longest) {
        longest = least_tally.library_time - before;
        longest_number = number;
    }
    seen_least(listing.bytes, listing.length, least, cover, compare_ample);
    by_kind[listing.kind]++;
    answered_by_kind[listing.kind] += least >= 0;
    time_by_kind[listing.kind] += compare_now() - start;
    return true;
}

/* ---- the run ---- */

static void print_kinds(void)
{
    for (unsigned kind = 0; kind < LEAST_KINDS; kind++)
        printf("%-20s %8llu listings, %8llu answered, %8llu ms\n", generate_least_name(kind), (unsigned long long)by_kind[kind],
               (unsigned long long)answered_by_kind[kind], (unsigned long long)(time_by_kind[kind] / 1000000));
}

/* 1 to 6, 10, 13, 16 and 17 are given by each entry, and no other number. */
static bool numbers_enough(const struct compare_tally *tally)
{
    bool enough = true;
    for (unsigned number = 1; number <= COMPARE_NUMBERS; number++) {
        bool given = number <= 6 || number == 10 || number == 13 || number == 16 || number == 17;
        if (given ? tally->seen[number] >= SEEN_LEAST : tally->seen[number] == 0)
            continue;
        printf("FAILED: %s was refused %u %llu times\n", tally->name, number, (unsigned long long)tally->seen[number]);
        enough = false;
    }
    return enough;
}

static bool read_count(const char *word, uint64_t *count)
{
    *count = 0;
    for (const char *digit = word; *digit != 0; digit++) {
        if (*digit < '0' || *digit > '9')
            return false;
        *count = *count * 10 + (uint64_t)(*digit - '0');
    }
    return *word != 0;
}

static bool compare_known(void)
{
    unsigned checks = 0;
    bool good = known_least_run(&second_entries, &checks) == 0 && known_least_run(&library_entries, &checks) == 0;
    printf("known answers of the fewest bits: %u checks %s\n", checks, good ? "passed" : "made");
    return good;
}

static bool compare_all(uint64_t count, uint64_t seed)
{
    for (uint64_t number = 0; number < count; number++)
        if (!compare_listing(seed, number))
            return false;
    return true;
}

/* The library's time for the machines that take longest, as far as they are known, and for the one that did in this run. */
static void print_longest(void)
{
    static uint8_t out[SECOND_TEXT];
    for (unsigned at = 0; at < KNOWN_LEAST_LONG; at++) {
        const char *text = known_least_long[at].listing;
        uint64_t start = compare_now();
        tsurmokan_least((const uint8_t *)text, strlen(text), out, sizeof out);
        printf("%s: the library takes %llu us\n", known_least_long[at].name, (unsigned long long)((compare_now() - start) / 1000));
    }
    printf("longest by chance: listing %llu takes the library %llu us\n", (unsigned long long)longest_number,
           (unsigned long long)(longest / 1000));
}

int main(int words, char **word)
{
    uint64_t count = 0;
    uint64_t seed = 0;
    bool kinds = words == 4 && strcmp(word[3], "kinds") == 0;
    bool chance = words == 4 && strcmp(word[3], "chance") == 0; /* what the listings by chance find alone, without the known answers */
    if ((words != 3 && !kinds && !chance) || !read_count(word[1], &count) || !read_count(word[2], &seed)) {
        printf("usage: differ_least LISTINGS SEED [kinds|chance]\n");
        return 2;
    }
    uint64_t start = compare_now();
    if ((!chance && !compare_known()) || !compare_all(count, seed)) {
        printf("FAILED\n");
        return 1;
    }
    if (kinds)
        print_kinds();
    compare_print(&least_tally);
    compare_print(&cover_tally);
    seen_least_print();
    print_longest();
    printf("%llu small listings of seed %llu, a third of them damaged, all alike in the fewest bits; %llu ms\n", (unsigned long long)count,
           (unsigned long long)seed, (unsigned long long)((compare_now() - start) / 1000000));
    if (count < FULL_RUN)
        return 0;
    bool enough = numbers_enough(&least_tally);
    enough = numbers_enough(&cover_tally) && enough;
    return seen_least_each() && enough ? 0 : 1;
}
