/* The differential test of KISS2: the library against the second encoder, on the known answers and on texts made by chance; any
   difference in an answer or in a byte of a buffer ends it. */
#include "compare.h"
#include "generate_kiss.h"
#include "known_kiss.h"
#include "seen_kiss.h"
#include "tsurmokan.h"

/* In a run of at least so many texts, each refusal number must be seen at least so often. */
#ifndef FULL_RUN
#define FULL_RUN 20000
#endif
#define SEEN_LEAST 100

static const struct kiss_entries second_entries = {"the second encoder", second_kiss_report, second_kiss_cover,
                                                   second_kiss_listing, second_kiss_names};
static const struct kiss_entries library_entries = {"the library", tsurmokan_kiss_report, tsurmokan_kiss_cover,
                                                    tsurmokan_kiss_listing, tsurmokan_kiss_names};

static struct compare_tally report_tally = {.name = "report"};
static struct compare_tally cover_tally = {.name = "cover"};
static struct compare_tally listing_tally = {.name = "listing"};
static struct compare_tally names_tally = {.name = "names"};
static uint64_t listings_held;

static uint64_t by_kind[KISS_KINDS], read_by_kind[KISS_KINDS];

static struct kiss_text text;
static uint8_t listing[SECOND_TEXT], answer_kept[SECOND_TEXT], answer_other[SECOND_TEXT];

/* The listing that is printed, read as a listing, gives what the text gives; where the text is refused 7, so is the listing. */
static bool holds(entry *plain, const char *name, size_t length, int64_t answer)
{
    int64_t other = plain(listing, length, answer_other, sizeof answer_other);
    if (other == answer && (answer < 0 || memcmp(answer_other, answer_kept, (size_t)answer) == 0))
        return true;
    printf("DIFFERENCE: the listing that is printed has another %s: %lld, not %lld\n", name, (long long)other, (long long)answer);
    return false;
}

/* The second encoder is slow above 32 states, so that of those one in eight is held to this. */
static bool compare_listing(struct chance *chance, const struct compare_given *given, int64_t *answer)
{
    int64_t kiss;
    if (!compare_entry(chance, &listing_tally, tsurmokan_kiss_listing, second_kiss_listing, given, answer))
        return false;
    if (*answer < 0 || (text.states > 32 && !chance_part(chance, 1, 8)))
        return true;
    listings_held++;
    memcpy(listing, compare_ample, (size_t)*answer);
    kiss = tsurmokan_kiss_report(text.bytes, text.length, answer_kept, sizeof answer_kept);
    if (!holds(second_report, "report", (size_t)*answer, kiss))
        return false;
    kiss = tsurmokan_kiss_cover(text.bytes, text.length, answer_kept, sizeof answer_kept);
    return holds(second_cover, "cover", (size_t)*answer, kiss);
}

/* No text is longer than tsurmokan.h says. */
static bool has_room(int64_t report, int64_t listed, int64_t named)
{
    if (report <= TSURMOKAN_ROOM && listed <= TSURMOKAN_KISS_LISTING_ROOM && named <= TSURMOKAN_KISS_NAMES_ROOM)
        return true;
    printf("DIFFERENCE: a text is longer than tsurmokan.h says\n");
    return false;
}

/* Every second text is damaged. */
static bool compare_text(uint64_t seed, uint64_t number)
{
    struct chance chance = chance_of(~seed, number);
    int64_t report, cover, listed, named;
    kiss_generate(seed, number, number % 2 == 1, &text);
    struct compare_given given = {{{text.bytes, text.length}}, kiss_kind_name(text.kind)};
    bool same = compare_entry(&chance, &report_tally, tsurmokan_kiss_report, second_kiss_report, &given, &report) &&
                compare_entry(&chance, &cover_tally, tsurmokan_kiss_cover, second_kiss_cover, &given, &cover) &&
                compare_entry(&chance, &names_tally, tsurmokan_kiss_names, second_kiss_names, &given, &named) &&
                compare_listing(&chance, &given, &listed) && has_room(report, listed, named);
    if (!same) {
        printf("seed %llu, text %llu\n", (unsigned long long)seed, (unsigned long long)number);
        return false;
    }
    seen_kiss(text.bytes, text.length, listed);
    by_kind[text.kind]++;
    read_by_kind[text.kind] += listed >= 0;
    return true;
}

static void print_kinds(void)
{
    for (unsigned kind = 0; kind < KISS_KINDS; kind++)
        printf("%-20s %8llu texts, %8llu read\n", kiss_kind_name(kind), (unsigned long long)by_kind[kind],
               (unsigned long long)read_by_kind[kind]);
}

/* 1, 2, 3, 6, 10 and 12 are given by each entry; 7 perhaps by those that encode, though none is known; no other. */
static bool numbers_enough(const struct compare_tally *tally, bool encodes)
{
    bool enough = true;
    for (unsigned number = 1; number <= COMPARE_NUMBERS; number++) {
        bool given = number == 1 || number == 2 || number == 3 || number == 6 || number == 10 || number == 12;
        if (given ? tally->seen[number] >= SEEN_LEAST : tally->seen[number] == 0 || (number == 7 && encodes))
            continue;
        printf("FAILED: %s was refused %u %llu times\n", tally->name, number, (unsigned long long)tally->seen[number]);
        enough = false;
    }
    return enough;
}

static bool read_count(const char *word, uint64_t *count)
{
    *count = 0;
    for (const char *digit = word; *digit != 0; digit++) {
        if (*digit < '0' || *digit > '9')
            return false;
        *count = *count * 10 + (uint64_t)(*digit - '0');
    }
    return *word != 0;
}

static bool compare_known(void)
{
    unsigned checks = 0;
    bool good = known_kiss_run(&second_entries, &checks) == 0 && known_kiss_run(&library_entries, &checks) == 0;
    printf("known answers of KISS2 texts: %u checks %s\n", checks, good ? "passed" : "made");
    return good;
}

static bool compare_all(uint64_t count, uint64_t seed)
{
    for (uint64_t number = 0; number < count; number++)
        if (!compare_text(seed, number))
            return false;
    return true;
}

int main(int words, char **word)
{
    uint64_t count = 0;
    uint64_t seed = 0;
    bool kinds = words == 4 && strcmp(word[3], "kinds") == 0;
    bool chance = words == 4 && strcmp(word[3], "chance") == 0; /* what these texts find alone, without the known answers */
    if ((words != 3 && !kinds && !chance) || !read_count(word[1], &count) || !read_count(word[2], &seed)) {
        printf("usage: differ_kiss TEXTS SEED [kinds|chance]\n");
        return 2;
    }
    uint64_t start = compare_now();
    if ((!chance && !compare_known()) || !compare_all(count, seed)) {
        printf("FAILED\n");
        return 1;
    }
    if (kinds)
        print_kinds();
    compare_print(&report_tally);
    compare_print(&cover_tally);
    compare_print(&listing_tally);
    compare_print(&names_tally);
    seen_kiss_print();
    printf("%llu KISS2 texts of seed %llu, half of them damaged, all alike; "
           "%llu listings give their texts' report and cover; %llu ms\n",
           (unsigned long long)count, (unsigned long long)seed, (unsigned long long)listings_held,
           (unsigned long long)((compare_now() - start) / 1000000));
    if (count < FULL_RUN)
        return 0;
    bool enough = numbers_enough(&report_tally, true);
    enough = numbers_enough(&cover_tally, true) && enough;
    enough = numbers_enough(&listing_tally, false) && enough;
    enough = numbers_enough(&names_tally, false) && enough;
    return seen_kiss_each() && enough ? 0 : 1;
}
