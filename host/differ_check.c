/* The differential test of codes and covers from elsewhere: the library against the second encoder, on the known answers and on checks made
   by chance; any difference in an answer or in a byte of a buffer ends it. */
#include "compare.h"
#include "generate_check.h"
#include "known_check.h"
#include "seen_check.h"
#include "tsurmokan.h"

/* In a run of at least so many checks, each refusal number and each answer must be seen at least so often. */
#ifndef FULL_RUN
#define FULL_RUN 20000
#endif
#define SEEN_LEAST 50
#define SEEN_LEAST_ANSWER 1000

static struct compare_tally tally = {.name = "check"};
static uint64_t by_kind[CHECK_KINDS], ok_by_kind[CHECK_KINDS];
static uint64_t answers[3]; /* `OK`, `UN`, `AT` */

static struct generated_check check;

/* The entries as the comparison wants them: the codes and the cover stand above. */
static int64_t library_check(const uint8_t *listing, size_t length, uint8_t *out, size_t out_length)
{
    return tsurmokan_check(listing, length, check.codes.bytes, check.codes.length, check.cover.bytes, check.cover.length, out, out_length);
}

static int64_t our_check(const uint8_t *listing, size_t length, uint8_t *out, size_t out_length)
{
    return second_check(listing, length, check.codes.bytes, check.codes.length, check.cover.bytes, check.cover.length, out, out_length);
}

/* Every second check is spoilt. */
static bool compare_check(uint64_t seed, uint64_t number)
{
    struct chance chance = chance_of(~seed, number);
    int64_t answer;
    generate_check(seed, number, number % 2 == 1, &check);
    struct compare_given given = {{{check.listing.bytes, check.listing.length},
                                   {check.codes.bytes, check.codes.length},
                                   {check.cover.bytes, check.cover.length}},
                                  check_kind_name(check.kind)};
    if (!compare_entry(&chance, &tally, library_check, our_check, &given, &answer)) {
        printf("seed %llu, check %llu\n", (unsigned long long)seed, (unsigned long long)number);
        return false;
    }
    seen_check(&check, answer, compare_ample);
    by_kind[check.kind]++;
    ok_by_kind[check.kind] += answer == 3;
    if (answer > 0)
        answers[compare_ample[0] == 'O' ? 0 : compare_ample[0] == 'U' ? 1 : 2]++;
    return true;
}

static void print_kinds(void)
{
    for (unsigned kind = 0; kind < CHECK_KINDS; kind++)
        printf("%-24s %8llu checks, %8llu OK\n", check_kind_name(kind), (unsigned long long)by_kind[kind],
               (unsigned long long)ok_by_kind[kind]);
}

/* 1, 2, 3, 10 and 15 often; the listing's own others now and then; 7 and 9 never, nor those of other entries. */
static bool numbers_enough(void)
{
    bool enough = true;
    for (unsigned number = 1; number <= COMPARE_NUMBERS; number++) {
        bool often = number == 1 || number == 2 || number == 3 || number == 10 || number == 15;
        bool never = number >= 7 && number != 10 && number != 13 && number != 15 && number != 17;
        if (never ? tally.seen[number] == 0 : tally.seen[number] >= (often ? SEEN_LEAST : 1))
            continue;
        printf("FAILED: check was refused %u %llu times\n", number, (unsigned long long)tally.seen[number]);
        enough = false;
    }
    for (unsigned answer = 0; answer < LENGTH_OF(answers); answer++) {
        if (answers[answer] >= SEEN_LEAST_ANSWER)
            continue;
        printf("FAILED: only %llu checks were answered %s\n", (unsigned long long)answers[answer], answer == 0 ? "OK" : answer == 1 ? "UN" : "AT");
        enough = false;
    }
    return enough;
}

static bool read_count(const char *word, uint64_t *count)
{
    *count = 0;
    for (const char *digit = word; *digit != 0; digit++) {
        if (*digit < '0' || *digit > '9')
            return false;
        *count = *count * 10 + (uint64_t)(*digit - '0');
    }
    return *word != 0;
}

static bool compare_known(void)
{
    unsigned checks = 0;
    bool good = known_check_run("the second encoder", second_check, &checks) == 0 && known_check_run("the library", tsurmokan_check, &checks) == 0;
    printf("known answers of codes and covers from elsewhere: %u checks %s\n", checks, good ? "passed" : "made");
    return good;
}

static bool compare_all(uint64_t count, uint64_t seed)
{
    for (uint64_t number = 0; number < count; number++)
        if (!compare_check(seed, number))
            return false;
    return true;
}

int main(int words, char **word)
{
    uint64_t count = 0;
    uint64_t seed = 0;
    bool kinds = words == 4 && strcmp(word[3], "kinds") == 0;
    bool chance = words == 4 && strcmp(word[3], "chance") == 0; /* what these checks find alone, without the known answers */
    if ((words != 3 && !kinds && !chance) || !read_count(word[1], &count) || !read_count(word[2], &seed)) {
        printf("usage: differ_check CHECKS SEED [kinds|chance]\n");
        return 2;
    }
    uint64_t start = compare_now();
    if ((!chance && !compare_known()) || !compare_all(count, seed)) {
        printf("FAILED\n");
        return 1;
    }
    if (kinds)
        print_kinds();
    compare_print(&tally);
    seen_check_print();
    printf("%llu checks of seed %llu, half of them spoilt, all alike; %llu OK, %llu UN, %llu AT; %llu ms\n", (unsigned long long)count,
           (unsigned long long)seed, (unsigned long long)answers[0], (unsigned long long)answers[1], (unsigned long long)answers[2],
           (unsigned long long)((compare_now() - start) / 1000000));
    if (count < FULL_RUN)
        return 0;
    bool enough = numbers_enough();
    return seen_check_each() && enough ? 0 : 1;
}
