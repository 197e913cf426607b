/* How much stack each entry takes, by painting, on machines of every family, good and damaged, with a buffer of each sort that makes it go another way; fails where
   one takes more than it is allowed. */
#include "generate.h"
#include "generate_check.h"
#include "generate_kiss.h"
#include "generate_least.h"
#include "second.h"
#include "stack_depth.h"
#include "tsurmokan.h"

#define SEED 1
#define MOST 40960u       /* what was asked of a call on a listing, in 02's request 09 */
#define MOST_OTHER 98304u /* a KISS2 text's entries, and those of a recorded run and of a check, of which nothing was asked: so much that growth is seen */

/* What a machine is drawn as. */
enum drawn { DRAWN_LISTING, DRAWN_SMALL, DRAWN_KISS, DRAWN_CHECK };

static uint8_t out[SECOND_TEXT];

/* Part of a report and of a cover. */
static int64_t report_part(const uint8_t *listing, size_t listing_length, uint8_t *part, size_t part_length)
{
    return tsurmokan_report_part(listing, listing_length, 100, part, part_length);
}

static int64_t cover_part(const uint8_t *listing, size_t listing_length, uint8_t *part, size_t part_length)
{
    return tsurmokan_cover_part(listing, listing_length, 100, part, part_length);
}

/* A replay, and a part of one: a run of one step. */
static const uint8_t run[] = "SS 0\nIN 0\n";

static int64_t replay(const uint8_t *listing, size_t listing_length, uint8_t *text, size_t text_length)
{
    return tsurmokan_replay(listing, listing_length, run, sizeof run - 1, text, text_length);
}

static int64_t replay_part(const uint8_t *listing, size_t listing_length, uint8_t *text, size_t text_length)
{
    return tsurmokan_replay_part(listing, listing_length, run, sizeof run - 1, 0, text, text_length);
}

/* The check of the codes and the cover that are drawn with a listing. */
static struct generated_check checked;

static int64_t check(const uint8_t *listing, size_t listing_length, uint8_t *text, size_t text_length)
{
    return tsurmokan_check(listing, listing_length, checked.codes.bytes, checked.codes.length, checked.cover.bytes, checked.cover.length, text,
                           text_length);
}

static const struct entry {
    const char *name;
    encoder *call;
    enum drawn drawn;
    size_t most;
} entries[] = {
    {"tsurmokan_report", tsurmokan_report, DRAWN_LISTING, MOST},
    {"tsurmokan_cover", tsurmokan_cover, DRAWN_LISTING, MOST},
    {"tsurmokan_report_part", report_part, DRAWN_LISTING, MOST},
    {"tsurmokan_cover_part", cover_part, DRAWN_LISTING, MOST},
    {"tsurmokan_widths", tsurmokan_widths, DRAWN_LISTING, MOST},
    {"tsurmokan_least", tsurmokan_least, DRAWN_SMALL, MOST},
    {"tsurmokan_least_cover", tsurmokan_least_cover, DRAWN_SMALL, MOST},
    {"tsurmokan_kiss_report", tsurmokan_kiss_report, DRAWN_KISS, MOST_OTHER},
    {"tsurmokan_kiss_cover", tsurmokan_kiss_cover, DRAWN_KISS, MOST_OTHER},
    {"tsurmokan_kiss_listing", tsurmokan_kiss_listing, DRAWN_KISS, MOST_OTHER},
    {"tsurmokan_kiss_names", tsurmokan_kiss_names, DRAWN_KISS, MOST_OTHER},
    {"tsurmokan_replay", replay, DRAWN_LISTING, MOST_OTHER},
    {"tsurmokan_replay_part", replay_part, DRAWN_LISTING, MOST_OTHER},
    {"tsurmokan_check", check, DRAWN_CHECK, MOST_OTHER},
};

/* How many machines of a sort there are: one of each family, and as many damaged ones; for checks as many of the machines that they have. */
static unsigned machines_of(enum drawn drawn)
{
    switch (drawn) {
    case DRAWN_SMALL:
        return 2 * LEAST_FAMILIES;
    case DRAWN_KISS:
        return 2 * KISS_FAMILIES;
    default:
        return 2 * GENERATE_FAMILIES;
    }
}

/* What is lent: room for any text; room that may be too little, so that a text is measured before it is written; and none. */
static const size_t rooms[] = {sizeof out, 60000, 0};

/* The stack of the call that takes most on these bytes. */
static size_t depth_of(const struct entry *entry, const uint8_t *bytes, size_t length)
{
    size_t most = 0;
    for (unsigned at = 0; at < LENGTH_OF(rooms); at++) {
        size_t depth = stack_depth(entry->call, bytes, length, out, rooms[at]);
        if (depth > most)
            most = depth;
    }
    return most;
}

/* The same on the machine of this number. */
static size_t depth_on(const struct entry *entry, unsigned number)
{
    static struct generated listing;
    static struct kiss_text text;
    struct chance chance = chance_of(SEED, number);
    switch (entry->drawn) {
    case DRAWN_SMALL:
        if (number < LEAST_FAMILIES)
            generate_least_good(&chance, (enum generate_least_family)number, &listing);
        else
            generate_least(SEED, number, true, &listing);
        break;
    case DRAWN_KISS:
        if (number < KISS_FAMILIES)
            kiss_good(&chance, (enum kiss_family)number, &text);
        else
            kiss_generate(SEED, number, true, &text);
        return depth_of(entry, text.bytes, text.length);
    case DRAWN_CHECK:
        generate_check(SEED, number, number % 2 == 1, &checked);
        return depth_of(entry, checked.listing.bytes, checked.listing.length);
    default:
        if (number < GENERATE_FAMILIES)
            generate_good(&chance, (enum generate_family)number, &listing);
        else
            generate_listing(SEED, number, true, &listing);
    }
    return depth_of(entry, listing.bytes, listing.length);
}

int main(void)
{
    bool over = false;
    for (unsigned at = 0; at < LENGTH_OF(entries); at++) {
        size_t most = 0;
        for (unsigned number = 0; number < machines_of(entries[at].drawn); number++) {
            size_t depth = depth_on(&entries[at], number);
            if (depth > most)
                most = depth;
        }
        printf("stack %s %lu of %lu\n", entries[at].name, most, entries[at].most);
        over = over || most > entries[at].most;
    }
    printf("stacks: %u entries, %s\n", (unsigned)LENGTH_OF(entries), over ? "one of them above what it is allowed" : "none above what it is allowed");
    return over ? 1 : 0;
}
