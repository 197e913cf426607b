/* The benchmark: the library, the native encoder and the second encoder on the same listings, in one process, in turns; then recorded
   runs, and the library's checks. */
#include "bench_check.h"
#include "bench_listings.h"
#include "bench_replay.h"
#include "generate.h"
#include "tsurmokan.h"
#include "native.h"
#include "second.h"
#include "stack_depth.h"

#define SEED 1
#define CHECKS 6000 /* listings on which the native encoder is compared with the second one, every other one damaged */
#define ROUNDS 11
#define LEAST_NS 5000000.0         /* the least time of one encoder in one round */
#define PATIENCE_NS 1000000000.0   /* the second encoder is left out of further rounds after this time on a listing */
#define ENCODERS 3

static encoder *const encoders[ENCODERS] = {tsurmokan_report, native_report, second_report};

static uint8_t out[ENCODERS][SECOND_TEXT];

static double now_ns(void)
{
    struct timespec now;
    clock_gettime(1, &now);
    return (double)now.tv_sec * 1e9 + (double)now.tv_nsec;
}

/* Whether two encoders give the same answer and the same bytes, lent so much room. */
static bool agree(encoder *one, encoder *other, const uint8_t *listing, size_t length, size_t room)
{
    memset(out[0], 'x', room);
    memset(out[1], 'x', room);
    return one(listing, length, out[0], room) == other(listing, length, out[1], room) && memcmp(out[0], out[1], room) == 0;
}

static void fail(const char *what, unsigned number, const uint8_t *listing, size_t length)
{
    printf("bench: %s, listing %u:\n%.*s\n", what, number, (int)length, (const char *)listing);
    exit(1);
}

/* The native encoder against the second one on listings of every kind, with room and with a byte too few. */
static void check_native(void)
{
    static struct generated listing;
    for (unsigned number = 0; number < CHECKS; number++) {
        generate_listing(SEED, number, number % 2 == 1, &listing);
        if (!agree(native_report, second_report, listing.bytes, listing.length, SECOND_TEXT))
            fail("the native encoder differs from the second one", number, listing.bytes, listing.length);
        int64_t length = native_report(listing.bytes, listing.length, out[0], SECOND_TEXT);
        if (length > 0 && native_report(listing.bytes, listing.length, out[0], (size_t)length - 1) != -1000000)
            fail("the native encoder takes a room too short", number, listing.bytes, listing.length);
        if (length > 0 && native_report(listing.bytes, listing.length, out[0], (size_t)length) != length)
            fail("the native encoder refuses a room that is enough", number, listing.bytes, listing.length);
    }
    printf("checked %u\n", CHECKS);
}

/* The work that a listing demands. */
struct work {
    uint64_t asked;
    uint64_t members; /* p: the members of all requirements */
    uint64_t demand;  /* the members of the live requirements, summed over all passes */
    uint64_t bits;
    uint64_t passes;
    uint64_t looks;
};

static uint64_t live_members(const struct native_code *code)
{
    uint64_t sum = 0;
    for (unsigned at = 0; at < code->live; at++)
        sum += (unsigned)__builtin_popcountll(code->card[code->unmet[at]].all);
    return sum;
}

/* The members of all requirements. */
static uint64_t members_of(const struct bench_listing *listing)
{
    static struct second_machine machine;
    static struct second_requirements all;
    uint64_t sum = 0;
    second_read_lines(listing->bytes, listing->length, &machine);
    second_draw_up(&machine, &all);
    for (unsigned at = 0; at < all.number; at++)
        sum += second_size(all.list[at].first | all.list[at].second);
    return sum;
}

/* Codes of one bit, of two bits and so on tell the passes of each bit and what was live before it. */
static struct work work_of(const struct bench_listing *listing)
{
    static struct native_machine machine;
    static struct native_code code;
    struct work work = {0};
    uint64_t live;
    work.members = live = members_of(listing);
    native_read(listing->bytes, listing->length, &machine);
    for (machine.width = 1; machine.width <= NATIVE_STATES; machine.width++) {
        native_encode(&machine, &code);
        work.demand += live * (code.passes - work.passes);
        work.passes = code.passes;
        live = live_members(&code);
    }
    work.asked = code.asked;
    work.bits = code.bits;
    work.looks = code.looks;
    return work;
}

/* Numbers in order, the median, the least and the greatest. */
struct spread {
    double median;
    double least;
    double greatest;
};

static struct spread spread_of(const double *given, unsigned number)
{
    double list[ROUNDS];
    for (unsigned at = 0; at < number; at++) {
        unsigned to = at;
        for (; to > 0 && list[to - 1] > given[at]; to--)
            list[to] = list[to - 1];
        list[to] = given[at];
    }
    struct spread spread = {(list[(number - 1) / 2] + list[number / 2]) / 2, list[0], list[number - 1]};
    return spread;
}

static double time_of(encoder *call, const struct bench_listing *listing, unsigned times)
{
    double start = now_ns();
    for (unsigned time = 0; time < times; time++)
        call(listing->bytes, listing->length, out[0], SECOND_TEXT);
    return (now_ns() - start) / times;
}

/* What a listing took: nanoseconds of a call by encoder and round. The second encoder may have had fewer rounds. */
struct timing {
    double ns[ENCODERS][ROUNDS];
    unsigned second_rounds;
};

/* In each round each encoder has its turn, often enough to last LEAST_NS. A first call, not counted, tells how often. */
static void time_all(const struct bench_listing *listing, struct timing *timing)
{
    unsigned times[ENCODERS];
    double patience = PATIENCE_NS;
    for (unsigned which = 0; which < ENCODERS; which++)
        times[which] = 1 + (unsigned)(LEAST_NS / time_of(encoders[which], listing, 1));
    timing->second_rounds = 0;
    for (unsigned round = 0; round < ROUNDS; round++) {
        for (unsigned which = 0; which < 2; which++)
            timing->ns[which][round] = time_of(encoders[which], listing, times[which]);
        if (patience <= 0)
            continue;
        timing->ns[2][round] = time_of(encoders[2], listing, times[2]);
        patience -= timing->ns[2][round] * times[2];
        timing->second_rounds++;
    }
}

static void print_spread(struct spread spread)
{
    printf(" %.3f %.3f %.3f", spread.median, spread.least, spread.greatest);
}

/* The median times, and the ratios round by round. */
static void print_timing(const struct timing *timing)
{
    double by_native[ROUNDS];
    double by_second[ROUNDS];
    for (unsigned round = 0; round < ROUNDS; round++) {
        by_native[round] = timing->ns[0][round] / timing->ns[1][round];
        by_second[round] = round < timing->second_rounds ? timing->ns[0][round] / timing->ns[2][round] : 0;
    }
    for (unsigned which = 0; which < ENCODERS; which++)
        printf(" %.3f", spread_of(timing->ns[which], which < 2 ? ROUNDS : timing->second_rounds).median / 1000);
    print_spread(spread_of(by_native, ROUNDS));
    print_spread(spread_of(by_second, timing->second_rounds));
    printf(" %u\n", timing->second_rounds);
}

static void print_plan(const struct bench_plan *plan)
{
    static const char *const groups[] = {"random", "pairs", "halves"};
    printf(" %s %u %u %u", groups[plan->groups], plan->states, plan->rows, plan->dichotomies);
}

static void print_row(unsigned at)
{
    static struct bench_listing listing;
    static struct timing timing;
    const struct bench_plan *plan = &bench_plans[at];
    bench_draw(SEED, at, &listing);
    if (!agree(tsurmokan_report, second_report, listing.bytes, listing.length, SECOND_TEXT))
        fail("the library differs from the second encoder", at, listing.bytes, listing.length);
    if (!agree(native_report, tsurmokan_report, listing.bytes, listing.length, SECOND_TEXT))
        fail("the native encoder differs from the library", at, listing.bytes, listing.length);
    struct work work = work_of(&listing);
    time_all(&listing, &timing);
    printf("row");
    print_plan(plan);
    printf(" %lu %lu %lu", work.asked, work.members, work.demand);
    printf(" %lu %lu %lu", work.bits, work.passes, work.looks);
    print_timing(&timing);
}

/* The first part of a report and of a cover. */
static int64_t report_part(const uint8_t *listing, size_t listing_length, uint8_t *part, size_t part_length)
{
    return tsurmokan_report_part(listing, listing_length, 0, part, part_length);
}

static int64_t cover_part(const uint8_t *listing, size_t listing_length, uint8_t *part, size_t part_length)
{
    return tsurmokan_cover_part(listing, listing_length, 0, part, part_length);
}

/* A step of a run, and a part of it. */
static const uint8_t short_run[] = "SS 0\nIN 00000000\n";

static int64_t replay(const uint8_t *listing, size_t listing_length, uint8_t *text, size_t text_length)
{
    return tsurmokan_replay(listing, listing_length, short_run, sizeof short_run - 1, text, text_length);
}

static int64_t replay_part(const uint8_t *listing, size_t listing_length, uint8_t *text, size_t text_length)
{
    return tsurmokan_replay_part(listing, listing_length, short_run, sizeof short_run - 1, 0, text, text_length);
}

/* The stack of a call on the listing of the plans that needs most. */
static void print_stack(const char *name, encoder *call)
{
    static struct bench_listing listing;
    size_t most = 0;
    unsigned hardest = 0;
    for (unsigned at = 0; at < bench_plans_number; at++) {
        bench_draw(SEED, at, &listing);
        size_t depth = stack_depth(call, listing.bytes, listing.length, out[0], SECOND_TEXT);
        if (depth > most) {
            most = depth;
            hardest = at;
        }
    }
    printf("stack %s %lu", name, most);
    print_plan(&bench_plans[hardest]);
    printf("\n");
}

static void print_stacks(void)
{
    print_stack("library", tsurmokan_report);
    print_stack("cover", tsurmokan_cover);
    print_stack("widths", tsurmokan_widths);
    print_stack("report_part", report_part);
    print_stack("cover_part", cover_part);
    print_stack("replay", replay);
    print_stack("replay_part", replay_part);
    print_stack("native", native_report);
}

int main(void)
{
    check_native();
    for (unsigned at = 0; at < bench_plans_number; at++)
        print_row(at);
    bench_replays(SEED);
    bench_checks();
    print_stacks();
    return 0;
}
