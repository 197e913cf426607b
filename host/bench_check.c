/* The benchmark's rows for codes and covers from elsewhere: covers that the library writes, and the hardest that are known. */
#include "bench_check.h"
#include "bench_listings.h"
#include "second.h"
#include "stack_depth.h"
#include "tsurmokan.h"

#define SEED 1
#define ROUNDS 11
#define LONG_ROUNDS 3             /* where a call takes longer than LONG_NS */
#define LONG_NS 100000000.0
#define LEAST_NS 5000000.0        /* the least time of one round */

static struct bench_listing listing, codes, cover;
static uint8_t out[SECOND_TEXT];
static size_t stack_most;

static double now_ns(void)
{
    struct timespec now;
    clock_gettime(1, &now);
    return (double)now.tv_sec * 1e9 + (double)now.tv_nsec;
}

/* The check of the codes and the cover that stand ready, as a function of the listing alone. */
static int64_t check(const uint8_t *bytes, size_t length, uint8_t *into, size_t room)
{
    return tsurmokan_check(bytes, length, codes.bytes, codes.length, cover.bytes, cover.length, into, room);
}

static double time_of(unsigned times)
{
    double start = now_ns();
    for (unsigned time = 0; time < times; time++)
        check(listing.bytes, listing.length, out, sizeof out);
    return (now_ns() - start) / times;
}

/* The median, the least and the greatest of the rounds, in microseconds. */
static void print_times(void)
{
    double list[ROUNDS];
    double first = time_of(1);
    unsigned rounds = first > LONG_NS ? LONG_ROUNDS : ROUNDS;
    unsigned times = 1 + (unsigned)(LEAST_NS / first);
    for (unsigned round = 0; round < rounds; round++) {
        double taken = time_of(times);
        unsigned to = round;
        for (; to > 0 && list[to - 1] > taken; to--)
            list[to] = list[to - 1];
        list[to] = taken;
    }
    printf(" %.3f %.3f %.3f\n", list[rounds / 2] / 1000, list[0] / 1000, list[rounds - 1] / 1000);
}

static void fail(const char *name, const char *what)
{
    printf("bench: check %s: %s\n", name, what);
    exit(1);
}

/* The line `check NAME STATES ROWS COVER-ROWS INPUTS BITS ANSWER MEDIAN LEAST GREATEST`; the answer has the words joined by `_`. */
static void print_check(const char *name, const char *answer)
{
    static struct second_checked checked;
    struct second_check_given given = {listing.bytes, listing.length, codes.bytes, codes.length, cover.bytes, cover.length};
    if (second_check_read(&given, &checked).number != SECOND_FINE)
        fail(name, "cannot be read");
    int64_t length = check(listing.bytes, listing.length, out, sizeof out);
    for (int64_t at = 0; at < length; at++)
        out[at] = out[at] == ' ' ? '_' : out[at] == '\n' ? 0 : out[at];
    if (length < 0 || strcmp((const char *)out, answer) != 0)
        fail(name, "another answer");
    printf("check %s %u %u %u %u %u %s", name, checked.machine.states, checked.machine.rows, checked.pla.rows, checked.machine.inputs,
           checked.code.bits, answer);
    print_times();
    size_t depth = stack_depth(check, listing.bytes, listing.length, out, sizeof out);
    stack_most = depth > stack_most ? depth : stack_most;
}

/* The library's own codes and cover of the listing; false where there is no cover. */
static bool take_own(void)
{
    int64_t length = tsurmokan_report(listing.bytes, listing.length, out, sizeof out);
    codes.length = 0;
    for (int64_t at = 0, from = 0; at < length; at++) {
        if (out[at] != '\n')
            continue;
        if (out[from] == 'S') {
            memcpy(codes.bytes + codes.length, out + from, (size_t)(at + 1 - from));
            codes.length += (size_t)(at + 1 - from);
        }
        from = at + 1;
    }
    length = tsurmokan_cover(listing.bytes, listing.length, cover.bytes, sizeof cover.bytes);
    cover.length = length < 0 ? 0 : (size_t)length;
    return length > 0;
}

/* Our covers of the plans that have the most rows, of a controller, and of the hard listings. */
static void check_own(void)
{
    static const char *const names[] = {"own_random", "own_pairs", "own_halves"};
    static const char *const hard[BENCH_CHECK_KINDS] = {"own_controller", "own_one_input", "own_two_inputs"};
    for (unsigned at = 0; at < bench_plans_number; at++) {
        if (bench_plans[at].rows < 128)
            continue;
        bench_draw(SEED, at, &listing);
        if (take_own())
            print_check(names[bench_plans[at].groups], "OK");
    }
    for (unsigned kind = 0; kind < BENCH_CHECK_KINDS; kind++) {
        bench_draw_check(kind, &listing);
        if (!take_own())
            fail(hard[kind], "has no cover");
        print_check(hard[kind], "OK");
    }
}

static void check_hard(void)
{
    static const char *const names[BENCH_CHECK_KINDS] = {NULL, "one_input", "two_inputs"};
    for (unsigned kind = BENCH_ONE_INPUT; kind < BENCH_CHECK_KINDS; kind++) {
        bench_draw_check(kind, &listing);
        bench_draw_codes(&codes);
        bench_draw_cover(kind, false, &cover);
        print_check(names[kind], "OK");
    }
    bench_draw_check(BENCH_ONE_INPUT, &listing);
    bench_draw_cover(BENCH_ONE_INPUT, true, &cover);
    print_check("wrong_at_the_end", "AT_63_65535");
}

void bench_checks(void)
{
    check_own();
    check_hard();
    printf("stack check %lu hardest 64 128 0\n", (unsigned long)stack_most);
}
