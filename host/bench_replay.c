/* The benchmark's recorded runs: a machine of which each state has two rows, one for each value of the first input, so that every vector makes
   a step; the longest run of it, and one of no steps, which tells what the steps cost. */
#include "bench_replay.h"
#include "bench_listings.h"
#include "chance.h"
#include "second.h"
#include "tsurmokan.h"

#define INPUTS 8
#define OUTPUTS 4
#define ROUNDS 7

static const unsigned plans[] = {4, 8, 16, 32, 64}; /* states, each with two rows */

static struct bench_listing listing;
static uint8_t run[SECOND_STEPS * (INPUTS + 4) + 5];
static uint8_t library_text[SECOND_REPLAY_TEXT], second_text[SECOND_REPLAY_TEXT];

typedef int64_t replayer(const uint8_t *listing, size_t listing_length, const uint8_t *run, size_t run_length, uint8_t *out,
                         size_t out_length);

static void put(char byte)
{
    listing.bytes[listing.length] = (uint8_t)byte;
    listing.length++;
}

static void put_text(const char *text)
{
    for (; *text != 0; text++)
        put(*text);
}

static void put_one(unsigned one, unsigned states)
{
    put(' ');
    for (unsigned state = 0; state < states; state++)
        put(state == one ? '1' : '0');
}

static void draw_machine(struct chance *chance, unsigned states)
{
    listing.length = 0;
    put_text("MC ");
    if (states >= 10)
        put((char)('0' + states / 10));
    put((char)('0' + states % 10));
    put_text(" 8 4 0\n");
    for (unsigned row = 0; row < 2 * states; row++) {
        put_text(row < states ? "PT 0-------" : "PT 1-------");
        put_one(row % states, states);
        put_one(chance_below(chance, states), states);
        put(' ');
        for (unsigned place = 0; place < OUTPUTS; place++)
            put("01-"[chance_below(chance, 3)]);
        put('\n');
    }
    put_text("EN\n");
}

static void draw_run(struct chance *chance)
{
    size_t at = 5;
    memcpy(run, "SS 0\n", 5);
    for (unsigned step = 0; step < SECOND_STEPS; step++) {
        memcpy(run + at, "IN ", 3);
        at += 3;
        for (unsigned place = 0; place < INPUTS; place++)
            run[at++] = (uint8_t)"01"[chance_below(chance, 2)];
        run[at++] = '\n';
    }
}

static double now_ns(void)
{
    struct timespec now;
    clock_gettime(1, &now);
    return (double)now.tv_sec * 1e9 + (double)now.tv_nsec;
}

/* The least time of a call in some rounds. */
static double time_of(replayer *replay, size_t run_length, uint8_t *out)
{
    double least = 0;
    for (unsigned round = 0; round < ROUNDS; round++) {
        double start = now_ns();
        replay(listing.bytes, listing.length, run, run_length, out, SECOND_REPLAY_TEXT);
        double time = now_ns() - start;
        if (round == 0 || time < least)
            least = time;
    }
    return least;
}

static void print_times(replayer *replay, uint8_t *out)
{
    double whole = time_of(replay, sizeof run, out);
    double none = time_of(replay, 5, out);
    printf(" %.3f %.3f", whole / 1000, (whole - none) / SECOND_STEPS);
}

static void compare(unsigned states)
{
    int64_t library = tsurmokan_replay(listing.bytes, listing.length, run, sizeof run, library_text, sizeof library_text);
    int64_t second = second_replay(listing.bytes, listing.length, run, sizeof run, second_text, sizeof second_text);
    if (library == second && second > 0 && memcmp(library_text, second_text, (size_t)second) == 0)
        return;
    printf("bench: the library's replay of %u states differs from the second encoder's\n", states);
    exit(1);
}

void bench_replays(unsigned seed)
{
    for (unsigned at = 0; at < LENGTH_OF(plans); at++) {
        struct chance chance = chance_of(seed, 1000 + at);
        draw_machine(&chance, plans[at]);
        draw_run(&chance);
        compare(plans[at]);
        printf("replay %u %u %u", plans[at], 2 * plans[at], SECOND_STEPS);
        print_times(tsurmokan_replay, library_text);
        print_times(second_replay, second_text);
        printf("\n");
    }
}
