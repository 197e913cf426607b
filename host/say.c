/* Prints the second encoder's answer for the text on standard input, as the programs print theirs: the report, the cover or the
   widths of a listing, its report or cover in the fewest bits, or what it says of a KISS2 text; or, in files of these names, the replay of a
   listing and a run, or what codes and a cover from elsewhere are worth for a listing. */
#include "second.h"

/* More than a run of 10,001 inputs has. */
#define RUN_BYTES 400000

static uint8_t listing[SECOND_BYTES + 1], run_bytes[RUN_BYTES];
static uint8_t codes[1 << 20], cover[1 << 22];
static uint8_t out[SECOND_REPLAY_TEXT];

static bool put(const uint8_t *bytes, size_t length)
{
    while (length > 0) {
        long done = write(1, bytes, length);
        if (done <= 0)
            return false;
        bytes += done;
        length -= (size_t)done;
    }
    return true;
}

static const struct {
    const char *word;
    int64_t (*run)(const uint8_t *, size_t, uint8_t *, size_t);
} entries[] = {
    {"report", second_report},           {"cover", second_cover},           {"widths", second_widths},
    {"least", second_least},
    {"least-cover", second_least_cover},
    {"kiss_report", second_kiss_report}, {"kiss_cover", second_kiss_cover}, {"kiss_listing", second_kiss_listing},
    {"kiss_names", second_kiss_names},
};

/* All bytes of a file, at most so many; or -1. */
static long read_all(int file, uint8_t *bytes, size_t most)
{
    size_t length = 0;
    while (length < most) {
        long got = read(file, bytes + length, most - length);
        if (got < 0)
            return -1;
        if (got == 0)
            break;
        length += (size_t)got;
    }
    return (long)length;
}

static long read_named(const char *name, uint8_t *bytes, size_t most)
{
    int file = open(name, 0);
    long length = file < 0 ? -1 : read_all(file, bytes, most);
    if (file >= 0)
        close(file);
    return length;
}

/* What a program prints for an answer, and its status. */
static int say(int64_t answer)
{
    if (answer < 0) {
        printf("NO %lld %lld\n", (long long)(-answer / 100000), (long long)(-answer % 100000));
        return 0;
    }
    return put(out, (size_t)answer) ? 0 : 2;
}

static int say_replay(const char *listing_name, const char *run_name)
{
    long length = read_named(listing_name, listing, sizeof listing);
    long run_length = read_named(run_name, run_bytes, sizeof run_bytes);
    if (length < 0 || run_length < 0)
        return 2;
    return say(second_replay(listing, (size_t)length, run_bytes, (size_t)run_length, out, sizeof out));
}

static int say_check(const char *listing_name, const char *codes_name, const char *cover_name)
{
    long length = read_named(listing_name, listing, sizeof listing);
    long codes_length = read_named(codes_name, codes, sizeof codes);
    long cover_length = read_named(cover_name, cover, sizeof cover);
    if (length < 0 || codes_length < 0 || cover_length < 0)
        return 2;
    return say(second_check(listing, (size_t)length, codes, (size_t)codes_length, cover, (size_t)cover_length, out, sizeof out));
}

int main(int words, char **word)
{
    int64_t (*run)(const uint8_t *, size_t, uint8_t *, size_t) = NULL;
    if (words == 4 && strcmp(word[1], "replay") == 0)
        return say_replay(word[2], word[3]);
    if (words == 5 && strcmp(word[1], "check") == 0)
        return say_check(word[2], word[3], word[4]);
    for (unsigned at = 0; words == 2 && at < LENGTH_OF(entries); at++)
        if (strcmp(word[1], entries[at].word) == 0)
            run = entries[at].run;
    if (run == NULL) {
        printf("usage: say report|cover|widths|least|least-cover <LISTING, say kiss_report|kiss_cover|kiss_listing|kiss_names <TEXT,\n"
               "say replay LISTING RUN, or say check LISTING CODES COVER\n");
        return 2;
    }
    long length = read_all(0, listing, sizeof listing);
    return length < 0 ? 2 : say(run(listing, (size_t)length, out, sizeof out));
}
