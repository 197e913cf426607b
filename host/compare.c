/* One call of the library against the second encoder's answer. */
#include "compare.h"

/* Bytes of chance before and behind a lent buffer, which nobody may change. */
#define GUARD 64
#define AMPLE (SECOND_TEXT + 4096)
#define BUFFER (COMPARE_TEXT + 4096)
#define ARENA (GUARD + BUFFER + GUARD)

uint8_t compare_ample[COMPARE_TEXT];
static uint8_t came[ARENA], ours[ARENA], theirs[ARENA], given_came[COMPARE_TEXTS][COMPARE_GIVEN];

uint64_t compare_now(void)
{
    struct timespec time;
    clock_gettime(2, &time); /* CLOCK_PROCESS_CPUTIME_ID, so that a busy machine changes nothing */
    return (uint64_t)time.tv_sec * 1000000000 + (uint64_t)time.tv_nsec;
}

static void print_bytes(const uint8_t *bytes, size_t length)
{
    size_t most = length < 6000 ? length : 6000;
    for (size_t at = 0; at < most; at++) {
        if (bytes[at] == '\n')
            printf("\\n\n");
        else if (bytes[at] >= ' ' && bytes[at] < 127)
            printf("%c", bytes[at]);
        else
            printf("\\x%02X", bytes[at]);
    }
    if (most < length)
        printf(".. and %llu bytes more", (unsigned long long)(length - most));
    printf("|\n");
}

static void print_answer(const char *who, int64_t answer, const uint8_t *buffer, size_t buffer_length)
{
    printf("%s answers %lld", who, (long long)answer);
    if (answer >= 0 && (uint64_t)answer <= buffer_length) {
        printf(":\n");
        print_bytes(buffer, (size_t)answer);
    } else {
        printf("\n");
    }
}

static unsigned texts_of(const struct compare_given *given)
{
    unsigned number = 1;
    while (number < COMPARE_TEXTS && given->texts[number].bytes != NULL)
        number++;
    return number;
}

static void keep_given(const struct compare_given *given)
{
    for (unsigned at = 0; at < texts_of(given); at++)
        memcpy(given_came[at], given->texts[at].bytes, given->texts[at].length);
}

static bool given_is_as_it_came(const struct compare_given *given)
{
    for (unsigned at = 0; at < texts_of(given); at++)
        if (memcmp(given_came[at], given->texts[at].bytes, given->texts[at].length) != 0)
            return false;
    return true;
}

static void print_given(const struct compare_given *given)
{
    for (unsigned at = 0; at < texts_of(given); at++) {
        printf("given %llu bytes (%s):\n", (unsigned long long)given->texts[at].length, given->kind);
        print_bytes(given_came[at], given->texts[at].length);
    }
}

/* The two buffers that are lent, alike, and what is given as it came. */
static void lay_out(struct chance *chance, const struct compare_given *given, size_t length)
{
    size_t arena = GUARD + length + GUARD;
    for (size_t at = 0; at < arena; at += 8) {
        uint64_t more = chance_next(chance);
        memcpy(came + at, &more, arena - at < 8 ? arena - at : 8);
    }
    memcpy(ours, came, arena);
    memcpy(theirs, came, arena);
    keep_given(given);
}

/* How long a buffer to lend for an answer of this length, which may be 0: often enough, sometimes just enough, one short, or none. */
static size_t draw_buffer(struct chance *chance, int64_t answer)
{
    if (answer <= 0)
        return chance_part(chance, 1, 4) ? 0 : chance_below(chance, 200);
    unsigned length = (unsigned)answer;
    switch (chance_below(chance, 12)) {
    case 0:
    case 1:
        return length;
    case 2:
        return length - 1;
    case 3:
        return chance_part(chance, 1, 2) ? 0 : chance_below(chance, length);
    case 4:
        return length + 1;
    case 5:
        return chance_part(chance, 1, 20) && length < AMPLE ? AMPLE : length + 2;
    default:
        return length + chance_below(chance, 300);
    }
}

/* The second encoder's answer as it is where a buffer of this length is lent: it encodes once for both. */
static int64_t lend(int64_t answer, uint8_t *out, size_t length)
{
    if (answer < 0)
        return answer;
    if ((size_t)answer > length)
        return -100000 * SECOND_NO_ROOM;
    memcpy(out, compare_ample, (size_t)answer);
    return answer;
}

/* What differs between the two calls, or NULL. */
static const char *difference(const struct compare_given *given, size_t length, int64_t our_answer, int64_t their_answer)
{
    size_t written = our_answer < 0 ? 0 : (size_t)our_answer;
    if (our_answer != their_answer)
        return "the answers differ";
    if (memcmp(theirs, came, GUARD) != 0)
        return "the library changed bytes before the buffer";
    if (memcmp(theirs + GUARD + length, came + GUARD + length, GUARD) != 0)
        return "the library changed bytes behind the buffer";
    if (memcmp(theirs + GUARD + written, came + GUARD + written, length - written) != 0)
        return "the library changed bytes behind its answer's length";
    if (memcmp(ours, theirs, GUARD + length + GUARD) != 0)
        return "the bytes differ";
    if (!given_is_as_it_came(given))
        return "the library changed what it was given";
    return NULL;
}

static void print_difference(const char *name, const char *what, const struct compare_given *given, size_t length,
                             int64_t our_answer, int64_t their_answer)
{
    printf("DIFFERENCE in %s: %s\n", name, what);
    printf("buffer of %llu bytes\n", (unsigned long long)length);
    print_given(given);
    print_answer("the library", their_answer, theirs + GUARD, length);
    print_answer("the second encoder", our_answer, ours + GUARD, length);
    for (size_t at = 0; at < GUARD + length + GUARD; at++) {
        if (ours[at] != theirs[at]) {
            printf("first other byte: %lld from the buffer's start: the library's %02X, the second encoder's %02X\n",
                   (long long)at - GUARD, theirs[at], ours[at]);
            break;
        }
    }
}

static unsigned place_of(int64_t answer)
{
    int64_t number = answer >= 0 ? 0 : -answer / 100000;
    return number < COMPARE_NUMBERS ? (unsigned)number : COMPARE_NUMBERS;
}

/* Calls the library, whose buffer is laid out, and holds it against what the second encoder answered and wrote. */
static bool compare_call(struct compare_tally *tally, entry *library, const struct compare_given *given, size_t length,
                         int64_t our_answer)
{
    uint64_t start = compare_now();
    int64_t their_answer = library(given->texts[0].bytes, given->texts[0].length, theirs + GUARD, length);
    tally->library_time += compare_now() - start;

    tally->seen[place_of(our_answer)]++;
    const char *what = difference(given, length, our_answer, their_answer);
    if (what != NULL)
        print_difference(tally->name, what, given, length, our_answer, their_answer);
    return what == NULL;
}

bool compare_entry(struct chance *chance, struct compare_tally *tally, entry *library, entry *second,
                   const struct compare_given *given, int64_t *answered)
{
    uint64_t start = compare_now();
    *answered = second(given->texts[0].bytes, given->texts[0].length, compare_ample, sizeof compare_ample);
    tally->second_time += compare_now() - start;

    size_t length = draw_buffer(chance, *answered);
    lay_out(chance, given, length);
    return compare_call(tally, library, given, length, lend(*answered, ours + GUARD, length));
}

bool compare_lent(struct chance *chance, struct compare_tally *tally, entry *library, entry *second,
                  const struct compare_given *given, size_t length, int64_t *answered)
{
    lay_out(chance, given, length);
    uint64_t start = compare_now();
    *answered = second(given->texts[0].bytes, given->texts[0].length, ours + GUARD, length);
    tally->second_time += compare_now() - start;
    return compare_call(tally, library, given, length, *answered);
}

void compare_print(const struct compare_tally *tally)
{
    printf("%-11s: %llu answered; refused", tally->name, (unsigned long long)tally->seen[0]);
    for (unsigned number = 1; number <= COMPARE_NUMBERS; number++)
        if (tally->seen[number] > 0)
            printf(" %u:%llu", number, (unsigned long long)tally->seen[number]);
    printf("; time: second encoder %llu ms, library %llu ms\n", (unsigned long long)(tally->second_time / 1000000),
           (unsigned long long)(tally->library_time / 1000000));
}
