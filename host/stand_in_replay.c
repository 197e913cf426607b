/* Stands in for the library's replay while there is none: the second encoder's file for it, or a spoilt copy, compiled once more under other
   names. The answers, too, are spoilt in one way if STAND_IN_FAULT says so, to show that the comparison finds it. */
#define second_replay stand_in_replay
#define second_replay_part stand_in_replay_part
#ifndef SPOILT_REPLAY
#define SPOILT_REPLAY "second_replay.c"
#endif
#include SPOILT_REPLAY
#include "tsurmokan.h"

#ifndef STAND_IN_FAULT
#define STAND_IN_FAULT 0
#endif

static bool fault(unsigned number)
{
    return STAND_IN_FAULT == number;
}

/* The last line of a text, where it is a refusal: where its number begins, or 0. */
static size_t last_refusal(const uint8_t *bytes, size_t length)
{
    size_t at = length;
    if (length == 0)
        return 0;
    at--;
    while (at > 0 && bytes[at - 1] != '\n')
        at--;
    return bytes[at] == 'N' ? at + 3 : 0;
}

/* Each of these is said of a text that is whole, or a part up to its end. */
static void spoil_text(uint8_t *out, size_t length)
{
    size_t refusal = last_refusal(out, length);
    size_t last_digit = length - 2;
    if (fault(1) && length > 1)
        out[last_digit] ^= 1; /* the last byte before the last LF */
    if (fault(2) && refusal > 0 && out[refusal] == '1' && out[refusal + 1] == '4')
        out[last_digit] ^= 1; /* another line of 14 */
    if (fault(3) && refusal > 0 && out[refusal] == '2')
        out[refusal] = '1'; /* the 10,001st is bad */
    if (fault(4) && refusal > 0 && out[refusal] == '1' && out[refusal + 1] == ' ')
        out[last_digit] ^= 1; /* another line of 1 */
    for (size_t at = 0; at < length; at++) {
        if (fault(5) && out[at] == '-')
            out[at] = '0'; /* a free output, or no bits */
        if (fault(6) && at > 8 && out[at] == '-' && out[at - 1] != ' ')
            out[at] = '0'; /* a free output that is not the first */
        if (fault(7) && out[at] == '-' && out[at - 1] == ' ' && out[at + 1] == ' ')
            out[at] = '0'; /* no bits */
    }
}

/* The buffer and what stands around it. */
static void spoil_bytes(int64_t answer, uint8_t *listing, size_t listing_length, uint8_t *run, size_t run_length, uint8_t *out,
                        size_t out_length)
{
    size_t written = answer < 0 ? 0 : (size_t)answer;
    if (fault(8) && answer >= 0 && out_length > written)
        out[written] ^= 1; /* a byte behind the answer's length */
    if (fault(9) && answer >= 0)
        out[-1] ^= 1; /* a byte before the buffer */
    if (fault(10) && answer >= 0)
        out[out_length] ^= 1; /* a byte behind the buffer */
    if (fault(11) && answer == -1000000 && out_length > 0)
        out[0] = 'S'; /* 10 that writes */
    if (fault(12) && answer < 0 && answer != -1000000 && out_length > 0)
        out[0] = 'S'; /* a refusal of the listing that writes */
    if (fault(13) && run_length > 20)
        run[run_length - 1] ^= 1; /* the run itself */
    if (fault(14) && listing_length > 20)
        listing[listing_length - 1] ^= 1; /* the listing itself */
}

/* The number that is answered. */
static int64_t spoil_answer(int64_t answer, size_t out_length)
{
    int64_t number = -answer / 100000;
    if (fault(15) && answer > 0 && (size_t)answer == out_length)
        return -1000000; /* no room where there is just enough */
    if (fault(16) && number == 6)
        return answer - 1; /* the wrong line of a conflict */
    if (fault(17) && number == 9)
        return 0; /* 9 taken as no steps */
    if (fault(18) && number == 7)
        return -900000; /* 9 before 7 */
    if (fault(19) && answer == 0)
        return -100001; /* no steps taken as a refusal */
    if (fault(20) && answer > 0)
        return answer - 1; /* a byte too few */
    return answer;
}

int64_t tsurmokan_replay(const uint8_t *listing, size_t listing_length, const uint8_t *run, size_t run_length, uint8_t *out,
                         size_t out_length)
{
    int64_t answer = stand_in_replay(listing, listing_length, run, run_length, out, out_length);
    if (fault(21) && answer == -1000000 && out_length > 0)
        return stand_in_replay_part(listing, listing_length, run, run_length, 0, out, out_length); /* what fits, where all is asked for */
    if (answer > 0)
        spoil_text(out, (size_t)answer);
    spoil_bytes(answer, (uint8_t *)listing, listing_length, (uint8_t *)run, run_length, out, out_length);
    return spoil_answer(answer, out_length);
}

int64_t tsurmokan_replay_part(const uint8_t *listing, size_t listing_length, const uint8_t *run, size_t run_length, size_t from,
                              uint8_t *out, size_t out_length)
{
    if (fault(22) && out_length > 0)
        out_length--; /* a line that just fits is left for later */
    if (fault(23) && from > 0)
        from--; /* from a byte before */
    int64_t answer = stand_in_replay_part(listing, listing_length, run, run_length, from, out, out_length);
    if (fault(24) && answer == 0)
        return -1000000; /* nothing left taken as no room */
    if (fault(25) && answer == -1000000)
        return 0; /* no room taken as nothing left */
    if (fault(26) && answer > 104) { /* one line at a time */
        int64_t line = 0;
        while (out[line] != '\n')
            line++;
        return line + 1;
    }
    if (fault(27) && answer < 0 && answer != -1000000)
        return 0; /* a listing that is refused has no parts */
    if (fault(28) && from > 65536)
        return 0; /* nothing behind 64 KiB */
    return answer;
}
