/* Stands in for the library's check while there is none: the second encoder's file for it, or a spoilt copy of it, compiled once more
   under other names. The answers, too, are spoilt in one way if STAND_IN_FAULT says so, to show that the comparison finds it. */
#define second_read_codes stand_in_read_codes
#define second_read_pla stand_in_read_pla
#define second_check_read stand_in_check_read
#define second_want stand_in_want
#define second_agrees stand_in_agrees
#define second_check stand_in_check
#ifndef SPOILT_CHECK
#define SPOILT_CHECK "second_check.c"
#endif
#include SPOILT_CHECK
#include "tsurmokan.h"

#ifndef STAND_IN_FAULT
#define STAND_IN_FAULT 0
#endif

static bool fault(unsigned number)
{
    return STAND_IN_FAULT == number;
}

/* The buffer and what stands around it, and what was given. */
static void spoil_bytes(int64_t answer, const uint8_t *listing, const uint8_t *codes, const uint8_t *cover, uint8_t *out, size_t out_length)
{
    size_t written = answer < 0 ? 0 : (size_t)answer;
    if (fault(1) && answer >= 0 && out_length > written)
        out[written] ^= 1; /* a byte behind the answer's length */
    if (fault(2) && answer >= 0)
        out[-1] ^= 1; /* a byte before the buffer */
    if (fault(3) && answer >= 0)
        out[out_length] ^= 1; /* a byte behind the buffer */
    if (fault(4) && answer == -1000000 && out_length > 0)
        out[0] = 'A'; /* a refusal that writes */
    if (fault(5) && answer < -1000000 && out_length > 0)
        out[0] = 'N'; /* another one */
    if (fault(6) && answer == 3)
        ((uint8_t *)listing)[1] ^= 1; /* the listing itself */
    if (fault(7) && answer == 3)
        ((uint8_t *)codes)[1] ^= 1; /* the codes */
    if (fault(8) && answer == 3)
        ((uint8_t *)cover)[1] ^= 1; /* the cover */
    if (fault(9) && written > 3)
        out[written - 2] ^= 1; /* the last digit */
    if (fault(10) && written > 0 && out[0] == 'A')
        out[1] = 'N'; /* another word */
}

/* The number that is answered. */
static int64_t spoil_answer(int64_t answer, size_t out_length)
{
    int64_t number = -answer / 100000;
    if (fault(11) && answer >= 0 && (size_t)answer == out_length)
        return -1000000; /* no room where there is just enough */
    if (fault(12) && number == 15)
        return answer == -1500001 ? -1500002 : -1500001; /* the other line */
    if (fault(13) && number == 15)
        return answer + 1400000; /* 1 for 15 */
    if (fault(14) && number == 2 && answer != -200000 && answer < -200100)
        return answer + 100000; /* 1 for the 257th row */
    if (fault(15) && number == 6)
        return answer - 1; /* the wrong line of a conflict */
    if (fault(16) && answer == 3)
        return 2; /* a byte too few */
    return answer;
}

int64_t tsurmokan_check(const uint8_t *listing, size_t listing_length, const uint8_t *codes, size_t codes_length,
                        const uint8_t *cover, size_t cover_length, uint8_t *out, size_t out_length)
{
    int64_t answer = stand_in_check(listing, listing_length, codes, codes_length, cover, cover_length, out, out_length);
    spoil_bytes(answer, listing, codes, cover, out, out_length);
    return spoil_answer(answer, out_length);
}
