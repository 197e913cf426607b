/* Stands in for the library's KISS2 while there is none: the second encoder's files for it, or spoilt copies of them, compiled
   once more under other names. The answers, too, are spoilt in one way if STAND_IN_FAULT says so, to show that the comparison
   finds it. */
#define second_kiss_read stand_in_read
#define second_kiss_report stand_in_report
#define second_kiss_cover stand_in_cover
#define second_kiss_listing stand_in_listing
#define second_kiss_names stand_in_names
#ifndef SPOILT_KISS
#define SPOILT_KISS "second_kiss.c"
#endif
#ifndef SPOILT_KISS_TEXT
#define SPOILT_KISS_TEXT "second_kiss_text.c"
#endif
#include SPOILT_KISS
#include SPOILT_KISS_TEXT
#include "tsurmokan.h"

#ifndef STAND_IN_FAULT
#define STAND_IN_FAULT 0
#endif

static bool fault(unsigned number)
{
    return STAND_IN_FAULT == number;
}

/* The buffer and what stands around it. */
static void spoil_bytes(int64_t answer, uint8_t *bytes, size_t length, uint8_t *out, size_t out_length)
{
    size_t written = answer < 0 ? 0 : (size_t)answer;
    if (fault(1) && answer >= 0 && out_length > written)
        out[written] ^= 1; /* a byte behind the answer's length */
    if (fault(2) && answer >= 0)
        out[-1] ^= 1; /* a byte before the buffer */
    if (fault(3) && answer >= 0)
        out[out_length] ^= 1; /* a byte behind the buffer */
    if (fault(4) && answer == -1000000 && out_length > 0)
        out[0] = 'C'; /* a refusal that writes */
    if (fault(5) && length > 20)
        bytes[length - 1] ^= 1; /* the text itself */
    if (fault(6) && written > 1)
        out[written - 2] ^= 1; /* the last byte before the last LF */
}

/* The number that is answered. */
static int64_t spoil_answer(int64_t answer, size_t out_length)
{
    int64_t number = -answer / 100000;
    if (fault(7) && answer >= 0 && (size_t)answer == out_length)
        return -1000000; /* no room where there is just enough */
    if (fault(8) && number == 6)
        return answer - 1; /* the wrong line of a conflict */
    if (fault(9) && number == 12)
        return answer + 1000000; /* 2 for 12 */
    if (fault(10) && answer == -200000)
        return -300001; /* too long, seen too late */
    if (fault(11) && number == 12)
        return answer - 1; /* a line behind */
    if (fault(12) && answer >= 0)
        return answer - 1; /* a byte too few */
    return answer;
}

static int64_t spoil(int64_t answer, const uint8_t *bytes, size_t length, uint8_t *out, size_t out_length)
{
    spoil_bytes(answer, (uint8_t *)bytes, length, out, out_length);
    return spoil_answer(answer, out_length);
}

int64_t tsurmokan_kiss_report(const uint8_t *bytes, size_t length, uint8_t *out, size_t out_length)
{
    return spoil(stand_in_report(bytes, length, out, out_length), bytes, length, out, out_length);
}

int64_t tsurmokan_kiss_cover(const uint8_t *bytes, size_t length, uint8_t *out, size_t out_length)
{
    return spoil(stand_in_cover(bytes, length, out, out_length), bytes, length, out, out_length);
}

int64_t tsurmokan_kiss_listing(const uint8_t *bytes, size_t length, uint8_t *out, size_t out_length)
{
    return spoil(stand_in_listing(bytes, length, out, out_length), bytes, length, out, out_length);
}

int64_t tsurmokan_kiss_names(const uint8_t *bytes, size_t length, uint8_t *out, size_t out_length)
{
    return spoil(stand_in_names(bytes, length, out, out_length), bytes, length, out, out_length);
}
