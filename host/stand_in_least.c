/* Stands in for the library's search for the fewest bits while there is none: the second encoder's file for it, or a spoilt copy, compiled
   once more under other names. The answers, too, are spoilt in one way if STAND_IN_FAULT says so, to show that the comparison finds it. */
#define second_least_code stand_in_code
#define second_least stand_in_least
#define second_least_cover stand_in_least_cover
#ifndef SPOILT_LEAST
#define SPOILT_LEAST "second_least.c"
#endif
#include SPOILT_LEAST
#include "tsurmokan.h"

#ifndef STAND_IN_FAULT
#define STAND_IN_FAULT 0
#endif

static bool fault(unsigned number)
{
    return STAND_IN_FAULT == number;
}

/* The buffer and what stands around it. */
static void spoil_bytes(int64_t answer, uint8_t *bytes, size_t length, uint8_t *out, size_t out_length)
{
    size_t written = answer < 0 ? 0 : (size_t)answer;
    if (fault(1) && answer >= 0 && out_length > written)
        out[written] ^= 1; /* a byte behind the answer's length */
    if (fault(2) && answer >= 0)
        out[-1] ^= 1; /* a byte before the buffer */
    if (fault(3) && answer >= 0)
        out[out_length] ^= 1; /* a byte behind the buffer */
    if (fault(4) && answer == -1000000 && out_length > 0)
        out[0] = 'C'; /* a refusal that writes */
    if (fault(5) && length > 20)
        bytes[length - 1] ^= 1; /* the listing itself */
    if (fault(6) && answer == -1600000 && out_length > 0)
        out[0] = 'C'; /* 16, after a code has been written */
}

/* The number that is answered. */
static int64_t spoil_answer(int64_t answer, size_t out_length)
{
    int64_t number = -answer / 100000;
    if (fault(7) && answer >= 0 && (size_t)answer == out_length)
        return -1000000; /* no room where there is just enough */
    if (fault(8) && number == 16)
        return answer - 1; /* 16 at line 1 */
    if (fault(9) && number == 16)
        return -700000; /* 7 for 16 */
    if (fault(10) && answer == -1000000)
        return -1600000; /* 16 for 10 */
    if (fault(11) && answer == -200001)
        return -200000; /* too many states at line 0 */
    if (fault(12) && answer == -200000)
        return -200001; /* too many requirements at line 1 */
    return answer;
}

static int64_t spoil(int64_t answer, const uint8_t *bytes, size_t length, uint8_t *out, size_t out_length)
{
    spoil_bytes(answer, (uint8_t *)bytes, length, out, out_length);
    return spoil_answer(answer, out_length);
}

/* The code that is found, from fault 13 on. */
#define CODE_FAULTS 13

static struct second_refusal spoilt_code(const uint8_t *listing, size_t length, struct second_machine *machine,
                                         struct second_requirements *requirements, struct second_code *code)
{
    struct second_code rule;
    struct second_refusal none = {SECOND_NO_CODE, 0};
    struct second_refusal refusal = stand_in_code(listing, length, machine, requirements, code);
    if (refusal.number != SECOND_FINE || second_build_code(requirements, machine->states, 0, &rule).number != SECOND_FINE)
        return refusal;
    if (fault(15) && machine->width > 0 && machine->width < code->bits)
        return none; /* the listing's width used */
    if (fault(13) || (fault(16) && rule.bits == code->bits))
        *code = rule; /* the bit rule's code; or only where it is as short */
    code->passes = fault(14) ? rule.passes : 0; /* its passes and looks */
    code->looks = fault(14) ? rule.looks : 0;
    for (unsigned place = 0; fault(17) && place < code->bits / 2; place++) {
        uint64_t bit = code->bit[place];
        code->bit[place] = code->bit[code->bits - 1 - place]; /* the last column first */
        code->bit[code->bits - 1 - place] = bit;
    }
    return refusal;
}

int64_t tsurmokan_least(const uint8_t *listing, size_t listing_length, uint8_t *out, size_t out_length)
{
    int64_t answer = STAND_IN_FAULT < CODE_FAULTS ? stand_in_least(listing, listing_length, out, out_length)
                                                  : second_report_by(spoilt_code, listing, listing_length, out, out_length);
    return spoil(answer, listing, listing_length, out, out_length);
}

/* 18: in the bit rule's code */
int64_t tsurmokan_least_cover(const uint8_t *listing, size_t listing_length, uint8_t *out, size_t out_length)
{
    int64_t answer = STAND_IN_FAULT < CODE_FAULTS ? stand_in_least_cover(listing, listing_length, out, out_length)
                                                  : second_cover_by(spoilt_code, listing, listing_length, out, out_length);
    if (fault(18) && answer > 0)
        answer = second_cover(listing, listing_length, out, out_length);
    return spoil(answer, listing, listing_length, out, out_length);
}
