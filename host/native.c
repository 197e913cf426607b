/* The native encoder's entry: reads, encodes, and writes the report. */
#include "native.h"

/* A CT line of five numbers, 64 SC lines, a BY line of at most 12 bytes or a shorter UN line for each requirement, and EN. */
#define NATIVE_TEXT (60 + NATIVE_STATES * 71 + NATIVE_REQUIREMENTS * 12 + 3)

static uint8_t *put_number(uint8_t *to, uint64_t number)
{
    uint8_t digits[20];
    uint8_t *first = digits + 20;
    do {
        *--first = (uint8_t)('0' + number % 10);
        number /= 10;
    } while (number != 0);
    while (first < digits + 20)
        *to++ = *first++;
    return to;
}

static uint8_t *put_mark(uint8_t *to, char one, char other)
{
    *to++ = (uint8_t)one;
    *to++ = (uint8_t)other;
    return to;
}

static uint8_t *put_code(uint8_t *to, const struct native_code *code, uint32_t state)
{
    to = put_mark(to, 'S', 'C');
    *to++ = ' ';
    to = put_number(to, state);
    *to++ = ' ';
    for (uint32_t place = 0; place < code->bits; place++)
        *to++ = (uint8_t)('0' + (code->bit[place] >> state & 1));
    if (code->bits == 0)
        *to++ = '-';
    *to++ = '\n';
    return to;
}

static uint8_t *put_met(uint8_t *to, uint32_t requirement, uint32_t bit)
{
    to = put_mark(to, 'B', 'Y');
    *to++ = ' ';
    to = put_number(to, requirement);
    *to++ = ' ';
    to = put_number(to, bit);
    *to++ = '\n';
    return to;
}

static uint8_t *write_report(uint8_t *to, const struct native_code *code)
{
    uint64_t counts[5] = {code->bits, code->asked, code->live, code->passes, code->looks};
    to = put_mark(to, 'C', 'T');
    for (uint32_t at = 0; at < 5; at++) {
        *to++ = ' ';
        to = put_number(to, counts[at]);
    }
    *to++ = '\n';
    for (uint32_t state = 0; state < code->states; state++)
        to = put_code(to, code, state);
    for (uint32_t r = 0; r < code->asked; r++)
        if (code->card[r].all == 0)
            to = put_met(to, r, code->by[r]);
    for (uint32_t at = 0; at < code->live; at++) {
        to = put_mark(to, 'U', 'N');
        *to++ = ' ';
        to = put_number(to, code->unmet[at]);
        *to++ = '\n';
    }
    to = put_mark(to, 'E', 'N');
    *to++ = '\n';
    return to;
}

int64_t native_report(const uint8_t *listing, size_t listing_length, uint8_t *out, size_t out_length)
{
    struct native_machine machine;
    struct native_code code;
    uint8_t text[NATIVE_TEXT];
    int64_t fault = native_read(listing, listing_length, &machine);
    if (fault == 0)
        fault = native_encode(&machine, &code);
    if (fault != 0)
        return -fault;
    /* With room for the longest report it is written in place; else its length is not known before it is written. */
    if (out_length >= NATIVE_TEXT)
        return write_report(out, &code) - out;
    size_t length = (size_t)(write_report(text, &code) - text);
    if (length > out_length)
        return -1000000;
    memcpy(out, text, length);
    return (int64_t)length;
}
