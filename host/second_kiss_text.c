/* The second encoder's two texts for a user of KISS2: the listing that a KISS2 text becomes, and its states' names. */
#include "second.h"

struct text {
    size_t length;
    uint8_t bytes[SECOND_TEXT];
};

static void put_byte(struct text *text, uint8_t byte)
{
    text->bytes[text->length] = byte;
    text->length++;
}

static void put_bytes(struct text *text, const void *bytes, size_t length)
{
    memcpy(text->bytes + text->length, bytes, length);
    text->length += length;
}

static void put_word(struct text *text, const char *word)
{
    put_bytes(text, word, strlen(word));
}

static void put_number(struct text *text, unsigned number)
{
    if (number >= 10)
        put_number(text, number / 10);
    put_byte(text, (uint8_t)('0' + number % 10));
}

/* "Character j of a group, next or dichotomy is state j, from 0" (01). */
static void put_set(struct text *text, uint64_t set, unsigned states)
{
    for (unsigned state = 0; state < states; state++)
        put_byte(text, set >> state & 1 ? '1' : '0');
}

/* `MC n i o 0`, for "the width is 0"; a line `PT input group next outputs` for each row; `EN`. */
static void write_listing(const struct second_kiss *kiss, struct text *text)
{
    const struct second_machine *machine = &kiss->machine;
    put_word(text, "MC ");
    put_number(text, machine->states);
    put_byte(text, ' ');
    put_number(text, machine->inputs);
    put_byte(text, ' ');
    put_number(text, machine->outputs);
    put_word(text, " 0\n");
    for (unsigned at = 0; at < machine->rows; at++) {
        const struct second_row *row = &machine->row[at];
        put_word(text, "PT ");
        put_bytes(text, row->input, machine->inputs);
        put_byte(text, ' ');
        put_set(text, row->group, machine->states);
        put_byte(text, ' ');
        put_set(text, row->next == SECOND_NO_STATE ? 0 : (uint64_t)1 << row->next, machine->states);
        put_byte(text, ' ');
        put_bytes(text, row->outputs, machine->outputs);
        put_byte(text, '\n');
    }
    put_word(text, "EN\n");
}

/* `NM state name` for each state, ascending; `EN`. */
static void write_names(const struct second_kiss *kiss, struct text *text)
{
    for (unsigned state = 0; state < kiss->names; state++) {
        put_word(text, "NM ");
        put_number(text, state);
        put_byte(text, ' ');
        put_bytes(text, kiss->name[state].at, kiss->name[state].length);
        put_byte(text, '\n');
    }
    put_word(text, "EN\n");
}

/* The refusals of the lines, then 6, then 10: nothing is encoded, so 7 and 9 are never given. */
static int64_t answer(void (*write)(const struct second_kiss *kiss, struct text *text), const uint8_t *bytes, size_t length,
                      uint8_t *out, size_t out_length)
{
    static struct second_kiss kiss;
    static struct text text;
    struct second_refusal refusal = second_kiss_read(bytes, length, &kiss);
    if (refusal.number == SECOND_FINE)
        refusal = second_find_conflict(&kiss.machine);
    if (refusal.number != SECOND_FINE)
        return -((int64_t)refusal.number * 100000 + (int64_t)refusal.line);
    text.length = 0;
    write(&kiss, &text);
    if (out_length < text.length)
        return -(int64_t)SECOND_NO_ROOM * 100000;
    memcpy(out, text.bytes, text.length);
    return (int64_t)text.length;
}

int64_t second_kiss_listing(const uint8_t *text, size_t text_length, uint8_t *out, size_t out_length)
{
    return answer(write_listing, text, text_length, out, out_length);
}

int64_t second_kiss_names(const uint8_t *text, size_t text_length, uint8_t *out, size_t out_length)
{
    return answer(write_names, text, text_length, out, out_length);
}
