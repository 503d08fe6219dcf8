/* The writer: every row is judged and its text measured; where there is room for the whole, a walk over the rows then writes it. */
#include "rows.h"

static inline uint64_t integer_at(const uint32_t *row)
{
    return (uint64_t)row[1] << 32 | row[2];
}

/* The amount of a number in two's complement; `negative` is its sign. */
static inline uint64_t amount(uint64_t number, uint64_t negative)
{
    return (number ^ (0 - negative)) + negative;
}

/* The length of a sound row's text, from those of the rows before; UINT32_MAX stands for that and all above. */
static inline uint32_t length_of(const uint32_t *row, const uint32_t *lengths)
{
    uint64_t length = 0;
    switch (row[0]) {
    case INTEGER: length = 1 + (row[1] >> 31) + digits_of(amount(integer_at(row), row[1] >> 31)); break;
    case ATOM:
    case STRING: length = 2 + (uint64_t)row[2]; break;
    case BINARY: length = 2 + digits_of(row[2]) + (uint64_t)row[2]; break;
    case EMPTY_LIST: length = 1; break;
    case CELL: length = 1 + (uint64_t)lengths[row[1]] + lengths[row[2]]; break;
    case TUPLE_END: length = 2; break;
    case FIELD: length = (uint64_t)lengths[row[1]] + lengths[row[2]]; break;
    case TAG: length = 2 + (uint64_t)row[2] + lengths[row[3]]; break;
    }
    return length < UINT32_MAX ? (uint32_t)length : UINT32_MAX;
}

/* Judges every row and measures its text: 0, or 16. */
static inline uint32_t judge(const table *t, uint32_t *lengths)
{
    for (uint32_t number = 0; number < t->used; number++) {
        if (!sound_row(t, number))
            return 16;
        lengths[number] = length_of(row_at(t, number), lengths);
    }
    return 0;
}

/* Puts a row's span between two marks. */
static inline uint8_t *put_span(uint8_t *at, const table *t, const uint32_t *row, uint8_t mark)
{
    *at++ = mark;
    memcpy(at, t->message + row[1], row[2]);
    at += row[2];
    *at++ = mark;
    return at;
}

static inline uint8_t *put_integer(uint8_t *at, const uint32_t *row)
{
    uint64_t negative = row[1] >> 31;
    if (negative)
        *at++ = '-';
    at = put_digits(at, amount(integer_at(row), negative));
    *at++ = ' ';
    return at;
}

/* Puts the whole text of a row that has no other in it. */
static inline uint8_t *put_leaf(uint8_t *at, const table *t, const uint32_t *row)
{
    switch (row[0]) {
    case INTEGER: return put_integer(at, row);
    case ATOM: return put_span(at, t, row, '\'');
    case STRING: return put_span(at, t, row, '"');
    case BINARY: return put_span(put_digits(at, row[2]), t, row, '~');
    case EMPTY_LIST: *at++ = '#'; return at;
    default: *at++ = '{'; *at++ = '}'; return at;
    }
}

/* Whether a text of 4 GiB or more, which `lengths` cannot tell, is longer than `most`. A row and its parts take turns in `pending`. */
static int longer_than(const table *t, uint32_t *pending, uint64_t most)
{
    uint64_t length = 1;
    uint32_t depth = 0;
    pending[depth++] = t->root;
    while (depth != 0 && length <= most) {
        const uint32_t *row = row_at(t, pending[--depth]);
        if (row[0] == CELL || row[0] == FIELD) {
            pending[depth++] = row[1];
            pending[depth++] = row[2];
            length += row[0] == CELL;
        } else if (row[0] == TAG) {
            pending[depth++] = row[3];
            length += 2 + (uint64_t)row[2];
        } else {
            length += length_of(row, NULL);
        }
    }
    return length > most;
}

static inline int fits(const table *t, uint32_t *lengths, size_t output_bytes)
{
    uint32_t length = lengths[t->root];
    if (length < UINT32_MAX)
        return length < output_bytes;
    return output_bytes > UINT32_MAX && !longer_than(t, lengths, output_bytes);
}

/*
 * The walk. A frame is the number of a list cell, a tuple's field or a tag, parts of which are still to be put: of a cell the
 * item if IN_ITEM is not set, and then `&`; of a field those after it; of a tag its name. The numbers fall from frame to frame,
 * so there are fewer frames than rows. Leaves are put where they are met.
 */
typedef struct {
    const table *t;
    uint32_t *frames, depth;
    uint8_t *at;
} walk;

#define IN_ITEM UINT32_C(0x80000000)

static inline int is_leaf(const uint32_t *row)
{
    return row[0] <= EMPTY_LIST || row[0] == TUPLE_END;
}

/* Puts the first leaf in a row, and what stands before it. */
static inline void put_first(walk *w, uint32_t number)
{
    const uint32_t *row = row_at(w->t, number);
    while (!is_leaf(row)) {
        w->frames[w->depth++] = number;
        if (row[0] == FIELD)
            *w->at++ = '{';
        number = row[0] == CELL ? row[2] : row[0] == FIELD ? row[1] : row[3];
        row = row_at(w->t, number);
    }
    w->at = put_leaf(w->at, w->t, row);
}

/* Puts a cell's item and `&`, once its rest is put: 0, or 1 and the item's row where that has others in it. */
static inline int put_item(walk *w, const uint32_t *cell, uint32_t *number)
{
    const uint32_t *item = row_at(w->t, cell[1]);
    if (!is_leaf(item)) {
        w->frames[w->depth - 1] |= IN_ITEM;
        *number = cell[1];
        return 1;
    }
    w->at = put_leaf(w->at, w->t, item);
    *w->at++ = '&';
    return 0;
}

/* Puts the fields after one, and `}`: 0, or 1 and the row of the next field that has others in it. */
static inline int put_fields(walk *w, const uint32_t *field, uint32_t *number)
{
    for (;;) {
        uint32_t rest = field[2];
        field = row_at(w->t, rest);
        if (field[0] == TUPLE_END)
            break;
        const uint32_t *value = row_at(w->t, field[1]);
        if (!is_leaf(value)) {
            w->frames[w->depth - 1] = rest;
            *number = field[1];
            return 1;
        }
        w->at = put_leaf(w->at, w->t, value);
    }
    *w->at++ = '}';
    return 0;
}

/* Goes on after the leaf that was put last: 1 and the next row that has others in it, or 0 where the whole is put. */
static inline int put_rest(walk *w, uint32_t *number)
{
    for (; w->depth != 0; w->depth--) {
        uint32_t frame = w->frames[w->depth - 1];
        const uint32_t *row = row_at(w->t, frame & ~IN_ITEM);
        if (row[0] == TAG)
            w->at = put_span(w->at, w->t, row, '`');
        else if (frame & IN_ITEM)
            *w->at++ = '&';
        else if (row[0] == CELL ? put_item(w, row, number) : put_fields(w, row, number))
            return 1;
    }
    return 0;
}

/* Puts the text of the root and `$`, for which there is room; gives the place after them. */
static uint8_t *put_text(const table *t, uint32_t *frames, uint8_t *output)
{
    walk w = {t, frames, 0, output};
    uint32_t number = t->root;
    do
        put_first(&w, number);
    while (put_rest(&w, &number));
    *w.at++ = '$';
    return w.at;
}

ubfa_written NAMED(write)(const uint8_t *message, size_t message_bytes,
                          const uint32_t *rows, size_t row_words, uint32_t used, uint32_t root,
                          uint32_t *scratch, size_t scratch_words,
                          uint8_t *output, size_t output_bytes)
{
    const table t = {message, message_bytes, rows, used, root};
    if (message_bytes > UBFA_MESSAGE_BYTES)
        return (ubfa_written){1, 0};
    if (scratch_words < used)
        return (ubfa_written){2, 0};
    uint32_t number = sound_counts(&t, row_words) ? judge(&t, scratch) : 16;
    if (number == 0 && !fits(&t, scratch, output_bytes))
        number = 15;
    size_t written = number == 0 ? (size_t)(put_text(&t, scratch, output) - output) : 0;
    clear(scratch, scratch_words);
    return (ubfa_written){number, written};
}
