/* Rows judged and measured in one pass. */
#ifndef ROWS_H
#define ROWS_H

#include "variant.h"

typedef struct {
    const uint8_t *message;
    size_t message_bytes;
    const uint32_t *rows;
    uint32_t used, root;
} table;

/* Whether a sound table could have so many rows and this root. */
static inline int sound_counts(const table *t, size_t row_words)
{
    return t->used <= row_words / UBFA_ROW_WORDS && t->used <= UBFA_ROWS && t->root < t->used;
}

static inline const uint32_t *row_at(const table *t, uint32_t number)
{
    return t->rows + (size_t)UBFA_ROW_WORDS * number;
}

static inline int in_message(const table *t, const uint32_t *row)
{
    return row[1] <= t->message_bytes && row[2] <= t->message_bytes - row[1];
}

/* Whether the row's span lies in the message and could stand between two of this mark. */
static inline int spelled_well(const table *t, const uint32_t *row, uint8_t mark)
{
    if (!in_message(t, row))
        return 0;
    const uint8_t *at = t->message + row[1], *end = at + row[2];
    search s = {.end = end, .mark = mark};
    for (;;) {
        at = special(&s, at);
        if (at == end)
            return 1;
        if (*at == mark || end - at < 2 || (at[1] != '\\' && at[1] != mark))
            return 0;
        at += 2;
    }
}

/* Whether item and rest of row `number` are earlier, and the rest is an end or a link of the same chain. */
static inline int linked(const table *t, const uint32_t *row, uint32_t number)
{
    if (row[1] >= number || row[2] >= number)
        return 0;
    uint32_t rest = row_at(t, row[2])[0];
    return rest == row[0] || rest == row[0] - 1;
}

/* Whether row `number` is sound, given that those before it are. */
static inline int sound_row(const table *t, uint32_t number)
{
    const uint32_t *row = row_at(t, number);
    switch (row[0]) {
    case INTEGER: return row[3] == 0;
    case ATOM: return row[3] == 0 && spelled_well(t, row, '\'');
    case STRING: return row[3] == 0 && spelled_well(t, row, '"');
    case BINARY: return row[3] == 0 && in_message(t, row);
    case EMPTY_LIST:
    case TUPLE_END: return (row[1] | row[2] | row[3]) == 0;
    case CELL:
    case FIELD: return row[3] == 0 && linked(t, row, number);
    case TAG: return row[3] < number && spelled_well(t, row, '`');
    default: return 0;
    }
}

#endif
