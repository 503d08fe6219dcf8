/* The reader of sensor words. */
#include "rows.h"

/* How the words of a block are joined; width 0 where the name is not known. */
typedef struct {
    uint32_t width;
    int is_signed, is_big;
} format;

/* The format that a name stands for: u or i, 8, or 16 or 32 and be or le. */
static format format_of(const uint8_t *name, uint32_t length)
{
    const format unknown = {0, 0, 0};
    if ((length != 2 && length != 5) || (name[0] != 'u' && name[0] != 'i'))
        return unknown;
    format found = {1, name[0] == 'i', 1};
    if (length == 2)
        return name[1] == '8' ? found : unknown;
    if (name[1] == '1' && name[2] == '6')
        found.width = 2;
    else if (name[1] == '3' && name[2] == '2')
        found.width = 4;
    else
        return unknown;
    found.is_big = name[3] == 'b';
    return (found.is_big || name[3] == 'l') && name[4] == 'e' ? found : unknown;
}

static int64_t join(const uint8_t *bytes, format f)
{
    uint32_t word = 0;
    for (uint32_t at = 0; at < f.width; at++)
        word |= (uint32_t)bytes[at] << 8 * (f.is_big ? f.width - 1 - at : at);
    int64_t half = (int64_t)1 << (8 * f.width - 1);
    return f.is_signed && word >= half ? word - 2 * half : word;
}

ubfa_word NAMED(read_word)(const uint8_t *message, size_t message_bytes,
                           const uint32_t *rows, size_t row_words, uint32_t used, uint32_t row,
                           uint64_t k)
{
    const table t = {message, message_bytes, rows, used, row};
    if (message_bytes > UBFA_MESSAGE_BYTES)
        return (ubfa_word){1, 0};
    if (!sound_counts(&t, row_words))
        return (ubfa_word){16, 0};
    for (uint32_t number = 0; number < used; number++)
        if (!sound_row(&t, number))
            return (ubfa_word){16, 0};
    const uint32_t *tag = row_at(&t, row);
    if (tag[0] != TAG)
        return (ubfa_word){18, 0};
    const uint32_t *block = row_at(&t, tag[3]);
    format f = format_of(message + tag[1], tag[2]);
    if (block[0] != BINARY || f.width == 0)
        return (ubfa_word){18, 0};
    if (block[2] % f.width != 0)
        return (ubfa_word){19, 0};
    if (k >= block[2] / f.width)
        return (ubfa_word){20, 0};
    return (ubfa_word){0, join(message + block[1] + k * f.width, f)};
}
