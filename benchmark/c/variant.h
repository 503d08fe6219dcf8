/*
 * The opponents: the library's functions once more, written by hand in portable C with the contracts of ubfa.h.
 *
 * Lent memory only, no recursion, no libc beyond memset, memcpy and memchr, no byte order or alignment assumed. There are two of
 * them, and each file is compiled for both: careful C, and with TUNED defined tuned C. All in which they differ is in the two headers
 * below, which define the same names: how quoted text is searched, and how digits are read and written.
 */
#ifndef VARIANT_H
#define VARIANT_H

#include "ubfa.h"

#include <string.h>

/* The value of the digits of an integer and the place after them; or a refusal, 3 or 5. */
typedef struct {
    uint64_t value;
    const uint8_t *after;
    uint32_t number;
} digits;

#ifdef TUNED
#include "tuned_bytes.h"
#define NAMED(function) tuned_##function
#else
#include "careful_bytes.h"
#define NAMED(function) careful_##function
#endif

/* Kinds of rows. */
enum { INTEGER = 1, ATOM, STRING, BINARY, EMPTY_LIST, CELL, TUPLE_END, FIELD, TAG };

ubfa_decoded NAMED(decode)(const uint8_t *message, size_t message_bytes,
                           uint32_t *rows, size_t row_words,
                           uint32_t *stack, size_t stack_words,
                           uint32_t *marks, size_t mark_words,
                           uint32_t *registers, size_t register_words);

ubfa_written NAMED(write)(const uint8_t *message, size_t message_bytes,
                          const uint32_t *rows, size_t row_words, uint32_t used, uint32_t root,
                          uint32_t *scratch, size_t scratch_words,
                          uint8_t *output, size_t output_bytes);

ubfa_word NAMED(read_word)(const uint8_t *message, size_t message_bytes,
                           const uint32_t *rows, size_t row_words, uint32_t used, uint32_t row,
                           uint64_t k);

static inline void clear(uint32_t *words, size_t count)
{
    memset(words, 0, count * sizeof *words);
}

#endif
