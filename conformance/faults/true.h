/*
 * The library's functions under the names that `run` gives them in its copy of the archive, for a shim that takes the place of one
 * of them. LENT_.. is what a function takes, PASS_.. the same, handed on.
 */
#include "../../include/ubfa.h"

__typeof__(ubfa_decode) true_decode;
__typeof__(ubfa_write) true_write;
__typeof__(ubfa_compare) true_compare;
__typeof__(ubfa_read_word) true_read_word;

#define LENT_TABLE(side) \
    const uint8_t *message##side, size_t message_bytes##side, \
    const uint32_t *rows##side, size_t row_words##side, uint32_t used##side, uint32_t root##side
#define PASS_TABLE(side) \
    message##side, message_bytes##side, rows##side, row_words##side, used##side, root##side

#define LENT_DECODE \
    const uint8_t *message, size_t message_bytes, uint32_t *rows, size_t row_words, \
    uint32_t *stack, size_t stack_words, uint32_t *marks, size_t mark_words, uint32_t *registers, size_t register_words
#define PASS_DECODE \
    message, message_bytes, rows, row_words, stack, stack_words, marks, mark_words, registers, register_words

#define LENT_WRITE LENT_TABLE(), uint32_t *scratch, size_t scratch_words, uint8_t *output, size_t output_bytes
#define PASS_WRITE PASS_TABLE(), scratch, scratch_words, output, output_bytes

#define LENT_COMPARE LENT_TABLE(_a), LENT_TABLE(_b), uint32_t *scratch, size_t scratch_words
#define PASS_COMPARE PASS_TABLE(_a), PASS_TABLE(_b), scratch, scratch_words

#define LENT_READ_WORD LENT_TABLE(), uint64_t k
#define PASS_READ_WORD PASS_TABLE(), k
