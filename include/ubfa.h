/*
 * UBF(A), the data transport format of the ubfa(6) manual page: decoder, writer, comparison and reader of sensor words.
 *
 * Every function works in the memory that the caller lends and in nothing else: no heap, no state between calls, no stack in
 * proportion to a message. Any bytes, any lengths, any row numbers will do: each call answers, or refuses with a number.
 *
 * Slices. A slice is a pointer and a count of elements, bytes or uint32_t words, in this order. The caller ensures that
 *   - the pointer is valid for so many elements, and aligned as its type asks;
 *   - it is valid, aligned and not null also where the count is 0: pass the address of any object of that type, and 0;
 *   - a slice lent for writing (no `const`) overlaps no other slice of the same call. Slices that are only read may overlap.
 * Nothing else is asked of the caller.
 *
 * Row table. UBFA_ROW_WORDS words a row, row numbers from 0; a reference always names an earlier row.
 *   kind                      other words
 *   1 integer                 high half, low half of the two's complement, 0
 *   2 atom, 3 string          start and length in the message, as spelled, escapes kept, 0
 *   4 binary                  start and length in the message, 0
 *   5 empty list              0, 0, 0
 *   6 list cell               row of the item, row of the rest (kind 5 or 6), 0
 *   7 tuple end               0, 0, 0
 *   8 tuple field             row of the field, row of the rest (kind 7 or 8), 0
 *   9 tag                     start and length of its name in the message, row of the tagged value
 *
 * Refusals. `number` is 0 for an answer, or:
 *    1  a message slice is over UBFA_MESSAGE_BYTES
 *    2  the register table is under UBFA_REGISTER_WORDS, or the scratch is shorter than the rows used
 *    3  the message ends inside an item or before `$`
 *    4  a byte that is not allowed there
 *    5  an integer out of the range of 64 bits
 *    6  a pop, or a tag, with too few values above the noted depth
 *    7  `~` without an integer, `&` without a list
 *    8  a negative count
 *    9  an empty register pushed
 *   10  `}` with no depth noted, `$` with one noted
 *   11  `$` with a stack depth other than 1
 *   12  no room in the rows
 *   13  no room on the stack
 *   14  no room for noted depths
 *   15  the plain text is longer than the output
 *   16  unsound rows
 *   17  `}` with a stack depth under the noted one
 *   18  not a sensor block
 *   19  a block's length is no multiple of its words' width
 *   20  no such word
 */
#ifndef UBFA_H
#define UBFA_H

#include <stddef.h>
#include <stdint.h>

#ifdef __cplusplus
extern "C" {
#endif

#define UBFA_ROW_WORDS 4           /* words of a row */
#define UBFA_MESSAGE_BYTES 1048576 /* bytes of a message slice, at most */
#define UBFA_ROWS 65536            /* rows, at most; a longer table is not used past them */
#define UBFA_STACK_WORDS 4096      /* values on the stack, at most; likewise */
#define UBFA_MARKS 256             /* noted depths, at most; likewise */
#define UBFA_REGISTER_WORDS 256    /* words of the register table, at least */

typedef struct { uint32_t number, place, root, rows; } ubfa_decoded; /* 0, bytes consumed, root row, rows used | number, place, 0, 0 */
typedef struct { uint32_t number, equal; } ubfa_compared;            /* 0, 1 or 0 | number, 0 */
typedef struct { uint32_t number; uint64_t bytes; } ubfa_written;    /* 0, bytes written | number, 0 */
typedef struct { uint32_t number; int64_t value; } ubfa_word;        /* 0, the word | number, 0 */

/*
 * Decodes the message at the head of a slice into `rows`. Stack, marks (noted depths) and registers are working memory.
 *
 * Answers 0, the bytes consumed with the `$`, the root row and the rows used. Bytes after the `$` are not looked at.
 * Refuses 1, 2 at place 0, before anything is read, and 3 to 14 and 17 at a place in the message, in bytes from its start.
 * Leaves every table as it was after 1 and 2. After any other call every word of stack, marks and registers is zero, and so is
 * every word of `rows` past the rows used: after a refusal, all of them.
 */
ubfa_decoded ubfa_decode(const uint8_t *message, size_t message_bytes,
                         uint32_t *rows, size_t row_words,
                         uint32_t *stack, size_t stack_words,
                         uint32_t *marks, size_t mark_words,
                         uint32_t *registers, size_t register_words);

/*
 * Writes the plain text of the value at row `root` of a table of `used` rows, and `$`, at the head of the output. The scratch,
 * a word for each row used, is working memory. Any table, count and root will do: unsound ones are refused.
 *
 * Answers 0 and the bytes written. Refuses 1, 2, 16, 15, in this order.
 * Leaves every output byte as it was after a refusal, and those past the bytes written after an answer. The scratch is as it was
 * after 1 and 2, and zero, all of it, after any other call.
 */
ubfa_written ubfa_write(const uint8_t *message, size_t message_bytes,
                        const uint32_t *rows, size_t row_words, uint32_t used, uint32_t root,
                        uint32_t *scratch, size_t scratch_words,
                        uint8_t *output, size_t output_bytes);

/*
 * Says whether the plain texts of two values are the same bytes: row `root_a` of one table, row `root_b` of another or of the same.
 * It works on the shared rows, so that texts which no memory could hold are compared too. The scratch, a word for each row used on
 * both sides together, is working memory.
 *
 * Answers 0 and 1 where they are the same, 0 and 0 where they differ. Refuses 1, 2, 16, in this order; never, where both messages
 * were accepted by ubfa_decode, the rows, counts and roots are those that it left and answered, and the scratch is long enough.
 * Leaves the scratch as it was after 1 and 2, and zero, all of it, after any other call.
 */
ubfa_compared ubfa_compare(const uint8_t *message_a, size_t message_a_bytes,
                           const uint32_t *rows_a, size_t row_words_a, uint32_t used_a, uint32_t root_a,
                           const uint8_t *message_b, size_t message_b_bytes,
                           const uint32_t *rows_b, size_t row_words_b, uint32_t used_b, uint32_t root_b,
                           uint32_t *scratch, size_t scratch_words);

/*
 * Reads word k, from 0, of the sensor block at a row: a tag named u8, i8, u16be, u16le, i16be, i16le, u32be, u32le, i32be or i32le
 * directly over a binary. The bytes are joined in the order that the name says, on every processor; i is two's complement.
 *
 * Answers 0 and the word. Refuses 1, 16, 18, 19, 20, in this order. Changes nothing.
 */
ubfa_word ubfa_read_word(const uint8_t *message, size_t message_bytes,
                         const uint32_t *rows, size_t row_words, uint32_t used, uint32_t row,
                         uint64_t k);

#ifdef __cplusplus
}
#endif

#endif
