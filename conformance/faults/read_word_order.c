/* Noticed by: words */
/* Words are joined in the other order of bytes: the order of the host, not of the name. */
#include "true.h"

ubfa_word ubfa_read_word(LENT_READ_WORD) {
    ubfa_word answer = true_read_word(PASS_READ_WORD);
    if (answer.number != 0)
        return answer;
    const uint32_t *tag = rows + UBFA_ROW_WORDS * root;
    const uint8_t *name = message + tag[1];
    unsigned width = tag[2] == 2 ? 1 : name[1] == '1' ? 2 : 4;
    uint64_t turned = 0;
    for (unsigned byte = 0; byte < width; byte++)
        turned = turned << 8 | ((uint64_t)answer.value >> (8 * byte) & 0xFF);
    unsigned spare = 64 - 8 * width;
    answer.value = name[0] == 'i' ? (int64_t)(turned << spare) >> spare : (int64_t)turned;
    return answer;
}
