/* Noticed by: random */
/* Byte 255 names no register. */
#include "true.h"

ubfa_decoded ubfa_decode(LENT_DECODE) {
    ubfa_decoded answer = true_decode(PASS_DECODE);
    for (uint32_t at = 1; answer.number == 0 && at < answer.place; at++) {
        if (message[at - 1] != '>' || message[at] != 255)
            continue;
        for (size_t word = 0; word < UBFA_ROW_WORDS * (size_t)answer.rows; word++)
            rows[word] = 0;
        answer = (ubfa_decoded){4, at, 0, 0};
    }
    return answer;
}
