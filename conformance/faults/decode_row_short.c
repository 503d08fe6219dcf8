/* Noticed by: limits */
/* The last row that was lent is not used. */
#include "true.h"

ubfa_decoded ubfa_decode(LENT_DECODE) {
    size_t lent = row_words;
    row_words -= row_words < UBFA_ROW_WORDS ? row_words : UBFA_ROW_WORDS;
    ubfa_decoded answer = true_decode(PASS_DECODE);
    if (answer.number != 1 && answer.number != 2)
        for (size_t word = row_words; word < lent; word++)
            rows[word] = 0;
    return answer;
}
