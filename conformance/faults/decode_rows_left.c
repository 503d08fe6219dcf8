/* Noticed by: bench checker */
/* The row table's last word, past the rows used, is not cleared. */
#include "true.h"

ubfa_decoded ubfa_decode(LENT_DECODE) {
    uint32_t last = row_words > 0 ? rows[row_words - 1] : 0;
    ubfa_decoded answer = true_decode(PASS_DECODE);
    if (row_words > UBFA_ROW_WORDS * (size_t)answer.rows)
        rows[row_words - 1] = last;
    return answer;
}
