/* Noticed by: limits */
/* The row table is cleared although the register table is too short. */
#include "true.h"

ubfa_decoded ubfa_decode(LENT_DECODE) {
    ubfa_decoded answer = true_decode(PASS_DECODE);
    if (answer.number == 2)
        for (size_t at = 0; at < row_words; at++)
            rows[at] = 0;
    return answer;
}
