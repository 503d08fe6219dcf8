/* Noticed by: bench */
/* The message, lent for reading, is written to. */
#include "true.h"

ubfa_decoded ubfa_decode(LENT_DECODE) {
    ubfa_decoded answer = true_decode(PASS_DECODE);
    if (answer.number == 0)
        ((uint8_t *)message)[0] ^= 1;
    return answer;
}
