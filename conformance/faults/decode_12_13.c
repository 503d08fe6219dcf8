/* Noticed by: refusals */
/* No room in the rows and no room on the stack are confused. */
#include "true.h"

ubfa_decoded ubfa_decode(LENT_DECODE) {
    ubfa_decoded answer = true_decode(PASS_DECODE);
    if (answer.number == 12 || answer.number == 13)
        answer.number = 25 - answer.number;
    return answer;
}
