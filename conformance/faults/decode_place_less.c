/* Noticed by: refusals checker */
/* A refusal's place is one byte too early. */
#include "true.h"

ubfa_decoded ubfa_decode(LENT_DECODE) {
    ubfa_decoded answer = true_decode(PASS_DECODE);
    if (answer.number != 0 && answer.place > 0)
        answer.place -= 1;
    return answer;
}
