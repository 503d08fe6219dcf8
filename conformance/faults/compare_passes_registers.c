/* Noticed by: pairs */
/* Messages with registers are passed as equal without a look. */
#include "true.h"

#include <string.h>

ubfa_compared ubfa_compare(LENT_COMPARE) {
    ubfa_compared answer = true_compare(PASS_COMPARE);
    if (answer.number == 0 && memchr(message_a, '>', message_bytes_a) != NULL)
        answer.equal = 1;
    return answer;
}
