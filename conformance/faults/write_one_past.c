/* Noticed by: bench checker */
/* A byte past the text is written. */
#include "true.h"

ubfa_written ubfa_write(LENT_WRITE) {
    ubfa_written answer = true_write(PASS_WRITE);
    if (answer.number == 0)
        output[answer.bytes] ^= 1;
    return answer;
}
