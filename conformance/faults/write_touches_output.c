/* Noticed by: bench */
/* The output is touched although the text does not fit. */
#include "true.h"

ubfa_written ubfa_write(LENT_WRITE) {
    ubfa_written answer = true_write(PASS_WRITE);
    if (answer.number == 15 && output_bytes > 0)
        output[output_bytes - 1] ^= 1;
    return answer;
}
