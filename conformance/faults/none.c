/* Nothing is broken: none of the tests that the other shims name may fail. */
#include "true.h"

ubfa_decoded ubfa_decode(LENT_DECODE) { return true_decode(PASS_DECODE); }
ubfa_written ubfa_write(LENT_WRITE) { return true_write(PASS_WRITE); }
ubfa_compared ubfa_compare(LENT_COMPARE) { return true_compare(PASS_COMPARE); }
ubfa_word ubfa_read_word(LENT_READ_WORD) { return true_read_word(PASS_READ_WORD); }
