/* Noticed by: words */
/* Only the low 32 bits of k are looked at. */
#include "true.h"

ubfa_word ubfa_read_word(LENT_READ_WORD) {
    k = (uint32_t)k;
    return true_read_word(PASS_READ_WORD);
}
