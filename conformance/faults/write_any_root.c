/* Noticed by: unsound */
/* A root that is not among the rows is taken for row 0. */
#include "true.h"

ubfa_written ubfa_write(LENT_WRITE) {
    if (root >= used)
        root = 0;
    return true_write(PASS_WRITE);
}
