/* numbers.c: the root, bit by bit from the top. */
#include "numbers.h"

/* The root is at most 2^23, so trial * trial is at most 2^48. */
int64_t root_down(int64_t square)
{
    int64_t root = 0;

    for (int bit = 23; bit >= 0; bit--) {
        int64_t trial = root + (INT64_C(1) << bit);

        if (trial * trial <= square)
            root = trial;
    }
    return root;
}
