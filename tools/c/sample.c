/* Simplifies the sample of the program: node 3 is the conjunction of the nodes 1 and 2, node 4 the negation of node 3. */
#include <inttypes.h>
#include <stdio.h>

#include "dilkaums.h"

static uint32_t store[DILKAUMS_INDEXED_WORDS(128)], working[DILKAUMS_WORKING_WORDS(128)], out[64], told;

int main(void) {
    const uint32_t image[] = {4, 5, 7, 7, 7, 17, 23, 2, 2, 7, 2, 4, 7, 3, 3, 5, 6, 2, 6, 8, 2, 7, 9}, frozen[] = {1, 2, 4};
    uint32_t answer = dilkaums_simplify(image, 23, frozen, 3, true, 128, store, DILKAUMS_INDEXED_WORDS(128), working, DILKAUMS_WORKING_WORDS(128), out, 64, &told);
    if (answer != DILKAUMS_DONE)
        return printf("refused %" PRIu32 " %" PRIu32 "\n", answer, told), 1;
    for (uint32_t k = 0; k < told; k++)
        printf("%" PRIu32 "%c", out[k], k + 1 < told ? ' ' : '\n');
}
