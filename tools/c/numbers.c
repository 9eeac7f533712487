/* Asks for each refusal that a work can give that was just started, over both stores, and compares the answers with dilkaums.h. */
#include <inttypes.h>
#include <stdio.h>
#include <string.h>

#include "dilkaums.h"

#define MOST DILKAUMS_INDEXED_WORDS(128)

struct lent {
    uint32_t image[51], frozen[3];
    size_t image_len, frozen_len;
    uint32_t room;
    size_t store, working, out;
    uint32_t answer, place;
};

/* The sample, which is simplified to 17 words. */
#define GATES {4, 5, 7, 7, 7, 17, 23, 2, 2, 7, 2, 4, 7, 3, 3, 5, 6, 2, 6, 8, 2, 7, 9}, {1, 2, 4}, 23

/* Node 10 as the conjunction of the nodes 1 to 9. */
#define WIDE {10, 10, 13, 13, 13, 13, 13, 13, 13, 13, 13, 13, 51, 2, 2, 21, 2, 4, 21, 2, 6, 21, 2, 8, 21, 2, 10, 21, 2, 12, 21, 2, 14, 21, 2, 16, 21, 2, 18, 21, 10, 3, 5, 7, 9, 11, 13, 15, 17, 19, 20}

static const struct lent cases[] = {
    {{0, 0, 4}, {0}, 3, 0, 128, MOST, MOST, 64, DILKAUMS_HEAD, 0},
    {{0}, {0}, 0, 0, 128, MOST, MOST, 64, DILKAUMS_HEAD, 0},
    {{1, 1, 4, 6, 2, 2}, {0}, 6, 0, 128, MOST, MOST, 64, DILKAUMS_CUT, 1},
    {{1, 1, 4, 7, 2, 2, 3}, {0}, 7, 0, 128, MOST, MOST, 64, DILKAUMS_ORDER, 1},
    {{1, 1, 4, 6, 1, 4}, {0}, 6, 0, 128, MOST, MOST, 64, DILKAUMS_OWNER, 1},
    {WIDE, {0}, 51, 0, 128, MOST, MOST, 64, DILKAUMS_WIDE, 10},
    {{1, 2, 4, 8, 1, 2, 1, 3}, {0}, 8, 0, 128, MOST, MOST, 64, DILKAUMS_CLASH, 1},
    {{1, 2, 4, 6, 1, 2}, {0}, 6, 0, 128, MOST, MOST, 64, DILKAUMS_COUNT, 0},
    {{0, 0, 3}, {1}, 3, 1, 128, MOST, MOST, 64, DILKAUMS_STRANGER, 1},
    {GATES, 3, 127, MOST, MOST, 64, DILKAUMS_ROOM, 127},
    {GATES, 3, 128, 4095, MOST, 64, DILKAUMS_SHORT, 0},
    {GATES, 3, 128, MOST, DILKAUMS_WORKING_WORDS(128) - 1, 64, DILKAUMS_SHORT, DILKAUMS_WORKING_WORDS(128)},
    {GATES, 3, 10, MOST, MOST, 64, DILKAUMS_FULL, 6},
    {GATES, 0, 128, MOST, MOST, 64, DILKAUMS_LOOSE, 1},
    {GATES, 3, 128, MOST, MOST, 16, DILKAUMS_MARGIN, 17},
    {GATES, 3, 128, MOST, MOST, 17, DILKAUMS_DONE, 17},
    {{0, 0, 3}, {0}, 3, 0, 2, MOST, MOST, 3, DILKAUMS_DONE, 3},
};

static uint32_t store[MOST], working[MOST];

int main(void) {
    int wrong = 0;
    for (size_t k = 0; k < 2 * sizeof cases / sizeof *cases; k++) {
        struct lent c = cases[k / 2];
        uint32_t out[64], old[64], place;
        memset(old, 0xa5, sizeof old);
        memcpy(out, old, sizeof out);
        if (c.answer == DILKAUMS_SHORT && c.place == 0)
            c.place = k % 2 ? DILKAUMS_INDEXED_WORDS(128) : DILKAUMS_SCANNED_WORDS(128);
        uint32_t answer = dilkaums_simplify(c.image, c.image_len, c.frozen, c.frozen_len, k % 2, c.room, store, c.store, working, c.working, out, c.out, &place);
        size_t written = answer == DILKAUMS_DONE ? place : 0;
        if (answer != c.answer || place != c.place || memcmp(out + written, old + written, sizeof old - 4 * written)) {
            printf("case %zu: %" PRIu32 " %" PRIu32 ", not %" PRIu32 " %" PRIu32 "\n", k, answer, place, c.answer, c.place);
            wrong = 1;
        }
    }
    return wrong;
}
