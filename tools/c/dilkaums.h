/* The simplifier as a C function: all words are lent by the caller, and nothing is allocated. docs/RULES.md has the rules,
   docs/FORMAT.md the format of an image. */
#ifndef DILKAUMS_H
#define DILKAUMS_H

#include <stdbool.h>
#include <stddef.h>
#include <stdint.h>

#ifdef __cplusplus
extern "C" {
#endif

/* What dilkaums_simplify answers: DILKAUMS_DONE, or the number of a refusal, whose place is told with it. */
enum dilkaums_answer {
    DILKAUMS_DONE = 0,
    DILKAUMS_HEAD = 1,      /* the counts and offsets of the image do not fit; place 0 */
    DILKAUMS_CUT = 2,       /* the length of a clause is 0 or passes the end of its run; place: the node */
    DILKAUMS_ORDER = 3,     /* the literals of a clause do not rise strictly, or name a node twice; place: the node */
    DILKAUMS_OWNER = 4,     /* the last literal of a clause is not of the run's node; place: the node */
    DILKAUMS_WIDE = 5,      /* the clauses of a node name over eight lower nodes besides 0; place: the node */
    DILKAUMS_CLASH = 6,     /* a row allows the node no value; place: the node */
    DILKAUMS_COUNT = 7,     /* the number of clauses is wrong; place 0 */
    DILKAUMS_STRANGER = 8,  /* a node to freeze is not in the image; place: the number */
    DILKAUMS_ROOM = 9,      /* the room is odd, under 2 or over 4,096; place: the room */
    DILKAUMS_SHORT = 10,    /* too few words for the store, or too few working words; place: the number needed */
    DILKAUMS_FULL = 11,     /* too many clauses for the room; place: their number, with node 0's */
    DILKAUMS_LOOSE = 12,    /* a node that is not frozen is loose; place: the lowest */
    DILKAUMS_HALF = 13,     /* more than half of the room is live; place: the number of live clauses; not of a work just started */
    DILKAUMS_MARGIN = 14    /* too few words for the image that is handed out; place: the number needed */
};

/* How many words a store with room for so many clauses, and the passes over it, need. */
#define DILKAUMS_SCANNED_WORDS(room) (48 * (size_t)(room) + 4096)
#define DILKAUMS_INDEXED_WORDS(room) (120 * (size_t)(room) + 16384)
#define DILKAUMS_WORKING_WORDS(room) (64 * (size_t)(room) + 8192)

/* Takes the image in, freezes the nodes of `frozen` in order, starts a work over a store, indexed or scanned, with room for `room`
   clauses, simplifies it, and writes its image to the front of `out`. Words of `out` past the image stay as they are.

   Answers DILKAUMS_DONE, and `told` is the number of words written; or the number of the first refusal, and `told` is its place,
   and `out` is as it was. Which kind of store is taken changes time and words, and no answer but DILKAUMS_SHORT.

   Any words and any lengths are answered. The caller owes this:
   - each pointer is to as many words as its length says, aligned as a uint32_t, and is not NULL, also where the length is 0;
   - `store`, `working`, `out` and `told` can be written, and none of them overlaps another or `image` or `frozen`;
   - nothing else reads or writes them during the call (`image` and `frozen` may be read);
   - 64 KiB of the stack are free. */
uint32_t dilkaums_simplify(const uint32_t *image, size_t image_len, const uint32_t *frozen, size_t frozen_len, bool indexed, uint32_t room,
                           uint32_t *store, size_t store_len, uint32_t *working, size_t working_len, uint32_t *out, size_t out_len,
                           uint32_t *told);

#ifdef __cplusplus
}
#endif

#endif
