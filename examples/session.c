/* Document 01's session, run through the library from C: two engines add to one word, their requests merge on the way in, and the
 * reply is split on the way out. */
#include "whetbracken.h"
#include <inttypes.h>
#include <stdio.h>

/* Each record: body length and kind, two bytes each, least significant first; then the body. */
static const uint8_t trace[] = {
    3, 0, 1, 0, 1, 2, 2,                                               /* shape: k = 1, Q = 2, W = 2 */
    9, 0, 2, 0, 5, 100, 0, 0, 0, 0, 0, 0, 0,                           /* word 5 = 100 */
    19, 0, 3, 0, 0, 2, 5, 5, 0, 0, 0, 0, 0, 0, 0, 0, 0, 0, 0, 0, 0, 0, 0, /* request: engine 0, add 5 at 5 */
    19, 0, 3, 0, 1, 2, 5, 7, 0, 0, 0, 0, 0, 0, 0, 0, 0, 0, 0, 0, 0, 0, 0, /* request: engine 1, add 7 at 5 */
    3, 0, 4, 0, 0, 0, 0,                                               /* issue 0 */
    3, 0, 4, 0, 0, 0, 1,                                               /* issue 1 */
    3, 0, 4, 0, 2, 1, 1,                                               /* module 1 */
    3, 0, 4, 0, 3, 1, 1,                                               /* return, level 1, position 1 */
    3, 0, 4, 0, 3, 1, 1,                                               /* the same once more */
    3, 0, 4, 0, 4, 0, 0,                                               /* collect 0 */
    3, 0, 4, 0, 4, 0, 1,                                               /* collect 1 */
};

int main(void)
{
    uint64_t replies[2], order[2], words[WHETBRACKEN_WORDS];
    uint8_t marks[2];
    struct whetbracken_numbers told =
        whetbracken_model(trace, sizeof trace, replies, 2, marks, 2, order, 2, words, WHETBRACKEN_WORDS);
    if (told.refusal != WHETBRACKEN_ACCEPTED) {
        printf("refused %" PRIu64 " %" PRIu64 "\n", told.refusal, told.offset);
        return 1;
    }
    for (int t = 0; t < 2; t++)
        if (marks[t]) printf("reply %d %" PRIu64 "\n", t, replies[t]);
    for (uint64_t i = 0; i < told.ordered; i++) printf("order %" PRIu64 "\n", order[i]);
    printf("word 5 %" PRIu64 "\n", words[5]);
    printf("access %" PRIu64 "\nmerge %" PRIu64 "\nrounds %" PRIu64 "\n", told.accesses, told.merges, told.rounds);
    return 0;
}
