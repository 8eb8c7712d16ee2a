/* What the library tells of traces that it refuses, and that it leaves what was lent. */
#include "whetbracken.h"
#include <inttypes.h>
#include <stdio.h>
#include <string.h>

#define UNTOUCHED 0xA5

/* k = 1, Q = 2, W = 2; then one load of word 0 by engine 0; then a drain of 4 rounds. */
static const uint8_t trace[] = {
    3, 0, 1, 0, 1, 2, 2,
    19, 0, 3, 0, 0, 0, 0, 0, 0, 0, 0, 0, 0, 0, 0, 0, 0, 0, 0, 0, 0, 0, 0,
    2, 0, 5, 0, 4, 0,
};

static struct {
    uint64_t replies[4], order[4], words[WHETBRACKEN_WORDS + 4];
    uint8_t marks[4];
} lent;

static int all_untouched(void)
{
    const uint8_t *bytes = (const uint8_t *)&lent;
    for (size_t i = 0; i < sizeof lent; i++)
        if (bytes[i] != UNTOUCHED) return 0;
    return 1;
}

/* The first len bytes of the trace, with room for so many replies, marks and order places, and for so many words. */
static void offer(const char *what, size_t len, size_t room, size_t words)
{
    memset(&lent, UNTOUCHED, sizeof lent);
    struct whetbracken_numbers told =
        whetbracken_model(trace, len, lent.replies, room, lent.marks, room, lent.order, room, lent.words, words);
    printf("%s: ", what);
    if (told.refusal == WHETBRACKEN_ACCEPTED)
        printf("accepted, %" PRIu64 " rounds", told.rounds);
    else
        printf("refused %" PRIu64 " %" PRIu64, told.refusal, told.offset);
    puts(all_untouched() ? ", all lent memory as it was" : "");
}

int main(void)
{
    offer("whole, with room", sizeof trace, 1, WHETBRACKEN_WORDS);
    uint64_t beyond;
    memset(&beyond, UNTOUCHED, sizeof beyond);
    printf("lent beyond: %s\n",
        lent.marks[0] == 1 && lent.marks[1] == UNTOUCHED && lent.replies[1] == beyond && lent.order[1] == beyond
            && lent.words[WHETBRACKEN_WORDS - 1] == 0 && lent.words[WHETBRACKEN_WORDS] == beyond
            ? "as it was" : "changed");
    offer("no place for the reply", sizeof trace, 0, WHETBRACKEN_WORDS);
    offer("255 words", sizeof trace, 1, WHETBRACKEN_WORDS - 1);
    offer("cut in the drain", sizeof trace - 1, 1, WHETBRACKEN_WORDS);
    offer("empty, nothing lent", 0, 0, 0);
    uint8_t small[8];
    printf("report, too small a buffer: %zu\n", whetbracken_report(trace, sizeof trace, small, sizeof small));
    return 0;
}
