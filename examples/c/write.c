/*
 * A requirement written from lists, as a form would hand them over: the pass
 * mark of examples/pass.requirement, byte for byte.
 *
 *   tools/staticlib
 *   cc -std=c99 -Iinclude examples/c/write.c target/staticlib/libsvelgandur.a -o target/write
 *   target/write | cmp - examples/pass.requirement
 */
#include <inttypes.h>
#include <stdio.h>

#include "svelgandur.h"

#define LONGEST_MESSAGE 12066
#define COUNT(list) (sizeof(list) / sizeof *(list))

/* The house's words: examples/README.md. */
#define NAME(k) (UINT64_C(1) << (k))
#define CLOCK_BOARD NAME(0)
#define OUTPUT NAME(1)
#define SUPPLY NAME(3)
#define HOLDOVER NAME(8)
#define TESTED NAME(9)
#define TIMECODE NAME(16)
#define SATELLITE NAME(24)
#define ATOMIC NAME(25)
#define BATTERY NAME(32)
enum { FEEDS = 0, LOCKED_TO = 1, POWERED_BY = 2, BACKED_BY = 4 };
enum { ABOVE = 2, AT_LEAST = 3 };

/* Names, depth, role. */
static const struct svelgandur_node nodes[] = {
    {CLOCK_BOARD, 0, 0},
    {SUPPLY, 1, POWERED_BY},
    {CLOCK_BOARD, 1, BACKED_BY},
};

/* Node, comparison, p, q, how many inner nodes. */
static const struct svelgandur_threshold thresholds[] = {
    {0, AT_LEAST, 3, 4, 3},
    {0, ABOVE, 1, 2, 3},
    {1, AT_LEAST, 1, 2, 1},
    {2, ABOVE, 0, 1, 1},
};

static const struct svelgandur_node inner[] = {
    {0, 0, 0}, /* of the first threshold */
    {OUTPUT, 1, FEEDS},
    {OUTPUT | TIMECODE, 1, FEEDS},
    {HOLDOVER, 0, 0}, /* of the second */
    {SATELLITE | TESTED, 1, LOCKED_TO},
    {ATOMIC, 1, LOCKED_TO},
    {TESTED | BATTERY, 0, 0}, /* of the third */
    {HOLDOVER, 0, 0},         /* of the fourth */
};

int main(void)
{
    static uint8_t message[LONGEST_MESSAGE];
    uint64_t answer[4];

    svelgandur_write_requirement((const uint64_t *)nodes, 3 * COUNT(nodes),
                                 (const uint64_t *)thresholds, 5 * COUNT(thresholds),
                                 (const uint64_t *)inner, 3 * COUNT(inner), message,
                                 sizeof message, answer);
    if (answer[0] == SVELGANDUR_REFUSED) {
        fprintf(stderr, "call refused %" PRIu64 "\n", answer[2]);
        return 1;
    }
    if (fwrite(message, 1, (size_t)answer[1], stdout) != answer[1] || fflush(stdout) != 0) {
        perror("write");
        return 2;
    }
    return 0;
}
