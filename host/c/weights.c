/* Two records from the same boxes of a shelf with t = 1. The weights of these boxes are asked once, and both records are restored with them.
 * docs/EMBEDDING.md has this file; host/test compiles and runs it. */
#include "cendrulas.h"

#include <stdio.h>
#include <stdlib.h>
#include <string.h>

enum { T = 1, USED = T + 1 };

static uint64_t accepted(const char *what, uint64_t answer) {
    if (cendrulas_refusal(answer) != 0) {
        fprintf(stderr, "%s: %s\n", what, cendrulas_refusal_name(cendrulas_refusal(answer)));
        exit(1);
    }
    return answer;
}

/* What the boxes used hold of a record, in their order. On a shelf it comes in their replies, and each fragment is held to its digest first. */
static size_t gather(const char *record, const uint8_t *used, uint8_t *fragments) {
    uint8_t one[CENDRULAS_FRAGMENT_ROOM];
    size_t length = 0;
    for (int j = 0; j < USED; j++) {
        uint64_t answer = accepted("a fragment", cendrulas_fragment(T, used[j], (const uint8_t *)record, strlen(record), one, sizeof one));
        memcpy(fragments + length, one, cendrulas_count(answer));
        length += cendrulas_count(answer);
    }
    return length;
}

int main(void) {
    static const char *const records[] = {"CH1 500 mV/div 20 us/div", "CH2 2 V/div 1 ms/div"};
    const size_t answered[] = {4, 4, 3, 1}; /* in this order; box 4 was asked again */
    uint8_t used[CENDRULAS_USED_ROOM], rows[CENDRULAS_ROWS_ROOM];
    uint8_t fragments[USED * CENDRULAS_FRAGMENT_ROOM], content[CENDRULAS_CONTENT_ROOM];

    accepted("weights", cendrulas_weights(T, answered, 4, used, sizeof used, rows, sizeof rows));
    printf("boxes used: %u %u\n", used[0], used[1]);
    printf("weights: %02x %02x in run 1, %02x %02x in run 2\n", rows[0], rows[1], rows[2], rows[3]);
    for (int i = 0; i < 2; i++) {
        size_t held = gather(records[i], used, fragments), length = strlen(records[i]);
        accepted("a record", cendrulas_restore_weighed(T, length, rows, sizeof rows, fragments, held, content, sizeof content));
        printf("restored: %.*s\n", (int)length, (const char *)content);
    }
    uint64_t answer = cendrulas_weights(T, answered, 2, used, sizeof used, rows, sizeof rows);
    printf("box 4 alone is refused: %s\n", cendrulas_refusal_name(cendrulas_refusal(answer)));
    return 0;
}
