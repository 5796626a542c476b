/* What a lab with t = 1 takes, whose 16 scopes load records of 1,024 bytes and whose boxes have kept 20 of them. docs/EMBEDDING.md has this file;
 * host/test compiles and runs it. */
#include "cendrulas.h"

#include <stdio.h>

int main(void) {
    const size_t t = 1, length = 1024, readers = 16, stores = 20;
    size_t lab[CENDRULAS_PLAN];
    uint64_t answer = cendrulas_plan(t, length, readers, stores, lab, CENDRULAS_PLAN);
    if (cendrulas_refusal(answer) != 0) {
        fprintf(stderr, "plan: %s\n", cendrulas_refusal_name(cendrulas_refusal(answer)));
        return 1;
    }
    const size_t *bytes = lab + CENDRULAS_PLAN_KIND, *filter = lab + CENDRULAS_PLAN_FILTER, *held = lab + CENDRULAS_PLAN_HELD;
    const size_t *reads = lab + CENDRULAS_PLAN_READ;
    printf("a store has %zu bytes, its reply %zu\n", bytes[3], bytes[4]);
    printf("a filter with one candidate has %zu\n", filter[1]);
    printf("its reply has %zu with a fragment, %zu without\n", held[1], held[0]);
    printf("%zu loads are %zu packets to the boxes and %zu back\n", readers, reads[0], reads[1]);
    printf("%zu records take %zu of %u bytes in each box\n", stores, lab[CENDRULAS_PLAN_MEMORY], CENDRULAS_SERVER_MEMORY);
    answer = cendrulas_plan(t, length, readers, 33, lab, CENDRULAS_PLAN);
    printf("33 records are refused: %s\n", cendrulas_refusal_name(cendrulas_refusal(answer)));
    return 0;
}
