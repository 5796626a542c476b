/* Fragments from C: a content cut for the servers of a shelf with t = 1, and restored from two of them. Compiled and run by host/test. */
#include "cendrulas.h"

#include <stdio.h>
#include <string.h>

int main(void) {
    static const uint8_t content[] = "a content of some bytes";
    const size_t length = sizeof content - 1;
    uint8_t one[512], flat[1024], out[1024];
    size_t used = 0;

    /* servers 4 and 3, in this order: any two different servers will do */
    const size_t servers[2] = {4, 3};
    for (int i = 0; i < 2; i++) {
        uint64_t answer = cendrulas_fragment(1, servers[i], content, length, one, sizeof one);
        if (cendrulas_refusal(answer) != 0) {
            return 1;
        }
        memcpy(flat + used, one, cendrulas_count(answer));
        used += cendrulas_count(answer);
    }
    uint64_t answer = cendrulas_restore(1, length, servers, 2, flat, used, out, sizeof out);
    if (cendrulas_refusal(answer) != 0 || cendrulas_count(answer) != length || memcmp(out, content, length) != 0) {
        puts("c: the content differs");
        return 1;
    }
    /* one server is too few */
    if (cendrulas_refusal(cendrulas_restore(1, length, servers, 1, flat, used / 2, out, sizeof out)) != 16) {
        puts("c: one fragment is not refused");
        return 1;
    }
    return 0;
}
