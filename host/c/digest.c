/* The library from C: the digest of "abc" (FIPS 180-4), and a refusal. Compiled and run by host/test. */
#include "cendrulas.h"

#include <stdio.h>
#include <string.h>

static const uint8_t due[CENDRULAS_DIGEST] = {
    0xba, 0x78, 0x16, 0xbf, 0x8f, 0x01, 0xcf, 0xea, 0x41, 0x41, 0x40, 0xde, 0x5d, 0xae, 0x22, 0x23,
    0xb0, 0x03, 0x61, 0xa3, 0x96, 0x17, 0x7a, 0x9c, 0xb4, 0x10, 0xff, 0x61, 0xf2, 0x00, 0x15, 0xad};

int main(void) {
    const uint8_t message[3] = {'a', 'b', 'c'};
    uint8_t out[40] = {0};

    uint64_t answer = cendrulas_digest(message, sizeof message, out, sizeof out);
    if (cendrulas_refusal(answer) != 0 || cendrulas_count(answer) != sizeof due || memcmp(out, due, sizeof due) != 0
        || out[sizeof due] != 0) {
        puts("c: the digest differs");
        return 1;
    }
    /* one byte too little for a digest: refused with 255, nothing written */
    memset(out, 0, sizeof out);
    answer = cendrulas_digest(message, sizeof message, out, CENDRULAS_DIGEST - 1);
    if (cendrulas_refusal(answer) != 255 || cendrulas_count(answer) != 0 || out[0] != 0) {
        puts("c: a short output is not refused");
        return 1;
    }
    return 0;
}
