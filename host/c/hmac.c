/* HMAC and tag from C: cases 1 to 5 of RFC 4231, of which the RFC cuts the last to 128 bits, and refusals. A key of fewer than 32 bytes is that key
 * with 00h up to 32. Prints both of case 5, as examples/hmac.rs does. Compiled and run by host/test. */
#include "cendrulas.h"

#include <stdio.h>
#include <string.h>

struct example {
    uint8_t key[CENDRULAS_KEY];
    const char *message;
    const char *due; /* in hexadecimal */
};

/* ten bytes of a message */
#define DD "\xdd\xdd\xdd\xdd\xdd\xdd\xdd\xdd\xdd\xdd"
#define CD "\xcd\xcd\xcd\xcd\xcd\xcd\xcd\xcd\xcd\xcd"

static struct example examples[] = {
    {{0}, "Hi There", "b0344c61d8db38535ca8afceaf0bf12b881dc200c9833da726e9376c2e32cff7"},
    {{'J', 'e', 'f', 'e'}, "what do ya want for nothing?", "5bdcc146bf60754e6a042426089575c75a003f089d2739839dec58b964ec3843"},
    {{0}, DD DD DD DD DD, "773ea91e36800e46854db8ebd09181a72959098b3ef8c122d9635514ced565fe"},
    {{0}, CD CD CD CD CD, "82558a389a443c0ea4cc819899f2083a85f0faa3e578f8077a2e3ff46729665b"},
    {{0}, "Test With Truncation", "a3b6167473100ee06e0c796c2955552b"}};
enum { EXAMPLES = sizeof examples / sizeof examples[0], ROOM = 40, UNWRITTEN = 0xA5 };

typedef uint64_t function(const uint8_t *key, size_t key_len, const uint8_t *message, size_t message_len, uint8_t *out, size_t out_len);

/* Whether bytes begin as the text says, as far as both go. */
static int begin(const uint8_t *bytes, size_t length, const char *text) {
    for (size_t i = 0; i < length && text[2 * i] != 0; i++) {
        char digits[3];
        snprintf(digits, sizeof digits, "%02x", bytes[i]);
        if (memcmp(digits, text + 2 * i, 2) != 0) {
            return 0;
        }
    }
    return 1;
}

/* What is due of a case, in so many bytes and no more. */
static int gives(function *f, const struct example *e, size_t size) {
    uint8_t out[ROOM];
    memset(out, UNWRITTEN, sizeof out);
    uint64_t answer = f(e->key, sizeof e->key, (const uint8_t *)e->message, strlen(e->message), out, sizeof out);
    return cendrulas_refusal(answer) == 0 && cendrulas_count(answer) == size && begin(out, size, e->due) && out[size] == UNWRITTEN;
}

/* A key one byte short, and an output one byte short: refused with 255, nothing written. */
static int refuses(function *f, size_t size) {
    const struct example *e = &examples[0];
    uint8_t out[ROOM], unwritten[ROOM];
    memset(out, UNWRITTEN, sizeof out);
    memset(unwritten, UNWRITTEN, sizeof unwritten);
    const uint64_t short_key = f(e->key, sizeof e->key - 1, NULL, 0, out, size), short_out = f(e->key, sizeof e->key, NULL, 0, out, size - 1);
    return cendrulas_refusal(short_key) == 255 && cendrulas_refusal(short_out) == 255 && cendrulas_count(short_key) == 0
           && cendrulas_count(short_out) == 0 && memcmp(out, unwritten, sizeof out) == 0;
}

/* What a function gives for a case, in hexadecimal. */
static void print(const char *name, function *f, const struct example *e) {
    uint8_t out[ROOM];
    const uint64_t answer = f(e->key, sizeof e->key, (const uint8_t *)e->message, strlen(e->message), out, sizeof out);
    printf("%s: ", name);
    for (unsigned i = 0; i < cendrulas_count(answer); i++) {
        printf("%02x", out[i]);
    }
    puts("");
}

int main(void) {
    memset(examples[0].key, 0x0b, 20);
    memset(examples[2].key, 0xaa, 20);
    for (int i = 0; i < 25; i++) {
        examples[3].key[i] = (uint8_t)(i + 1);
    }
    memset(examples[4].key, 0x0c, 20);
    for (int k = 0; k < EXAMPLES; k++) {
        if (!gives(cendrulas_hmac, &examples[k], CENDRULAS_DIGEST) || !gives(cendrulas_tag, &examples[k], CENDRULAS_TAG)) {
            printf("c: the HMAC or the tag of case %d differs\n", k + 1);
            return 1;
        }
    }
    if (!refuses(cendrulas_hmac, CENDRULAS_DIGEST) || !refuses(cendrulas_tag, CENDRULAS_TAG)) {
        puts("c: a short key or output is not refused");
        return 1;
    }
    print("HMAC", cendrulas_hmac, &examples[EXAMPLES - 1]);
    print("tag", cendrulas_tag, &examples[EXAMPLES - 1]);
    return 0;
}
