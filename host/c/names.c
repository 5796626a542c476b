/* Every refusal has its own name, other numbers are unknown; a client that is used by its struct keeps its t and number. Compiled and run by
 * host/test. */
#include "cendrulas_parties.h"

#include <stdio.h>
#include <string.h>

static int unknown(unsigned refusal) {
    return strcmp(cendrulas_refusal_name(refusal), "unknown") == 0;
}

/* Names that are there for 0 to 18 and 255 alone, no two the same. */
static int names(void) {
    for (unsigned a = 0; a < 1000; a++) {
        if (unknown(a) != (a > 18 && a != 255)) {
            return 0;
        }
        for (unsigned b = 0; b < a; b++) {
            if (!unknown(a) && strcmp(cendrulas_refusal_name(a), cendrulas_refusal_name(b)) == 0) {
                return 0;
            }
        }
    }
    return 1;
}

/* The packet of client 2 with t = 3 is its own for every server, and no server of other clients' bytes is marked. */
static int parties(void) {
    static struct cendrulas_client client;
    static struct cendrulas_packet packet;
    cendrulas_new_client(&client, 3, 2);
    if (cendrulas_round(&client) != 0 || cendrulas_refusal(cendrulas_make(&client, 1, &packet)) != 13 || packet.length != 0) {
        return 0;
    }
    if (cendrulas_refusal(cendrulas_begin_read(&client)) != 0 || cendrulas_round(&client) != 4 || cendrulas_replies(&client) != 0) {
        return 0;
    }
    for (size_t server = 1; server <= 10; server++) {
        if (cendrulas_refusal(cendrulas_make(&client, server, &packet)) != 0 || packet.bytes[1] != 2 || packet.bytes[2] != server
            || packet.bytes[3] != 3 || cendrulas_has_replied(&client, server)) {
            return 0;
        }
    }
    return cendrulas_refusal(cendrulas_make(&client, 11, &packet)) == 4 && !cendrulas_has_replied(&client, 0) && !cendrulas_has_replied(&client, 64);
}

int main(void) {
    if (!names() || !parties()) {
        puts("c: a name or a party is wrong");
        return 1;
    }
    return 0;
}
