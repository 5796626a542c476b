/* NULL with length 0, as an empty vector gives it, for every pointer of every function by itself and for all at once: it is never followed, and the
 * answer is that of another pointer with length 0. Compiled and run by host/test. */
#include "cendrulas_parties.h"

#include <stdio.h>
#include <string.h>

enum { ALL = 7, FUNCTIONS = 19, DRILL = FUNCTIONS - 1 };

static uint8_t message[100], out[CENDRULAS_PACKET_ROOM], work[CENDRULAS_WORK_AREA];
static uint8_t used[CENDRULAS_USED_ROOM], rows[CENDRULAS_ROWS_ROOM];
static struct cendrulas_server server;
static struct cendrulas_client client;
static struct cendrulas_keys keys;
static struct cendrulas_packet packet, reply;
static const uint8_t nonce[CENDRULAS_NONCE];
static const size_t numbers[2] = {1, 2};
static size_t planned[CENDRULAS_PLAN];

/* which pointer of the function gets length 0 (0: none), and whether it is NULL */
static int chosen, null;

static int is(int which) { return chosen == which || chosen == ALL; }
static size_t n(int which, size_t length) { return is(which) ? 0 : length; }
static const uint8_t *in(int which, const uint8_t *bytes) { return is(which) && null ? NULL : bytes; }
static uint8_t *io(int which, uint8_t *bytes) { return is(which) && null ? NULL : bytes; }
static const size_t *named(int which) { return is(which) && null ? NULL : numbers; }

/* A server that was never used, a client whose write is in its first round, its packet, and the reply. */
static void set_up(void) {
    cendrulas_blank(&server, 1, 1);
    cendrulas_new_client(&client, 1, 1);
    cendrulas_begin_write(&client, message, sizeof message, nonce);
    cendrulas_make(&client, 1, &packet);
    cendrulas_serve(&server, packet.bytes, packet.length, &reply);
}

static uint64_t call(int function) {
    uint8_t *s = client.state, *m = server.memory;
    const size_t s_n = sizeof client.state, m_n = sizeof server.memory;
    switch (function) {
    case 0: return cendrulas_digest(in(1, message), n(1, 100), io(2, out), n(2, CENDRULAS_DIGEST));
    case 1: return cendrulas_tag(in(1, server.key), n(1, 32), in(2, message), n(2, 100), io(3, out), n(3, CENDRULAS_TAG));
    case 2: return cendrulas_fragment(1, 1, in(1, message), n(1, 100), io(2, out), n(2, 512));
    case 3: return cendrulas_restore(1, 100, named(1), n(1, 2), in(2, message), n(2, 100), io(3, out), n(3, 1024));
    case 4: return cendrulas_packet_check(in(1, packet.bytes), n(1, packet.length));
    case 5: return cendrulas_store_code(in(1, reply.bytes), n(1, reply.length));
    case 6: return cendrulas_server_blank(io(1, m), n(1, m_n), 1, 1);
    case 7: return cendrulas_server_take(io(1, m), n(1, m_n), in(2, server.key), n(2, 32), in(3, packet.bytes), n(3, packet.length),
                                         io(4, out), n(4, 6400));
    case 8: return cendrulas_client_round(in(1, s), n(1, s_n));
    case 9: return cendrulas_client_begin_write(io(1, s), n(1, s_n), 1, 1, in(2, message), n(2, 100), in(3, nonce), n(3, 32));
    case 10: return cendrulas_client_begin_read(io(1, s), n(1, s_n), 1, 1);
    case 11: return cendrulas_client_make(in(1, s), n(1, s_n), 1, 1, 1, io(2, out), n(2, 6400));
    case 12: return cendrulas_client_take(io(1, s), n(1, s_n), 1, 1, in(2, keys.writers), n(2, 32), in(3, keys.servers), n(3, 416),
                                          in(4, reply.bytes), n(4, reply.length), io(5, out), n(5, 1024));
    case 13: return cendrulas_client_give_up(io(1, s), n(1, s_n), 1, 1);
    case 14: return cendrulas_plan(1, 100, 1, 1, is(1) && null ? NULL : planned, n(1, CENDRULAS_PLAN));
    case 15: return cendrulas_weights(1, named(1), n(1, 2), io(2, used), n(2, sizeof used), io(3, rows), n(3, sizeof rows));
    case 16: return cendrulas_restore_weighed(1, 100, in(1, rows), n(1, sizeof rows), in(2, message), n(2, 100), io(3, out), n(3, 1024));
    case 17: return cendrulas_hmac(in(1, server.key), n(1, 32), in(2, message), n(2, 100), io(3, out), n(3, CENDRULAS_DIGEST));
    default: return cendrulas_drill(in(1, message), n(1, 100), io(2, out), n(2, 65), io(3, work), n(3, sizeof work));
    }
}

static uint64_t fresh(int function, int is_null) {
    set_up();
    if (function == 9 || function == 10) { /* a begin, with no call in hand */
        cendrulas_give_up(&client);
    }
    null = is_null;
    return call(function);
}

/* A content of no bytes is one: lent as NULL it is written and has fragments, and it comes back from fragments that are NULL. */
static int no_content(void) {
    set_up();
    cendrulas_give_up(&client);
    return cendrulas_begin_write(&client, NULL, 0, nonce) == 0 && cendrulas_round(&client) == 1 &&
           cendrulas_fragment(1, 1, NULL, 0, out, CENDRULAS_FRAGMENT_ROOM) == 0 &&
           cendrulas_restore(1, 0, numbers, 2, NULL, 0, out, CENDRULAS_CONTENT_ROOM) == 0 &&
           cendrulas_restore_weighed(1, 0, rows, sizeof rows, NULL, 0, out, CENDRULAS_CONTENT_ROOM) == 0;
}

int main(void) {
    static const uint8_t empty[4] = {0xe3, 0xb0, 0xc4, 0x42}; /* the digest of the empty message begins so */
    unsigned calls = 0;
    for (int function = 0; function < FUNCTIONS; function++) {
        chosen = 0;
        if (cendrulas_refusal(fresh(function, 0)) != 0) {
            printf("null: function %d is refused where nothing is empty\n", function);
            return 1;
        }
        for (chosen = 1; chosen <= ALL; chosen++, calls++) {
            if (fresh(function, 1) != fresh(function, 0)) {
                printf("null: another answer of function %d with pointer %d\n", function, chosen);
                return 1;
            }
        }
    }
    chosen = 1;
    if (cendrulas_refusal(fresh(0, 1)) != 0 || memcmp(out, empty, sizeof empty) != 0 || cendrulas_refusal(fresh(DRILL, 1)) != 0) {
        puts("null: an empty message or sheet is not taken");
        return 1;
    }
    if (!no_content()) {
        puts("null: a content of no bytes is not taken");
        return 1;
    }
    printf("NULL with length 0 is taken for every pointer, %u calls\n", calls);
    return 0;
}
