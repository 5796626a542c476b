/* Stack: the functions of servers and clients, the digest, HMAC, tag, fragments, weights and plan run on painted stacks (painted.h), 64 KiB for a
 * server's functions and 128 KiB for the others, with the longest inputs at t = 4. Compiled and run by host/test. */
#include "painted.h"

#include "cendrulas.h"

enum { T = 4, SERVERS = 13, WRITES = 32 };
/* bytes: a packet's head; a stamp, which is number, writer and tag; a candidate, which is stamp, nonce and tags, and the place of its tags */
enum { HEAD = 8, STAMP = 5 + CENDRULAS_TAG, TAGS = STAMP + CENDRULAS_NONCE, CANDIDATE = TAGS + SERVERS * CENDRULAS_TAG };
enum { NOTHING, DIGEST, HMAC, TAG, FRAGMENT, RESTORE, WEIGHTS, WEIGHED, CHECK, CODE, BLANK, SERVE,
       ROUND, WRITE, READ, MAKE, TAKE, GIVE_UP, PLAN, FUNCTIONS };

static const char *const names[FUNCTIONS] = {
    "a thread alone", "digest", "hmac", "tag", "fragment", "restore", "weights", "restore_weighed", "packet_check", "store_code",
    "server_blank", "server_take", "client_round", "client_begin_write", "client_begin_read", "client_make", "client_take", "client_give_up", "plan"};
static size_t deepest[FUNCTIONS];
static unsigned seen_result[6], seen_kind[13], seen_full;

/* the arguments of the next call, and its answer */
static size_t client, server, packet_len, reply_len;
static uint8_t memories[SERVERS][CENDRULAS_SERVER_MEMORY], state[17][CENDRULAS_CLIENT_STATE];
static uint8_t writers[CENDRULAS_KEY], keys[CENDRULAS_KEYS], nonce[CENDRULAS_NONCE], content[CENDRULAS_CONTENT_ROOM];
static uint8_t packet[CENDRULAS_PACKET_ROOM], reply[CENDRULAS_PACKET_ROOM], out[CENDRULAS_CONTENT_ROOM];
static uint8_t fragments[5 * 205], used[CENDRULAS_USED_ROOM], rows[CENDRULAS_ROWS_ROOM];
static size_t numbers[5], planned[CENDRULAS_PLAN];
static uint64_t answer;

static void fail(const char *what) {
    printf("stack: %s (refusal %u, result %u)\n", what, cendrulas_refusal(answer), cendrulas_result(answer));
    exit(1);
}

static void *call(void *which) {
    uint8_t *memory = memories[server - 1], *s = state[client];
    caller = __builtin_frame_address(0);
    const size_t size = CENDRULAS_CLIENT_STATE;
    switch (*(const int *)which) {
    case DIGEST: answer = cendrulas_digest(packet, sizeof packet, out, sizeof out); break;
    case HMAC: answer = cendrulas_hmac(writers, sizeof writers, packet, sizeof packet, out, sizeof out); break;
    case TAG: answer = cendrulas_tag(writers, sizeof writers, packet, sizeof packet, out, sizeof out); break;
    case FRAGMENT: answer = cendrulas_fragment(T, server, content, sizeof content, out, sizeof out); break;
    case RESTORE: answer = cendrulas_restore(T, sizeof content, numbers, 5, fragments, sizeof fragments, out, sizeof out); break;
    case WEIGHTS: answer = cendrulas_weights(T, numbers, 5, used, sizeof used, rows, sizeof rows); break;
    case WEIGHED: answer = cendrulas_restore_weighed(T, sizeof content, rows, sizeof rows, fragments, sizeof fragments, out, sizeof out); break;
    case CHECK: answer = cendrulas_packet_check(packet, packet_len); break;
    case CODE: answer = cendrulas_store_code(reply, reply_len); break;
    case ROUND: answer = cendrulas_client_round(s, size); break;
    case BLANK: answer = cendrulas_server_blank(memory, sizeof memories[0], T, server); break;
    case SERVE:
        answer = cendrulas_server_take(memory, sizeof memories[0], keys + 32 * (server - 1), CENDRULAS_KEY, packet, packet_len, reply, sizeof reply);
        break;
    case WRITE: answer = cendrulas_client_begin_write(s, size, T, client, content, sizeof content, nonce, sizeof nonce); break;
    case READ: answer = cendrulas_client_begin_read(s, size, T, client); break;
    case MAKE: answer = cendrulas_client_make(s, size, T, client, server, packet, sizeof packet); break;
    case TAKE:
        answer = cendrulas_client_take(s, size, T, client, writers, sizeof writers, keys, sizeof keys, reply, reply_len, out, sizeof out);
        break;
    case GIVE_UP: answer = cendrulas_client_give_up(s, size, T, client); break;
    case PLAN: answer = cendrulas_plan(T, sizeof content, 16, WRITES, planned, CENDRULAS_PLAN); break;
    default: break;
    }
    return NULL;
}

static void run(int which) {
    const size_t depth = painted(call, &which, which == BLANK || which == SERVE ? SMALL : LARGE);
    deepest[which] = deepest[which] < depth ? depth : deepest[which];
}

/* A call that must be accepted. */
static unsigned accepted(int which) {
    run(which);
    if (cendrulas_refusal(answer) != 0) {
        fail(names[which]);
    }
    return cendrulas_result(answer);
}

static void begin(int which, size_t who) {
    client = who;
    nonce[0]++;
    accepted(which);
}

static unsigned kind_of_packet(void) {
    accepted(MAKE);
    packet_len = cendrulas_count(answer);
    accepted(CHECK);
    accepted(ROUND);
    seen_kind[packet[0]] = 1;
    return packet[0];
}

/* The packet that was made goes to its server, the reply to the client. */
static unsigned deliver(void) {
    accepted(SERVE);
    reply_len = cendrulas_count(answer);
    accepted(CODE);
    seen_full |= cendrulas_count(answer) == CENDRULAS_FULL;
    unsigned result = accepted(TAKE);
    seen_result[result] = 1;
    return result;
}

/* The servers by turns, until the packet of a kind would be next or, for 0, until the call has ended. */
static void visit_until(unsigned kind, int spoil) {
    for (server = 1; kind_of_packet() != kind; server = server % SERVERS + 1) {
        if (spoil && packet[0] == 5) {
            memset(packet + HEAD + TAGS, 7, packet_len - HEAD - TAGS); /* a lying writer: wrong tags */
        }
        if (deliver() != CENDRULAS_GOES_ON) {
            return;
        }
    }
}

static void give_up(unsigned due) {
    if (accepted(GIVE_UP) != due) {
        fail("another result of giving up");
    }
    seen_result[due] = 1;
}

/* Writes 1 to 13 complete at one server each, so that a read collects different candidates. They are put into a filter packet. */
static void writes_apart(uint8_t *list) {
    for (size_t k = 1; k <= SERVERS; k++) {
        begin(WRITE, k % 8 + 1);
        visit_until(5, 0);
        server = k;
        kind_of_packet();
        memcpy(list + CANDIDATE * (k - 1), packet + HEAD, CANDIDATE);
        deliver();
        give_up(CENDRULAS_ABORTED_IN_COMPLETE);
    }
}

/* A filter packet with 13 candidates: held, right by their tags alone, and forged. */
static void filters(uint8_t *list) {
    static uint8_t kept[CENDRULAS_SERVER_MEMORY];
    const uint8_t head[HEAD + 1] = {9, 9, 13, T, 0, 0, 0, 1, SERVERS};
    server = 13;
    packet_len = sizeof head + SERVERS * CANDIDATE;
    memcpy(packet, head, sizeof head);
    for (int round = 0; round < 4; round++) {
        if (round == 1) {
            memcpy(kept, memories[12], sizeof kept);
            accepted(BLANK);
        } else if (round == 2) {
            for (size_t k = 0; k < SERVERS; k++) {
                list[CANDIDATE * k + STAMP] ^= 1; /* of the nonce */
            }
        } else if (round == 3) {
            memcpy(memories[12], kept, sizeof kept);
        }
        memcpy(packet + sizeof head, list, SERVERS * CANDIDATE);
        accepted(SERVE);
    }
}

/* The content is restored, where none stood before. */
static void restored(int which) {
    memset(out, 0, sizeof out);
    accepted(which);
    if (memcmp(out, content, sizeof content) != 0) {
        fail("another content");
    }
}

/* Fragments of servers 9 to 13, and the content from them in one call and by their weights; a plan. */
static void coding(void) {
    accepted(DIGEST);
    accepted(HMAC);
    accepted(TAG);
    for (server = 9; server <= SERVERS; server++) {
        accepted(FRAGMENT);
        numbers[server - 9] = (size_t)server;
        memcpy(fragments + 205 * (server - 9), out, 205);
    }
    server = 1;
    restored(RESTORE);
    accepted(WEIGHTS);
    restored(WEIGHED);
    accepted(PLAN);
}

/* Writes until the servers are full, the last one by a lying writer; a read with repair; one more write. */
static void fill(void) {
    for (int k = SERVERS; k < WRITES; k++) {
        begin(WRITE, 8);
        visit_until(0, k == WRITES - 1);
    }
    begin(READ, 16);
    visit_until(0, 0);
    if (memcmp(out, content, sizeof content) != 0) {
        fail("another content");
    }
    begin(WRITE, 8);
    visit_until(3, 0);
    kind_of_packet();
    deliver();
}

static void report(void) {
    for (int k = 0; k < 6; k++) {
        if (!seen_result[k] || !seen_kind[2 * k + 1] || !seen_full) {
            fail("a step was not reached");
        }
    }
    for (int k = 0; k < FUNCTIONS; k++) {
        printf("stack of %-24s %6zu bytes\n", names[k], deepest[k]);
    }
}

int main(void) {
    static uint8_t list[SERVERS * CANDIDATE];
    for (size_t i = 0; i < sizeof content; i++) {
        content[i] = (uint8_t)(i * 37 >> 3);
    }
    memset(writers, 0xFF, sizeof writers);
    for (size_t i = 0; i < sizeof keys; i++) {
        keys[i] = (uint8_t)(i / 32 + 1);
    }
    server = client = 1;
    run(NOTHING);
    coding();
    for (server = 1; server <= SERVERS; server++) {
        accepted(BLANK);
    }
    begin(READ, 9);
    visit_until(0, 0); /* blank */
    begin(WRITE, 1);
    visit_until(3, 0);
    give_up(CENDRULAS_ABORTED);
    writes_apart(list);
    begin(READ, 9);
    visit_until(0, 0); /* of different candidates */
    filters(list);
    fill();
    report();
    return 0;
}
