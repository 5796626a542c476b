/* A client and a server as structs, over the functions of cendrulas.h, which have the refusals and results of each function here. A client keeps t
 * and its number beside its state, and outputs have their full size by their type: a call cannot mix one client's state with another's
 * number, and nothing is lent with a wrong length. Nothing is kept elsewhere; a struct may be copied to and from a card as bytes.
 */
#ifndef CENDRULAS_PARTIES_H
#define CENDRULAS_PARTIES_H

#include "cendrulas.h"

#ifdef __cplusplus
extern "C" {
#endif

/* An output: what was written last stands at the front, `length` bytes; 0 where the call was refused or gave none. A content may have none itself:
 * the answer tells, not the length. */
struct cendrulas_packet {
    size_t length;
    uint8_t bytes[CENDRULAS_PACKET_ROOM];
};

struct cendrulas_content {
    size_t length;
    uint8_t bytes[CENDRULAS_CONTENT_ROOM];
};

/* The keys of clients 1 to 8. Clients 9 to 16 hold none: they lend any bytes. */
struct cendrulas_keys {
    uint8_t writers[CENDRULAS_KEY];
    uint8_t servers[CENDRULAS_KEYS];
};

/* ---- A client. Only cendrulas_new_client sets t and number. */

struct cendrulas_client {
    size_t t, number;
    uint8_t state[CENDRULAS_CLIENT_STATE];
};

/* A client that was never used. */
static inline void cendrulas_new_client(struct cendrulas_client *client, size_t t, size_t number) {
    size_t i;
    client->t = t;
    client->number = number;
    for (i = 0; i < CENDRULAS_CLIENT_STATE; i++) {
        client->state[i] = 0;
    }
}

static inline uint64_t cendrulas_begin_write(struct cendrulas_client *client, const uint8_t *content, size_t length,
                                             const uint8_t nonce[CENDRULAS_NONCE]) {
    return cendrulas_client_begin_write(client->state, CENDRULAS_CLIENT_STATE, client->t, client->number, content, length, nonce, CENDRULAS_NONCE);
}

static inline uint64_t cendrulas_begin_read(struct cendrulas_client *client) {
    return cendrulas_client_begin_read(client->state, CENDRULAS_CLIENT_STATE, client->t, client->number);
}

/* The current round's packet for a server. */
static inline uint64_t cendrulas_make(const struct cendrulas_client *client, size_t server, struct cendrulas_packet *packet) {
    uint64_t answer = cendrulas_client_make(client->state, CENDRULAS_CLIENT_STATE, client->t, client->number, server,
                                            packet->bytes, CENDRULAS_PACKET_ROOM);
    packet->length = cendrulas_count(answer);
    return answer;
}

/* A packet that came in. A content that was read stands in `content`. */
static inline uint64_t cendrulas_take(struct cendrulas_client *client, const struct cendrulas_keys *keys, const uint8_t *packet, size_t length,
                                      struct cendrulas_content *content) {
    uint64_t answer = cendrulas_client_take(client->state, CENDRULAS_CLIENT_STATE, client->t, client->number, keys->writers, CENDRULAS_KEY,
                                            keys->servers, CENDRULAS_KEYS, packet, length, content->bytes, CENDRULAS_CONTENT_ROOM);
    content->length = cendrulas_count(answer);
    return answer;
}

static inline uint64_t cendrulas_give_up(struct cendrulas_client *client) {
    return cendrulas_client_give_up(client->state, CENDRULAS_CLIENT_STATE, client->t, client->number);
}

/* The round in hand: 0 none, 1 clock, 2 store, 3 complete, 4 collect, 5 filter, 6 repair. */
static inline unsigned cendrulas_round(const struct cendrulas_client *client) {
    return cendrulas_result(cendrulas_client_round(client->state, CENDRULAS_CLIENT_STATE));
}

/* How many servers have replied in it, and whether one has. */
static inline size_t cendrulas_replies(const struct cendrulas_client *client) {
    return cendrulas_count(cendrulas_client_round(client->state, CENDRULAS_CLIENT_STATE));
}

static inline int cendrulas_has_replied(const struct cendrulas_client *client, size_t server) {
    uint32_t replied = cendrulas_number(cendrulas_client_round(client->state, CENDRULAS_CLIENT_STATE));
    return server >= 1 && server <= 13 && (replied >> (server - 1) & 1u) != 0;
}

/* ---- A server. Its memory names its t and its number. */

struct cendrulas_server {
    uint8_t key[CENDRULAS_KEY];
    uint8_t memory[CENDRULAS_SERVER_MEMORY];
};

/* A blank server; what its memory held is gone. The key is set by the host. */
static inline uint64_t cendrulas_blank(struct cendrulas_server *server, size_t t, size_t number) {
    return cendrulas_server_blank(server->memory, CENDRULAS_SERVER_MEMORY, t, number);
}

/* A packet that came in, and the reply to it. Where cendrulas_changed says so of the answer, the memory is made durable before the reply goes out. */
static inline uint64_t cendrulas_serve(struct cendrulas_server *server, const uint8_t *packet, size_t length, struct cendrulas_packet *reply) {
    uint64_t answer = cendrulas_server_take(server->memory, CENDRULAS_SERVER_MEMORY, server->key, CENDRULAS_KEY, packet, length,
                                            reply->bytes, CENDRULAS_PACKET_ROOM);
    reply->length = cendrulas_count(answer);
    return answer;
}

#ifdef __cplusplus
}
#endif

#endif
