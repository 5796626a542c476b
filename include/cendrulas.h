/* The proved shelf for C and C++. Link with libcendrulas.a (x86-64): host/library makes it, and `make install` puts both where pkg-config finds them.
 *
 * Every function is total: it accepts any numbers and any buffers, and what it answers and writes is proved equal to a
 * definition (crates/embed/specs). A caller owes only what C itself asks: a pointer and a length name memory that is really there, and a
 * buffer that is written overlaps no other argument. Where a length is 0 the pointer may be anything, NULL too: it is never followed.
 *
 * Words: t is the number of servers that may lie, 1 to 4; there are S = 3t+1 servers, numbered from 1; clients are 1 to 16, and only 1 to 8 write;
 * a content has 0 to 1,024 bytes. Document 01 says box for server and record for content.
 *
 * The library keeps nothing between calls and has no global state: a server is the bytes that it is lent, a client likewise. A call with
 * another t or client than the one before is not refused, so ordinary programs use cendrulas_parties.h, where a client keeps both
 * beside its state. docs/EMBEDDING.md says how, with a whole example in C.
 */
#ifndef CENDRULAS_H
#define CENDRULAS_H

#include <stddef.h>
#include <stdint.h>

#ifdef __cplusplus
extern "C" {
#endif

/* Version 2.0.0, as major * 65536 + minor * 256 + patch: of this header, and of the archive that is linked. CHANGELOG.md says what changed. */
#define CENDRULAS_VERSION 131072u
uint32_t cendrulas_version(void);

/* Bytes of what is lent. A packet and a content need so much output, however short they are. */
#define CENDRULAS_SERVER_MEMORY 40960u
#define CENDRULAS_CLIENT_STATE 24640u
#define CENDRULAS_PACKET_ROOM 6400u
#define CENDRULAS_CONTENT_ROOM 1024u
#define CENDRULAS_FRAGMENT_ROOM 512u
#define CENDRULAS_USED_ROOM 5u /* the t+1 servers that restoring uses, for every t */
#define CENDRULAS_ROWS_ROOM 25u /* their weights, t+1 rows of t+1, for every t */
#define CENDRULAS_KEY 32u
#define CENDRULAS_KEYS 416u /* the keys of servers 1 to 13, one after the other, whatever t is */
#define CENDRULAS_NONCE 32u
#define CENDRULAS_DIGEST 32u /* of a digest, and of a whole HMAC */
#define CENDRULAS_TAG 16u /* of a tag, the first bytes of an HMAC */
#define CENDRULAS_WORK_AREA 2097152u
#define CENDRULAS_LISTING_LINE 65u
#define CENDRULAS_PLAN 36u /* numbers of a plan, not bytes */

/* An answer is one number:
 *
 *   bits 56 to 63   refusal: 0 where the call was accepted, else document 01's number, or 255 (below)
 *   bits 52 to 55   writer of a stamp, 1 to 8; 0 where no stamp is told
 *   bits 48 to 51   result
 *   bits 16 to 47   number of a stamp
 *   bits  0 to 15   count: bytes written at the front of `out`; of a plan, numbers; of weights, servers
 *
 * A refused call answers its refusal with all other parts 0, writes nothing and changes nothing. Bytes of `out` past the count are never written.
 * If several refusals apply, the one that stands first in the function's list is given. Two writes are the same if number and writer are.
 *
 * Refusal 255 stands in no document: a key, a nonce or a client's state was lent with another length than its size; or rows of weights, or an output
 * for a digest, an HMAC, a tag, a fragment, weights or a plan, were lent with less than their size. It is tested before all others.
 */
static inline unsigned cendrulas_refusal(uint64_t answer) { return (unsigned)(answer >> 56); }
static inline unsigned cendrulas_writer(uint64_t answer) { return (unsigned)(answer >> 52) & 0xFu; }
static inline unsigned cendrulas_result(uint64_t answer) { return (unsigned)(answer >> 48) & 0xFu; }
static inline uint32_t cendrulas_number(uint64_t answer) { return (uint32_t)(answer >> 16); }
static inline size_t cendrulas_count(uint64_t answer) { return (size_t)(answer & 0xFFFFu); }

/* Whether a server's answer says that its memory changed: only then it is to be made durable before the reply goes out. */
static inline int cendrulas_changed(uint64_t answer) { return cendrulas_result(answer) == 1u; }

/* The drill's answer has the refusal in the same bits and the count in the 56 bits below: a listing can be long. */
static inline size_t cendrulas_listing(uint64_t answer) { return (size_t)(answer & 0xFFFFFFFFFFFFFFu); }

/* Results: what a client's step led to, with refusal 0. The last two are of giving up. */
#define CENDRULAS_GOES_ON 0u
#define CENDRULAS_WRITTEN 1u
#define CENDRULAS_READ 2u
#define CENDRULAS_BLANK 3u
#define CENDRULAS_ABORTED 4u
#define CENDRULAS_ABORTED_IN_COMPLETE 5u

/* Codes of a server's reply to a store (cendrulas_store_code). */
#define CENDRULAS_KEPT 0u
#define CENDRULAS_HELD 10u
#define CENDRULAS_FULL 11u

/* A refusal in words, for messages. 10 and 11 are no refusals but codes of a store's reply. */
static inline const char *cendrulas_refusal_name(unsigned refusal) {
    switch (refusal) {
    case 0: return "accepted";
    case 1: return "memory or work area of a wrong size";
    case 2: return "memory that is no server's";
    case 3: return "t outside 1 to 4";
    case 4: return "server outside 1 to 3t+1";
    case 5: return "client outside 1 to 16, or a write by 9 to 16";
    case 6: return "content length above 1,024";
    case 7: return "bytes that are no packet";
    case 8: return "packet for another t, server or client";
    case 9: return "packet that no client may send here";
    case 10: return "stored already";
    case 11: return "server full";
    case 12: return "no reply of this call and round, or a second one";
    case 13: return "a call is in hand at a begin, or none is at another step";
    case 14: return "call or stamp numbers used up";
    case 15: return "output too small";
    case 16: return "too few different servers, or fragments of a wrong length";
    case 17: return "drill line not of the form";
    case 18: return "more stores than a memory holds";
    case 255: return "argument of a wrong size";
    default: return "unknown";
    }
}

/* SHA-256 (FIPS 180-4) of the message.
 * Refusals: 255 where out_len < CENDRULAS_DIGEST. Writes the digest; count CENDRULAS_DIGEST. */
uint64_t cendrulas_digest(const uint8_t *message, size_t message_len, uint8_t *out, size_t out_len);

/* HMAC-SHA-256 (RFC 2104) of the message, whole.
 * Refusals: 255 where key_len is not CENDRULAS_KEY or out_len < CENDRULAS_DIGEST. Writes the HMAC; count CENDRULAS_DIGEST. */
uint64_t cendrulas_hmac(const uint8_t *key, size_t key_len, const uint8_t *message, size_t message_len,
                        uint8_t *out, size_t out_len);

/* The shelf's tag of the message: the first CENDRULAS_TAG bytes of its HMAC, as RFC 2104 cuts it.
 * Refusals: 255 where key_len is not CENDRULAS_KEY or out_len < CENDRULAS_TAG. Writes the tag; count CENDRULAS_TAG. */
uint64_t cendrulas_tag(const uint8_t *key, size_t key_len, const uint8_t *message, size_t message_len,
                       uint8_t *out, size_t out_len);

/* A server's fragment of the content: f bytes, f = content_len / (t+1) rounded up; at most 512.
 * Refusals: 255 where out_len < 512, however short the fragment; 3 where t is outside 1 to 4; 4 where server is outside 1 to 3t+1;
 * 6 where content_len is above 1,024. Writes the fragment; count f, which is 0 for a content of no bytes. */
uint64_t cendrulas_fragment(size_t t, size_t server, const uint8_t *content, size_t content_len,
                            uint8_t *out, size_t out_len);

/* The content of `length` bytes from fragments of the servers named, which stand one after the other in `fragments`, each of f bytes.
 * The first t+1 different servers are used; a server's second fragment is ignored.
 * Refusals: 3 where t is outside 1 to 4; 4 where a server is outside 1 to 3t+1; 6 where length is above 1,024;
 * 15 where out_len < 1,024; 16 where fragments_len is not servers_len times f, or fewer than t+1 different servers are named.
 * Writes the content; count length. All this holds for a content of no bytes too, whose fragments are empty. */
uint64_t cendrulas_restore(size_t t, size_t length, const size_t *servers, size_t servers_len,
                           const uint8_t *fragments, size_t fragments_len, uint8_t *out, size_t out_len);

/* The weights with which restoring sums the fragments of the servers named. They depend only on which servers answered: one call serves a whole
 * content, and every other content that the same servers gave. k = t+1 servers are used, the first different ones in the order given. A content
 * stands in k plain runs of f bytes (f = length / (t+1) rounded up), padded with 00h: byte q of run i, i from 1 to k and q from 0 to f-1, is byte
 * (i-1)*f + q of it, and run i is what server i holds. Each run has a row of k weights, one for each server used, in the order of `used`: weight j of
 * row i, both from 1, is rows[(i-1)*k + j-1]. Byte q of run i is the sum, over j, of weight j of row i times byte q of the fragment of the j-th server
 * used, in the field of FIPS 197, whose sum is xor.
 * Refusals: 255 where used_len < 5 or rows_len < 25, however small t is; 3 where t is outside 1 to 4; 4 where a server is outside 1 to 3t+1;
 * 16 where fewer than t+1 different servers are named.
 * Writes the k servers used to `used` and the k rows, one after the other, to `rows`, and nothing past these k and k*k bytes; count k. */
uint64_t cendrulas_weights(size_t t, const size_t *servers, size_t servers_len, uint8_t *used, size_t used_len,
                           uint8_t *rows, size_t rows_len);

/* Restoring with the weights at hand: the content of `length` bytes from the fragments of the k servers used, which stand one after the other in
 * `fragments`, in the order of `used`, each of f bytes. With the rows of cendrulas_weights, and of each server used the first fragment that it gave,
 * this is what cendrulas_restore gives (proved); with other bytes as rows it is that sum and nothing more.
 * Refusals: 255 where rows_len < 25, of which the first k*k count; 3 where t is outside 1 to 4; 6 where length is above 1,024;
 * 15 where out_len < 1,024; 16 where fragments_len is not k times f. Writes the content; count length. */
uint64_t cendrulas_restore_weighed(size_t t, size_t length, const uint8_t *rows, size_t rows_len,
                                   const uint8_t *fragments, size_t fragments_len, uint8_t *out, size_t out_len);

/* Whether bytes are a packet. 7 where they break the layout. Writes nothing; count 0. */
uint64_t cendrulas_packet_check(const uint8_t *packet, size_t packet_len);

/* The code of a server's reply to a store, so that a host can tell a full shelf: a server keeps 32 writes in its life, and where more than t servers
 * answer 11 (full) a write cannot end. The client takes such a reply and goes on waiting; only the reply tells.
 * Refusals: 7 where the packet breaks the layout. Result 1 where it is a reply to a store, with its code as count: 0 kept, 10 held
 * already, 11 full. Result 0 and count 0 for every other packet. Writes nothing. */
uint64_t cendrulas_store_code(const uint8_t *packet, size_t packet_len);

/* ---- A plan: how large a lab must be, told before there is one. */

/* Where the numbers of a plan stand. Lengths are of whole packets, in bytes. */
#define CENDRULAS_PLAN_KIND 0u      /* + kind, 0 to 12: a packet's length. Kind 0 is none; kinds 9 and 10 have no one length: 0 in all three places */
#define CENDRULAS_PLAN_FILTER 13u   /* + count, 0 to 13: length of a filter (kind 9) with so many candidates; 0 above S */
#define CENDRULAS_PLAN_HELD 27u     /* + 0 or 1: length of a filter's reply (kind 10) without and with a fragment */
#define CENDRULAS_PLAN_WRITE 29u    /* requests of a write; its replies at + 1. These six are numbers of packets */
#define CENDRULAS_PLAN_READ 31u     /* of all the reads together, none of them repaired: requests, replies */
#define CENDRULAS_PLAN_REPAIRED 33u /* of all the reads together, each of them repaired: requests, replies */
#define CENDRULAS_PLAN_MEMORY 35u   /* bytes of a server's memory that its fields take; the rest of the 40,960 is 00h */

/* What a shelf takes, for contents of `length` bytes: the length of each packet; the packets of a write and of so many clients' reads, one each, when
 * each round goes to all S servers and all of them reply; and a server's memory after `stores` stores of that length, all kept.
 * Refusals: 255 where numbers_len < 36; 3 where t is outside 1 to 4; 5 where readers is outside 1 to 16; 6 where length is above 1,024;
 * 18 where stores is above 32. Writes 36 numbers; count 36. */
uint64_t cendrulas_plan(size_t t, size_t length, size_t readers, size_t stores, size_t *numbers, size_t numbers_len);

/* ---- A server: 40,960 bytes that it is lent with every call, and its key. */

/* Makes a blank server of any 40,960 bytes. What they held is gone.
 * Refusals: 1 where memory_len is not 40,960; 3 where t is outside 1 to 4; 4 where server is outside 1 to 3t+1.
 * Writes all of the memory; count 0. */
uint64_t cendrulas_server_blank(uint8_t *memory, size_t memory_len, size_t t, size_t server);

/* The server takes a client's packet and replies.
 * Refusals: 255 where key_len is not 32; 1 where memory_len is not 40,960; 2 where the memory is no server's;
 * 7 where the packet breaks the layout; 8 where its t or its server is not this one's; 9 where it is a reply, or the client may not send it;
 * 15 where out_len < 6,400. Changes the memory as the protocol says and writes the reply; count its length.
 * Results: 1 where a byte of the memory changed, 0 where all are as before; cendrulas_changed reads it. */
uint64_t cendrulas_server_take(uint8_t *memory, size_t memory_len, const uint8_t *key, size_t key_len,
                               const uint8_t *packet, size_t packet_len, uint8_t *out, size_t out_len);

/* ---- A client: a state of 24,640 bytes that it is lent with every call. All 00h is a new client. One call is in hand at a time.
 * t and client are those of this client in every call; every value of the bytes has a meaning, so no state is refused, a damaged one neither:
 * a host keeps a checksum beside it. */

/* The round in hand, and which servers have replied in it; a round ends with replies of 2t+1, but a filter round may need more.
 * Refusals: 255 where state_len is not 24,640. Result: the round, 0 none, 1 clock, 2 store, 3 complete, 4 collect, 5 filter, 6 repair.
 * Number: bit i-1 is set where server i has replied. Count: how many have. Changes nothing. */
uint64_t cendrulas_client_round(const uint8_t *state, size_t state_len);

/* Begins a write. The nonce has 32 bytes that nobody can guess and that no other write of the shelf gets.
 * Refusals: 255 where state_len is not 24,640 or nonce_len is not 32; 3 where t is outside 1 to 4; 5 where client is outside 1 to 8;
 * 6 where content_len is above 1,024; 13 where a call is in hand; 14 where the call numbers are used up.
 * Changes the state; content and nonce are kept there. Count 0. A content of no bytes is written like any other; its pointer may be NULL. */
uint64_t cendrulas_client_begin_write(uint8_t *state, size_t state_len, size_t t, size_t client,
                                      const uint8_t *content, size_t content_len,
                                      const uint8_t *nonce, size_t nonce_len);

/* Begins a read.
 * Refusals: 255 where state_len is not 24,640; 3 where t is outside 1 to 4; 5 where client is outside 1 to 16; 13 where a call is in hand;
 * 14 where the call numbers are used up. Changes the state; count 0. */
uint64_t cendrulas_client_begin_read(uint8_t *state, size_t state_len, size_t t, size_t client);

/* The packet of the current round for a server. It can be made again, for any server, as often as is useful.
 * Refusals: 255 where state_len is not 24,640; 3 where t is outside 1 to 4; 4 where server is outside 1 to 3t+1; 5 where client is outside 1 to 16,
 * or with a write in hand outside 1 to 8; 13 where no call is in hand; 15 where out_len < 6,400. Writes the packet; count its length. */
uint64_t cendrulas_client_make(const uint8_t *state, size_t state_len, size_t t, size_t client, size_t server,
                               uint8_t *out, size_t out_len);

/* The client takes a server's reply. `writers` is the writers' key, `keys` the keys of servers 1 to 13 one after the other; they are used
 * only by a write's first round, so a client that only reads lends any bytes.
 * Refusals: 255 where state_len is not 24,640, writers_len is not 32 or keys_len is not 416; 3 where t is outside 1 to 4; 5 where client is outside
 * 1 to 16, or with a write in hand outside 1 to 8; 7 where the packet breaks the layout; 8 where its t or its client is not this one's; 13 where
 * no call is in hand; 12 where it is no reply of this call and round, or this server has replied in it; 14 where it would end the first round
 * and the stamps' numbers are used up; 15 where out_len < 1,024, whatever the reply. Changes the state.
 * Results: 0 the call goes on; 1 written, with the stamp's number and writer; 2 read, with the stamp's number and writer, the content at the front
 * of `out` and its length as count; 3 read blank: no write stands before this read. With 1, 2 and 3 the call has ended. A content of no bytes is
 * result 2 with count 0: the result tells it from a blank shelf, and the count never does. */
uint64_t cendrulas_client_take(uint8_t *state, size_t state_len, size_t t, size_t client,
                               const uint8_t *writers, size_t writers_len, const uint8_t *keys, size_t keys_len,
                               const uint8_t *packet, size_t packet_len, uint8_t *out, size_t out_len);

/* Gives up the call in hand.
 * Refusals: 255 where state_len is not 24,640; 3 where t is outside 1 to 4; 5 where client is outside 1 to 16, or with a write in hand outside
 * 1 to 8; 13 where no call is in hand. Changes the state; count 0. Results: 4 a read, or a write before its last round, whose content is then
 * never read; 5 a write in its last round: a later read may give its content or not. */
uint64_t cendrulas_client_give_up(uint8_t *state, size_t state_len, size_t t, size_t client);

/* ---- The drill: all servers and clients of a shelf in a work area, and a sheet of steps (document 01, "Drill sheets"). */

/* Runs the sheet.
 * Refusals: 1 where work_len is not 2,097,152; 15 where out_len < 65 for each line of the sheet after the first, and at least 65. Lines are
 * counted by their ends, with an unended rest as one more.
 * Writes the listing, whose length cendrulas_listing gives, and leaves the work area all 00h. A sheet that is not of the form is not refused:
 * the listing's last line says so. */
uint64_t cendrulas_drill(const uint8_t *sheet, size_t sheet_len, uint8_t *out, size_t out_len, uint8_t *work, size_t work_len);

#ifdef __cplusplus
}
#endif

#endif
