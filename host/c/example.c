/* A shelf of four servers of which one may fail in any way (t = 1), all in one process. A scope reads the blank shelf, and then a record of no bytes,
 * which is another answer. One of some bytes is written, a server loses everything, and the record is still read. Then the writer goes on until the
 * shelf is full. Servers write their flash only where their memory changed; the scope keeps its client in flash with a checksum. docs/EMBEDDING.md
 * has this file; host/test compiles and runs it. */
#include "cendrulas_parties.h"

#include <stdio.h>
#include <stdlib.h>
#include <string.h>

enum { T = 1, SERVERS = 3 * T + 1, PASSES = 8 };

/* What a scope keeps in its flash. */
struct card {
    struct cendrulas_client client;
    uint32_t checksum;
};

struct scope {
    struct cendrulas_client client;
    struct cendrulas_keys keys; /* clients 9 to 16 hold none: they lend 00h */
    struct card flash;
};

static struct cendrulas_server servers[SERVERS], server_flash[SERVERS];
static unsigned packets, flash_writes;

static void stop(const char *what, uint64_t answer) {
    fprintf(stderr, "example: %s: %s\n", what, cendrulas_refusal_name(cendrulas_refusal(answer)));
    exit(1);
}

/* Bytes that nobody can guess. On a device: its random number generator. */
static void unguessable(uint8_t *bytes, size_t n) {
    FILE *source = fopen("/dev/urandom", "rb");
    if (source == NULL || fread(bytes, 1, n, source) != n) {
        fputs("example: no random numbers\n", stderr);
        exit(1);
    }
    fclose(source);
}

/* CRC-32. A damaged client would go on unnoticed, with numbers that it has used before. */
static uint32_t checksum(const struct cendrulas_client *client) {
    const uint8_t *bytes = (const uint8_t *)client;
    uint32_t crc = 0xFFFFFFFFu;
    for (size_t i = 0; i < sizeof *client; i++) {
        crc ^= bytes[i];
        for (int bit = 0; bit < 8; bit++) {
            crc = crc >> 1 ^ (0xEDB88320u & (0u - (crc & 1u)));
        }
    }
    return ~crc;
}

/* What the scope has taken in is durable before its next packet goes out. A refused step has changed nothing. */
static uint64_t kept(struct scope *scope, uint64_t answer) {
    if (cendrulas_refusal(answer) == 0) {
        scope->flash.client = scope->client;
        scope->flash.checksum = checksum(&scope->client);
    }
    return answer;
}

/* After a power cut. 0: the flash is damaged, and this client never comes back under its number. */
static int restore(struct scope *scope) {
    scope->client = scope->flash.client;
    return checksum(&scope->client) == scope->flash.checksum;
}

/* What a server does with a packet that came in: act, make a changed memory durable, and send the reply. 0 bytes: no reply. */
static void serve(size_t server, const struct cendrulas_packet *packet, struct cendrulas_packet *reply) {
    uint64_t answer = cendrulas_serve(&servers[server - 1], packet->bytes, packet->length, reply);
    packets++;
    if (cendrulas_changed(answer)) {
        server_flash[server - 1] = servers[server - 1];
        flash_writes++;
    }
}

/* Visits the servers by turns until the call in hand ends: the round's packet to each that has not replied in it, its reply back. A refused
 * reply changes nothing. A write does not end while more than t servers are full: it is given up, and `full` says how many they are. */
static uint64_t finish(struct scope *scope, struct cendrulas_content *content, unsigned *full) {
    static struct cendrulas_packet packet, reply;
    int is_full[SERVERS + 1] = {0};
    *full = 0;
    for (size_t k = 0; k < PASSES * SERVERS && *full <= T; k++) {
        size_t server = k % SERVERS + 1;
        if (cendrulas_has_replied(&scope->client, server)) {
            continue;
        }
        uint64_t answer = cendrulas_make(&scope->client, server, &packet);
        if (cendrulas_refusal(answer) != 0) {
            stop("a packet", answer);
        }
        serve(server, &packet, &reply);
        answer = kept(scope, cendrulas_take(&scope->client, &scope->keys, reply.bytes, reply.length, content));
        if (cendrulas_refusal(answer) != 0) {
            continue;
        }
        if (cendrulas_result(answer) != CENDRULAS_GOES_ON) {
            return answer;
        }
        uint64_t code = cendrulas_store_code(reply.bytes, reply.length);
        if (cendrulas_result(code) == 1 && cendrulas_count(code) == CENDRULAS_FULL && !is_full[server]) {
            is_full[server] = 1; /* it is asked again, and counts once */
            (*full)++;
        }
    }
    return kept(scope, cendrulas_give_up(&scope->client));
}

static uint64_t write_record(struct scope *scope, const char *record, unsigned *full) {
    struct cendrulas_content none;
    uint8_t nonce[CENDRULAS_NONCE];
    unguessable(nonce, sizeof nonce);
    uint64_t begun = kept(scope, cendrulas_begin_write(&scope->client, (const uint8_t *)record, strlen(record), nonce));
    if (cendrulas_refusal(begun) != 0) {
        stop("a write", begun);
    }
    return finish(scope, &none, full);
}

static uint64_t read_record(struct scope *scope, struct cendrulas_content *content) {
    unsigned full;
    uint64_t begun = kept(scope, cendrulas_begin_read(&scope->client));
    if (cendrulas_refusal(begun) != 0) {
        stop("a read", begun);
    }
    return finish(scope, content, &full);
}

/* What a call has led to. A record of no bytes is told from a blank shelf by the result, never by its length. */
static void show(uint64_t answer) {
    unsigned long number = cendrulas_number(answer), length = cendrulas_count(answer);
    switch (cendrulas_result(answer)) {
    case CENDRULAS_WRITTEN: printf("written: number %lu of scope %u\n", number, cendrulas_writer(answer)); break;
    case CENDRULAS_READ: printf("read: number %lu of scope %u, %lu bytes\n", number, cendrulas_writer(answer), length); break;
    case CENDRULAS_BLANK: puts("read: blank, nothing was written before"); break;
    default: puts("given up");
    }
}

/* Scope 1 with all keys, scope 9 with none, and servers that were never used. */
static void set_up(struct scope *writer, struct scope *reader) {
    cendrulas_new_client(&writer->client, T, 1);
    cendrulas_new_client(&reader->client, T, 9);
    unguessable(writer->keys.writers, CENDRULAS_KEY);
    unguessable(writer->keys.servers, CENDRULAS_KEYS);
    for (size_t server = 1; server <= SERVERS; server++) {
        memcpy(servers[server - 1].key, writer->keys.servers + CENDRULAS_KEY * (server - 1), CENDRULAS_KEY);
        cendrulas_blank(&servers[server - 1], T, server);
    }
}

int main(void) {
    static struct scope writer, reader;
    static struct cendrulas_content content;
    static const char record[] = "CH1 500 mV/div 20 us/div";
    unsigned full, writes = 2;

    if (cendrulas_version() != CENDRULAS_VERSION) {
        fputs("example: this header is not the archive's\n", stderr);
        return 1;
    }
    set_up(&writer, &reader);
    show(read_record(&reader, &content));
    show(write_record(&writer, "", &full)); /* a channel that is off */
    show(read_record(&reader, &content));
    show(write_record(&writer, record, &full));
    cendrulas_blank(&servers[1], T, 2); /* server 2 loses everything */
    uint64_t answer = read_record(&reader, &content);
    show(answer);
    printf("%.*s\n", (int)content.length, (const char *)content.bytes);

    writer.flash.client.state[7] ^= 1;
    printf("a damaged state is %s\n", restore(&writer) ? "taken" : "refused");
    writer.flash.client.state[7] ^= 1;
    if (!restore(&writer) || cendrulas_result(answer) != CENDRULAS_READ || content.length != strlen(record)) {
        return 1;
    }
    while (cendrulas_result(answer = write_record(&writer, record, &full)) == CENDRULAS_WRITTEN) {
        writes++;
    }
    printf("the shelf is full after %u writes: %u servers keep no more\n", writes, full);
    printf("%u packets changed the memory of a server %u times\n", packets, flash_writes);
    return 0;
}
