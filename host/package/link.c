/* The same in C. */
#include <cendrulas_parties.h>

#include <stdio.h>

int main(void) {
    static struct cendrulas_client client;
    static struct cendrulas_packet packet;
    static const struct cendrulas_keys keys;
    struct cendrulas_content content;
    cendrulas_new_client(&client, 1, 9);
    int begun = cendrulas_refusal(cendrulas_begin_read(&client)) == 0 && cendrulas_refusal(cendrulas_make(&client, 1, &packet)) == 0;
    uint64_t answer = cendrulas_take(&client, &keys, NULL, 0, &content);
    printf("%u %d %s\n", (unsigned)cendrulas_version(), begun && cendrulas_version() == CENDRULAS_VERSION,
           cendrulas_refusal_name(cendrulas_refusal(answer)));
    return 0;
}
