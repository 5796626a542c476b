// A program outside the repository, in C++: header and archive belong together, and an empty vector may be lent.
#include <cendrulas_parties.h>

#include <cstdio>
#include <vector>

int main() {
    static cendrulas_client client;
    static cendrulas_packet packet;
    static const cendrulas_keys keys = {};
    cendrulas_content content;
    const std::vector<uint8_t> nothing;
    cendrulas_new_client(&client, 1, 9);
    const bool begun = cendrulas_refusal(cendrulas_begin_read(&client)) == 0 && cendrulas_refusal(cendrulas_make(&client, 1, &packet)) == 0;
    const uint64_t answer = cendrulas_take(&client, &keys, nothing.data(), nothing.size(), &content);
    std::printf("%u %d %s\n", static_cast<unsigned>(cendrulas_version()), begun && cendrulas_version() == CENDRULAS_VERSION,
                cendrulas_refusal_name(cendrulas_refusal(answer)));
    return 0;
}
