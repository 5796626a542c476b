/* The drill from C, on a painted stack of 128 KiB (painted.h): a write and a read of 1,024 bytes at t = 4, a call given up and a server
 * blanked. Compiled and run by host/test. */
#include "painted.h"

#include "cendrulas.h"

enum { T = 4, SERVERS = 13, LINES = 120, LINE = 41 };

static char sheet[LINES * LINE + 1];
static uint8_t listing[LINES * CENDRULAS_LISTING_LINE], work[CENDRULAS_WORK_AREA];
static size_t used;
static uint64_t answer;

static void line(unsigned verb, unsigned client, unsigned server, unsigned length, unsigned fill) {
    snprintf(sheet + used, LINE + 1, "%8u%8u%8u%8u%8u\n", verb, client, server, length, fill);
    used += LINE;
}

/* The rounds of a call, up to the 9 servers that end each. */
static void visits(unsigned client, int rounds) {
    for (int k = 0; k < rounds; k++) {
        for (unsigned server = 1; server <= 2 * T + 1; server++) {
            line(3, client, server, 0, 0);
        }
    }
}

static void *call(void *none) {
    caller = __builtin_frame_address(0);
    answer = cendrulas_drill((const uint8_t *)sheet, used, listing, sizeof listing, work, sizeof work);
    return none;
}

int main(void) {
    static const char due[] = "       2       1    1024       7\n";
    line(0, T, 0, 0, 0);
    line(2, 9, 0, 0, 0);
    line(5, 9, 0, 0, 0);
    line(4, 0, SERVERS, 0, 0);
    line(1, 1, 0, 1024, 7);
    visits(1, 3);
    line(2, 9, 0, 0, 0);
    visits(9, 2);
    memset(work, PAINT, sizeof work);
    const size_t depth = painted(call, NULL, LARGE), count = cendrulas_listing(answer);
    if (cendrulas_refusal(answer) != 0 || count != (used / LINE - 1) * CENDRULAS_LISTING_LINE || work[0] != 0
        || memcmp(listing + count - 33, due, 33) != 0) {
        puts("c: another listing");
        return 1;
    }
    printf("stack of %-24s %6zu bytes\n", "drill", depth);
    /* a work area of another size */
    if (cendrulas_refusal(cendrulas_drill((const uint8_t *)sheet, used, listing, sizeof listing, work, sizeof work - 1)) != 1) {
        puts("c: a short work area is not refused");
        return 1;
    }
    return 0;
}
