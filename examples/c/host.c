/* A host in thirty lines, C99 and C++: it refuses a library of another version, opens a planner, adds three streams and holds three rounds. Each
 * round is printed as the bytes that go on air, a line each; standard error gets each call with its answer in words. */
#include <stdio.h>

#include "packets.h"
#include "planner.h"

static struct planner kept = PLANNER_INIT;

static int went_well(const char *call, uint32_t answer) {
    fprintf(stderr, "%s: %u, %s\n", call, (unsigned)answer, planner_text(answer));
    return answer == PLANNER_OK;
}

int main(void) {
    if (planner_version() != PLANNER_VERSION || packet_version() != PACKET_VERSION) {
        fprintf(stderr, "the library is of version %u, this host is made for version %d\n", (unsigned)planner_version(), PLANNER_VERSION);
        return 1;
    }
    /* 2 slots a round, superframe 6, gap 6, as if a round had been held at 0, no messages; of a stream: id, first release, period, deadline */
    if (!went_well("open", planner_open(&kept, 2, 6, 6, 0, 0)) || !went_well("add 1", planner_add(&kept, 1, 1, 3, 2))
        || !went_well("add 2", planner_add(&kept, 2, 1, 6, 6)) || !went_well("add 3", planner_add(&kept, 3, 2, 6, 5))) {
        return 1;
    }
    for (int round = 0; round < 3; round++) {
        uint16_t ids[PLANNER_MOST_SLOTS] = {0};
        uint8_t packet[PACKET_MOST_BYTES] = {0};
        struct planner_held held = planner_round(&kept, ids, PLANNER_MOST_SLOTS);
        if (!went_well("round", held.answer) || packet_write(held.start, kept.slots, ids, held.n, packet, sizeof packet) != PACKET_OK) {
            return 1;
        }
        for (size_t k = 0; k < PACKET_BYTES(held.n); k++) {
            printf("%02x%s", (unsigned)packet[k], k + 1 < PACKET_BYTES(held.n) ? " " : "\n");
        }
    }
    return 0;
}
