/* Remarks beside the streams: a host whose planner has messages on sends three, and holds four rounds; a head reads each packet and hears the
 * messages in it, the first one in the very next round. Prints a line a send with its answer, then a line a round: the packet's bytes, and what a
 * head makes of them. They are those of the Annex, C.9: 3 slots, of which the streams have 2. */
#include <stdio.h>

#include "packets.h"
#include "planner.h"

static struct planner kept = PLANNER_INIT;

static void remark(uint32_t number) {
    uint32_t answer = planner_send(&kept, number);
    printf("send %u: %u, %s\n", (unsigned)number, (unsigned)answer, planner_text(answer));
}

/* What a head reads: ids of streams, at most PACKET_LARGEST_ID, and behind them messages. */
static void print_heard(const uint8_t *packet, size_t length) {
    struct packet_header header = packet_read(packet, length);
    size_t streams = 0;
    while (streams < header.n && packet_id(packet, streams) <= PACKET_LARGEST_ID) {
        streams++;
    }
    printf("at %u, streams", (unsigned)header.start);
    for (size_t k = 0; k < header.n; k++) {
        printf("%s %u", k == streams ? ", messages" : "", (unsigned)packet_id(packet, k));
    }
    printf("%s\n", streams == header.n ? ", no message" : "");
}

/* Holds a round and puts it on air; whether that went well. */
static int hold(void) {
    uint16_t ids[PLANNER_MOST_SLOTS] = {0};
    uint8_t packet[PACKET_MOST_BYTES] = {0};
    struct planner_held held = planner_round(&kept, ids, PLANNER_MOST_SLOTS);
    if (held.answer != PLANNER_OK || packet_write(held.start, kept.slots, ids, held.n, packet, sizeof packet) != PACKET_OK) {
        return 0;
    }
    for (size_t k = 0; k < PACKET_BYTES(held.n); k++) {
        printf("%02x%s", (unsigned)packet[k], k + 1 < PACKET_BYTES(held.n) ? " " : ": ");
    }
    print_heard(packet, PACKET_BYTES(held.n));
    return 1;
}

int main(void) {
    /* 3 slots a round, superframe 6, gap 6, as if a round had been held at 0, messages on */
    int right = planner_open(&kept, 3, 6, 6, 0, 1) == PLANNER_OK && planner_add(&kept, 1, 1, 3, 2) == PLANNER_OK
        && planner_add(&kept, 2, 1, 6, 6) == PLANNER_OK && planner_add(&kept, 3, 2, 6, 5) == PLANNER_OK;
    remark(40000);
    remark(40000);
    remark(50000);
    remark(32767);
    right = right && hold() && hold() && hold() && hold();
    return right ? 0 : 1;
}
