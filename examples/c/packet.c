/* From a round to the air and back: a host keeps a planner, holds the three rounds of the Annex, C.1, and writes each as a packet; a head reads
 * it and looks whether it sends. Prints a line a round: the packet's bytes in hex, then what was read, as ANSWER,START,B,N and the ids. */
#include <stdio.h>

#include "packets.h"
#include "planner.h"

static struct planner kept = PLANNER_INIT;

static void print_read(const uint8_t *packet, size_t length) {
    struct packet_header header = packet_read(packet, length);
    printf("%u,%u,%u,%u", (unsigned)header.answer, (unsigned)header.start, (unsigned)header.slots, (unsigned)header.n);
    for (size_t k = 0; k < packet_ids_length(packet, length) / 2; k++) {
        printf(",%u", (unsigned)packet_id(packet, k));
    }
    printf("\n");
}

/* Holds a round and puts it on air; whether that went well, and each head finds its stream in the packet just if the round lists it. */
static int hold(void) {
    uint16_t ids[PLANNER_MOST_SLOTS] = {0};
    uint8_t packet[PACKET_MOST_BYTES] = {0};
    struct planner_held held = planner_round(&kept, ids, PLANNER_MOST_SLOTS);
    size_t length = PACKET_BYTES(held.n);
    if (held.answer != PLANNER_OK || packet_write(held.start, kept.slots, ids, held.n, packet, sizeof packet) != PACKET_OK) {
        return 0;
    }
    for (size_t k = 0; k < length; k++) {
        printf("%02x", (unsigned)packet[k]);
    }
    printf(" ");
    print_read(packet, length);
    int right = 1;
    for (uint16_t stream = 1; stream <= 3; stream++) {
        right = right && packet_has(packet, length, stream) == (ids[0] == stream || ids[1] == stream);
    }
    return right;
}

int main(void) {
    int right = planner_open(&kept, 2, 6, 6, 0, 0) == PLANNER_OK && planner_add(&kept, 1, 1, 3, 2) == PLANNER_OK
        && planner_add(&kept, 2, 1, 6, 6) == PLANNER_OK && planner_add(&kept, 3, 2, 6, 5) == PLANNER_OK;
    right = right && hold() && hold() && hold();
    return right ? 0 : 1;
}
