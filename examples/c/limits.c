/* Holds each limit of the headers to the library: prints it with what a call with that number answers, and one more with what that call answers. */
#include <stdio.h>

#include "packets.h"
#include "planner.h"
#include "superframe.h"

static struct planner kept = PLANNER_INIT;

/* A stream offered to a planner with no other; now is 1. */
static uint32_t offered(uint32_t frame, uint32_t id, uint32_t release, uint32_t period) {
    planner_open(&kept, 1, frame, 1, 0, 0);
    return planner_add(&kept, id, release, period, period);
}

/* The last of so many streams, offered one after the other. */
static uint32_t last_offered(uint32_t streams) {
    uint32_t answer = planner_open(&kept, PLANNER_MOST_SLOTS, 1, 1, 0, 0);
    for (uint32_t id = 1; id <= streams; id++) {
        answer = planner_add(&kept, id, 1, 1, 1);
    }
    return answer;
}

/* The last of so many sends of a number. */
static uint32_t last_sent(uint32_t number, uint32_t sends) {
    uint32_t answer = planner_open(&kept, 2, 1, 1, 0, 1);
    for (uint32_t k = 0; k < sends; k++) {
        answer = planner_send(&kept, number);
    }
    return answer;
}

/* A packet of n ids, the last of them as given and the others below it, into `length` bytes. */
static uint32_t written(uint32_t start, uint32_t slots, uint32_t n, uint32_t last_id, size_t length) {
    uint16_t ids[PACKET_MOST_SLOTS] = {0};
    uint8_t packet[PACKET_MOST_BYTES] = {0};
    for (uint32_t k = 0; k < n; k++) {
        ids[k] = (uint16_t)(last_id - (n - 1 - k));
    }
    return packet_write(start, slots, ids, n, packet, length);
}

/* A packet of an id in front of the id 1: a message there is not good. */
static uint32_t written_in_front(uint32_t id) {
    const uint16_t ids[] = {(uint16_t)id, 1};
    uint8_t packet[PACKET_BYTES(2)] = {0};
    return packet_write(0, 2, ids, 2, packet, sizeof packet);
}

static uint32_t superframe_of(uint32_t period) {
    const uint8_t periods[] = {(uint8_t)period};
    return superframe_answer(superframe(periods, 1));
}

/* In a call, `limit` is first the limit and then one more. */
#define PRINT(name, call) \
    for (uint32_t limit = (name); limit <= (name) + 1; limit++) \
    printf("%s%u: %u%s", limit == (name) ? #name " " : "", (unsigned)limit, (unsigned)(call), limit == (name) ? ", " : "\n")

int main(void) {
    const uint8_t longest[] = {240, 7, 9};
    PRINT(PLANNER_MOST_SLOTS, planner_open(&kept, limit, 1, 1, 0, 0));
    PRINT(PLANNER_LONGEST_FRAME, planner_open(&kept, 1, limit, 1, 0, 0));
    PRINT(PLANNER_LONGEST_GAP, planner_open(&kept, 1, 1, limit, 0, 0));
    PRINT(PLANNER_LAST_START, planner_open(&kept, 1, 1, 1, limit, 0));
    PRINT(PLANNER_LARGEST_ID, offered(1, limit, 1, 1));
    PRINT(PLANNER_PLACES, last_offered(limit));
    PRINT(PLANNER_LONGEST_PERIOD, offered(limit, 1, 1, limit));
    PRINT(PLANNER_FURTHEST_RELEASE, offered(1, 1, 1 + limit, 1));
    PRINT(PLANNER_LEAST_MESSAGE - 1, last_sent(limit, 1));
    PRINT(PLANNER_LARGEST_MESSAGE, last_sent(limit, 1));
    PRINT(PLANNER_MOST_WAITING, last_sent(PLANNER_LEAST_MESSAGE, limit));
    PRINT(PACKET_LAST_START, written(limit, 1, 1, 1, PACKET_MOST_BYTES));
    PRINT(PACKET_MOST_SLOTS, written(0, limit, 0, 0, PACKET_MOST_BYTES));
    PRINT(PACKET_LARGEST_ID, written_in_front(limit));
    PRINT(PACKET_MOST_BYTES - 1, written(0, PACKET_MOST_SLOTS, PACKET_MOST_SLOTS, 1000, limit));
    PRINT(SUPERFRAME_LONGEST_PERIOD, superframe_of(limit));
    printf("SUPERFRAME_LONGEST_FRAME %u: the superframe of 240, 7 and 9 is %u\n", SUPERFRAME_LONGEST_FRAME, (unsigned)superframe(longest, 3));
    return 0;
}
