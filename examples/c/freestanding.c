/* The three rounds of the Annex, C.1, with no C library: memcpy and memset are all that the proved libraries need from outside. Exits with 0 if
 * each answer is the one expected, else with the number of the first that is not. For x86-64 Linux. */
#include "packets.h"
#include "planner.h"
#include "superframe.h"

/* The bytes written are volatile, so that no compiler makes of these loops the calls that they are. */
void *memcpy(void *to, const void *from, size_t n) {
    volatile unsigned char *bytes = (unsigned char *)to;
    for (size_t k = 0; k < n; k++) {
        bytes[k] = ((const unsigned char *)from)[k];
    }
    return to;
}

void *memset(void *to, int value, size_t n) {
    volatile unsigned char *bytes = (unsigned char *)to;
    for (size_t k = 0; k < n; k++) {
        bytes[k] = (unsigned char)value;
    }
    return to;
}

static struct planner kept = PLANNER_INIT;

static int is_round(uint32_t start, uint16_t first, uint16_t second) {
    uint16_t buffer[PLANNER_MOST_SLOTS] = {0};
    struct planner_held held = planner_round(&kept, buffer, PLANNER_MOST_SLOTS);
    return held.answer == PLANNER_OK && held.start == start && planner_filled(buffer, PLANNER_MOST_SLOTS, held.n) == 2 && buffer[0] == first
        && buffer[1] == second;
}

/* Whether these values make a packet of ten bytes that reads back as they are, with its last byte where it belongs and the next untouched. */
static int is_packet(uint32_t start, uint16_t first, uint16_t second) {
    const uint16_t ids[] = {first, second};
    uint8_t packet[11] = {0};
    packet[10] = 0xee;
    uint32_t written = packet_write(start, 2, ids, 2, packet, sizeof packet);
    struct packet_header header = packet_read(packet, 10);
    return written == 0 && packet[9] == second && packet[10] == 0xee && header.answer == 0 && header.start == start && header.slots == 2
        && header.n == 2 && packet_ids_length(packet, 10) == 4 && packet_id(packet, 0) == first && packet_read(packet, 11).answer == 26;
}

/* Whether the first of these bytes get this verdict: they are the round at 2 twice. */
static int is_verdict(size_t length, uint32_t answer, uint32_t round) {
    static const uint8_t plan[] = {0, 0, 0, 2, 2, 2, 0, 1, 0, 2, 0, 0, 0, 2, 2, 2, 0, 1, 0, 2};
    struct planner_verdict verdict = planner_check(&kept, plan, length);
    return verdict.answer == answer && verdict.round == round;
}

/* How many answers have been looked at, and which was the first that is not the one expected; 0 if none. */
static int seen, first_wrong;

static void expect(int right) {
    seen++;
    if (!right && first_wrong == 0) {
        first_wrong = seen;
    }
}

static void example(void) {
    const uint8_t periods[] = {5, 7, 15};
    expect(planner_remove(&kept, 0) == 5);
    expect(is_verdict(10, 5, 0));
    expect(planner_open(&kept, 2, 6, 6, 0, 0) == 0);
    expect(planner_remove(&kept, 0) == 14);
    expect(planner_add(&kept, 1, 1, 3, 2) == 0);
    expect(planner_add(&kept, 2, 1, 6, 6) == 0);
    expect(planner_add(&kept, 3, 2, 6, 5) == 0);
    expect(is_verdict(10, 0, 0));
    expect(is_verdict(20, 0, 2));
    expect(is_round(2, 1, 2));
    expect(is_packet(2, 1, 2));
    expect(is_round(5, 1, 3));
    expect(is_round(8, 1, 2));
    expect(planner_remove(&kept, 9) == 14);
    expect(planner_send(&kept, 40000) == 29);
    expect(superframe(periods, sizeof periods) == 105);
}

/* Where the program begins; it leaves by the call of Linux that ends a process. */
__attribute__((force_align_arg_pointer)) void _start(void) {
    example();
    long code = first_wrong;
    __asm__ volatile("syscall" : : "a"(60L), "D"(code) : "rcx", "r11", "memory");
    for (;;) {
    }
}
