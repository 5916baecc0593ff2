/* How much stack each call of the C interface needs. A call runs on a stack of its own that has been painted with a pattern; what is no longer
 * painted afterwards was written. The figure is the largest over the tables and calls below, from the call's return address down. A call may
 * also pass over bytes of its frame without writing them, so that a run's figure can be below what another run of it writes; the largest
 * of many is taken. */
#define _GNU_SOURCE
#include <stdint.h>
#include <stdio.h>
#include <stdlib.h>
#include <string.h>

#include "packets.h"
#include "painted.h"
#include "planner.h"
#include "superframe.h"

/* What the next call gets, and what it answered or gave. None is static: the compiler does not see the calls, and has to keep each in memory. */
struct planner kept;
uint16_t buffer[PLANNER_MOST_SLOTS];
uint32_t arg[5];
size_t length;
uint8_t periods[255];
uint8_t packet[PACKET_MOST_BYTES];
uint8_t plan[4 * PACKET_MOST_BYTES];
uint32_t answer;
size_t given;

/* Every call of the interface, with the answer that its figure goes to; a call that gives a length or a version has one figure, under 0. */
#define CALLS(CALL)                                                                                                  \
    CALL(planner_version, (given = planner_version(), 0u))                                                           \
    CALL(planner_open, planner_open(&kept, arg[0], arg[1], arg[2], arg[3], arg[4]))                                  \
    CALL(planner_add, planner_add(&kept, arg[0], arg[1], arg[2], arg[3]))                                            \
    CALL(planner_remove, planner_remove(&kept, arg[0]))                                                              \
    CALL(planner_send, planner_send(&kept, arg[0]))                                                                  \
    CALL(planner_round, planner_round(&kept, buffer, length).answer)                                                 \
    CALL(planner_check, planner_check(&kept, plan, length).answer)                                                   \
    CALL(planner_filled, (given = planner_filled(buffer, length, arg[0]), 0u))                                       \
    CALL(superframe, superframe_answer(superframe(periods, length)))                                                 \
    CALL(packet_version, (given = packet_version(), 0u))                                                             \
    CALL(packet_write, packet_write(arg[0], arg[1], buffer, arg[2], packet, length))                                 \
    CALL(packet_read, packet_read(packet, length).answer)                                                            \
    CALL(packet_ids_length, (given = packet_ids_length(packet, length), 0u))

#define AS_FUNCTION(name, call) static void call_##name(void) { answer = call; }
#define AS_INDEX(name, call) of_##name,
#define AS_FIGURE(name, call) {#name, call_##name, {0}},

CALLS(AS_FUNCTION)
static void call_nothing(void) { answer = 0; }

/* Answers are below this number. */
#define ANSWERS 64

/* The largest figure of a call, for answer 0 and for each refusal. */
struct figure {
    const char *name;
    void (*call)(void);
    size_t most[ANSWERS];
};

enum { CALLS(AS_INDEX) };
static struct figure figures[] = {CALLS(AS_FIGURE)};

static uint32_t measure(int which) {
    size_t used = painted_stack_used(figures[which].call);
    if (answer >= ANSWERS) {
        fprintf(stderr, "%s answers %u\n", figures[which].name, (unsigned)answer);
        exit(1);
    }
    size_t *most = &figures[which].most[answer];
    if (used > *most) {
        *most = used;
    }
    return answer;
}

static uint32_t open_with(uint32_t slots, uint32_t frame, uint32_t gap, uint32_t last, uint32_t messages) {
    const uint32_t numbers[] = {slots, frame, gap, last, messages};
    memcpy(arg, numbers, sizeof arg);
    return measure(of_planner_open);
}

static uint32_t add(uint32_t id, uint32_t release, uint32_t period, uint32_t deadline) {
    const uint32_t numbers[] = {id, release, period, deadline, 0};
    memcpy(arg, numbers, sizeof arg);
    return measure(of_planner_add);
}

static uint32_t take_out(uint32_t id) {
    arg[0] = id;
    return measure(of_planner_remove);
}

static uint32_t send_number(uint32_t number) {
    arg[0] = number;
    return measure(of_planner_send);
}

static uint32_t hold(size_t places) {
    length = places;
    return measure(of_planner_round);
}

static void check(size_t bytes) {
    length = bytes;
    measure(of_planner_check);
}

static uint32_t seed = 1;

static uint32_t below(uint32_t limit) {
    seed = seed * 1103515245u + 12345u;
    return (seed >> 16) % limit;
}

/* Calls on damaged planners: with one bit turned, another for each call; then with one slot left for the streams, too few for most tables, so that
 * 5 comes of the rules, which are tested last. */
static void damaged_calls(void) {
    const struct planner good = kept;
    for (int call = 0; call < 10; call++) {
        if (call < 5) {
            ((unsigned char *)&kept)[below(sizeof kept)] ^= (unsigned char)(1u << below(8));
        } else {
            kept.slots = 1 + kept.messages;
        }
        switch (call % 5) {
        case 0: hold(64); break;
        case 1: add(1 + below(32767), kept.last + 1, 240, 240); break;
        case 2: take_out(kept.table.streams[0].id); break;
        case 3: check(sizeof plan); break;
        default: send_number(32768 + below(32768)); break;
        }
        kept = good;
    }
}

/* The planner's next rounds as a plan, checked whole, cut short, with a bit turned, and with no bytes. */
static void check_plans(void) {
    struct planner ahead = kept;
    size_t bytes = 0;
    while (bytes + PACKET_MOST_BYTES <= sizeof plan) {
        struct planner_held held = planner_round(&ahead, buffer, PLANNER_MOST_SLOTS);
        if (packet_write(held.start, ahead.slots, buffer, held.n, plan + bytes, sizeof plan - bytes) != PACKET_OK) {
            break;
        }
        bytes += PACKET_BYTES(held.n);
    }
    check(bytes);
    check(bytes - 1);
    check(0);
    plan[below((uint32_t)bytes)] ^= (uint8_t)(1u << below(8));
    check(bytes);
}

/* Streams of random periods that divide 5,040, calls of each kind and of each refusal between them, then the same on damaged planners. With messages
 * on, up to 34 are sent before a round, of which 32 can wait. */
static void table(uint32_t slots, uint32_t streams, uint32_t gap, uint32_t messages) {
    open_with(slots, 5040, gap, below(1000), messages);
    for (uint32_t tries = 0; tries < 40 * streams && kept.table.count < streams; tries++) {
        uint32_t period = 1 + below(240);
        if (5040 % period == 0) {
            add(1 + below(32767), kept.last + 1 + below(240), period, period - below(period / 2 + 1));
        }
    }
    for (int k = 0; k < 200; k++) {
        for (uint32_t sends = messages ? below(35) : 1; sends > 0; sends--) {
            send_number(32767 + below(32768));
        }
        hold(64);
        /* 6 to 11, 13 where it comes to that, 14, 16 */
        add(0, kept.last + 1, 240, 240);
        add(kept.table.streams[0].id, kept.last + 1, 240, 240);
        add(1 + below(32767), kept.last + 1, 11, 1);
        add(1 + below(32767), kept.last + 1, 240, 0);
        add(1 + below(32767), kept.last, 240, 240);
        add(1 + below(32767), kept.last + 1, 240, 1);
        add(1 + below(32767), kept.last + 1, 1, 1);
        take_out(0);
        hold(slots - 1);
        if (k % 10 == 0 && kept.table.count > 0) {
            struct planner_stream again = kept.table.streams[below((uint32_t)kept.table.count)];
            take_out(again.id);
            add(again.id, kept.last + 1 + below(240), again.period, again.deadline);
        }
        check_plans();
        damaged_calls();
    }
}

static void small_calls(void) {
    open_with(0, 1, 1, 0, 0);
    open_with(1, 0, 1, 0, 0);
    open_with(1, 1, 0, 0, 0);
    open_with(1, 1, 1, 1000000001, 0);
    open_with(1, 1, 1, 0, 1);
    hold(64);
    add(1, 1, 1, 1);
    take_out(1);
    send_number(32768);
    open_with(1, 1, 1, 999999999, 0);
    hold(64);
    add(1, 1000000000, 1, 1);
    hold(64);
    hold(64);
    /* 13, a table on the edge of the start rule */
    open_with(1, 10, 20, 0, 0);
    add(1, 1, 10, 10);
    add(2, 1, 10, 10);
    hold(64);
    add(3, 10, 10, 1);
    for (uint32_t n = 0; n < 70; n++) {
        length = n % 65;
        arg[0] = below(70);
        measure(of_planner_filled);
    }
}

static void superframes(void) {
    const uint8_t lists[][3] = {{5, 7, 15}, {240, 7, 9}, {240, 7, 11}, {0, 7, 9}, {233, 144, 89}, {1, 1, 1}};
    for (size_t k = 0; k < sizeof lists / sizeof lists[0]; k++) {
        memcpy(periods, lists[k], 3);
        length = 3;
        measure(of_superframe);
    }
    /* every pair: the greatest common divisor calls itself */
    for (uint32_t a = 1; a <= 240; a++) {
        for (uint32_t b = 1; b <= 240; b++) {
            periods[0] = (uint8_t)a;
            periods[1] = (uint8_t)b;
            length = 2;
            measure(of_superframe);
        }
    }
}

/* Packets of every n, written and read: good, with an id twice, too late, with one byte too few, and cut short; then with messages behind half of
 * the ids. */
static void packets(void) {
    for (uint32_t n = 0; n <= 64; n++) {
        for (int kind = 0; kind < 5; kind++) {
            for (uint32_t k = 0; k < n; k++) {
                buffer[k] = (uint16_t)(501 + k * 509 + (kind == 4 && 2 * k >= n ? 32768 : 0));
            }
            const uint32_t numbers[] = {kind == 2 ? 1000000001 : 16909060, 64, n, 0, 0};
            memcpy(arg, numbers, sizeof arg);
            length = kind == 3 ? 5 + 2 * n : sizeof packet;
            if (kind == 1 && n > 1) {
                buffer[n - 1] = buffer[0];
            }
            measure(of_packet_write);
            length = 6 + 2 * n;
            measure(of_packet_read);
            measure(of_packet_ids_length);
            length = 5 + 2 * n;
            measure(of_packet_read);
            measure(of_packet_ids_length);
            packet[4] = (uint8_t)(kind == 2 ? 65 : 64);
            length = 6 + 2 * n;
            measure(of_packet_read);
        }
    }
}

int main(void) {
    printf("a call of nothing: %zu bytes\n", painted_stack_used(call_nothing));
    measure(of_planner_version);
    measure(of_packet_version);
    small_calls();
    superframes();
    packets();
    const uint32_t gaps[] = {200, 20};
    for (int g = 0; g < 2; g++) {
        for (uint32_t messages = 0; messages <= 1; messages++) {
            table(1 + messages, 8, gaps[g], messages);
            table(3 + messages, 8, gaps[g], messages);
            table(2 + messages, 64, gaps[g], messages);
            table(5 + messages, 64, gaps[g], messages);
            table(10 + messages, 64, gaps[g], messages);
            table(64, 64, gaps[g], messages);
        }
    }
    for (size_t k = 0; k < sizeof figures / sizeof figures[0]; k++) {
        size_t most = 0;
        for (int a = 0; a < ANSWERS; a++) {
            most = figures[k].most[a] > most ? figures[k].most[a] : most;
        }
        printf("%-17s %6zu bytes;", figures[k].name, most);
        for (int a = 0; a < ANSWERS; a++) {
            if (figures[k].most[a] > 0) {
                printf(" %d: %zu", a, figures[k].most[a]);
            }
        }
        printf("\n");
    }
    return 0;
}
