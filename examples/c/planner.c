/* The three rounds of the Annex, C.1, as lines of the command program, by a program that keeps one planner and lends it to each call. At the end it
 * looks whether the library wrote the fields where planner.h says they are. */
#include <stdio.h>
#include <string.h>

#include "planner.h"

static struct planner kept = PLANNER_INIT;

static void add(uint32_t id, uint32_t release, uint32_t period, uint32_t deadline) {
    printf("A,%u,%u\n", (unsigned)id, (unsigned)planner_add(&kept, id, release, period, deadline));
}

static void hold(void) {
    uint16_t buffer[PLANNER_MOST_SLOTS] = {0};
    struct planner_held held = planner_round(&kept, buffer, PLANNER_MOST_SLOTS);
    size_t filled = planner_filled(buffer, PLANNER_MOST_SLOTS, held.n);
    printf("R,%u", (unsigned)held.answer);
    if (held.answer == PLANNER_OK) {
        printf(",%u,%u", (unsigned)held.start, (unsigned)held.n);
    }
    for (size_t k = 0; k < filled; k++) {
        printf(",%u", (unsigned)buffer[k]);
    }
    printf("\n");
}

/* Whether the queue has a stream under its due time and its release, in whichever place: the fields of the queue are where they are said to be. */
static int is_filed(const struct planner_stream *s) {
    const struct planner_queue *q = &kept.queue;
    size_t x = 0;
    while (x < PLANNER_PLACES && q->ids[x] != s->id) {
        x++;
    }
    return x < PLANNER_PLACES && q->keys[x] == s->release + s->deadline && q->releases[x] == s->release;
}

/* Whether the library wrote the fields where this program reads them. After the three rounds, by hand: stream 1 was sent at 2, 5 and 8 and is next
 * released at 10, stream 2 at 2 and 8 and next at 13, stream 3 at 5 and next at 8. */
static int fields_agree(void) {
    const struct planner_stream expected[] = {{1, 3, 2, 10}, {2, 6, 6, 13}, {3, 6, 5, 8}};
    return kept.slots == 2 && kept.frame == 6 && kept.gap == 6 && kept.messages == 0 && kept.last == 8 && kept.waiting.count == 0
        && kept.table.count == 3 && memcmp(kept.table.streams, expected, sizeof expected) == 0 && is_filed(&expected[0])
        && is_filed(&expected[1]) && is_filed(&expected[2]);
}

int main(void) {
    printf("O,%u\n", (unsigned)planner_open(&kept, 2, 6, 6, 0, 0));
    add(1, 1, 3, 2);
    add(2, 1, 6, 6);
    add(3, 2, 6, 5);
    hold();
    hold();
    hold();
    printf("D,9,%u\n", (unsigned)planner_remove(&kept, 9));
    if (!fields_agree()) {
        fprintf(stderr, "the library has written fields elsewhere than planner.h says\n");
        return 1;
    }
    return 0;
}
