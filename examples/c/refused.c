/* Refused calls store nothing (Annex 7.37), and a check never does (Annex 14.16): planner and buffer lie in memory that can only be read, where a store
 * would end this program. First come planners whose messages are damaged (Annex 3.17), one thing in each, which check, add, remove, send and round
 * have to refuse with 5; then sound ones, checks and each other refusal. Prints a line a planner or a call. For Linux, whose pages can be made such
 * memory. */
#define _DEFAULT_SOURCE
#include <stdio.h>
#include <string.h>
#include <sys/mman.h>

#include "planner.h"

/* What is lent. */
struct lent {
    struct planner planner;
    uint16_t buffer[PLANNER_MOST_SLOTS];
};

/* One round at 2 with id 1 alone, twice: the second does not start after the first. */
static const uint8_t plan[] = {0, 0, 0, 2, 4, 1, 0, 1, 0, 0, 0, 2, 4, 1, 0, 1};

static struct lent *lent;
static int right = 1;

/* Puts a planner into the page, which can only be read from then on. */
static void lend(const struct planner *p) {
    right = right && mprotect(lent, sizeof *lent, PROT_READ | PROT_WRITE) == 0;
    lent->planner = *p;
    right = right && mprotect(lent, sizeof *lent, PROT_READ) == 0;
}

/* A sound planner with so many messages waiting; the three streams of the Annex, C.1, and room for a fourth; now is 1. */
static struct planner opened(uint32_t slots, uint32_t messages, uint32_t waiting) {
    struct planner p = PLANNER_INIT;
    right = right && planner_open(&p, slots, 6, 6, 0, messages) == PLANNER_OK && planner_add(&p, 1, 1, 3, 2) == PLANNER_OK
        && planner_add(&p, 2, 1, 6, 6) == PLANNER_OK && planner_add(&p, 3, 2, 6, 5) == PLANNER_OK;
    for (uint32_t k = 0; k < waiting; k++) {
        right = right && planner_send(&p, 40000 + k) == PLANNER_OK;
    }
    return p;
}

/* A check that finds opened(4, 1, 31) sound, and calls that succeed on it, each of which stores something there. */
static void print_answers(const char *name, struct planner *p, uint16_t *buffer) {
    struct planner_verdict verdict = planner_check(p, plan, 8);
    printf("%s: check %u %u", name, (unsigned)verdict.answer, (unsigned)verdict.round);
    printf(", add %u", (unsigned)planner_add(p, 4, 1, 6, 6));
    printf(", remove %u", (unsigned)planner_remove(p, 1));
    printf(", send %u", (unsigned)planner_send(p, 50000));
    printf(", round %u\n", (unsigned)planner_round(p, buffer, PLANNER_MOST_SLOTS).answer);
}

static void refuse(const char *damage, const struct planner *damaged) {
    lend(damaged);
    print_answers(damage, &lent->planner, lent->buffer);
    right = right && memcmp(&lent->planner, damaged, sizeof *damaged) == 0;
}

/* Each begins from a planner that is sound, with 31 messages waiting; the place of the 32nd is free, and what stands there is a message too. */
static void damages(void) {
    struct planner sound = opened(4, 1, 31), damaged;
    sound.waiting.numbers[31] = 40031;
    damaged = sound;
    print_answers("undamaged", &damaged, (uint16_t[PLANNER_MOST_SLOTS]){0});
    damaged = sound;
    damaged.messages = 2;
    refuse("flag 2", &damaged);
    damaged = sound;
    damaged.messages = UINT32_MAX;
    refuse("flag 4294967295", &damaged);
    damaged = sound;
    damaged.messages = 0;
    refuse("31 waiting, messages off", &damaged);
    damaged = opened(4, 0, 0);
    damaged.waiting.count = 1;
    damaged.waiting.numbers[0] = 40000;
    refuse("one waiting, messages off", &damaged);
    damaged = sound;
    damaged.waiting.count = 33;
    refuse("count 33", &damaged);
    damaged.waiting.count = 40;
    refuse("count 40", &damaged);
    damaged.waiting.count = UINT32_MAX;
    refuse("count 4294967295", &damaged);
    damaged = sound;
    damaged.waiting.numbers[0] = 32767;
    refuse("32767 waits first", &damaged);
    damaged = sound;
    damaged.waiting.numbers[30] = 32767;
    refuse("32767 waits last", &damaged);
    damaged = sound;
    damaged.waiting.numbers[15] = 0;
    refuse("0 waits", &damaged);
    /* with no stream, so that no rule is broken */
    right = right && planner_open(&damaged, 2, 6, 6, 0, 1) == PLANNER_OK;
    damaged.slots = 1;
    refuse("one slot, messages on", &damaged);
    memset(&damaged, 0, sizeof damaged);
    refuse("zeros", &damaged);
    right = right && planner_open(&damaged, 1, 6, 6, 0, 1) == PLANNER_BAD_SLOTS;
    refuse("closed", &damaged);
}

static void print_check(size_t length) {
    struct planner_verdict verdict = planner_check(&lent->planner, plan, length);
    printf("check of %zu bytes, 3 waiting: %u %u\n", length, (unsigned)verdict.answer, (unsigned)verdict.round);
}

/* A sound plan, one cut short, one of no bytes, and one whose second round breaks a rule. */
static void checks(void) {
    struct planner some = opened(4, 1, 3);
    lend(&some);
    print_check(8);
    print_check(7);
    print_check(0);
    print_check(16);
    right = right && memcmp(&lent->planner, &some, sizeof some) == 0;
}

static void print_send(const char *planner, uint32_t number) {
    printf("send %u, %s: %u\n", (unsigned)number, planner, (unsigned)planner_send(&lent->planner, number));
}

static void sends(void) {
    struct planner full = opened(4, 1, 32), off = opened(4, 0, 0), some = opened(4, 1, 3);
    lend(&some);
    print_send("3 waiting", 0);
    print_send("3 waiting", 32767);
    print_send("3 waiting", 65536);
    print_send("3 waiting", 98304);
    print_send("3 waiting", UINT32_MAX);
    lend(&full);
    print_send("32 waiting", 32767);
    print_send("32 waiting", 32768);
    print_send("32 waiting", 65535);
    lend(&off);
    print_send("messages off", 0);
    print_send("messages off", 32768);
    print_send("messages off", 65535);
}

static void print_add(uint32_t id, uint32_t release, uint32_t period, uint32_t deadline) {
    printf("add %u %u %u %u: %u\n", (unsigned)id, (unsigned)release, (unsigned)period, (unsigned)deadline,
           (unsigned)planner_add(&lent->planner, id, release, period, deadline));
}

/* 6, 7, 9 to 11, 14 and 16 with 3 slots, of which the streams have 2; 12 with 2, of which they have 1. */
static void other_refusals(void) {
    struct planner three = opened(3, 1, 3), two = opened(2, 1, 3);
    lend(&three);
    print_add(0, 1, 6, 6);
    print_add(1, 1, 6, 6);
    print_add(4, 1, 5, 5);
    print_add(4, 1, 6, 7);
    print_add(4, 0, 6, 6);
    printf("remove 4: %u\n", (unsigned)planner_remove(&lent->planner, 4));
    printf("round with 2 elements: %u\n", (unsigned)planner_round(&lent->planner, lent->buffer, 2).answer);
    lend(&two);
    print_add(4, 1, 1, 1);
}

/* 8 with 64 streams; 13 where work was put off, as in the Annex, C.2, which has one slot for streams too; 17 with no stream and a message. */
static void rare_refusals(void) {
    struct planner p = PLANNER_INIT;
    right = right && planner_open(&p, 2, 240, 6, 0, 1) == PLANNER_OK;
    for (uint32_t id = 1; id <= PLANNER_PLACES; id++) {
        right = right && planner_add(&p, id, 1, 240, 240) == PLANNER_OK;
    }
    lend(&p);
    print_add(65, 1, 240, 240);
    right = right && planner_open(&p, 2, 10, 20, 0, 1) == PLANNER_OK && planner_add(&p, 1, 1, 10, 10) == PLANNER_OK
        && planner_add(&p, 2, 1, 10, 10) == PLANNER_OK
        && planner_round(&p, (uint16_t[PLANNER_MOST_SLOTS]){0}, PLANNER_MOST_SLOTS).start == 9;
    lend(&p);
    print_add(3, 10, 10, 1);
    right = right && planner_open(&p, 2, 6, 6, 999999994, 1) == PLANNER_OK && planner_send(&p, 40000) == PLANNER_OK;
    lend(&p);
    printf("round after the last start: %u\n", (unsigned)planner_round(&lent->planner, lent->buffer, 2).answer);
}

int main(void) {
    void *page = mmap(NULL, sizeof *lent, PROT_READ | PROT_WRITE, MAP_PRIVATE | MAP_ANONYMOUS, -1, 0);
    if (page == MAP_FAILED) {
        return 1;
    }
    lent = (struct lent *)page;
    damages();
    checks();
    sends();
    other_refusals();
    rare_refusals();
    return right ? 0 : 1;
}
