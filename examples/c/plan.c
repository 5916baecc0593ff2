/* Plans that somebody else made, checked: the planner's own rounds, the same with a round a unit late and with the last byte missing, no bytes, and a
 * planner that is not open. Prints a line each with the verdict. The planner and its rounds are those of the Annex, C.1. */
#include <stdio.h>

#include "packets.h"
#include "planner.h"

/* A plan of three rounds with two slots each, as packets laid end to end. */
#define BYTES (3 * PACKET_BYTES(2))

static struct planner kept = PLANNER_INIT;
static const struct planner not_open = PLANNER_INIT;

/* Writes the plan with its second round at `second`; whether that went well. */
static int write_plan(uint8_t *plan, uint32_t second) {
    const uint16_t ids[3][2] = {{1, 2}, {1, 3}, {1, 2}};
    const uint32_t starts[3] = {2, second, 8};
    int right = 1;
    for (size_t k = 0; k < 3; k++) {
        right = right && packet_write(starts[k], 2, ids[k], 2, plan + k * PACKET_BYTES(2), PACKET_BYTES(2)) == PACKET_OK;
    }
    return right;
}

static void print_verdict(const char *name, const struct planner *p, const uint8_t *plan, size_t length) {
    struct planner_verdict verdict = planner_check(p, plan, length);
    if (verdict.answer != PLANNER_OK) {
        printf("%s: refused, %u: %s\n", name, (unsigned)verdict.answer, planner_text(verdict.answer));
    } else if (verdict.round == 0) {
        printf("%s: sound\n", name);
    } else {
        printf("%s: round %u breaks a rule\n", name, (unsigned)verdict.round);
    }
}

int main(void) {
    uint8_t own[BYTES] = {0}, late[BYTES] = {0};
    int right = planner_open(&kept, 2, 6, 6, 0, 0) == PLANNER_OK && planner_add(&kept, 1, 1, 3, 2) == PLANNER_OK
        && planner_add(&kept, 2, 1, 6, 6) == PLANNER_OK && planner_add(&kept, 3, 2, 6, 5) == PLANNER_OK;
    right = right && write_plan(own, 5) && write_plan(late, 6);
    print_verdict("its own rounds", &kept, own, sizeof own);
    print_verdict("the second a unit late", &kept, late, sizeof late);
    print_verdict("the last byte missing", &kept, own, sizeof own - 1);
    print_verdict("no bytes", &kept, own, 0);
    print_verdict("not open", &not_open, own, sizeof own);
    return right ? 0 : 1;
}
