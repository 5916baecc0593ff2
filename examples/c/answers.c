/* Prints every answer that has a name, its number and its text, a line each, as the headers have them; then what a number says that is none. */
#include <stdio.h>

#include "packets.h"
#include "planner.h"
#include "superframe.h"

static void print(const char *name, uint32_t number, const char *text) { printf("%s %u: %s\n", name, (unsigned)number, text); }

int main(void) {
#define PRINT_PLANNER(name, number, text) print(#name, name, planner_text(name));
#define PRINT_PACKET(name, number, text) print(#name, name, packet_text(name));
#define PRINT_SUPERFRAME(name, number, text) print(#name, name, superframe_text(name));
    PLANNER_ANSWERS(PRINT_PLANNER)
    PACKET_ANSWERS(PRINT_PACKET)
    SUPERFRAME_ANSWERS(PRINT_SUPERFRAME)
    print("planner.h", 15, planner_text(15));
    print("packets.h", 29, packet_text(29));
    print("superframe.h", UINT32_MAX, superframe_text(UINT32_MAX));
    return 0;
}
