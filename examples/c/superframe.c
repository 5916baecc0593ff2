/* Four superframes (Annex 9.2 to 9.4). Prints the values 105 and 5040, then two refusals with their texts. */
#include <stdio.h>

#include "superframe.h"

static void print(const uint8_t *periods, size_t count) {
    uint32_t packed = superframe(periods, count);
    uint32_t answer = superframe_answer(packed);
    if (answer == SUPERFRAME_OK) {
        printf("%u\n", (unsigned)superframe_value(packed));
    } else {
        printf("refusal %u: %s\n", (unsigned)answer, superframe_text(answer));
    }
}

int main(void) {
    const uint8_t fits[] = {5, 7, 15};
    const uint8_t longest[] = {240, 7, 9};
    const uint8_t above[] = {240, 7, 11};
    const uint8_t none[] = {240, 7, 11, 0};
    print(fits, sizeof fits);
    print(longest, sizeof longest);
    print(above, sizeof above);
    print(none, sizeof none);
    return 0;
}
