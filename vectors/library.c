/* A program over the C functions that answers the lines of vectors/library, so that `vectors/run HOST LIBRARY` can try a library:
 *   P BYTES                  packet_read and packet_ids_length: P ANSWER START B N LENGTH IDS
 *   W START B LENGTH ID ..   packet_write to a buffer filled with ee: W ANSWER BYTES. Four bytes, four, two, and two an id
 *   S BYTES                  superframe of these periods: S ANSWER VALUE
 *   O,B,F,G,T A,id,S,P,D D,id   the calls on one planner, answered as the command program answers
 *   O,B,F,G,T,MESSAGES       planner_open with messages, which are 0 in an O of four numbers
 *   S,NUMBER                 planner_send: S,NUMBER,ANSWER
 *   R LENGTH                 a round with a buffer of LENGTH elements, each 0: R ANSWER START N, and all elements
 *   F LENGTH N               planner_filled: F ELEMENTS
 *   C,BYTES                  planner_check of the plan that these bytes are: C ANSWER ROUND
 *   M FIELD VALUE            sets slots, frame, gap, messages, last, or the count of waiting messages in the planner's memory: M
 *   M number PLACE VALUE     sets the waiting message at a place from 0: M
 * A line ends in ` changed` where a refused call left another byte in the planner (7.3), and in ` differs` where the planner that O leaves is not
 * byte by byte what the same O leaves in other memory (7.7, 7.8), or where a round wrote an element behind its n (7.29); a check's ends in ` changed`
 * where another byte stands in the planner or the plan, whatever it answered (14.16); no vector expects any of these.
 * Bytes are in hex with blanks anywhere. Any other line is passed over. Each line is as one of vectors/library: nothing tests that.
 * To build it, LIB being lib of the bundle or target/lib of the repository: cc -std=c99 -Iinclude vectors/library.c -LLIB -lplanner -o library */
#include "packets.h"
#include "planner.h"
#include "superframe.h"
#include <stdio.h>
#include <stdlib.h>
#include <string.h>

#define MOST_TEXT 8192
#define MOST_BYTES 2048
#define MOST_ELEMENTS 512
/* What the elements of a round's buffer are before: 0 is the one number of 16 bits that is neither an id nor a message, so that none of the n is
 * taken for one that was left; where 0 is written, the other shows it. */
#define BEFORE 0
#define OTHER_BEFORE 65535

/* The value of a hex digit; 16 for any other byte. */
static unsigned digit_value(char c) {
    static const char digits[] = "0123456789abcdef";
    const char *at = c == '\0' ? NULL : strchr(digits, c);
    return at == NULL ? 16u : (unsigned)(at - digits);
}

/* The bytes that a text writes in hex; how many they are. */
static size_t bytes_in(const char *text, uint8_t *bytes) {
    size_t digits = 0;
    for (; *text != '\0' && digits < 2 * MOST_BYTES; text++) {
        unsigned value = digit_value(*text);
        if (value < 16) {
            bytes[digits / 2] = (uint8_t)(bytes[digits / 2] % 16 * 16 + value);
            digits++;
        }
    }
    return digits / 2;
}

/* The number of so many bytes, the most significant first. */
static uint32_t number_in(const uint8_t *bytes, size_t count) {
    uint32_t number = 0;
    for (size_t i = 0; i < count; i++) {
        number = number << 8 | bytes[i];
    }
    return number;
}

/* Two digits a byte; a dash where there is none. */
static void print_hex(const uint8_t *bytes, size_t count) {
    if (count == 0) {
        printf("-");
    }
    for (size_t i = 0; i < count; i++) {
        printf("%02x", (unsigned)bytes[i]);
    }
    printf("\n");
}

static void print_number(const char *before, uint32_t number) { printf("%s%lu", before, (unsigned long)number); }

static void read_packet(const uint8_t *bytes, size_t count) {
    struct packet_header header = packet_read(bytes, count);
    size_t length = packet_ids_length(bytes, count);
    print_number("P ", header.answer);
    print_number(" ", header.start);
    print_number(" ", header.slots);
    print_number(" ", header.n);
    print_number(" ", (uint32_t)length);
    printf(" ");
    print_hex(length == 0 ? bytes : bytes + 6, length);
}

static void write_packet(const uint8_t *bytes, size_t count) {
    static uint16_t ids[MOST_ELEMENTS];
    static uint8_t packet[MOST_BYTES];
    size_t n = count < 10 ? 0 : (count - 10) / 2;
    size_t length = number_in(bytes + 8, 2) % (MOST_BYTES + 1);
    for (size_t i = 0; i < n; i++) {
        ids[i] = (uint16_t)number_in(bytes + 10 + 2 * i, 2);
    }
    memset(packet, 0xee, sizeof packet);
    print_number("W ", packet_write(number_in(bytes, 4), number_in(bytes + 4, 4), ids, n, packet, length));
    printf(" ");
    print_hex(packet, length);
}

static void give_superframe(const uint8_t *periods, size_t count) {
    uint32_t packed = superframe(periods, count);
    print_number("S ", superframe_answer(packed));
    print_number(" ", superframe_value(packed));
    printf("\n");
}

/* The numbers in a text, whatever parts them; how many they are, at most five. */
static size_t numbers_in(const char *text, uint32_t *numbers) {
    size_t count = 0;
    while (count < 5 && *(text += strcspn(text, "0123456789")) != '\0') {
        char *end;
        numbers[count++] = (uint32_t)strtoul(text, &end, 10);
        text = end;
    }
    return count;
}

/* Ends the line of a call, which found the planner as `before`. */
static void end_call(const struct planner *planner, const struct planner *before, uint32_t answer) {
    printf("%s\n", answer != 0 && memcmp(planner, before, sizeof *planner) != 0 ? " changed" : "");
}

static void open_planner(struct planner *planner, const uint32_t *x) {
    static struct planner other;
    memset(&other, 0xa5, sizeof other);
    (void)planner_open(&other, x[0], x[1], x[2], x[3], x[4]);
    print_number("O,", planner_open(planner, x[0], x[1], x[2], x[3], x[4]));
    printf("%s\n", memcmp(planner, &other, sizeof other) != 0 ? " differs" : "");
}

static struct planner_held round_over(struct planner *planner, uint16_t fill, uint16_t *buffer, size_t length) {
    for (size_t i = 0; i < MOST_ELEMENTS; i++) {
        buffer[i] = fill;
    }
    return planner_round(planner, buffer, length);
}

/* Whether the same round over another fill wrote the same first n elements, and left all others. */
static int same_written(const uint16_t *buffer, const uint16_t *other, uint32_t n) {
    for (size_t i = 0; i < MOST_ELEMENTS; i++) {
        if (i < n ? buffer[i] != other[i] : buffer[i] != BEFORE || other[i] != OTHER_BEFORE) {
            return 0;
        }
    }
    return 1;
}

static void hold_round(struct planner *planner, size_t length) {
    struct planner before = *planner, copy = *planner;
    uint16_t buffer[MOST_ELEMENTS], other[MOST_ELEMENTS];
    struct planner_held held = round_over(planner, BEFORE, buffer, length % (MOST_ELEMENTS + 1));
    (void)round_over(&copy, OTHER_BEFORE, other, length % (MOST_ELEMENTS + 1));
    print_number("R ", held.answer);
    print_number(" ", held.start);
    print_number(" ", held.n);
    for (size_t i = 0; i < length; i++) {
        print_number(" ", buffer[i]);
    }
    printf("%s", same_written(buffer, other, held.n) ? "" : " differs");
    end_call(planner, &before, held.answer);
}

static uint32_t answer_to(struct planner *planner, char letter, const uint32_t *x) {
    if (letter == 'A') {
        return planner_add(planner, x[0], x[1], x[2], x[3]);
    }
    return letter == 'D' ? planner_remove(planner, x[0]) : planner_send(planner, x[0]);
}

static void change(struct planner *planner, char letter, const uint32_t *x) {
    struct planner before = *planner;
    uint32_t answer = answer_to(planner, letter, x);
    printf("%c", letter);
    print_number(",", x[0]);
    print_number(",", answer);
    end_call(planner, &before, answer);
}

static void give_filled(size_t length, uint32_t n) {
    uint16_t buffer[MOST_ELEMENTS] = {0};
    print_number("F ", (uint32_t)planner_filled(buffer, length % (MOST_ELEMENTS + 1), n));
    printf("\n");
}

static void check_plan(const struct planner *planner, const uint8_t *plan, size_t length) {
    static struct planner before;
    static uint8_t bytes[MOST_BYTES];
    before = *planner;
    memcpy(bytes, plan, sizeof bytes);
    struct planner_verdict verdict = planner_check(planner, plan, length);
    print_number("C ", verdict.answer);
    print_number(" ", verdict.round);
    int same = memcmp(planner, &before, sizeof before) == 0 && memcmp(plan, bytes, sizeof bytes) == 0;
    printf("%s\n", same ? "" : " changed");
}

/* The field that a text names. */
static uint32_t *field_in(struct planner *planner, const char *text) {
    const struct {
        const char *name;
        uint32_t *field;
    } fields[] = {{"slots ", &planner->slots}, {"frame ", &planner->frame}, {"gap ", &planner->gap},
                  {"messages ", &planner->messages}, {"count ", &planner->waiting.count}};
    for (size_t i = 0; i < sizeof fields / sizeof *fields; i++) {
        if (strncmp(text, fields[i].name, strlen(fields[i].name)) == 0) {
            return fields[i].field;
        }
    }
    return &planner->last;
}

static void set_memory(struct planner *planner, const char *text, const uint32_t *x) {
    if (strncmp(text, "number ", 7) == 0) {
        planner->waiting.numbers[x[0] % PLANNER_MOST_WAITING] = (uint16_t)x[1];
    } else {
        *field_in(planner, text) = x[0];
    }
    printf("M\n");
}

static void call(struct planner *planner, const char *text) {
    uint32_t x[5] = {0, 0, 0, 0, 0};
    numbers_in(text, x);
    switch (text[0]) {
    case 'O': open_planner(planner, x); break;
    case 'A':
    case 'D':
    case 'S': change(planner, text[0], x); break;
    case 'R': hold_round(planner, x[0]); break;
    case 'F': give_filled(x[0], x[1]); break;
    case 'M': set_memory(planner, text + 2, x); break;
    default: break;
    }
}

int main(void) {
    static struct planner planner; /* zeros: the memory is written before it is lent, 7.39 */
    static char text[MOST_TEXT];
    (void)planner_open(&planner, 0, 0, 0, 0, 0); /* refused, so that it begins closed, 3.12 */
    while (fgets(text, MOST_TEXT, stdin) != NULL) {
        uint8_t bytes[MOST_BYTES] = {0};
        size_t count = bytes_in(text + 1, bytes);
        if (text[0] == 'P') {
            read_packet(bytes, count);
        } else if (text[0] == 'W') {
            write_packet(bytes, count);
        } else if (text[0] == 'S' && text[1] != ',') {
            give_superframe(bytes, count);
        } else if (text[0] == 'C') {
            check_plan(&planner, bytes, count);
        } else {
            call(&planner, text);
        }
    }
    return 0;
}
