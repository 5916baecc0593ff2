/* packets.h: the schedule packet, the bytes that tell heads of a round: a writer, for a host, and a reader, for a head's firmware.
 * It needs C99 or later, or C++11 or later.
 *
 * A host writes what a round of planner.h answered; a head reads the bytes that came, and looks whether the id of its stream is among them:
 *
 *     uint8_t packet[PACKET_MOST_BYTES] = {0};
 *     uint32_t answer = packet_write(held.start, p.slots, ids, held.n, packet, sizeof packet);
 *     if (answer == PACKET_OK) { radio_send(packet, PACKET_BYTES(held.n)); }                                  // the host's own radio
 *     struct packet_header header = packet_read(packet, length);                                              // length: how many bytes came
 *     if (header.answer == PACKET_OK && packet_has(packet, length, my_stream)) { wake_at(header.start); }     // the head's own clock
 *
 * The order of calls: any. No call knows of another; packet_ids_length and packet_has test the whole packet again, packet_id tests nothing and is
 * for a packet that packet_read answered with 0.
 *
 * An answer is 0, PACKET_OK, or the number of the first refusal that applies, which has a name below; packet_text(answer) says it in words. A
 * refused write writes nothing; a refused read gives zeros beside its number.
 *
 * Three things that a caller must see to, which no call tests:
 *   1. no pointer is null, also where its length or n is 0, and ids is aligned for its type;
 *   2. ids points to n ids that can be read, packet to `length` bytes that can be read and, for packet_write, written; to read, length is just the
 *      number of bytes that came;
 *   3. ids and packet do not overlap, and nobody else reads or writes either during a call.
 *
 * The rest: what each call does and refuses stands at its prototype; what C has to keep, what is proved and what is not, versions and stack at the
 * end of this file. examples/c/host.c writes packets, examples/c/packet.c reads them too; vectors/ has packets, good and bad, with their answers. The
 * specification is chapter 10 of the Annex, docs/ANNEX.md, in the bundle doc/annex.html. */
#ifndef PACKETS_H
#define PACKETS_H

#include <stddef.h>
#include <stdint.h>

/* Annex 10.10: the version that this header is of; packet_version() gives the library's. A program refuses a library of another one. */
#define PACKET_VERSION 8

/* Annex 10.2, the layout, 6 + 2 * n bytes: bytes 0 to 3 the round's start, the most significant byte first; byte 4 the slots of a round (B); byte 5
 * n; then n ids of two bytes each, the most significant first, in the order of the round's slots: those of streams and, behind them, the numbers of
 * messages (planner_send of planner.h).
 * Annex 10.3: a packet is good if its start is at most 1,000,000,000, slots is 1 to 64, n is at most slots, and the ids are first those of streams,
 * 1 to 32,767 with none twice, then messages, 32,768 to 65,535, of which the same may stand more than once; there may be none of either. */
#define PACKET_BYTES(n) (6 + 2 * PACKET_CAST(size_t, n)) /* the bytes of a packet with n ids */
#define PACKET_MOST_BYTES 134                            /* those of the longest good packet */
#define PACKET_MOST_SLOTS 64
#define PACKET_LARGEST_ID 32767                          /* of a stream; a number above it is a message */
#define PACKET_LAST_START 1000000000

/* A cast in the language's own manner: C++ may warn of C's (-Wold-style-cast). */
#ifdef __cplusplus
#define PACKET_CAST(type, value) static_cast<type>(value)
#else
#define PACKET_CAST(type, value) ((type)(value))
#endif

/* The answers: name, number, and when it is given, in the words of table 1 of the Annex. */
#define PACKET_ANSWERS(ANSWER)                                                             \
    ANSWER(PACKET_OK, 0, "success")                                                        \
    ANSWER(PACKET_WRONG_LENGTH, 26, "the length is under 6, or other than 6 + 2 * n")      \
    ANSWER(PACKET_BAD_VALUES, 27, "the values are not good (Annex 10.3)")                  \
    ANSWER(PACKET_SHORT_BUFFER, 28, "the buffer is shorter than the packet")

/* The names of the answers. The calls return a uint32_t, which is compared with them. */
#define PACKET_NAME(name, number, text) name = number,
enum packet_answers { PACKET_ANSWERS(PACKET_NAME) };
#undef PACKET_NAME

/* An answer in words; of a number that is none, that it is none. Plain C, and not proved. */
static inline const char *packet_text(uint32_t answer) {
#define PACKET_CASE(name, number, text) case number: return text;
    switch (answer) {
        PACKET_ANSWERS(PACKET_CASE)
        default: return "no answer of the packet calls";
    }
#undef PACKET_CASE
}

#ifdef __cplusplus
extern "C" {
#endif

/* Annex 10.7: what a read gives: the start, B and n; or the number of a refusal and zeros. */
struct packet_header {
    uint32_t answer;
    uint32_t start;
    uint32_t slots;
    uint32_t n;
};

/* Annex 10.10: the library's version. */
uint32_t packet_version(void);

/* Annex 10.4, 10.5: writes the packet of these values to the front of `packet`, 6 + 2 * n bytes; later bytes are untouched.
 * Refuses 27 for values that are not a good packet's (slots and n are compared as they are passed: 261 is not 5), then 28 if length is below
 * 6 + 2 * n; refused, it writes nothing. */
uint32_t packet_write(uint32_t start, uint32_t slots, const uint16_t *ids, size_t n, uint8_t *packet, size_t length);

/* Annex 10.6, 10.7: reads a packet of just `length` bytes. Refuses 26 if length is under 6 or other than 6 + 2 * n, then 27 if it is not good. */
struct packet_header packet_read(const uint8_t *packet, size_t length);

/* Annex 10.8: the second call: how many bytes the ids take, from byte 6 of the packet on: 2 * n, or 0 where packet_read refuses it. It tests the
 * packet again and takes nothing from an earlier read. */
size_t packet_ids_length(const uint8_t *packet, size_t length);

#ifdef __cplusplus
}
#endif

/* The id or message in slot k, from 0, of a packet that was read with answer 0; k is below its n. */
static inline uint16_t packet_id(const uint8_t *packet, size_t k) {
    return PACKET_CAST(uint16_t, packet[6 + 2 * k] << 8 | packet[7 + 2 * k]);
}

/* Whether a packet of `length` bytes is good and lists the id of a stream: whether that stream's head sends in this round; or lists
 * that message. */
static inline int packet_has(const uint8_t *packet, size_t length, uint16_t id) {
    size_t ids = packet_ids_length(packet, length) / 2;
    for (size_t k = 0; k < ids; k++) {
        if (packet_id(packet, k) == id) {
            return 1;
        }
    }
    return 0;
}

/* Annex 10.9: the layout that the library takes a struct to have. A compiler that lays it out in another way stops here. */
#if defined(__cplusplus) && __cplusplus >= 201103L
#define PACKET_ASSERT(name, condition) static_assert(condition, #name)
#elif defined(__STDC_VERSION__) && __STDC_VERSION__ >= 201112L
#define PACKET_ASSERT(name, condition) _Static_assert(condition, #name)
#else
#define PACKET_ASSERT(name, condition) typedef char packet_assert_##name[(condition) ? 1 : -1]
#endif
#define PACKET_SIZE(type, bytes) PACKET_ASSERT(type##_size, sizeof(struct type) == (bytes))
#define PACKET_FIELD(type, field, offset) PACKET_ASSERT(type##_##field, offsetof(struct type, field) == (offset))

PACKET_ASSERT(size_t_has_8_bytes, sizeof(size_t) == 8);
PACKET_ASSERT(most_bytes, PACKET_MOST_BYTES == PACKET_BYTES(PACKET_MOST_SLOTS));
PACKET_SIZE(packet_header, 16);
PACKET_FIELD(packet_header, answer, 0);
PACKET_FIELD(packet_header, start, 4);
PACKET_FIELD(packet_header, slots, 8);
PACKET_FIELD(packet_header, n, 12);

#undef PACKET_FIELD
#undef PACKET_SIZE
#undef PACKET_ASSERT

/* What is proved. What is said here of answers and bytes is proved of packet_write, packet_read and packet_ids_length, on every number, every list of
 * ids and every buffer (crates/packets/specs). Annex 12.16 to 12.18: a read answers 0 exactly for the bytes of a good packet; reading what was
 * written gives its values, and writing what was read gives its bytes; no two good packets with the same values differ. What a round of a sound
 * planner answered, with the planner's slots, is always a good packet, so that a writer never answers 27 to it.
 * What is said of stack, symbols and machine is not proved: it is read off the library as it is built. packet_id, packet_has and packet_text are
 * plain C and not proved either; nor does anything check this file against the source (Annex 13.5).
 *
 * What C has to keep, since nothing checks a call: the three things at the top (Annex 7.39), and a 64-bit x86 machine: the library is built for it,
 * uses its SSE2 registers, and takes size_t to be 8 bytes.
 *
 * Versions. The layout of a packet is the same in every version that has packets, 4 to 8; earlier ones have none. Versions 4 to 6 know no messages: a
 * head with one of these answers 27 to a packet that has one, and reads every other. A program that compares packet_version() with PACKET_VERSION
 * finds out a library of another version than the header it was compiled with; libraries before 6.0.0 have no such function, and a program that calls
 * it does not link with them.
 *
 * What these calls need from outside: nothing (`nm -u libplanner.a`, packets.o). No heap; no pointer is kept; a call writes nothing but the packet
 * that it is lent and its stack, and returns.
 *
 * Stack, in bytes, return address included: packet_write 256, packet_read 464, packet_ids_length 448, packet_version 24 (16 of each are the measuring
 * program's). Measured on a painted stack (`bash bench/stack`), the most over packets of every n and every answer. That is this build, by the compiler
 * that built it, and no promise: measure again what is linked, and leave room above it. */

#endif
