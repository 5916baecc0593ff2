/* planner.h: the lazy round planner, for a host or firmware that keeps one planner in its memory and lends it to each call.
 * It needs C99 or later, or C++11 or later.
 *
 * Radio heads on batteries sleep between rounds. The planner says when the next round starts, as late as every deadline and the gap allow, and which
 * streams send in it, the earliest deadline first. A host opens a planner, adds a stream for each head, and asks for one round after the other:
 *
 *     static struct planner p = PLANNER_INIT;
 *     uint16_t ids[PLANNER_MOST_SLOTS] = {0};
 *     if (planner_version() != PLANNER_VERSION || planner_open(&p, 2, 6, 6, 0, 0) != PLANNER_OK) { return 1; }
 *     uint32_t answer = planner_add(&p, 1, 1, 3, 2);                            // stream 1: released at 1, 4, 7 and so on, due 2 later
 *     struct planner_held held = planner_round(&p, ids, PLANNER_MOST_SLOTS);    // at held.start, here 2, with the first held.n of ids, here 1
 *
 * Messages: a planner that is opened with messages on, the last number of planner_open other than 0, takes remarks beside the streams, numbers from
 * 32,768 to 65,535 whose meaning is the crew's own. planner_send has one wait; a round lists its streams and then, in the slots that these leave
 * free, the waiting messages, first come first. One slot of each round is kept for them: the streams have a slot fewer, so that a stream may be
 * refused that fits with messages off. A message brings no round forward. examples/c/messages.c sends some.
 *
 * Plans of others: planner_check takes packets laid end to end, whoever made them, and says whether they are a sound plan from a planner on, or which
 * round is the first that breaks a rule. It changes nothing. examples/c/plan.c checks some.
 *
 * The order of calls: planner_open; then planner_add, planner_remove, planner_send, planner_round and planner_check in any order, each on the planner
 * as the call before left it. packet_write (packets.h) makes of a round the bytes that go on air; superframe (superframe.h) helps to find a frame.
 *
 * An answer is 0, PLANNER_OK, or the number of the first refusal that applies, which has a name below; planner_text(answer) says it in words. A
 * refused add, remove, send or round changes nothing, and the same call may succeed later. A refused open leaves a closed planner, which the others
 * refuse with 5. 5 is no checksum: damage that leaves a planner sound is not found (the end of this file says more).
 *
 * Three things that a caller must see to, which no call tests:
 *   1. the memory: no pointer is null and each is aligned; a planner has been written before it is lent (PLANNER_INIT will do); a buffer has the
 *      length that is passed; planner and buffer do not overlap; nobody else touches them during a call;
 *   2. the stack: a round takes some 17 kB of it, check some 11 kB, add, remove and send some 10 kB;
 *   3. the version: it is the same in every host on a bus.
 *
 * The rest: what each call does and refuses stands at its prototype; what C has to keep, what is proved and what is not, versions, damage and stack
 * at the end of this file. examples/c/host.c is a whole host. The specification is the Annex, docs/ANNEX.md, in the bundle doc/annex.html. */
#ifndef PLANNER_H
#define PLANNER_H

#include <stddef.h>
#include <stdint.h>

/* Annex 7.40: the version that this header is of; planner_version() gives the library's. A host refuses a library of another one. */
#define PLANNER_VERSION 8

/* The limits. */
#define PLANNER_MOST_SLOTS 64            /* Annex 3.6: B, and so the numbers of a round; a buffer of this length is never too short */
#define PLANNER_LONGEST_FRAME 5040       /* Annex 3.6: F */
#define PLANNER_LONGEST_GAP 255          /* Annex 3.6: G */
#define PLANNER_PLACES 64                /* Annex 3.6: streams */
#define PLANNER_LARGEST_ID 32767         /* Annex 3.7; the smallest is 1 */
#define PLANNER_LONGEST_PERIOD 240       /* Annex 3.7: P */
#define PLANNER_FURTHEST_RELEASE 239     /* Annex 3.8: so far after now, which is last + 1, a stream's first packet may be released */
#define PLANNER_LAST_START 1000000000    /* Annex 1.3: no round starts later */
#define PLANNER_LEAST_MESSAGE 32768      /* Annex 3.14: the first number above the ids of streams */
#define PLANNER_LARGEST_MESSAGE 65535    /* Annex 3.14 */
#define PLANNER_MOST_WAITING 32          /* Annex 3.15: messages that wait */

/* Annex 7.2: the answers: name, number, and when it is given, in the words of table 1 of the Annex. B, F, G and T are slots, frame, gap and last of
 * planner_open; S, P and D are release, period and deadline of planner_add; a record is what is kept of a stream. 15 is never given. */
#define PLANNER_ANSWERS(ANSWER)                                                                \
    ANSWER(PLANNER_OK, 0, "success")                                                           \
    ANSWER(PLANNER_BAD_SLOTS, 1, "B, the slots, is not 1 to 64, or is 1 with messages on")     \
    ANSWER(PLANNER_BAD_FRAME, 2, "F, the superframe, is not 1 to 5,040")                       \
    ANSWER(PLANNER_BAD_GAP, 3, "G, the gap, is not 1 to 255")                                  \
    ANSWER(PLANNER_BAD_LAST, 4, "T, the last start, is above 1,000,000,000")                   \
    ANSWER(PLANNER_NOT_SOUND, 5, "the planner is not sound: not open, or damaged")             \
    ANSWER(PLANNER_BAD_ID, 6, "the id is not 1 to 32,767")                                     \
    ANSWER(PLANNER_ID_TAKEN, 7, "a record has the id")                                         \
    ANSWER(PLANNER_FULL, 8, "the table has 64 records")                                        \
    ANSWER(PLANNER_BAD_PERIOD, 9, "P, the period, is not 1 to 240, or does not divide F")      \
    ANSWER(PLANNER_BAD_DEADLINE, 10, "D, the deadline, is not 1 to P")                         \
    ANSWER(PLANNER_BAD_RELEASE, 11, "S, the first release, is not now to now + 239")           \
    ANSWER(PLANNER_BREAKS_DEMAND, 12, "the table with it breaks the demand rule")              \
    ANSWER(PLANNER_BREAKS_START, 13, "the table with it breaks the start rule")                \
    ANSWER(PLANNER_NO_STREAM, 14, "no record has the id")                                      \
    ANSWER(PLANNER_SHORT_BUFFER, 16, "the buffer has fewer than B elements")                   \
    ANSWER(PLANNER_LATE_START, 17, "the lazy start is after 1,000,000,000")                    \
    ANSWER(PLANNER_BAD_MESSAGE, 29, "the number is not 32,768 to 65,535, or messages are off") \
    ANSWER(PLANNER_WAITING_FULL, 30, "32 messages are waiting")

/* The names of the answers. The calls return a uint32_t, which is compared with them. */
#define PLANNER_NAME(name, number, text) name = number,
enum planner_answers { PLANNER_ANSWERS(PLANNER_NAME) };
#undef PLANNER_NAME

/* An answer in words; of a number that is none, that it is none. Plain C, and not proved. */
static inline const char *planner_text(uint32_t answer) {
#define PLANNER_CASE(name, number, text) case number: return text;
    switch (answer) {
        PLANNER_ANSWERS(PLANNER_CASE)
        default: return "no answer of the planner";
    }
#undef PLANNER_CASE
}

#ifdef __cplusplus
extern "C" {
#endif

/* Annex 3.2: a stream, with the release of its first unserved packet. */
struct planner_stream {
    uint32_t id;
    uint32_t period;
    uint32_t deadline;
    uint32_t release;
};

/* Annex 3.3: the streams are those in the first `count` places, in ascending id. */
struct planner_table {
    size_t count;
    struct planner_stream streams[PLANNER_PLACES];
};

/* Annex 8.6: the queue of due times and releases, whose nodes are 64 places and 480 buckets. Its fields are for the library alone. */
#define PLANNER_NODES 544
struct planner_queue {
    uint16_t ids[PLANNER_PLACES];
    uint32_t keys[PLANNER_PLACES];
    uint16_t next[PLANNER_NODES];
    uint16_t prev[PLANNER_NODES];
    uint32_t releases[PLANNER_PLACES];
};

/* Annex 3.15: the waiting messages are those in the first `count` places, in the order in which they were sent. */
struct planner_waiting {
    uint32_t count;
    uint16_t numbers[PLANNER_MOST_WAITING];
};

/* Annex 3.1, 3.5: B, F, G, whether messages are on (1) or off (0), L, the waiting messages, the streams and the queue that files them. To be read; it
 * is written by the calls, or copied whole (a host that takes over gets such a copy, Annex 7.38). */
struct planner {
    uint32_t slots;
    uint32_t frame;
    uint32_t gap;
    uint32_t messages;
    uint32_t last;
    struct planner_waiting waiting;
    struct planner_table table;
    struct planner_queue queue;
};

/* The initialiser, zeros: struct planner p = PLANNER_INIT; A planner of zeros is not open: each call on it but planner_open answers 5. */
#ifdef __cplusplus
#define PLANNER_INIT {}
#else
#define PLANNER_INIT {0}
#endif

/* Annex 7.28, 7.31: what a round answers: its start and the count of numbers written, ids and messages together, both 0 if refused. */
struct planner_held {
    uint32_t answer;
    uint32_t start;
    uint32_t n;
};

/* Annex 14.12: what a check answers: 0 and 0 of a sound plan; 0 and the number of the first round that breaks a rule, counted from 1; or 5 and 0. */
struct planner_verdict {
    uint32_t answer;
    uint32_t round;
};

/* Annex 7.40: the library's version. */
uint32_t planner_version(void);

/* Annex 7.5 to 7.9: opens the planner, whatever its content and sound or not: B = slots, F = frame, G = gap, L = last, no stream and nothing waiting.
 * messages: 0 is off, any other number on; the planner keeps 0 or 1. With messages on the streams have slots - 1 slots, in every rule and every round
 * (Annex 3.16). The gap runs from the end of a round, one after its start: each start is at most last + 1 + gap, the first as if a round had been
 * held at the last passed here.
 * Refuses 1 unless slots is 1 to 64, and above 1 with messages on; 2 unless frame is 1 to 5,040; 3 unless gap is 1 to 255; 4 if last is above
 * 1,000,000,000; refused, it leaves the closed planner, with messages off. */
uint32_t planner_open(struct planner *p, uint32_t slots, uint32_t frame, uint32_t gap, uint32_t last, uint32_t messages);

/* Annex 7.10 to 7.20: adds a stream whose first packet is released at `release` (S). Refuses 5; 6 unless id is 1 to 32,767; 7 for an id that a stream
 * has; 8 with 64 streams; 9 unless period is 1 to 240 and divides frame; 10 unless deadline is 1 to period; 11 unless release is last + 1 to
 * last + 240; 12 if the table with it breaks the demand rule; 13 if it breaks the start rule. */
uint32_t planner_add(struct planner *p, uint32_t id, uint32_t release, uint32_t period, uint32_t deadline);

/* Annex 7.22, 7.23: takes a stream out, and its unserved packet with it. Refuses 5, and 14 where there is no such stream.
 * planner_remove(&p, 0) changes nothing, as no stream has id 0: it answers 5 if the planner is not sound, else 14; so a planner that was handed over
 * can be tested. planner_check with length 0 tests one that cannot be written. */
uint32_t planner_remove(struct planner *p, uint32_t id);

/* Annex 7.41 to 7.45: has a message wait behind those that wait, for a round with a slot free; the same number may wait more than once. Nothing else
 * changes. Refuses 5; 29 unless number is 32,768 to 65,535 and messages are on (with them off, every number); 30 with 32 messages waiting. */
uint32_t planner_send(struct planner *p, uint32_t number);

/* Annex 7.24 to 7.33: holds the next round: its start, and n numbers in the buffer's first n elements, n at most slots; later ones are untouched. The
 * first of them are ids, one a stream that sends: of the packets that may ride the first by due time, in that order; those due at the same time go by
 * earlier release, then by smaller id. Behind them stand as many waiting messages, first come first, as fit in the slots that the ids leave free, and
 * these wait no longer (Annex 7.46, 7.47). An id is at most 32,767, a message above it.
 * With no stream, before the first is added or after the last is taken out, the round is held at last + 1 + gap, and lists up to slots messages; with
 * none waiting n is 0, and the buffer is left as it was.
 * Refuses 5 (the closed planner too); 16 if length is below slots, even where there is nothing to write; 17 if the start is after 1,000,000,000. 15
 * is not given. */
struct planner_held planner_round(struct planner *p, uint16_t *buffer, size_t length);

/* Annex 7.36: how many elements of the buffer a round that answered n has filled, from its front: n, or length if n is above it. Refuses nothing.
 * After planner_round that is held.n; this call is for an n from elsewhere. */
size_t planner_filled(const uint16_t *buffer, size_t length, uint32_t n);

/* Annex 14.1 to 14.16: checks a plan of `length` bytes, packets laid end to end, a round each, which begins at this planner. Any bytes may be passed,
 * from any maker; those of no packet, length 0, are a sound plan. Answers 0 with round 0 if every round passes; 0 with a round from 1 on if that is
 * the first which breaks one of these rules:
 *   1. its packet is whole and good (packets.h) and has the planner's slots;
 *   2. it starts after the last start and at most 1 + gap after it; the last start is that of the round before, for the first one p->last;
 *   3. it has no more stream ids than there are slots for streams, which are slots, or slots - 1 with messages on;
 *   4. each stream id is a stream's, whose unserved packet is released at the start and due after it;
 *   5. after it no stream, listed or not, has an unserved packet that is due by the round's end, start + 1.
 * Message numbers are skipped, with messages off too. Not checked: the order of slots, free slots, which messages ride, and who sends them.
 * Refuses 5, with round 0, and with no bytes too. It changes nothing and stores nothing, in the planner or in the plan, so that both may lie in
 * memory that cannot be written. A sound plan has no miss so far; that it can go on without one is not said (Annex 14.15). */
struct planner_verdict planner_check(const struct planner *p, const uint8_t *plan, size_t length);

#ifdef __cplusplus
}
#endif

/* Annex 7.38: the layout that the library takes the structs to have. A compiler that lays them out in another way stops here. C99 has no word for an
 * alignment, and does not test that one. */
#if defined(__cplusplus) && __cplusplus >= 201103L
#define PLANNER_ASSERT(name, condition) static_assert(condition, #name)
#define PLANNER_ALIGN(type) alignof(struct type)
#elif defined(__STDC_VERSION__) && __STDC_VERSION__ >= 201112L
#define PLANNER_ASSERT(name, condition) _Static_assert(condition, #name)
#define PLANNER_ALIGN(type) _Alignof(struct type)
#else
#define PLANNER_ASSERT(name, condition) typedef char planner_assert_##name[(condition) ? 1 : -1]
#define PLANNER_ALIGN(type) 8
#endif
#define PLANNER_SIZE(type, bytes) PLANNER_ASSERT(type##_size, sizeof(struct type) == (bytes))
#define PLANNER_FIELD(type, field, offset) PLANNER_ASSERT(type##_##field, offsetof(struct type, field) == (offset))

PLANNER_ASSERT(size_t_has_8_bytes, sizeof(size_t) == 8);
PLANNER_SIZE(planner_stream, 16);
PLANNER_FIELD(planner_stream, id, 0);
PLANNER_FIELD(planner_stream, period, 4);
PLANNER_FIELD(planner_stream, deadline, 8);
PLANNER_FIELD(planner_stream, release, 12);
PLANNER_SIZE(planner_table, 1032);
PLANNER_FIELD(planner_table, count, 0);
PLANNER_FIELD(planner_table, streams, 8);
PLANNER_SIZE(planner_queue, 2816);
PLANNER_FIELD(planner_queue, ids, 0);
PLANNER_FIELD(planner_queue, keys, 128);
PLANNER_FIELD(planner_queue, next, 384);
PLANNER_FIELD(planner_queue, prev, 1472);
PLANNER_FIELD(planner_queue, releases, 2560);
PLANNER_SIZE(planner_waiting, 68);
PLANNER_FIELD(planner_waiting, count, 0);
PLANNER_FIELD(planner_waiting, numbers, 4);
PLANNER_SIZE(planner, 3936);
PLANNER_ASSERT(planner_alignment, PLANNER_ALIGN(planner) == 8);
PLANNER_FIELD(planner, slots, 0);
PLANNER_FIELD(planner, frame, 4);
PLANNER_FIELD(planner, gap, 8);
PLANNER_FIELD(planner, messages, 12);
PLANNER_FIELD(planner, last, 16);
PLANNER_FIELD(planner, waiting, 20);
PLANNER_FIELD(planner, table, 88);
PLANNER_FIELD(planner, queue, 1120);
PLANNER_SIZE(planner_held, 12);
PLANNER_FIELD(planner_held, answer, 0);
PLANNER_FIELD(planner_held, start, 4);
PLANNER_FIELD(planner_held, n, 8);
PLANNER_SIZE(planner_verdict, 8);
PLANNER_FIELD(planner_verdict, answer, 0);
PLANNER_FIELD(planner_verdict, round, 4);

#undef PLANNER_FIELD
#undef PLANNER_SIZE
#undef PLANNER_ALIGN
#undef PLANNER_ASSERT

/* What is proved. What is said above of a call's answer, and of what planner and buffer are after it, is proved of it, on every planner whatever its
 * content, every number and every buffer; the full statement is that of the call by value (the Annex, chapters 3 to 7; of this form Annex 7.35). Of
 * planner_round it is proved too, of every sound planner, with or without a stream, that start and ids are those of the rules, that no packet is
 * late and that no plan needs fewer rounds, of those that have slots - 1 slots for streams where messages are on (Annex 12.4 and 12.6 to 12.13); with
 * no stream, that no plan which keeps the gap limit holds its k-th round later (Annex 7.32 and 12.14). Of messages it is proved that they leave in the
 * order in which they were sent, and one with q others ahead no later than the (q + 1)-th round held, if nobody opens between (Annex 12.28, 12.29).
 * Of planner_check it is proved too that a plan has one verdict, and is sound exactly if every rule holds of every round (Annex 12.30); that a plan
 * whose k-th round starts later than the planner's own k-th cannot go on for ever without a miss or a gap too long (Annex 12.31); that the planner's
 * own rounds, as packets, are a sound plan (Annex 12.32); and that planners which hold the same get the same verdict (Annex 12.33).
 * What is said of stores, stack, symbols and machine is not proved: it is read off the source and off the library as it is built. Nor is what stands
 * in this file as C: nothing checks it against the source (Annex 13.5).
 *
 * What a call tests and stores.
 *   - open tests nothing of the planner and overwrites it, refused or not. Refused, it leaves the closed planner, which add, remove, send, round
 *     and check refuse with 5.
 *   - add, remove, send, round and check test the whole planner first and refuse with 5 one that is not sound: a value out of range, of a waiting
 *     message too, a message that waits with messages off, a rule broken, a queue that does not file the streams. That is not every damage. A
 *     planner that was damaged in memory and is still sound is accepted and used as it stands: another gap, another period or number of slots with
 *     which both rules are kept, another message, anything in a place that is free. A firmware that has to find every damage keeps a checksum
 *     beside the planner (Annex 13.7).
 *   - add, remove, send and round store the planner only where they answer 0, and round writes the buffer only then. A refused one writes nothing
 *     in either, so that a planner which is refused may lie in memory that cannot be written (Annex 7.37). open always writes.
 *   - check stores nothing in planner or plan, whatever it answers (Annex 14.16).
 *
 * What C has to keep, since nothing checks a call or this file against the source (Annex 7.39):
 *   - a 64-bit x86 machine: the library is built for it, uses its SSE2 registers, and takes size_t to be 8 bytes;
 *   - the structs as they stand here, with the layout and alignment that C gives them; the assertions above test sizes and offsets;
 *   - no pointer is null, buffers of length 0 included, and each is aligned for its type;
 *   - a planner's memory has been written before it is lent (to open too: PLANNER_INIT will do), so that every byte has a value;
 *   - buffer points to `length` numbers that can be read and, for planner_round, written; length is at most the buffer's real one; plan likewise
 *     points to `length` bytes that can be read;
 *   - the buffer does not overlap the planner, and nobody else reads or writes either during a call; planner_check only reads, and others may read
 *     planner and plan meanwhile;
 *   - the same version in every host on a bus (Annex 13.8).
 *
 * Versions. Hosts compare the first number, 8 of 8.0.4, which planner_version() and PLANNER_VERSION give; the other two count changes that move no
 * answer. A host that compares planner_version() with PLANNER_VERSION finds out a library of another version than the header it was compiled with;
 * libraries before 6.0.0 have no such function, and a program that calls it does not link with them. Nothing in a planner says which version made it,
 * and no call refuses it for that (Annex 13.8).
 *   - Versions 1 to 5 counted the gap from a round's start: a host with this version and one with an earlier one part at the latest at the first
 *     round that only the gap forces, held here at last + 1 + gap, there at last + gap.
 *   - Versions 1 to 6 know no messages. With messages off this version answers as version 6 does.
 *   - Versions 1 to 6 have another layout, 1 and 2 with 3,608 bytes and 3 to 6 with 3,864, where a planner now has 3,936; one that they made must be
 *     opened anew.
 *   - Versions 1 to 7 have no planner_check, and a program that calls it does not link with them. In all else this version answers as version 7 does,
 *     and its planners have the same layout.
 *
 * What the library needs from outside: memcpy and memset as C has them, and nothing else (`nm -u libplanner.a` lists them). A program without a C
 * library has to have its own, as examples/c/freestanding.c has. No heap; no pointer is kept, and no call writes anything but what it is lent and
 * its stack. Every call returns, if these two do and the stack is large enough; nothing tests that it is (Annex 13.9).
 *
 * Stack, in bytes, return address and memcpy and memset of glibc included: open 1,128, add 10,016, remove 9,984, send 10,048, round 16,528, check
 * 10,512, filled and version 24 (16 of each are the measuring program's). Measured on a painted stack (`bash bench/stack`), the most over calls of
 * every answer on two dozen tables with up to 64 streams, half of them with messages on. That is this build, by the compiler that built it, and no
 * promise: measure again what is linked, and leave room above it. */

#endif
