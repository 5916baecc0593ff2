/* superframe.h: the superframe of a list of periods, their least common multiple: a frame for planner_open (planner.h) that every period divides.
 * It needs C99 or later, or C++11 or later.
 *
 * A planner takes any frame of 1 to 5,040, and refuses a stream whose period does not divide it. Who knows the periods beforehand asks here:
 *
 *     const uint8_t periods[] = {5, 7, 15};
 *     uint32_t packed = superframe(periods, sizeof periods);
 *     if (superframe_answer(packed) != SUPERFRAME_OK) { puts(superframe_text(superframe_answer(packed))); return 1; }
 *     uint32_t frame = superframe_value(packed);                       // 105
 *     uint32_t answer = planner_open(&p, 2, frame, 20, 0, 0);
 *
 * The order of calls: it is one call, which knows of no other, and no other asks for its value.
 *
 * An answer is 0, SUPERFRAME_OK, or the number of the first refusal that applies, which has a name below; superframe_text says it in words. The call
 * gives answer and value in one number, which superframe_answer and superframe_value take apart; the value of a refusal is 0.
 *
 * Three things that a caller must see to, which the call does not test: periods is not null, also where count is 0; it points to count bytes that can
 * be read; nobody writes them during the call.
 *
 * The rest: what the call does and refuses stands at its prototype, what is proved at the end of this file; examples/c/superframe.c is a program. The
 * specification is chapter 9 of the Annex, docs/ANNEX.md, in the bundle doc/annex.html. */
#ifndef SUPERFRAME_H
#define SUPERFRAME_H

#include <stddef.h>
#include <stdint.h>

/* The limits. */
#define SUPERFRAME_LONGEST_PERIOD 240     /* Annex 9.2 */
#define SUPERFRAME_LONGEST_FRAME 5040     /* Annex 9.3: the largest value */

/* The answers: name, number, and when it is given, in the words of table 1 of the Annex. */
#define SUPERFRAME_ANSWERS(ANSWER)                                                        \
    ANSWER(SUPERFRAME_OK, 0, "success")                                                   \
    ANSWER(SUPERFRAME_BAD_PERIOD, 18, "a period of the list is not 1 to 240")             \
    ANSWER(SUPERFRAME_LONG_FRAME, 19, "the least common multiple is above 5,040")

/* The names of the answers. */
#define SUPERFRAME_NAME(name, number, text) name = number,
enum superframe_answers { SUPERFRAME_ANSWERS(SUPERFRAME_NAME) };
#undef SUPERFRAME_NAME

/* An answer in words; of a number that is none, that it is none. Plain C, and not proved. */
static inline const char *superframe_text(uint32_t answer) {
#define SUPERFRAME_CASE(name, number, text) case number: return text;
    switch (answer) {
        SUPERFRAME_ANSWERS(SUPERFRAME_CASE)
        default: return "no answer of the superframe";
    }
#undef SUPERFRAME_CASE
}

#ifdef __cplusplus
extern "C" {
#endif

/* Annex 9.1 to 9.5: reads count bytes, one period each, and returns answer * 65536 + value:
 *   answer 18, value 0   if any period of the whole list is not 1 to 240, wherever it stands;
 *   answer 19, value 0   else, if the least common multiple of the periods is above 5,040;
 *   answer 0, value m    else, where m is that least common multiple, 1 to 5,040; no periods give 1. */
uint32_t superframe(const uint8_t *periods, size_t count);

#ifdef __cplusplus
}
#endif

/* What the call returned, taken apart. */
static inline uint32_t superframe_answer(uint32_t packed) { return packed / 65536; }
static inline uint32_t superframe_value(uint32_t packed) { return packed % 65536; }

/* The library takes size_t to have 8 bytes. */
#if defined(__cplusplus) && __cplusplus >= 201103L
static_assert(sizeof(size_t) == 8, "size_t");
#elif defined(__STDC_VERSION__) && __STDC_VERSION__ >= 201112L
_Static_assert(sizeof(size_t) == 8, "size_t");
#else
typedef char superframe_assert_size_t[sizeof(size_t) == 8 ? 1 : -1];
#endif

/* What is proved: what stands at the prototype, for every list of any length. superframe_answer, superframe_value and superframe_text are plain C and
 * not proved, and nothing checks this file against the source (Annex 13.5).
 *
 * What C has to keep, since nothing checks a call: the three things at the top (Annex 7.39), and a 64-bit x86 machine, for which the library is
 * built, with a size_t of 8 bytes.
 *
 * The function keeps nothing, writes nothing but its stack, always returns, and needs nothing from outside. Its stack is 24 bytes, return address
 * included, of which 16 are the measuring program's (`bash bench/stack`): this build, by the compiler that built it, and no promise.
 *
 * It has no version of its own: the library that it is part of tells its version by planner_version (planner.h). */

#endif
