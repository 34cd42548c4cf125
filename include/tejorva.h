/* The checker's functions for C, and readers of the 64-bit number in which each of them answers.
 *
 * Link with libtejorva.a. A slice is a pointer and a length; a pointer may be NULL where its length is 0. No function
 * keeps a pointer, and none writes to memory that it takes as const. docs/C-INTERFACE.md says how an answer is packed;
 * callers need only the readers below. The number 0 reads as a refusal, so an answer that was never set is no acceptance.
 */
#ifndef TEJORVA_H
#define TEJORVA_H

#include <stddef.h>
#include <stdint.h>

#ifdef __cplusplus
extern "C" {
#endif

/* What an answer says. */
enum tejorva_word {
    TEJORVA_REFUSED = 0,       /* number: the refusal's; place */
    TEJORVA_HELD = 1,          /* number: the list's length */
    TEJORVA_STOPPED = 2,       /* number: the budget */
    TEJORVA_BROKEN = 3,        /* number: the list place; run, event, claim kind; trace length */
    TEJORVA_ACCEPTED = 4,
    TEJORVA_DERIVABLE = 5,
    TEJORVA_NOT_DERIVABLE = 6,
    TEJORVA_CLAIM = 7,         /* run, event, claim kind */
    TEJORVA_NO_CLAIM = 8
};

/* Whether the term of row `target` of a table is derivable from those of the listed rows (one byte each, any order):
 * TEJORVA_DERIVABLE, TEJORVA_NOT_DERIVABLE, or TEJORVA_REFUSED with 4 or 5 and a place in the table, or 11 and a place
 * in the list (its length if the target is absent). */
uint64_t tejorva_derive(const uint8_t *table, size_t table_len, const uint8_t *list, size_t list_len, uint64_t target);

/* Whether a scenario file is accepted: TEJORVA_ACCEPTED, or TEJORVA_REFUSED with 1 to 9 and a place in the file. */
uint64_t tejorva_open(const uint8_t *file, size_t file_len);

/* The verdict on a scenario file: TEJORVA_HELD, TEJORVA_STOPPED, TEJORVA_BROKEN with the trace at the buffer's front, or
 * TEJORVA_REFUSED with 1 to 9 and a place in the file, or 10 and the buffer's length if it is below 128 bytes. Only a
 * BROKEN answer writes to the buffer, and only as many bytes as tejorva_trace_length reads from it. The buffer and the file
 * have no byte in common. A call needs up to TEJORVA_SEARCH_STACK bytes of stack. */
#define TEJORVA_SEARCH_STACK 1048576
uint64_t tejorva_search(const uint8_t *file, size_t file_len, uint8_t *trace, size_t trace_len);

/* The verdict by the short list, for scenarios whose full list is longer than the budget: wherever some run's next event is
 * a send or claim, the only move listed is that of the lowest such run. Refusals, buffer, packing and stack are those of
 * tejorva_search; the list's length and the list place count the short list, which is never longer. With a budget that
 * reaches the end of both lists the two give the same word. A trace breaks its claim by tejorva_replay too. */
uint64_t tejorva_search_short(const uint8_t *file, size_t file_len, uint8_t *trace, size_t trace_len);

/* Which claim a trace breaks, step by step from the start of a scenario file: TEJORVA_CLAIM, TEJORVA_NO_CLAIM, or
 * TEJORVA_REFUSED with 1 to 9 and a place in the file, or 12 and the place in the trace of the first step that is cut
 * short or not allowed. */
uint64_t tejorva_replay(const uint8_t *file, size_t file_len, const uint8_t *trace, size_t trace_len);

/* The word of an answer. */
static inline enum tejorva_word tejorva_word(uint64_t answer) { return (enum tejorva_word)(answer >> 60); }

/* A refusal's number, or the list's length, the budget or the list place. */
static inline uint32_t tejorva_number(uint64_t answer) {
    return (answer >> 60) == TEJORVA_REFUSED ? (uint32_t)(answer >> 52 & 0xff) : (uint32_t)(answer & 0xffffffff);
}

/* A refusal's place: the offset of the item's first byte. */
static inline uint64_t tejorva_place(uint64_t answer) { return answer & 0xfffffffffffff; }

/* The run of a broken claim, from 1, its event, from 0, and its kind (the event kind of a claim: 2 is secrecy). */
static inline unsigned tejorva_run(uint64_t answer) { return (unsigned)(answer >> 32 & 0xf); }
static inline unsigned tejorva_event(uint64_t answer) { return (unsigned)(answer >> 36 & 0xf); }
static inline unsigned tejorva_claim_kind(uint64_t answer) { return (unsigned)(answer >> 40 & 0xf); }

/* How many bytes of the trace buffer a BROKEN answer has written. */
static inline unsigned tejorva_trace_length(uint64_t answer) { return (unsigned)(answer >> 44 & 0x1ff); }

#ifdef __cplusplus
}
#endif

#endif
