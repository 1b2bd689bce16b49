/* Legestran for C: eleven calls on slices and numbers. The library keeps nothing between calls, allocates nothing and never writes
 * outside what is lent to it. It is for x86-64 Linux: `bin/staticlib` writes target/staticlib/libboundary.a.
 *
 * A slice is a pointer and a number of elements; a lent one that is empty still needs a pointer that is not null. No slice that is
 * lent for writing may overlap another one of the same call.
 *
 * Every call answers one number of 64 bits. legestran_number() of it is 0 where the call was taken, else the number it is refused
 * by; legestran_value() is the length written, in elements (0 for calls that write nothing to the front of a buffer), or what goes
 * with the refusal; one above 2^32 - 1 is said as that. A refused call has written nothing anywhere. Positions, steps and relations are
 * counted from 0.
 *
 * Envelopes and programs are bytes as the rules paper lists them, "Papers on the wire" (crates/envelopes/specs/Envelope.antt and
 * crates/papers/specs/Programs.antt have their fields, crates/entries/specs/ those of relations, columns and clauses). Tables are
 * words: the row count of each relation, then the rows, relation by relation, all columns. Marks are bytes, one for each row of the
 * tables, in their order. A call needs up to about 64 KiB of stack.
 */
#ifndef LEGESTRAN_H
#define LEGESTRAN_H

#include <stddef.h>
#include <stdint.h>

#ifdef __cplusplus
extern "C" {
#endif

/* Bytes and words lent for reading, and lent for writing. */
typedef struct { const uint8_t *at; size_t length; } legestran_bytes;
typedef struct { const uint32_t *at; size_t length; } legestran_words;
typedef struct { uint8_t *at; size_t length; } legestran_bytes_out;
typedef struct { uint32_t *at; size_t length; } legestran_words_out;

/* What a call is refused by, and what goes with it. */
enum legestran_refusal {
    LEGESTRAN_TAKEN = 0,
    LEGESTRAN_ENDS_INSIDE = 1,    /* the paper ends inside a field: the start of that field; a message has under 3 words: 0 */
    LEGESTRAN_WRONG_MARK = 2,     /* the paper's first three letters are not its mark: 0 */
    LEGESTRAN_WRONG_VERSION = 3,  /* the version is not 1: its start */
    LEGESTRAN_BEYOND_LIMIT = 4,   /* a number is beyond its limit or names nothing: its start; of an end, or at opening: 0 */
    LEGESTRAN_TWO_DOMAINS = 5,    /* a join of two domains: the start of the clause */
    LEGESTRAN_SAME_COLUMN = 6,    /* a join of a column with itself: the start of the clause */
    LEGESTRAN_LEFT_OVER = 7,      /* bytes are left over: the first of them */
    LEGESTRAN_NOT_LEGAL = 8,      /* a step is not legal: the step's number */
    LEGESTRAN_NO_KEPT_COLUMN = 9, /* a relation has no kept column: the lowest such relation */
    LEGESTRAN_WRONG_SHAPE = 10,   /* the tables are not of the envelope's shape, or beyond the sizes: 0 */
    LEGESTRAN_TOO_SHORT = 11,     /* a lent buffer is too short: 0 */
    LEGESTRAN_WAITING = 12,       /* waiting: the first missing step; when the answer is asked the lowest missing relation */
    LEGESTRAN_OTHER_RUN = 13,     /* the message is of another run: 0 */
    LEGESTRAN_NOT_OURS = 14,      /* not this end's message, or no such step or relation: 0 */
    LEGESTRAN_NOT_SOUND = 15,     /* a message or the store does not hold what it says: 0 */
    LEGESTRAN_ALREADY_TAKEN = 16, /* the step was applied, or the rows arrived, before: 0 */
    LEGESTRAN_STEP_MISSING = 17   /* an earlier step of the same relation is missing: 0 */
};

/* The two parts of an answer. */
static inline uint32_t legestran_number(uint64_t answer) { return (uint32_t)(answer >> 32); }
static inline uint32_t legestran_value(uint64_t answer) { return (uint32_t)answer; }

/* Sizes that suffice: a program's bytes; an estimate's words; an end's state; a value message; a row message; a store, where the tables
 * of all stations together are within 16,384 words. Marks: as many bytes as the tables have rows. No size suffices for every answer:
 * where it is 11, lend more. */
enum {
    LEGESTRAN_PROGRAM_BYTES = 631,
    LEGESTRAN_ESTIMATE_WORDS = 628,
    LEGESTRAN_STATE_WORDS = 19,
    LEGESTRAN_VALUES_WORDS = 4099,
    LEGESTRAN_ROWS_WORDS = 16387,
    LEGESTRAN_STORE_WORDS = 16400
};

/* 1. Reads an envelope. Refused by 1 to 7 and 9. */
uint64_t legestran_read_envelope(legestran_bytes envelope);

/* 2. Reads an envelope and a program for it. Refused by the envelope's numbers, then by 1 to 4, 7 and 8. */
uint64_t legestran_read_program(legestran_bytes envelope, legestran_bytes program);

/* 3. Plans: writes the program for an envelope to the front of program; the value is its length in bytes. Then 11. */
uint64_t legestran_plan(legestran_bytes envelope, legestran_bytes_out program);

/* 4. Runs a program in one place, on the tables of every relation: afterwards marks has one byte for each row, in the order of the
 * tables, 0 where the local operations or a step removed the row, else 1. After the papers 10, 11. */
uint64_t legestran_run_in_one_place(legestran_bytes envelope, legestran_bytes program, legestran_words tables, legestran_bytes_out marks);

/* 5. Answers from tables: writes the words of the answer's rows to the front of out; the value is how many. Then 10, 11. */
uint64_t legestran_answer(legestran_bytes envelope, legestran_words tables, legestran_words_out out);

/* 6. Opens a station's end for a run, whose number the stations agree on. The tables follow the envelope; relations of other sites
 * may have 0 rows. Sets marks, one byte for each row, and the first 19 words of state, in which the end is kept; applied words of
 * relations that the envelope has not stay as they were, and all eight arrived words are set to 0. Hand marks and state to every
 * later call as they are, with the same papers and the same tables: a table that changes during a run moves the marks. After the
 * papers 10, 4 (site above 7), 11 (marks, then a state of fewer than 19 words).
 *
 * The calls 7 to 10 begin with the end: 11 (a state of fewer than 19 words), the papers' numbers, and 4 at 0 for a state with more
 * applied steps of a relation than the program has, or with an arrived word above 1; "after the end" below. */
uint64_t legestran_open(legestran_bytes envelope, legestran_bytes program, uint32_t site, uint32_t run, legestran_words tables,
                        legestran_bytes_out marks, legestran_words_out state);

/* 7. Makes the value message of a step, to be sent to the site of its left relation (to this end itself, where that is here); the
 * value is its length in words. After the end 10, 11 (marks), 14, 12, 11 (message). */
uint64_t legestran_make_values(legestran_bytes envelope, legestran_bytes program, legestran_words state, legestran_words tables,
                               legestran_bytes marks, uint32_t step, legestran_words_out message);

/* 8. Makes the row message of a relation, to be sent to the assembly site, also where that is here; the value is its length in words.
 * Refused as 7. */
uint64_t legestran_make_rows(legestran_bytes envelope, legestran_bytes program, legestran_words state, legestran_words tables,
                             legestran_bytes marks, uint32_t relation, legestran_words_out message);

/* 9. Receives a message: a step's values change marks, a relation's rows go to the store, and state remembers it. Lost, repeated and
 * reordered messages do no harm: 16 and 17 say so, and a message may be made and sent again at any time. After the end 10, 11
 * (marks), 1, 13, 14, 15, 16 or 17, 11 (store). Only the assembly site needs a store that is not empty. A store of 2^32 words or more is
 * 4 at 0, right after the end: lend less of it. */
uint64_t legestran_receive(legestran_bytes envelope, legestran_bytes program, legestran_words_out state, legestran_words tables,
                           legestran_bytes_out marks, legestran_words_out store, legestran_words message);

/* 10. Answers at the assembly site, from its store: writes the words of the answer's rows to the front of out; the value is how many.
 * After the end 14 (not the assembly site), 15 (the store), 12, 11. */
uint64_t legestran_answer_at_end(legestran_bytes envelope, legestran_bytes program, legestran_words state, legestran_words store,
                                 legestran_words_out out);

/* 11. Estimates a program: writes benefit and cost of each step, then assembly and total, each number as two words, the low one
 * first, to the front of out; the value is how many words. After the papers 11. */
uint64_t legestran_estimate(legestran_bytes envelope, legestran_bytes program, legestran_words_out out);

#ifdef __cplusplus
}
#endif

#endif
