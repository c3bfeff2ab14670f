/*
 * epass.h: session-typed scripts, checked and carried out step by step.
 *
 * A script describes small processes that talk over typed channels. Each function here that is lent a run, and those for exec names and
 * warnings, check the script's text anew and then do their one thing: begin a run, carry out the step that the caller chooses, or tell
 * what the run is like. The last three tell what a text is made of, and check no more of it. Whatever it is given, a function answers or
 * refuses by a number, and a refusal leaves the run as it was.
 *
 * Memory. The caller lends everything: the text, scratch words, the words of a run and the words of an answer. Nothing is kept between
 * calls but what the caller keeps: the first EPASS_RUN_WORDS words of the run, which must be lent back with the same text. Scratch and
 * answer need not be kept. The slices must not overlap.
 *
 * The library is freestanding: no heap, no static state, no system call; of C's library it needs memcpy, memmove and memset. It is
 * re-entrant; calls with different slices may run at once. A call takes up to 76,000 bytes of stack, which was measured, not proved.
 *
 * A run of zeros, never started, is one without processes: a step at any place is refused (19), run-on answers done, and nothing is open.
 */
#ifndef EPASS_H
#define EPASS_H

#include <stddef.h>
#include <stdint.h>

#ifdef __cplusplus
extern "C" {
#define EPASS_RESTRICT
#else
#define EPASS_RESTRICT restrict
#endif

/* What must be lent, at least: words have 32 bits. More may be lent; what lies past these is never written. */
#define EPASS_SCRATCH_WORDS 6144
#define EPASS_RUN_WORDS 6144
#define EPASS_ANSWER_WORDS 130

/* Limits: of a text in bytes, of a name in bytes, of the execs of a text, and of a run. */
#define EPASS_TEXT_BYTES 8192
#define EPASS_NAME_BYTES 32
#define EPASS_EXECS 16
#define EPASS_PROCESS_PLACES 128
#define EPASS_CHANNEL_PLACES 512
#define EPASS_OUTSIDE_NUMBERS 32

/* Why a call is refused. 2 to 15 are about the text, and come with the offset of the byte at fault. */
enum epass_refusal {
    EPASS_NOT_REFUSED = 0,
    EPASS_SCRATCH_SHORT = 1,
    EPASS_TEXT_LONG = 2,
    EPASS_NO_TOKEN = 3,
    EPASS_NO_SCRIPT = 4,
    EPASS_LIMIT_PASSED = 5,
    EPASS_NAME_TWICE = 6,
    EPASS_NOT_DEFINED = 7,
    EPASS_BARE_NAME = 8,
    EPASS_EXEC_WRONG = 9,
    EPASS_NOT_HELD = 10,
    EPASS_TYPE_WRONG = 11,
    EPASS_BRANCHES_WRONG = 12,
    EPASS_LEFT_OVER = 13,
    EPASS_NO_LINK = 14, /* never given: a raise needs no link in the text */
    EPASS_HELD_FULL = 15,
    EPASS_RUN_SHORT = 16,
    EPASS_NO_LINE = 17,
    EPASS_NO_RUN = 18,
    EPASS_NO_PROCESS = 19,
    EPASS_NOT_OPEN = 20,
    EPASS_LACKING = 21,
    EPASS_HALTED = 22, /* tested after 18 and before 19 */
    /* The answer has under EPASS_ANSWER_WORDS words: of this interface alone. No slice was touched. */
    EPASS_ANSWER_SHORT = 255
};

/* Where the words of an answer stand. */
enum epass_answer {
    /* Of every answer: the refusal's number, 0 where there is none; then, of a refused one, the offset in the text. */
    EPASS_REFUSAL = 0,
    EPASS_OFFSET = 1,
    /* Of a step: what was seen, from here on, or EPASS_STEP_UNCAUGHT. */
    EPASS_STEP_SEEN = 1,
    /* Of a run-on: how it ended, the steps taken, and what was seen, from here on, if that ended it. */
    EPASS_RUN_END = 1,
    EPASS_RUN_STEPS = 2,
    EPASS_RUN_SEEN = 3,
    /* Of a report: how many outside channels are open, and their numbers, rising, from here on. */
    EPASS_REPORT_COUNT = 1,
    EPASS_REPORT_NUMBERS = 2,
    /* Of places: how many processes there are, and what the step at each place is, from here on (enum epass_place). */
    EPASS_PLACES_COUNT = 1,
    EPASS_PLACES_STEPS = 2,
    /* Of an exec's name: where it stands in the text, and its length. */
    EPASS_NAME_AT = 1,
    EPASS_NAME_LENGTH = 2,
    /* Of a warning: 1, or 0 where there is none of that number; then where the process's name stands and its length, the channel's at the recv, and the label's, the apostrophe counted. */
    EPASS_WARNING_TOLD = 1,
    EPASS_WARNING_PROCESS = 2,
    EPASS_WARNING_CHANNEL = 4,
    EPASS_WARNING_LABEL = 6,
    /* Of a position: line and column, both counted from 1. */
    EPASS_POSITION_LINE = 1,
    EPASS_POSITION_COLUMN = 2,
    /* Of a token: its kind (enum epass_token_kind), where its first byte stands, and where the byte after its last one does. */
    EPASS_TOKEN_KIND = 1,
    EPASS_TOKEN_START = 2,
    EPASS_TOKEN_END = 3
};

/* The kinds of tokens: up to EPASS_TOKEN_LAST_WORD the reserved words, up to EPASS_TOKEN_LAST_MARK the marks, each in the order of the reader's table. */
enum epass_token_kind {
    EPASS_TOKEN_LAST_WORD = 10,
    EPASS_TOKEN_LAST_MARK = 29,
    EPASS_TOKEN_NAME = 30,
    EPASS_TOKEN_LABEL = 31,
    EPASS_TOKEN_FAULT = 32, /* a byte that opens no token, or a name that is too long */
    EPASS_TOKEN_TEXT_END = 33
};

/* What was seen: its kind, then the outside channel's number, then what came over it. */
enum epass_seen {
    EPASS_SEEN_NOTHING = 0,
    EPASS_SEEN_LABEL = 1, /* number; the label's offset in the text; its length, the apostrophe counted */
    EPASS_SEEN_CLOSE = 2, /* number */
    EPASS_SEEN_PASSED = 3, /* number; the number that the passed channel has from then on; 1 where it was given up already, else 0 */
    EPASS_SEEN_CANCELLED = 4, /* number */
    EPASS_STEP_UNCAUGHT = 5 /* of a step alone, and no sighting: its raise, or the label that a recv leaves out, found no handler, and the run has halted */
};

/* How a run-on ended. */
enum epass_end {
    EPASS_END_SHOWN = 1,
    EPASS_END_DONE = 2,
    EPASS_END_FULL = 3,
    EPASS_END_STOPPED = 4,
    EPASS_END_UNCAUGHT = 5 /* the run has halted */
};

/* What the step at a place is. */
enum epass_place {
    EPASS_PLACE_WAITS = 0, /* not open */
    EPASS_PLACE_OPEN = 1, /* it can be carried out */
    EPASS_PLACE_LACKS = 2 /* open, but it lacks a free place or number */
};

/*
 * Each function returns the refusal's number, 0 where there is none, and writes the same number with what belongs to it to the first
 * EPASS_ANSWER_WORDS words of the answer; those that an answer does not name are 0. Lengths are in bytes for the text, in words for the rest.
 */

/* Begins the run of an exec line anew; lines are numbered from 0. */
uint32_t epass_start(const uint8_t *EPASS_RESTRICT text, size_t text_length, uint32_t *EPASS_RESTRICT scratch, size_t scratch_length,
                     uint32_t *EPASS_RESTRICT run, size_t run_length, uint32_t line, uint32_t *EPASS_RESTRICT answer, size_t answer_length);

/*
 * Carries out the step at a place; places are numbered from 0. A raise without a handler, or a label that its recv leaves out, halts the run and leaves all else as it is: from
 * then on a step is refused (22), run-on answers EPASS_END_UNCAUGHT and no step is open, until the run is begun anew.
 */
uint32_t epass_step(const uint8_t *EPASS_RESTRICT text, size_t text_length, uint32_t *EPASS_RESTRICT scratch, size_t scratch_length,
                    uint32_t *EPASS_RESTRICT run, size_t run_length, uint32_t place, uint32_t *EPASS_RESTRICT answer, size_t answer_length);

/* Carries out steps, each at the first place where one can be, until the run has halted, one shows something, no process is left, none can be carried out, or the budget is spent. */
uint32_t epass_run_on(const uint8_t *EPASS_RESTRICT text, size_t text_length, uint32_t *EPASS_RESTRICT scratch, size_t scratch_length,
                      uint32_t *EPASS_RESTRICT run, size_t run_length, uint32_t budget, uint32_t *EPASS_RESTRICT answer, size_t answer_length);

/* The numbers of the outside channels still open, rising. */
uint32_t epass_report(const uint8_t *EPASS_RESTRICT text, size_t text_length, uint32_t *EPASS_RESTRICT scratch, size_t scratch_length,
                      const uint32_t *EPASS_RESTRICT run, size_t run_length, uint32_t *EPASS_RESTRICT answer, size_t answer_length);

/* How many processes there are, and whether the step at each place is open. */
uint32_t epass_places(const uint8_t *EPASS_RESTRICT text, size_t text_length, uint32_t *EPASS_RESTRICT scratch, size_t scratch_length,
                      const uint32_t *EPASS_RESTRICT run, size_t run_length, uint32_t *EPASS_RESTRICT answer, size_t answer_length);

/* Where the name of an exec line's process stands in the text. No run is lent: it serves to check a text, too. */
uint32_t epass_exec_name(const uint8_t *EPASS_RESTRICT text, size_t text_length, uint32_t *EPASS_RESTRICT scratch, size_t scratch_length,
                         uint32_t line, uint32_t *EPASS_RESTRICT answer, size_t answer_length);

/*
 * A warning: a recv leaves out a label of its type. They are numbered from 0, in text order; a number past the last is answered, not refused.
 * Where such a label comes, the process folds up and its handler starts; without a handler the run halts. No run is lent.
 */
uint32_t epass_warning(const uint8_t *EPASS_RESTRICT text, size_t text_length, uint32_t *EPASS_RESTRICT scratch, size_t scratch_length,
                       uint32_t number, uint32_t *EPASS_RESTRICT answer, size_t answer_length);

/* Line and column of an offset, for those who show a refusal; past the end of the text, those of its end. A line ends with its line feed, and every other byte is a column. */
uint32_t epass_position(const uint8_t *EPASS_RESTRICT text, size_t text_length, size_t at, uint32_t *EPASS_RESTRICT answer, size_t answer_length);

/* The token from an offset on, blanks passed over, as the reader takes it. */
uint32_t epass_token(const uint8_t *EPASS_RESTRICT text, size_t text_length, size_t at, uint32_t *EPASS_RESTRICT answer, size_t answer_length);

/*
 * Reads a text into scratch without checking it further: refused by 1 to 5 alone. Otherwise scratch holds its tables, as after every call that is not
 * refused; how their words are laid out is no promise of this interface.
 */
uint32_t epass_tables(const uint8_t *EPASS_RESTRICT text, size_t text_length, uint32_t *EPASS_RESTRICT scratch, size_t scratch_length,
                      uint32_t *EPASS_RESTRICT answer, size_t answer_length);

/* A refusal's sentence; for a number that is none, a sentence that says so. */
static inline const char *epass_refusal_sentence(uint32_t refusal)
{
    switch (refusal) {
    case EPASS_NOT_REFUSED: return "not refused";
    case EPASS_SCRATCH_SHORT: return "scratch has too few words";
    case EPASS_TEXT_LONG: return "the text is over its limit";
    case EPASS_NO_TOKEN: return "a byte opens no token, or a name is too long";
    case EPASS_NO_SCRIPT: return "the tokens so far continue to no script";
    case EPASS_LIMIT_PASSED: return "another limit of the notation is passed";
    case EPASS_NAME_TWICE: return "a type, a process, a label of one list or a name of one signature comes twice";
    case EPASS_NOT_DEFINED: return "a type or process is not defined";
    case EPASS_BARE_NAME: return "a type is defined as a bare name";
    case EPASS_EXEC_WRONG: return "an exec process uses a channel, or the outside could not use what it provides";
    case EPASS_NOT_HELD: return "a term acts on a channel that is not held";
    case EPASS_TYPE_WRONG: return "side, type, sent label, list length or a repeated name breaks the rule";
    case EPASS_BRANCHES_WRONG: return "a branch's label is none of the type's";
    case EPASS_LEFT_OVER: return "a channel is left over, or mentioned in both or neither half where that is barred";
    case EPASS_NO_LINK: return "never given: a raise needs no link in the text";
    case EPASS_HELD_FULL: return "a 17th channel is held, or a new name is already held";
    case EPASS_RUN_SHORT: return "the run has too few words";
    case EPASS_NO_LINE: return "the exec number has no line";
    case EPASS_NO_RUN: return "the run's words are no configuration of this text";
    case EPASS_NO_PROCESS: return "the place holds no process";
    case EPASS_NOT_OPEN: return "the step is not open";
    case EPASS_LACKING: return "the step lacks a free place or number";
    case EPASS_HALTED: return "the run has halted";
    case EPASS_ANSWER_SHORT: return "the answer has too few words";
    default: return "no refusal has this number";
    }
}

#ifdef __cplusplus
}
#endif

#endif
