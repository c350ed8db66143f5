/* score.h: the score engine.
 *
 * Six functions: score_check, score_instant, score_run and score_journal_check for a console, score_settings for the
 * rigger who wants to know before a tour how switches may be pressed, and score_translate for the desk at which
 * scores are written. Each is lent buffers for the call and returns an answer of 64 bits, which the functions at the
 * end of this file take apart. They use no heap and no global state, and keep nothing of what they were lent.
 *
 * A caller has three duties:
 *   - a pointer and its length describe memory that is there; with length 0 the pointer may be null;
 *   - a buffer that a call writes shares no byte with any other that is lent to that call;
 *   - nobody else writes what is lent while the call is in flight.
 * Buffers that are only read may overlap. Nothing is asked of alignment, nor of what any buffer holds: whatever is not
 * as it should be is refused by number.
 *
 * T, N and P are a score's counts of tokens, agents and procedures. Words, agents, procedures and instants are numbered
 * from 0. A score's rules may have standing facts among them: rules without premises, whose tokens are in the store of
 * every instant that does not abort, told or not, and so is what follows from them.
 *
 * A draft is a score in which an agent may also be a watch: kind 15, body in bits 9..0, token in bits 17..10, other
 * bits zero. Its body runs in the same instant, and goes on, still watched, unless the token was in the store when
 * an instant was quiet. Only score_translate takes drafts; it makes a plain score of one, and that is what a
 * console plays. For every other function a word of kind 15 is SCORE_FORM.
 */
#ifndef SCORE_H
#define SCORE_H

#include <stddef.h>
#include <stdint.h>

#ifdef __cplusplus
extern "C" {
#endif

#if defined(__GNUC__) || defined(__clang__)
#define SCORE_MUST_USE __attribute__((warn_unused_result))
#else
#define SCORE_MUST_USE
#endif

/* Words have 32 bits and are stored low byte first. */
#define SCORE_WORD_BYTES 4

/* The most that a score can have. A longer one is refused with SCORE_LENGTH. */
#define SCORE_MAX_TOKENS 256
#define SCORE_MAX_AGENTS 1024
#define SCORE_MAX_PROCEDURES 64
#define SCORE_MAX_RULES 256
#define SCORE_MAX_BYTES 5384

/* The lengths of what is lent beside a score; any other is refused with SCORE_BUFFER. */
#define SCORE_STATE_BYTES 136
#define SCORE_MAP_BYTES 32
#define SCORE_SCRATCH_BYTES 128 /* a bit for each agent */
#define SCORE_PLAIN_BYTES 5384 /* for a plain score */

/* A map is a set of tokens: token t is bit t % 8 of byte t / 8.
 *
 * A state is 34 words: word 0 is one of the two below; agent i is bit i % 32 of word 1 + i / 32, which is bit i % 8 of
 * byte 4 + i / 8; word 33, bytes 132 to 135, is the instant number: how many instants were run since the start, aborted
 * ones included. Any set of the score's agents may be awake in a running state; an aborted one has none; both have any
 * number. The start state is a running one with the root of procedure 0, which stands in bits 9..0 of word 2 + N of the
 * score, and number 0. score_state_number, at the end of this file, reads the number.
 */
#define SCORE_STATE_RUNNING UINT32_C(0xF0000000)
#define SCORE_STATE_ABORTED UINT32_C(0xF0000001)

/* The last number that a state can have. No instant is played from there: one that is wanted meets SCORE_LAST. */
#define SCORE_LAST_NUMBER UINT32_C(0xFFFFFFFF)

/* An input list has, for each instant, SCORE_INSTANT_WORD, then SCORE_INPUT_WORD | token for each input token, rising
 * strictly. A journal has, for each instant, SCORE_INSTANT_WORD | status, then the input words, then
 * SCORE_OUTPUT_WORD | token for each output token, rising strictly; a run writes none at status 1 or 2. No bytes is a
 * list, and a journal, of no instants.
 */
#define SCORE_INSTANT_WORD UINT32_C(0xC0000000) /* status in bits 1..0, which are 0 in a list; status 3 is no status */
#define SCORE_INPUT_WORD UINT32_C(0xD0000000)   /* token in bits 7..0 */
#define SCORE_OUTPUT_WORD UINT32_C(0xE0000000)  /* token in bits 7..0 */
#define SCORE_KIND_MASK UINT32_C(0xF0000000)
#define SCORE_STATUS_MASK UINT32_C(0x00000003)
#define SCORE_TOKEN_MASK UINT32_C(0x000000FF)

/* The most bytes that one instant takes in a list, and in a journal. */
#define SCORE_MAX_LIST_INSTANT_BYTES 1028
#define SCORE_MAX_JOURNAL_INSTANT_BYTES 2052

/* The most switches that score_settings takes. */
#define SCORE_MAX_SWITCHES 16

/* The numbers of answers. */
enum {
    SCORE_ACCEPTED = 0,     /* value: the instants written by a run, or read by a journal check; the bytes of a plain
                               score; 0 of an instant and of settings, which have counts of their own */
    SCORE_LENGTH = 1,       /* score: no bytes, not a multiple of 4, or more than SCORE_MAX_BYTES */
    SCORE_HEAD = 2,         /* score: word 0 is not a head, or has an unnamed bit set */
    SCORE_COUNT = 3,        /* score: fewer than 2+N+P words, or more than 2+N+P+256 */
    SCORE_FORM = 4,         /* score: a word's kind is wrong for its place, an unnamed bit is set, or a standing fact
                               has a bit for a premise; value: the word */
    SCORE_TOKEN = 5,        /* score: a token is T or above; value: the word */
    SCORE_REFERENCE = 6,    /* score: a body or half not below its agent, a root N or above, a procedure P or above,
                               or the lowest port above the highest; value: the word */
    SCORE_CIRCLE = 7,       /* score: unguarded calls lead from a procedure back to itself; value: the lowest such
                               procedure */
    SCORE_BUFFER = 8,       /* a state, map, scratch or buffer for a plain score of another length */
    SCORE_STATE = 9,        /* word 0 of the state is wrong, an agent is N or above, or it is aborted with agents */
    SCORE_INPUT = 10,       /* the input map has a token that is T or above */
    SCORE_NEXT = 11,        /* the next state would be refused with SCORE_STATE; proved never to happen */
    SCORE_LIST_LENGTH = 12, /* the bytes of the list or journal that is read are not a multiple of 4 */
    SCORE_LIST_FORM = 13,   /* a word of it is against its form, or has a token that is T or above; value: the lowest
                               such word */
    SCORE_JOURNAL = 14,     /* the journal is not what the run writes; value: the first such instant */
    SCORE_ROOM = 15,        /* the next instant's words exceed the journal bytes left; value: the instants written */
    SCORE_LARGE = 16,       /* the plain score of a draft would have more than SCORE_MAX_TOKENS, SCORE_MAX_AGENTS,
                               SCORE_MAX_PROCEDURES or SCORE_MAX_RULES */
    SCORE_SWITCHES = 17,    /* more than SCORE_MAX_SWITCHES switches, one that is listed twice, one that is T or above,
                               or more to be pressed than there are */
    SCORE_LAST = 18         /* an instant is wanted at SCORE_LAST_NUMBER; value: the instants written by a run, 0 of an
                               instant */
};

/* The statuses of instants. */
enum {
    SCORE_QUIET = 0,  /* nothing was left to reduce */
    SCORE_CLASH = 1,  /* the same, with token 0 in the store, which then holds all T tokens; the output is empty */
    SCORE_ABORTED = 2 /* an abort was reduced, in this instant or in an earlier one */
};

/* The stack that a call needs, at most, on x86-64; tests/stack.c measures it. */
#define SCORE_CHECK_STACK_BYTES 16384
#define SCORE_INSTANT_STACK_BYTES 20480
#define SCORE_RUN_STACK_BYTES 22528
#define SCORE_JOURNAL_CHECK_STACK_BYTES 22528
#define SCORE_SETTINGS_STACK_BYTES 18432
#define SCORE_TRANSLATE_STACK_BYTES 524288 /* at the desk; it copies agents by calling itself */

/* Checks a score. Reads score[0 .. score_len) and writes nothing.
 *
 * The answer's number is 0 (accepted) or one of 1 to 7. 1, 2 and 3 are tried in this order; then 4, 5 and 6 over
 * the words from word 1 on, where the lowest word wins and at one word the lowest number; then 7.
 * Its value is the word for 4, 5 and 6, the procedure for 7, and 0 otherwise.
 */
SCORE_MUST_USE uint64_t score_check(const uint8_t *score, size_t score_len);

/* Plays one instant of a score.
 *
 * Lent and only read:
 *   score    which is checked first, as score_check does;
 *   input    the instant's input tokens, a map.
 * Lent to be written:
 *   state    the agents awake; afterwards those awake next, and a number higher by one;
 *   store    afterwards the map of the tokens in the store at the instant's end, standing facts among them;
 *   output   afterwards the map of those of them from the lowest to the highest port, but at status 1 of none: a
 *            clash commands nothing;
 *   scratch  the call's working space, whatever it holds: agent i is bit i % 8 of byte i / 8, set where it is reduced.
 *            The count is the number of bits set, status 2 aside; they are cleared before the call returns.
 * To start a score, lend its start state; for each later instant lend the state as the last one left it.
 *
 * The answer's number is 0 (accepted) or one of 1 to 11 and 18. They are tried in the order 1 to 10, 18, 11, with 1 to
 * 7 as in score_check. Its value is that of score_check for 1 to 7, and 0 otherwise. An accepted answer has a status
 * and a count: how many distinct agents of the score were reduced by the end of the instant, input tokens left out.
 *
 *   number     status      state             store                 output                scratch
 *   0          0           the next state    written, every byte   written, every byte   zero, every byte
 *   0          1           the next state    written, all T        written, no tokens    zero, every byte
 *   0          2, count 0  aborted           written, no tokens    written, no tokens    zero, every byte
 *   1 to 10    none        as it was         as it was             as it was             as it was
 *   18         none        as it was         as it was             as it was             as it was
 *   11         none        as it was         as it was             as it was             zero, every byte
 *
 * An aborted state answers status 2 at each later instant; only its number changes. It switches off no test, 18 among
 * them.
 */
SCORE_MUST_USE uint64_t score_instant(const uint8_t *score, size_t score_len, uint8_t *state, size_t state_len,
                                      const uint8_t *input, size_t input_len, uint8_t *store, size_t store_len,
                                      uint8_t *output, size_t output_len, uint8_t *scratch, size_t scratch_len);

/* Runs a score over an input list and writes the journal. Each instant is the one that score_instant plays from the
 * same state on the same input tokens.
 *
 * Lent and only read:
 *   score    which is checked first, as score_check does;
 *   inputs   the input list.
 * Lent to be written:
 *   state    the agents awake; afterwards those awake after the last instant written, and a number higher by as many
 *            as were written;
 *   journal  of any length, and with any old content; afterwards the journal of the instants written, from its first
 *            byte on, and beyond them what it held;
 *   scratch  the call's working space, whatever it holds; each instant uses it as in score_instant and leaves it zero.
 *
 * The answer's number is 0 (accepted) or one of 1 to 9, 11, 12, 13, 15 and 18. 1 to 9 are tried as in score_instant,
 * then 12 and 13 over the whole list before the first instant, then 11, 18 and 15, in this order, at each instant. An
 * instant is written whole or not at all. A list of no instants is accepted at SCORE_LAST_NUMBER too. The run starts at
 * the lent state, so that a list may be run in parts, one after the other.
 *
 *   number     value                state                        journal                          scratch
 *   0          instants written     after the last instant       all instants, then as it was     zero, every byte
 *   1 to 7     as score_check       as it was                    as it was                        as it was
 *   8, 9, 12   0                    as it was                    as it was                        as it was
 *   13         word of the list     as it was                    as it was                        as it was
 *   11         0                    after the instants written   those before, then as it was     zero, every byte
 *   15, 18     instants written     after the instants written   those instants, then as it was   zero, every byte
 *
 * The answer does not say how many bytes were written. No word of a journal is 0: where the buffer was cleared before
 * the run, the journal ends at the first word that is 0, or where no word is left. A journal has the words of the list
 * that it answers, and beside them one for each output token.
 */
SCORE_MUST_USE uint64_t score_run(const uint8_t *score, size_t score_len, uint8_t *state, size_t state_len,
                                  const uint8_t *inputs, size_t inputs_len, uint8_t *journal, size_t journal_len,
                                  uint8_t *scratch, size_t scratch_len);

/* Checks that a journal is what a run over its own input words writes from the start state.
 *
 * Lent and only read:
 *   score    which is checked first, as score_check does;
 *   journal  the journal, and not a byte beyond it.
 * Lent to be written:
 *   scratch  the call's working space, whatever it holds; each instant uses it as in score_instant and leaves it zero.
 *
 * The answer's number is 0 (accepted) or one of 1 to 8 and 11 to 14. 1 to 8 are tried as in score_instant, then 12 and
 * 13 over the whole journal before the first instant, then 11 and 14 at each instant. A journal that ends early, at
 * an instant's end, is a journal. One with output words in an instant of status 1, as versions before 3 wrote them, has
 * its form and meets 14 there. So does one with more instants than a run from the start can write, at instant
 * SCORE_LAST_NUMBER.
 *
 *   number     value                                              scratch
 *   0          instants read                                      zero, every byte
 *   1 to 7     as score_check                                     as it was
 *   8, 12      0                                                  as it was
 *   13         word of the journal                                as it was
 *   11         0                                                  zero, every byte
 *   14         the first instant that is not what the run writes  zero, every byte
 */
SCORE_MUST_USE uint64_t score_journal_check(const uint8_t *score, size_t score_len, const uint8_t *journal,
                                            size_t journal_len, uint8_t *scratch, size_t scratch_len);

/* Counts how many settings of some switches end with each status. A setting is a set of exactly k of the switches. Each
 * is tried as score_instant plays an instant from the same state with exactly these tokens as input: no setting
 * leaves anything to the next. Writes nothing.
 *
 * Lent and only read:
 *   score     which is checked first, as score_check does;
 *   state     from which each setting is tried; its number is ignored, and may be SCORE_LAST_NUMBER;
 *   switches  a byte for each switch, its token; at most SCORE_MAX_SWITCHES, each listed once, in any order.
 *
 * The answer's number is 0 (accepted) or one of 1 to 9 and 17, tried in this order. Its value is that of score_check
 * for 1 to 7, and 0 otherwise. Of an accepted answer, score_settings_count gives the settings that end with status 0,
 * with 1 and with 2: together all the settings that there are, at most 12,870 (8 of 16 switches). With k = 0 there is
 * one, none pressed. From an aborted state all settings end with status 2; it switches off no test.
 *
 * A call plays as many instants as there are settings, and takes as long.
 */
SCORE_MUST_USE uint64_t score_settings(const uint8_t *score, size_t score_len, const uint8_t *state, size_t state_len,
                                       const uint8_t *switches, size_t switches_len, uint32_t k);

/* Translates a draft to a plain score, which plays as the draft is meant to: on every input list over the draft's
 * tokens its journal from the start state is the draft's.
 *
 * Lent and only read:
 *   draft    which is checked first, as score_check does, a watch being tested like a when.
 * Lent to be written:
 *   plain    SCORE_PLAIN_BYTES bytes; afterwards the plain score, from its first byte on, and beyond it what it held.
 *
 * The plain score has an agent for each agent other than a watch and set of watch tokens that it stands under, on a
 * path of bodies, halves and calls from procedure 0, and a procedure for each such pair of a procedure and a set,
 * by old number and then by set. What lies on no such path is left out. A next under a watch becomes an unless;
 * where one asks for two tokens or more, a new token stands for them, with a rule from each. The draft's own rules
 * stay, in their order, and come first; so do its tokens and ports. A score without watches, all of it on such
 * paths, is written as it is.
 *
 * The answer's number is 0 (accepted) or one of 1 to 8 and 16, tried in this order.
 *
 *   number     value                    plain
 *   0          the plain score's bytes  the plain score, then as it was
 *   1 to 7     as score_check           as it was
 *   8, 16      0                        as it was
 */
SCORE_MUST_USE uint64_t score_translate(const uint8_t *draft, size_t draft_len, uint8_t *plain, size_t plain_len);

/* An answer's top three bits say how the rest is laid out: 0, accepted, with the value in bits 60..0;
 * 1, the number in bits 7..0, the value in bits 31..8, and of an accepted instant, whose number is 0, the status in
 * bits 33..32 and the count in bits 44..34; 2, 3, 4 and 7, the numbers 13, 14, 15 and 18, whose value may be as large
 * as a buffer's count of words, in bits 60..0; 5, accepted settings, with the count of status 0 in bits 13..0, of 1 in
 * bits 27..14 and of 2 in bits 41..28. No answer has 6 there.
 */

/* 0 for accepted, or the number of the refusal. */
static inline uint32_t score_answer_number(uint64_t answer)
{
    uint32_t layout = (uint32_t)(answer >> 61);
    if (layout == 0 || layout == 5)
        return SCORE_ACCEPTED;
    if (layout == 1)
        return (uint32_t)(answer & 0xFF);
    return layout + 11;
}

/* The word, procedure, instant, count of instants or of bytes that the number speaks of; 0 where it speaks of none. */
static inline uint64_t score_answer_value(uint64_t answer)
{
    uint32_t layout = (uint32_t)(answer >> 61);
    if (layout == 1)
        return answer >> 8 & 0xFFFFFF;
    if (layout == 5)
        return 0;
    return answer & ((UINT64_C(1) << 61) - 1);
}

/* The status of an accepted instant; 0 where none was accepted. */
static inline uint32_t score_answer_status(uint64_t answer)
{
    if (answer >> 61 == 1)
        return (uint32_t)(answer >> 32 & 3);
    return 0;
}

/* The count of an accepted instant; 0 where none was accepted. */
static inline uint32_t score_answer_count(uint64_t answer)
{
    if (answer >> 61 == 1)
        return (uint32_t)(answer >> 34 & 0x7FF);
    return 0;
}

/* How many settings end with a status; 0 where no settings were counted. */
static inline uint32_t score_settings_count(uint64_t answer, uint32_t status)
{
    if (answer >> 61 == 5 && status <= SCORE_ABORTED)
        return (uint32_t)(answer >> 14 * status & 0x3FFF);
    return 0;
}

/* The instant number of a state, SCORE_STATE_BYTES bytes: how many instants were run since the start. */
static inline uint32_t score_state_number(const uint8_t *state)
{
    return (uint32_t)state[132] | (uint32_t)state[133] << 8 | (uint32_t)state[134] << 16 | (uint32_t)state[135] << 24;
}

#ifdef __cplusplus
}
#endif

#endif
