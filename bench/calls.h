/* calls.h: what the two engines share: the calls over lent buffers, around an instant that each does in its way. */
#ifndef CALLS_H
#define CALLS_H

#include <stddef.h>
#include <stdint.h>

#include "engines.h"
#include "words.h"

enum { QUIET, CLASHED, ABORTED };

/* A set of agents, or of tokens. */
struct agents {
    uint32_t words[AGENTS_MAX / 32];
};

struct tokens {
    uint64_t words[TOKENS_MAX / 64];
};

/* An accepted score, whose words stay where they are. Facts are among the rules. */
struct score {
    uint32_t tokens, agents, procedures, rules, lowest_port, highest_port;
    const uint8_t *agent_words, *procedure_words, *rule_words;
};

/* What an instant brings about. */
struct end {
    uint32_t status, count;
    struct tokens store;
    struct agents awake;
};

/* What an engine keeps of a score from instant to instant: the facts; the rules of each premise, as lists of the uses
 * 2 * rule and 2 * rule + 1 that end with NO_USE, and how many different premises each rule has.
 */
enum { NO_USE = 2 * RULES_MAX };

struct index {
    struct tokens facts;
    uint16_t first_use[TOKENS_MAX], next_use[2 * RULES_MAX];
    uint8_t premises[RULES_MAX];
};

/* An instant is given the tokens that are in the store from its start, the inputs and the facts, and the lent scratch,
 * all zero, in which it sets the bit of each agent that it reduces. The count is taken from these bits. Where nothing
 * but the status of an instant is asked for, `status` gives it.
 */
struct engine {
    void (*prepare)(const struct score *score, struct index *index);
    void (*instant)(const struct score *score, const struct index *index, const struct agents *awake,
                    const struct tokens *told, uint8_t *reduced, struct end *end);
    uint32_t (*status)(const struct score *score, const struct index *index, const struct agents *awake,
                       const struct tokens *told);
};

/* Of an accepted score, or draft. */
void take_apart(struct score *score, const uint8_t *bytes, size_t len);

uint64_t call_instant(const struct engine *engine, const uint8_t *score, size_t score_len, uint8_t *state,
                      size_t state_len, const uint8_t *input, size_t input_len, uint8_t *store, size_t store_len,
                      uint8_t *output, size_t output_len, uint8_t *scratch, size_t scratch_len);

uint64_t call_run(const struct engine *engine, const uint8_t *score, size_t score_len, uint8_t *state,
                  size_t state_len, const uint8_t *inputs, size_t inputs_len, uint8_t *journal, size_t journal_len,
                  uint8_t *scratch, size_t scratch_len);

uint64_t call_journal_check(const struct engine *engine, const uint8_t *score, size_t score_len,
                            const uint8_t *journal, size_t journal_len, uint8_t *scratch, size_t scratch_len);

uint64_t call_settings(const struct engine *engine, const uint8_t *score, size_t score_len, const uint8_t *state,
                       size_t state_len, const uint8_t *switches, size_t switches_len, uint32_t k);

static inline uint32_t body_of(uint32_t word) { return word & 0x3FF; }
static inline uint32_t other_half_of(uint32_t word) { return word >> 10 & 0x3FF; }
static inline uint32_t awaited_by(uint32_t word) { return word >> 10 & 0xFF; }
static inline uint32_t token_of(uint32_t word) { return word & 0xFF; }
static inline uint32_t premise_of(uint32_t word) { return word >> 8 & 0xFF; }
static inline uint32_t other_premise_of(uint32_t word) { return word >> 16 & 0xFF; }

static inline uint32_t root_of(const struct score *score, uint32_t call)
{
    return body_of(word_at(score->procedure_words, call & 0x3F));
}

static inline int has_agent(const struct agents *set, uint32_t agent)
{
    return set->words[agent / 32] >> agent % 32 & 1;
}

static inline void add_agent(struct agents *set, uint32_t agent)
{
    set->words[agent / 32] |= UINT32_C(1) << agent % 32;
}

static inline int has_token(const struct tokens *set, uint32_t token)
{
    return (int)(set->words[token / 64] >> token % 64 & 1);
}

static inline void add_token(struct tokens *set, uint32_t token)
{
    set->words[token / 64] |= UINT64_C(1) << token % 64;
}

/* Agent i is bit i % 8 of byte i / 8. */
static inline void set_reduced(uint8_t *reduced, uint32_t agent)
{
    reduced[agent / 8] |= (uint8_t)(1 << agent % 8);
}

/* How many bits are set: summed up in twos, fours and bytes; the product has the sum of the bytes at its top. */
static inline uint32_t count_bits(uint64_t word)
{
    word -= word >> 1 & UINT64_C(0x5555555555555555);
    word = (word & UINT64_C(0x3333333333333333)) + (word >> 2 & UINT64_C(0x3333333333333333));
    word = (word + (word >> 4)) & UINT64_C(0x0F0F0F0F0F0F0F0F);
    return (uint32_t)(word * UINT64_C(0x0101010101010101) >> 56);
}

static inline size_t count_tokens(const struct tokens *set)
{
    size_t count = 0, i;
    for (i = 0; i < TOKENS_MAX / 64; i++)
        count += count_bits(set->words[i]);
    return count;
}

/* Takes out the lowest bit of a word that has one; its number. */
static inline uint32_t take_lowest(uint64_t *word)
{
    uint32_t bit = (uint32_t)__builtin_ctzll(*word);
    *word &= *word - 1;
    return bit;
}

#endif
