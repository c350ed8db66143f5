/* passes.c: an engine that passes over all agents and all rules until nothing is added. */
#include "calls.h"

#include <string.h>

struct flags {
    uint8_t awake[AGENTS_MAX], reduced[AGENTS_MAX], store[TOKENS_MAX];
};

static void prepare(const struct score *score, struct index *index)
{
    uint32_t rule;
    memset(&index->facts, 0, sizeof index->facts);
    for (rule = 0; rule < score->rules; rule++) {
        uint32_t word = word_at(score->rule_words, rule);
        if (is_fact(word))
            add_token(&index->facts, token_of(word));
    }
}

/* Whether the agent, awake and not yet reduced, can be reduced now. */
static int can_reduce(const struct flags *flags, uint32_t word)
{
    switch (kind_of(word)) {
    case NEXT: return 0;
    case WHEN:
    case UNLESS: return flags->store[awaited_by(word)];
    default: return 1;
    }
}

static void reduce(const struct score *score, struct flags *flags, uint32_t word)
{
    switch (kind_of(word)) {
    case TELL: flags->store[token_of(word)] = 1; break;
    case PARALLEL: flags->awake[other_half_of(word)] = 1; /* fall through */
    case WHEN: flags->awake[body_of(word)] = 1; break;
    case CALL: flags->awake[root_of(score, word)] = 1; break;
    default: break;
    }
}

static int is_abort(uint32_t word)
{
    return kind_of(word) == SKIP_ABORT && word & 1;
}

/* A pass over the agents, from the last, since bodies are lower: ABORTED at an abort, else whether one was reduced. */
static int pass_agents(const struct score *score, struct flags *flags)
{
    uint32_t agent = score->agents, count = 0;
    while (agent-- > 0) {
        uint32_t word = word_at(score->agent_words, agent);
        if (!flags->awake[agent] || flags->reduced[agent] || !can_reduce(flags, word))
            continue;
        if (is_abort(word))
            return ABORTED;
        flags->reduced[agent] = 1;
        count++;
        reduce(score, flags, word);
    }
    return count > 0;
}

/* A pass over the rules: whether a token was added. The conclusion of a fact is in the store before. */
static int pass_rules(const struct score *score, struct flags *flags)
{
    uint32_t rule;
    int added = 0;
    for (rule = 0; rule < score->rules; rule++) {
        uint32_t word = word_at(score->rule_words, rule);
        uint8_t *conclusion = &flags->store[token_of(word)];
        if (!*conclusion && flags->store[premise_of(word)] && flags->store[other_premise_of(word)])
            *conclusion = 1, added = 1;
    }
    return added;
}

static void read_flags(struct flags *flags, const struct score *score, const struct agents *awake,
                       const struct tokens *told)
{
    uint32_t i;
    memset(flags, 0, sizeof *flags);
    for (i = 0; i < score->agents; i++)
        flags->awake[i] = (uint8_t)has_agent(awake, i);
    for (i = 0; i < score->tokens; i++)
        flags->store[i] = (uint8_t)has_token(told, i);
}

/* Eight flags as the bits of a byte. */
static uint8_t bits_of(const uint8_t *flags)
{
    return (uint8_t)(flags[0] | flags[1] << 1 | flags[2] << 2 | flags[3] << 3 | flags[4] << 4 | flags[5] << 5
                     | flags[6] << 6 | flags[7] << 7);
}

static void set_bits(uint8_t *scratch, const struct flags *flags, uint32_t agents)
{
    uint32_t agent;
    for (agent = 0; agent < agents; agent += 8)
        scratch[agent / 8] |= bits_of(flags->reduced + agent);
}

static void write_end(struct end *end, const struct score *score, const struct flags *flags)
{
    uint32_t i;
    for (i = 0; i < score->tokens; i++)
        if (flags->store[i])
            add_token(&end->store, i);
    for (i = 0; i < score->agents; i++) {
        uint32_t word = word_at(score->agent_words, i);
        if (flags->awake[i] && !flags->reduced[i] && (kind_of(word) == NEXT || kind_of(word) == UNLESS))
            add_agent(&end->awake, body_of(word));
    }
}

/* Passes until nothing is added; the status. */
static uint32_t play(const struct score *score, const struct agents *awake, const struct tokens *told,
                     struct flags *flags)
{
    int changed;
    read_flags(flags, score, awake, told);
    do {
        changed = pass_rules(score, flags);
        if (flags->store[0])
            memset(flags->store, 1, score->tokens);
        changed |= pass_agents(score, flags);
    } while (changed == 1);
    if (changed & ABORTED)
        return ABORTED;
    return flags->store[0] ? CLASHED : QUIET;
}

static void instant(const struct score *score, const struct index *index, const struct agents *awake,
                    const struct tokens *told, uint8_t *scratch, struct end *end)
{
    struct flags flags;
    (void)index;
    memset(end, 0, sizeof *end);
    end->status = play(score, awake, told, &flags);
    set_bits(scratch, &flags, score->agents);
    if (end->status != ABORTED)
        write_end(end, score, &flags);
}

static uint32_t status(const struct score *score, const struct index *index, const struct agents *awake,
                       const struct tokens *told)
{
    struct flags flags;
    (void)index;
    return play(score, awake, told, &flags);
}

static const struct engine engine = {prepare, instant, status};

#define NAMED(call) passes_##call
#include "engine_calls.h"
