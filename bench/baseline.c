/* baseline.c: the score check, and that of drafts, as one would write it by hand.
 *
 * One pass over the words. A body has a lower number than its agent, so the calls that an agent leads to unguarded
 * are known, as a set of procedures, when the agent is reached. The closure runs over the P procedures alone.
 */
#include "baseline.h"
#include "score.h"
#include "words.h"

static uint64_t refusal(uint32_t number, size_t value)
{
    return UINT64_C(1) << 61 | (uint64_t)value << 8 | number;
}

/* The bits 27..width are unnamed. */
static int is_form(uint32_t word, uint32_t kind, unsigned width)
{
    return word >> width == kind << (28 - width);
}

static uint32_t ports_fault(uint32_t word, uint32_t tokens)
{
    uint32_t lowest = word & 0xFF, highest = word >> 8 & 0xFF;
    if (!is_form(word, PORTS, 16))
        return SCORE_FORM;
    if (lowest >= tokens || highest >= tokens)
        return SCORE_TOKEN;
    return lowest > highest ? SCORE_REFERENCE : SCORE_ACCEPTED;
}

/* Sets calls[agent] to the procedures that the agent calls unguarded. In a draft, a watch is tested like a when. */
static inline uint32_t agent_fault(uint32_t word, uint32_t agent, uint32_t tokens, uint32_t procedures,
                                   uint64_t *calls, int is_draft)
{
    uint32_t body = word & 0x3FF;
    calls[agent] = 0;
    switch (word >> 28) {
    case SKIP_ABORT:
        return is_form(word, SKIP_ABORT, 1) ? SCORE_ACCEPTED : SCORE_FORM;
    case TELL:
        if (!is_form(word, TELL, 8))
            return SCORE_FORM;
        return (word & 0xFF) < tokens ? SCORE_ACCEPTED : SCORE_TOKEN;
    case PARALLEL: {
        uint32_t other = word >> 10 & 0x3FF;
        if (!is_form(word, PARALLEL, 20))
            return SCORE_FORM;
        if (body >= agent || other >= agent)
            return SCORE_REFERENCE;
        calls[agent] = calls[body] | calls[other];
        return SCORE_ACCEPTED;
    }
    case WATCH:
        if (!is_draft)
            return SCORE_FORM; /* fall through */
    case WHEN:
    case UNLESS:
        if (word >> 18 & 0x3FF)
            return SCORE_FORM;
        if ((word >> 10 & 0xFF) >= tokens)
            return SCORE_TOKEN;
        if (body >= agent)
            return SCORE_REFERENCE;
        if (word >> 28 != UNLESS)
            calls[agent] = calls[body];
        return SCORE_ACCEPTED;
    case NEXT:
        if (!is_form(word, NEXT, 10))
            return SCORE_FORM;
        return body < agent ? SCORE_ACCEPTED : SCORE_REFERENCE;
    case CALL:
        if (!is_form(word, CALL, 6))
            return SCORE_FORM;
        if ((word & 0x3F) >= procedures)
            return SCORE_REFERENCE;
        calls[agent] = UINT64_C(1) << (word & 0x3F);
        return SCORE_ACCEPTED;
    default:
        return SCORE_FORM;
    }
}

/* The bits 26..8 of a fact are zero. */
static uint32_t fact_fault(uint32_t word, uint32_t tokens)
{
    if (!is_fact(word) || word >> 8 & 0x7FFFF)
        return SCORE_FORM;
    return (word & 0xFF) < tokens ? SCORE_ACCEPTED : SCORE_TOKEN;
}

static uint32_t rule_fault(uint32_t word, uint32_t tokens)
{
    if (!is_form(word, RULE, 24))
        return fact_fault(word, tokens);
    if ((word & 0xFF) >= tokens || (word >> 8 & 0xFF) >= tokens || (word >> 16 & 0xFF) >= tokens)
        return SCORE_TOKEN;
    return SCORE_ACCEPTED;
}

/* Closes the unguarded calls; the lowest procedure that reaches itself, or `procedures` if there is none. */
static uint32_t lowest_on_circle(uint64_t *reach, uint32_t procedures)
{
    uint32_t from, through;
    for (through = 0; through < procedures; through++) {
        uint64_t onward = reach[through];
        for (from = 0; from < procedures; from++)
            reach[from] |= -(reach[from] >> through & 1) & onward;
    }
    for (from = 0; from < procedures; from++)
        if (reach[from] >> from & 1)
            break;
    return from;
}

static inline uint64_t check(const uint8_t *score, size_t score_len, int is_draft)
{
    uint64_t calls[AGENTS_MAX], reach[PROCEDURES_MAX];
    uint32_t head, tokens, agents, procedures, fault, i;
    size_t word, words = score_len / 4;

    if (score_len == 0 || score_len % 4 != 0 || score_len > SCORE_MAX_BYTES)
        return refusal(SCORE_LENGTH, 0);
    head = word_at(score, 0);
    if (!is_form(head, HEAD, 24))
        return refusal(SCORE_HEAD, 0);
    tokens = (head & 0xFF) + 1;
    agents = (head >> 8 & 0x3FF) + 1;
    procedures = (head >> 18 & 0x3F) + 1;
    if (words < 2 + agents + procedures || words > 2 + agents + procedures + RULES_MAX)
        return refusal(SCORE_COUNT, 0);

    fault = ports_fault(word_at(score, 1), tokens);
    if (fault)
        return refusal(fault, 1);
    word = 2;
    for (i = 0; i < agents; i++, word++) {
        fault = agent_fault(word_at(score, word), i, tokens, procedures, calls, is_draft);
        if (fault)
            return refusal(fault, word);
    }
    for (i = 0; i < procedures; i++, word++) {
        uint32_t root = word_at(score, word) & 0x3FF;
        if (!is_form(word_at(score, word), PROCEDURE, 10))
            return refusal(SCORE_FORM, word);
        if (root >= agents)
            return refusal(SCORE_REFERENCE, word);
        reach[i] = calls[root];
    }
    for (; word < words; word++) {
        fault = rule_fault(word_at(score, word), tokens);
        if (fault)
            return refusal(fault, word);
    }

    i = lowest_on_circle(reach, procedures);
    return i < procedures ? refusal(SCORE_CIRCLE, i) : SCORE_ACCEPTED;
}

uint64_t baseline_check(const uint8_t *score, size_t score_len) { return check(score, score_len, 0); }

uint64_t baseline_check_draft(const uint8_t *draft, size_t draft_len) { return check(draft, draft_len, 1); }
