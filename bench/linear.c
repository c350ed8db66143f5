/* linear.c: an engine with worklists. An agent is taken up once, a token enters the store once, and a rule is touched
 * once for each of its premises that enters.
 */
#include "calls.h"

#include <string.h>

enum { NOBODY = AGENTS_MAX };

struct work {
    const struct score *score;
    const struct index *index;
    struct end *end;
    uint8_t *reduced;
    struct agents seen;
    uint16_t agents[AGENTS_MAX], kept[AGENTS_MAX];  /* agents to take up; every next and unless taken up */
    uint16_t first_when[TOKENS_MAX], next_when[AGENTS_MAX]; /* the whens that wait for each token */
    uint8_t tokens[TOKENS_MAX];                     /* tokens that entered and whose waiters are to be told */
    uint8_t premises_missing[RULES_MAX];
    uint32_t agents_len, kept_len, tokens_len;
};

static void add_use(struct index *index, uint32_t token, uint32_t use)
{
    index->next_use[use] = index->first_use[token];
    index->first_use[token] = (uint16_t)use;
}

static void prepare(const struct score *score, struct index *index)
{
    uint32_t i;
    memset(&index->facts, 0, sizeof index->facts);
    for (i = 0; i < score->tokens; i++)
        index->first_use[i] = NO_USE;
    for (i = 0; i < score->rules; i++) {
        uint32_t word = word_at(score->rule_words, i), premise = premise_of(word), other = other_premise_of(word);
        if (is_fact(word)) {
            add_token(&index->facts, token_of(word));
            continue;
        }
        index->premises[i] = premise == other ? 1 : 2;
        add_use(index, premise, 2 * i);
        if (premise != other)
            add_use(index, other, 2 * i + 1);
    }
}

static void enter(struct work *work, uint32_t token)
{
    if (has_token(&work->end->store, token))
        return;
    add_token(&work->end->store, token);
    work->tokens[work->tokens_len++] = (uint8_t)token;
}

static void wake(struct work *work, uint32_t agent)
{
    if (has_agent(&work->seen, agent))
        return;
    add_agent(&work->seen, agent);
    work->agents[work->agents_len++] = (uint16_t)agent;
}

static void wait_for(struct work *work, uint32_t token, uint32_t agent)
{
    work->next_when[agent] = work->first_when[token];
    work->first_when[token] = (uint16_t)agent;
}

/* Reduces an agent, or keeps it until its token enters; 0 at an abort. */
static int take_up(struct work *work, uint32_t agent)
{
    uint32_t word = word_at(work->score->agent_words, agent);
    switch (kind_of(word)) {
    case SKIP_ABORT:
        if (word & 1)
            return 0;
        break;
    case TELL: enter(work, token_of(word)); break;
    case PARALLEL:
        wake(work, body_of(word));
        wake(work, other_half_of(word));
        break;
    case CALL: wake(work, root_of(work->score, word)); break;
    case WHEN:
        if (!has_token(&work->end->store, awaited_by(word))) {
            wait_for(work, awaited_by(word), agent);
            return 1;
        }
        wake(work, body_of(word));
        break;
    default: work->kept[work->kept_len++] = (uint16_t)agent; return 1;
    }
    set_reduced(work->reduced, agent);
    return 1;
}

static void tell_rules(struct work *work, uint32_t token)
{
    uint32_t use;
    for (use = work->index->first_use[token]; use != NO_USE; use = work->index->next_use[use])
        if (--work->premises_missing[use / 2] == 0)
            enter(work, token_of(word_at(work->score->rule_words, use / 2)));
}

static void tell_whens(struct work *work, uint32_t token)
{
    uint32_t agent;
    for (agent = work->first_when[token]; agent != NOBODY; agent = work->next_when[agent]) {
        set_reduced(work->reduced, agent);
        wake(work, body_of(word_at(work->score->agent_words, agent)));
    }
    work->first_when[token] = NOBODY;
}

static void enter_all(struct work *work)
{
    uint32_t token;
    for (token = 0; token < work->score->tokens; token++)
        enter(work, token);
}

/* 0 at an abort. */
static int work_off(struct work *work)
{
    while (work->tokens_len > 0 || work->agents_len > 0) {
        while (work->tokens_len > 0) {
            uint32_t token = work->tokens[--work->tokens_len];
            if (token == 0)
                enter_all(work);
            tell_rules(work, token);
            tell_whens(work, token);
        }
        if (work->agents_len > 0 && !take_up(work, work->agents[--work->agents_len]))
            return 0;
    }
    return 1;
}

static void start(struct work *work, const struct agents *awake, const struct tokens *told)
{
    uint32_t i;
    memset(&work->seen, 0, sizeof work->seen);
    memset(work->end, 0, sizeof *work->end);
    memcpy(work->premises_missing, work->index->premises, work->score->rules);
    work->agents_len = work->kept_len = work->tokens_len = 0;
    for (i = 0; i < work->score->tokens; i++)
        work->first_when[i] = NOBODY;
    for (i = 0; i < AGENTS_MAX / 64; i++) {
        uint64_t left = awake->words[2 * i] | (uint64_t)awake->words[2 * i + 1] << 32;
        while (left)
            wake(work, 64 * i + take_lowest(&left));
    }
    for (i = 0; i < TOKENS_MAX / 64; i++) {
        uint64_t left = told->words[i];
        while (left)
            enter(work, 64 * i + take_lowest(&left));
    }
}

/* An unless is judged when the instant is quiet. */
static void wake_kept(struct work *work)
{
    uint32_t i;
    for (i = 0; i < work->kept_len; i++) {
        uint32_t word = word_at(work->score->agent_words, work->kept[i]);
        if (kind_of(word) == UNLESS && has_token(&work->end->store, awaited_by(word)))
            set_reduced(work->reduced, work->kept[i]);
        else
            add_agent(&work->end->awake, body_of(word));
    }
}

/* Plays to the end of an instant, but for what is awake next; its status. */
static uint32_t play(struct work *work, const struct score *score, const struct index *index,
                     const struct agents *awake, const struct tokens *told)
{
    work->score = score;
    work->index = index;
    start(work, awake, told);
    if (!work_off(work))
        return ABORTED;
    return has_token(&work->end->store, 0) ? CLASHED : QUIET;
}

static void instant(const struct score *score, const struct index *index, const struct agents *awake,
                    const struct tokens *told, uint8_t *reduced, struct end *end)
{
    struct work work;
    work.end = end;
    work.reduced = reduced;
    end->status = play(&work, score, index, awake, told);
    if (end->status != ABORTED)
        wake_kept(&work);
}

static uint32_t status(const struct score *score, const struct index *index, const struct agents *awake,
                       const struct tokens *told)
{
    uint8_t reduced[AGENTS_MAX / 8] = {0};
    struct work work;
    struct end end;
    work.end = &end;
    work.reduced = reduced;
    return play(&work, score, index, awake, told);
}

static const struct engine engine = {prepare, instant, status};

#define NAMED(call) linear_##call
#include "engine_calls.h"
