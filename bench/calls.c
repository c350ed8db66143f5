/* calls.c: the calls over lent buffers, around an engine's instant. */
#include "calls.h"

#include <string.h>

#include "baseline.h"
#include "score.h"

enum { LENT_LENGTH = 8, LENT_STATE = 9, LENT_INPUT = 10, KEPT_LENGTH = 12, LENT_SWITCHES = 17 };

/* The numbers 13, 14, 15 and 18 are laid out by their own. */
static const uint64_t KEPT_FORM = UINT64_C(2) << 61, KEPT_DIFFERS = UINT64_C(3) << 61, KEPT_FULL = UINT64_C(4) << 61;
static const uint64_t LENT_LAST = UINT64_C(7) << 61;

static const uint32_t RUNNING_WORD = 0xF0000000, ABORTED_WORD = 0xF0000001;

/* The word of a state that has its number. */
enum { NUMBER_WORD = 1 + AGENTS_MAX / 32 };

struct state {
    int aborted;
    struct agents agents;
    uint32_t number;
};

static uint64_t refusal(uint32_t number)
{
    return UINT64_C(1) << 61 | number;
}

/* Number 18, with the instants written before it. */
static uint64_t refusal_at_last(uint64_t written)
{
    return LENT_LAST | written;
}

/* Whether an instant that is wanted now meets number 18. */
static int is_last(const struct state *state)
{
    return state->number == SCORE_LAST_NUMBER;
}

void take_apart(struct score *score, const uint8_t *bytes, size_t len)
{
    uint32_t head = word_at(bytes, 0), ports = word_at(bytes, 1);
    score->tokens = (head & 0xFF) + 1;
    score->agents = (head >> 8 & 0x3FF) + 1;
    score->procedures = (head >> 18 & 0x3F) + 1;
    score->rules = (uint32_t)(len / 4) - 2 - score->agents - score->procedures;
    score->lowest_port = ports & 0xFF;
    score->highest_port = ports >> 8 & 0xFF;
    score->agent_words = bytes + 8;
    score->procedure_words = score->agent_words + 4 * (size_t)score->agents;
    score->rule_words = score->procedure_words + 4 * (size_t)score->procedures;
}

/* 0 if the state meets number 9. */
static int read_state(struct state *state, const struct score *score, const uint8_t *bytes)
{
    uint32_t word_0 = word_at(bytes, 0), any = 0, beyond = 0, i;
    for (i = 0; i < AGENTS_MAX / 32; i++) {
        uint32_t word = word_at(bytes, 1 + i);
        uint32_t known = score->agents <= 32 * i ? 0 : score->agents - 32 * i;
        state->agents.words[i] = word;
        any |= word;
        beyond |= known >= 32 ? 0 : word >> known;
    }
    state->number = word_at(bytes, NUMBER_WORD);
    state->aborted = word_0 == ABORTED_WORD;
    if (state->aborted)
        return any == 0;
    return word_0 == RUNNING_WORD && beyond == 0;
}

static void write_state(uint8_t *bytes, const struct state *state)
{
    uint32_t i;
    put_word(bytes, 0, state->aborted ? ABORTED_WORD : RUNNING_WORD);
    for (i = 0; i < AGENTS_MAX / 32; i++)
        put_word(bytes, 1 + i, state->agents.words[i]);
    put_word(bytes, NUMBER_WORD, state->number);
}

static void read_map(struct tokens *tokens, const uint8_t *bytes)
{
    uint32_t i, byte;
    for (i = 0; i < TOKENS_MAX / 64; i++) {
        tokens->words[i] = 0;
        for (byte = 0; byte < 8; byte++)
            tokens->words[i] |= (uint64_t)bytes[8 * i + byte] << 8 * byte;
    }
}

static void write_map(uint8_t *bytes, const struct tokens *tokens)
{
    uint32_t i;
    for (i = 0; i < SCORE_MAP_BYTES; i++)
        bytes[i] = (uint8_t)(tokens->words[i / 8] >> 8 * (i % 8));
}

/* The tokens of word i from lowest to highest. */
static uint64_t between(uint32_t i, uint32_t lowest, uint32_t highest)
{
    uint64_t from, to;
    if (highest < 64 * i || lowest >= 64 * (i + 1))
        return 0;
    from = lowest <= 64 * i ? ~UINT64_C(0) : ~UINT64_C(0) << lowest % 64;
    to = highest >= 64 * i + 63 ? ~UINT64_C(0) : (UINT64_C(2) << highest % 64) - 1;
    return from & to;
}

static int has_unknown_token(const struct tokens *tokens, const struct score *score)
{
    uint64_t unknown = 0;
    uint32_t i;
    for (i = 0; i < TOKENS_MAX / 64; i++)
        unknown |= tokens->words[i] & ~between(i, 0, score->tokens - 1);
    return unknown != 0;
}

/* The store's tokens from the lowest to the highest port; a clash sends nothing. */
static void output_of(struct tokens *output, const struct score *score, const struct end *end)
{
    uint32_t i;
    for (i = 0; i < TOKENS_MAX / 64; i++)
        output->words[i] = end->store.words[i] & between(i, score->lowest_port, score->highest_port);
    if (end->status == CLASHED)
        memset(output, 0, sizeof *output);
}

static void add_facts(struct tokens *told, const struct tokens *input, const struct tokens *facts)
{
    uint32_t i;
    for (i = 0; i < TOKENS_MAX / 64; i++)
        told->words[i] = input->words[i] | facts->words[i];
}

static void clear(uint8_t *scratch)
{
    memset(scratch, 0, SCORE_SCRATCH_BYTES);
}

/* The bits of a score's agents, eight bytes at a time. */
static uint32_t count_reduced(const uint8_t *scratch, uint32_t agents)
{
    uint32_t count = 0, i;
    for (i = 0; i < agents; i += 64) {
        uint64_t word;
        memcpy(&word, scratch + i / 8, sizeof word);
        count += count_bits(word);
    }
    return count;
}

/* One instant: changes the state to the next one. The scratch is all zero before it and afterwards. */
static void step(const struct engine *engine, const struct score *score, const struct index *index,
                 struct state *state, const struct tokens *input, uint8_t *scratch, struct end *end)
{
    struct tokens told;
    add_facts(&told, input, &index->facts);
    if (!state->aborted) {
        engine->instant(score, index, &state->agents, &told, scratch, end);
        end->count = count_reduced(scratch, score->agents);
        clear(scratch);
    }
    if (state->aborted || end->status == ABORTED) {
        memset(end, 0, sizeof *end);
        end->status = ABORTED;
        state->aborted = 1;
    }
    state->agents = end->awake;
    state->number++;
}

uint64_t call_instant(const struct engine *engine, const uint8_t *score_bytes, size_t score_len, uint8_t *state_bytes,
                      size_t state_len, const uint8_t *input_bytes, size_t input_len, uint8_t *store_bytes,
                      size_t store_len, uint8_t *output_bytes, size_t output_len, uint8_t *scratch, size_t scratch_len)
{
    uint64_t fault = baseline_check(score_bytes, score_len);
    struct score score;
    struct index index;
    struct state state;
    struct tokens input, output;
    struct end end;
    if (fault)
        return fault;
    if (state_len != SCORE_STATE_BYTES || input_len != SCORE_MAP_BYTES || store_len != SCORE_MAP_BYTES
        || output_len != SCORE_MAP_BYTES || scratch_len != SCORE_SCRATCH_BYTES)
        return refusal(LENT_LENGTH);
    take_apart(&score, score_bytes, score_len);
    if (!read_state(&state, &score, state_bytes))
        return refusal(LENT_STATE);
    read_map(&input, input_bytes);
    if (has_unknown_token(&input, &score))
        return refusal(LENT_INPUT);
    if (is_last(&state))
        return refusal_at_last(0);
    engine->prepare(&score, &index);
    clear(scratch);
    step(engine, &score, &index, &state, &input, scratch, &end);
    output_of(&output, &score, &end);
    write_state(state_bytes, &state);
    write_map(store_bytes, &end.store);
    write_map(output_bytes, &output);
    return UINT64_C(1) << 61 | (uint64_t)end.status << 32 | (uint64_t)end.count << 34;
}

/* The word that a list's or journal's word may not be below, to come after the one before it in the same instant. */
static uint32_t least_after(uint32_t before)
{
    return kind_of(before) == INSTANT ? (uint32_t)INPUT << 28 : before + 1;
}

/* The lowest word against the form of a list, whose highest status is 0, or of a journal, whose highest is 2; `words`
 * if there is none.
 */
static size_t lowest_fault(const uint8_t *bytes, size_t words, uint32_t highest_status, uint32_t tokens)
{
    uint32_t last_kind = highest_status ? OUTPUT : INPUT, least = 0;
    size_t at;
    for (at = 0; at < words; at++) {
        uint32_t word = word_at(bytes, at), low = word & 0x0FFFFFFF;
        if (kind_of(word) == INSTANT) {
            if (low > highest_status)
                return at;
        } else if (at == 0 || word < least || kind_of(word) > last_kind || low >= tokens) {
            return at;
        }
        least = least_after(word);
    }
    return words;
}

/* 0, or number 12 or 13. */
static uint64_t kept_fault(const uint8_t *bytes, size_t len, uint32_t highest_status, uint32_t tokens)
{
    size_t fault;
    if (len % 4 != 0)
        return refusal(KEPT_LENGTH);
    fault = lowest_fault(bytes, len / 4, highest_status, tokens);
    return fault < len / 4 ? KEPT_FORM | fault : 0;
}

/* The input tokens of the instant whose word is at `at`; the word behind them. */
static size_t read_inputs(struct tokens *input, const uint8_t *bytes, size_t words, size_t at)
{
    memset(input, 0, sizeof *input);
    for (at++; at < words && kind_of(word_at(bytes, at)) == INPUT; at++)
        add_token(input, token_of(word_at(bytes, at)));
    return at;
}

static void write_outputs(uint8_t *bytes, const struct tokens *output)
{
    size_t word = 0;
    uint32_t i;
    for (i = 0; i < TOKENS_MAX / 64; i++) {
        uint64_t left = output->words[i];
        while (left)
            put_word(bytes, word++, (uint32_t)OUTPUT << 28 | (64 * i + take_lowest(&left)));
    }
}

struct room {
    uint8_t *bytes;
    size_t left;
};

/* Writes an instant, whose word and inputs stand in the list; 0 if there is no room for it. */
static int write_instant(struct room *journal, const uint8_t *inputs, size_t inputs_len, uint32_t status,
                         const struct tokens *output)
{
    size_t len = inputs_len + 4 * count_tokens(output);
    if (len > journal->left)
        return 0;
    memcpy(journal->bytes, inputs, inputs_len);
    put_word(journal->bytes, 0, (uint32_t)INSTANT << 28 | status);
    write_outputs(journal->bytes + inputs_len, output);
    journal->bytes += len;
    journal->left -= len;
    return 1;
}

/* Runs a list in its form: the instants written, and whether the last number was reached or the journal was full. */
static uint64_t run_list(const struct engine *engine, const struct score *score, struct state *state,
                         const uint8_t *inputs, size_t words, struct room journal, uint8_t *scratch)
{
    struct index index;
    struct tokens input, output;
    struct end end;
    uint64_t written = 0;
    size_t at = 0;
    engine->prepare(score, &index);
    while (at < words) {
        struct state next = *state;
        size_t behind = read_inputs(&input, inputs, words, at);
        if (is_last(state))
            return refusal_at_last(written);
        step(engine, score, &index, &next, &input, scratch, &end);
        output_of(&output, score, &end);
        if (!write_instant(&journal, inputs + 4 * at, 4 * (behind - at), end.status, &output))
            return KEPT_FULL | written;
        at = behind;
        *state = next;
        written++;
    }
    return written;
}

uint64_t call_run(const struct engine *engine, const uint8_t *score_bytes, size_t score_len, uint8_t *state_bytes,
                  size_t state_len, const uint8_t *inputs, size_t inputs_len, uint8_t *journal, size_t journal_len,
                  uint8_t *scratch, size_t scratch_len)
{
    uint64_t answer = baseline_check(score_bytes, score_len);
    struct score score;
    struct state state;
    struct room room;
    if (answer)
        return answer;
    if (state_len != SCORE_STATE_BYTES || scratch_len != SCORE_SCRATCH_BYTES)
        return refusal(LENT_LENGTH);
    take_apart(&score, score_bytes, score_len);
    if (!read_state(&state, &score, state_bytes))
        return refusal(LENT_STATE);
    answer = kept_fault(inputs, inputs_len, QUIET, score.tokens);
    if (answer)
        return answer;
    room.bytes = journal;
    room.left = journal_len;
    clear(scratch);
    answer = run_list(engine, &score, &state, inputs, inputs_len / 4, room, scratch);
    write_state(state_bytes, &state);
    return answer;
}

/* The words from `at` on are these output tokens and no more; the word behind them, or 0 if they are not. */
static size_t match_outputs(const uint8_t *bytes, size_t words, size_t at, const struct tokens *output)
{
    uint32_t i;
    for (i = 0; i < TOKENS_MAX / 64; i++) {
        uint64_t left = output->words[i];
        for (; left; at++)
            if (at == words || word_at(bytes, at) != ((uint32_t)OUTPUT << 28 | (64 * i + take_lowest(&left))))
                return 0;
    }
    return at == words || kind_of(word_at(bytes, at)) == INSTANT ? at : 0;
}

static void start_state(struct state *state, const struct score *score)
{
    memset(state, 0, sizeof *state);
    add_agent(&state->agents, root_of(score, 0));
}

/* Compares a journal in its form with the run, which ends at the last number: the instants that are alike, and whether
 * one is not.
 */
static uint64_t compare_journal(const struct engine *engine, const struct score *score, const uint8_t *journal,
                                size_t words, uint8_t *scratch)
{
    struct index index;
    struct state state;
    struct tokens input, output;
    struct end end;
    uint64_t alike = 0;
    size_t at = 0;
    engine->prepare(score, &index);
    start_state(&state, score);
    while (at < words && !is_last(&state)) {
        uint32_t status = word_at(journal, at) & 3;
        size_t outputs = read_inputs(&input, journal, words, at);
        step(engine, score, &index, &state, &input, scratch, &end);
        output_of(&output, score, &end);
        at = match_outputs(journal, words, outputs, &output);
        if (status != end.status || at == 0)
            return KEPT_DIFFERS | alike;
        alike++;
    }
    return at < words ? KEPT_DIFFERS | alike : alike;
}

uint64_t call_journal_check(const struct engine *engine, const uint8_t *score_bytes, size_t score_len,
                            const uint8_t *journal, size_t journal_len, uint8_t *scratch, size_t scratch_len)
{
    uint64_t answer = baseline_check(score_bytes, score_len);
    struct score score;
    if (answer)
        return answer;
    if (scratch_len != SCORE_SCRATCH_BYTES)
        return refusal(LENT_LENGTH);
    take_apart(&score, score_bytes, score_len);
    answer = kept_fault(journal, journal_len, ABORTED, score.tokens);
    if (answer)
        return answer;
    clear(scratch);
    return compare_journal(engine, &score, journal, journal_len / 4, scratch);
}

/* 0 if the switches, or how many of them are pressed, meet number 17. */
static int are_switches(const struct score *score, const uint8_t *switches, size_t count, uint32_t pressed)
{
    struct tokens listed = {{0}};
    size_t i;
    if (count > SCORE_MAX_SWITCHES || pressed > count)
        return 0;
    for (i = 0; i < count; i++) {
        if (switches[i] >= score->tokens || has_token(&listed, switches[i]))
            return 0;
        add_token(&listed, switches[i]);
    }
    return 1;
}

/* What all settings of a call are tried from, and how many ended with each status. */
struct trials {
    const struct engine *engine;
    const struct score *score;
    struct index index;
    struct state state;
    uint32_t counts[ABORTED + 1];
};

static void try_setting(struct trials *trials, const struct tokens *told)
{
    uint32_t status = ABORTED;
    if (!trials->state.aborted)
        status = trials->engine->status(trials->score, &trials->index, &trials->state.agents, told);
    trials->counts[status]++;
}

/* Tries every setting in which these tokens are told, and beside them exactly so many of the switches that are left. */
static void try_settings(struct trials *trials, const struct tokens *told, const uint8_t *switches, size_t left,
                         uint32_t pressed)
{
    struct tokens with = *told;
    if (pressed == 0) {
        try_setting(trials, told);
        return;
    }
    add_token(&with, switches[0]);
    try_settings(trials, &with, switches + 1, left - 1, pressed - 1);
    if (left > pressed)
        try_settings(trials, told, switches + 1, left - 1, pressed);
}

static uint64_t counted(const uint32_t *counts)
{
    return UINT64_C(5) << 61 | counts[QUIET] | (uint64_t)counts[CLASHED] << 14 | (uint64_t)counts[ABORTED] << 28;
}

uint64_t call_settings(const struct engine *engine, const uint8_t *score_bytes, size_t score_len,
                       const uint8_t *state_bytes, size_t state_len, const uint8_t *switches, size_t switches_len,
                       uint32_t k)
{
    uint64_t answer = baseline_check(score_bytes, score_len);
    struct score score;
    struct trials trials;
    if (answer)
        return answer;
    if (state_len != SCORE_STATE_BYTES)
        return refusal(LENT_LENGTH);
    take_apart(&score, score_bytes, score_len);
    if (!read_state(&trials.state, &score, state_bytes))
        return refusal(LENT_STATE);
    if (!are_switches(&score, switches, switches_len, k))
        return refusal(LENT_SWITCHES);
    trials.engine = engine;
    trials.score = &score;
    memset(trials.counts, 0, sizeof trials.counts);
    engine->prepare(&score, &trials.index);
    try_settings(&trials, &trials.index.facts, switches, switches_len, k);
    return counted(trials.counts);
}
