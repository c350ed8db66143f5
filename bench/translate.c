/* translate.c: the translation of a draft as one would write it by hand.
 *
 * Sets of tokens are kept once each. A pair of an agent, or of a procedure, and a set is found by hashing, kept once
 * and followed once; beside it stand the pairs that it leads to. When all is known to fit, the sets are sorted, the
 * pairs are put in order by counting, and written by the places that they have got.
 */
#include <stdlib.h>
#include <string.h>

#include "baseline.h"
#include "calls.h"
#include "score.h"

enum { LENT_LENGTH = 8, TOO_LARGE = 16 };

/* A pair may lead to two more before it is seen that they are too many. Each new set comes with a pair. */
enum { PAIRS_MAX = AGENTS_MAX + 4, SETS_MAX = PAIRS_MAX + 1, SLOTS = 2 * AGENTS_MAX, NO_SET = SETS_MAX };

/* A slot has an entry's number, counted from 1, or 0. */
struct sets {
    uint32_t len;
    struct tokens of[SETS_MAX];
    uint16_t slots[SLOTS], place[SETS_MAX];
};

struct pairs {
    uint32_t len;
    uint16_t number[PAIRS_MAX], set[PAIRS_MAX]; /* the agent or procedure, and its set */
    uint16_t leads_to[PAIRS_MAX][2];            /* the body, the halves or the procedure called; a procedure's root */
    uint16_t slots[SLOTS], order[PAIRS_MAX], place[PAIRS_MAX];
    uint16_t found[PAIRS_MAX], by_set[PAIRS_MAX], place_of_set[PAIRS_MAX]; /* for sorting */
};

struct work {
    struct score draft;
    struct sets sets, asked;
    struct pairs agents, procedures;
    uint16_t asked_by[PAIRS_MAX]; /* for each agent the set asked for, if it has two tokens or more, or NO_SET */
    uint8_t token[PAIRS_MAX];     /* else its only token */
    uint32_t rules;
};

static uint64_t refusal(uint32_t number)
{
    return UINT64_C(1) << 61 | number;
}

/* Sets are compared as the sum of 2 to the power of each token. */
static int compare_sets(const struct tokens *one, const struct tokens *other)
{
    uint32_t i = TOKENS_MAX / 64;
    while (i-- > 0)
        if (one->words[i] != other->words[i])
            return one->words[i] < other->words[i] ? -1 : 1;
    return 0;
}

static uint32_t slot_of(uint64_t mixed)
{
    return (uint32_t)(mixed * UINT64_C(0x9E3779B97F4A7C15) >> 32) % SLOTS;
}

/* The number of a set, which is added where it is new. */
static uint32_t find_set(struct sets *sets, const struct tokens *set)
{
    const uint64_t *words = set->words;
    uint64_t mixed = words[0] ^ words[1] * 3 ^ words[2] * 5 ^ words[3] * 7;
    uint32_t slot = slot_of(mixed ^ mixed >> 32);
    for (; sets->slots[slot] != 0; slot = (slot + 1) % SLOTS)
        if (compare_sets(&sets->of[sets->slots[slot] - 1], set) == 0)
            return sets->slots[slot] - 1u;
    sets->of[sets->len++] = *set;
    sets->slots[slot] = (uint16_t)sets->len;
    return sets->len - 1;
}

static uint32_t add(struct pairs *pairs, uint32_t number, uint32_t set)
{
    pairs->number[pairs->len] = (uint16_t)number;
    pairs->set[pairs->len] = (uint16_t)set;
    return pairs->len++;
}

/* A pair's number in its table, to which it is added where it is new. */
static uint32_t find(struct pairs *pairs, uint32_t number, uint32_t set)
{
    uint32_t slot = slot_of(number << 16 | set), pair;
    for (; pairs->slots[slot] != 0; slot = (slot + 1) % SLOTS) {
        pair = pairs->slots[slot] - 1u;
        if (pairs->number[pair] == number && pairs->set[pair] == set)
            return pair;
    }
    pair = add(pairs, number, set);
    pairs->slots[slot] = (uint16_t)(pair + 1);
    return pair;
}

static int is_too_large(const struct work *work)
{
    return work->draft.tokens + work->asked.len > TOKENS_MAX
        || work->agents.len > AGENTS_MAX
        || work->procedures.len > PROCEDURES_MAX
        || work->rules > RULES_MAX;
}

static uint32_t agent_at(const struct work *work, uint32_t agent) { return word_at(work->draft.agent_words, agent); }

/* The pair that a half, body or root leads to under a set: past watches, whose tokens are added. */
static uint16_t refer(struct work *work, uint32_t agent, uint32_t set)
{
    uint32_t word = agent_at(work, agent);
    if (kind_of(word) == WATCH) {
        struct tokens tokens = work->sets.of[set];
        for (; kind_of(word) == WATCH; word = agent_at(work, agent)) {
            add_token(&tokens, awaited_by(word));
            agent = body_of(word);
        }
        set = find_set(&work->sets, &tokens);
    }
    return (uint16_t)find(&work->agents, agent, set);
}

static void follow_agent(struct work *work, uint32_t pair)
{
    uint32_t word = agent_at(work, work->agents.number[pair]), set = work->agents.set[pair];
    uint16_t *leads_to = work->agents.leads_to[pair];
    switch (kind_of(word)) {
    case PARALLEL: leads_to[1] = refer(work, other_half_of(word), set); /* fall through */
    case WHEN:
    case NEXT:
    case UNLESS: leads_to[0] = refer(work, body_of(word), set); break;
    case CALL: leads_to[0] = (uint16_t)find(&work->procedures, word & 0x3F, set); break;
    default: break;
    }
}

static void follow_procedure(struct work *work, uint32_t pair)
{
    uint32_t root = root_of(&work->draft, work->procedures.number[pair]);
    work->procedures.leads_to[pair][0] = refer(work, root, work->procedures.set[pair]);
}

/* Follows each pair, in the order in which they were found; 0 as soon as they are too many. */
static int follow(struct work *work)
{
    struct tokens none = {{0}};
    uint32_t agent = 0, procedure = 0;
    find(&work->procedures, 0, find_set(&work->sets, &none));
    while (procedure < work->procedures.len || agent < work->agents.len) {
        if (procedure < work->procedures.len)
            follow_procedure(work, procedure++);
        else
            follow_agent(work, agent++);
        if (is_too_large(work))
            return 0;
    }
    return 1;
}

/* Awake next, if the set that it stands under allows it. */
static int is_put_off(uint32_t word) { return kind_of(word) == NEXT || kind_of(word) == UNLESS; }

static struct tokens asked_by(uint32_t word, const struct tokens *set)
{
    struct tokens asked = {{0}};
    if (is_put_off(word))
        asked = *set;
    if (kind_of(word) == WHEN || kind_of(word) == UNLESS)
        add_token(&asked, awaited_by(word));
    return asked;
}

static uint8_t lowest_token(const struct tokens *set)
{
    uint32_t i = 0;
    while (set->words[i] == 0)
        i++;
    return (uint8_t)(64 * i + (uint32_t)__builtin_ctzll(set->words[i]));
}

/* Finds what each agent asks for; 0 as soon as tokens or rules are too many. */
static int ask(struct work *work)
{
    uint32_t pair, word, before;
    for (pair = 0; pair < work->agents.len; pair++) {
        struct tokens asked;
        size_t count;
        word = agent_at(work, work->agents.number[pair]);
        if (kind_of(word) != WHEN && !is_put_off(word))
            continue;
        asked = asked_by(word, &work->sets.of[work->agents.set[pair]]);
        count = count_tokens(&asked);
        work->asked_by[pair] = NO_SET;
        if (count == 1)
            work->token[pair] = lowest_token(&asked);
        if (count < 2)
            continue;
        before = work->asked.len;
        work->asked_by[pair] = (uint16_t)find_set(&work->asked, &asked);
        work->rules += work->asked.len > before ? (uint32_t)count : 0;
        if (is_too_large(work))
            return 0;
    }
    return 1;
}

static int compare_pointed(const void *one, const void *other)
{
    return compare_sets(*(const struct tokens *const *)one, *(const struct tokens *const *)other);
}

/* Gives each set its place, and puts it there in `order`. */
static void sort_sets(struct sets *sets, const struct tokens **order)
{
    uint32_t i;
    for (i = 0; i < sets->len; i++)
        order[i] = &sets->of[i];
    qsort(order, sets->len, sizeof *order, compare_pointed);
    for (i = 0; i < sets->len; i++)
        sets->place[order[i] - sets->of] = (uint16_t)i;
}

/* Puts numbers in the order of their keys, which are below a limit; as they stood, where keys are alike. */
static void sort_by(const uint16_t *keys, uint32_t limit, const uint16_t *from, uint16_t *to, uint32_t len)
{
    uint16_t start[SETS_MAX + 1];
    uint32_t i;
    memset(start, 0, (limit + 1) * sizeof *start);
    for (i = 0; i < len; i++)
        start[keys[i] + 1]++;
    for (i = 0; i < limit; i++)
        start[i + 1] = (uint16_t)(start[i + 1] + start[i]);
    for (i = 0; i < len; i++)
        to[start[keys[from[i]]]++] = from[i];
}

/* Gives each pair its place: by agent or procedure, of which there are so many, and then by set. */
static void sort_pairs(struct pairs *pairs, uint32_t numbers, const struct sets *sets)
{
    uint32_t i;
    for (i = 0; i < pairs->len; i++) {
        pairs->found[i] = (uint16_t)i;
        pairs->place_of_set[i] = sets->place[pairs->set[i]];
    }
    sort_by(pairs->place_of_set, sets->len, pairs->found, pairs->by_set, pairs->len);
    sort_by(pairs->number, numbers, pairs->by_set, pairs->order, pairs->len);
    for (i = 0; i < pairs->len; i++)
        pairs->place[pairs->order[i]] = (uint16_t)i;
}

static uint32_t asked_token(const struct work *work, uint32_t pair)
{
    uint32_t set = work->asked_by[pair];
    return set == NO_SET ? work->token[pair] : work->draft.tokens + work->asked.place[set];
}

static uint32_t word_of(uint32_t kind, uint32_t low, uint32_t high) { return kind << 28 | low | high << 10; }

static uint32_t agent_word(const struct work *work, uint32_t pair)
{
    uint32_t word = agent_at(work, work->agents.number[pair]);
    const uint16_t *leads_to = work->agents.leads_to[pair], *place = work->agents.place;
    switch (kind_of(word)) {
    case PARALLEL: return word_of(PARALLEL, place[leads_to[0]], place[leads_to[1]]);
    case WHEN: return word_of(WHEN, place[leads_to[0]], asked_token(work, pair));
    case NEXT:
        if (work->agents.set[pair] == 0)
            return word_of(NEXT, place[leads_to[0]], 0); /* fall through */
    case UNLESS: return word_of(UNLESS, place[leads_to[0]], asked_token(work, pair));
    case CALL: return word_of(CALL, work->procedures.place[leads_to[0]], 0);
    default: return word;
    }
}

/* A rule for each token of each set; the word behind them. */
static size_t write_new_rules(const struct work *work, const struct tokens *const *sets, uint8_t *plain, size_t word)
{
    uint32_t set, i;
    for (set = 0; set < work->asked.len; set++)
        for (i = 0; i < TOKENS_MAX / 64; i++) {
            uint64_t left = sets[set]->words[i];
            while (left) {
                uint32_t member = 64 * i + take_lowest(&left);
                put_word(plain, word++, (uint32_t)RULE << 28 | (work->draft.tokens + set) | member << 8 | member << 16);
            }
        }
    return word;
}

/* The plain score's bytes. */
static size_t write_plain(struct work *work, const uint8_t *draft, uint8_t *plain)
{
    const struct tokens *order[SETS_MAX];
    const struct pairs *agents = &work->agents, *procedures = &work->procedures;
    uint32_t tokens = work->draft.tokens + work->asked.len, i;
    size_t word = 2;
    sort_sets(&work->sets, order);
    sort_pairs(&work->agents, work->draft.agents, &work->sets);
    sort_pairs(&work->procedures, work->draft.procedures, &work->sets);
    sort_sets(&work->asked, order);
    put_word(plain, 0, word_of(HEAD, tokens - 1, 0) | (agents->len - 1) << 8 | (procedures->len - 1) << 18);
    put_word(plain, 1, word_at(draft, 1));
    for (i = 0; i < agents->len; i++)
        put_word(plain, word++, agent_word(work, agents->order[i]));
    for (i = 0; i < procedures->len; i++)
        put_word(plain, word++, word_of(PROCEDURE, agents->place[procedures->leads_to[procedures->order[i]][0]], 0));
    memcpy(plain + 4 * word, work->draft.rule_words, 4 * (size_t)work->draft.rules);
    return 4 * write_new_rules(work, order, plain, word + work->draft.rules);
}

static void clear(struct work *work)
{
    work->sets.len = work->asked.len = work->agents.len = work->procedures.len = 0;
    memset(work->sets.slots, 0, sizeof work->sets.slots);
    memset(work->asked.slots, 0, sizeof work->asked.slots);
    memset(work->agents.slots, 0, sizeof work->agents.slots);
    memset(work->procedures.slots, 0, sizeof work->procedures.slots);
    work->rules = work->draft.rules;
}

uint64_t baseline_translate(const uint8_t *draft, size_t draft_len, uint8_t *plain, size_t plain_len)
{
    struct work work;
    uint64_t answer = baseline_check_draft(draft, draft_len);
    if (answer)
        return answer;
    if (plain_len != SCORE_MAX_BYTES)
        return refusal(LENT_LENGTH);
    take_apart(&work.draft, draft, draft_len);
    clear(&work);
    if (!follow(&work) || !ask(&work))
        return refusal(TOO_LARGE);
    return write_plain(&work, draft, plain);
}
