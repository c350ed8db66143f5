/* scores.c: the scores and drafts that are timed. */
#include "scores.h"

struct sizes {
    uint32_t tokens, agents, procedures, rules;
};

/* Writes a procedure's agents, numbers first to last; the last is its root. */
typedef void agents_writer(struct score_bytes *score, struct sizes sizes, uint32_t procedure, uint32_t first,
                           uint32_t last);

/* xorshift32 from a fixed seed, so that every run times the same scores. */
static uint32_t below(uint32_t limit)
{
    static uint32_t state = 0x9E3779B9;
    state ^= state << 13;
    state ^= state >> 17;
    state ^= state << 5;
    return state % limit;
}

static void push(struct score_bytes *score, uint32_t word)
{
    int i;
    for (i = 0; i < 4; i++)
        score->bytes[score->len++] = (uint8_t)(word >> 8 * i);
}

static uint32_t procedure(uint32_t root) { return 0x30000000 | root; }
static uint32_t skip(void) { return 0x40000000; }
static uint32_t tell(uint32_t token) { return 0x50000000 | token; }
static uint32_t parallel(uint32_t half, uint32_t other) { return 0x60000000 | half | other << 10; }
static uint32_t when(uint32_t body, uint32_t token) { return 0x70000000 | body | token << 10; }
static uint32_t next(uint32_t body) { return 0x80000000 | body; }
static uint32_t unless(uint32_t body, uint32_t token) { return 0x90000000 | body | token << 10; }
static uint32_t call(uint32_t called) { return 0xA0000000 | called; }
static uint32_t watch(uint32_t body, uint32_t token) { return 0xF0000000 | body | token << 10; }

static uint32_t rule(uint32_t conclusion, uint32_t premise, uint32_t other)
{
    return 0x20000000 | conclusion | premise << 8 | other << 16;
}

static uint32_t fact(uint32_t conclusion) { return 0x28000000 | conclusion; }

/* Head and ports; all tokens are at the ports. */
static void begin(struct score_bytes *score, struct sizes sizes)
{
    score->len = 0;
    push(score, 0x10000000 | (sizes.tokens - 1) | (sizes.agents - 1) << 8 | (sizes.procedures - 1) << 18);
    push(score, 0xB0000000 | (sizes.tokens - 1) << 8);
}

/* An agent over bodies first to agent - 1 that calls, unguarded, only lower procedures. */
static uint32_t mixed_agent(struct sizes sizes, uint32_t within, uint32_t first, uint32_t agent)
{
    uint32_t body = first + below(agent - first), token = below(sizes.tokens);
    switch (below(10)) {
    case 0: return skip();
    case 1:
    case 2: return tell(token);
    case 3:
    case 4: return when(body, token);
    case 5: return next(body);
    case 6: return unless(body, token);
    case 7: return within > 0 ? call(below(within)) : tell(token);
    default: return parallel(body, agent - 1);
    }
}

/* Every procedure calls itself under a next; the others that it calls are lower, so there is no circle. */
static void write_mixed(struct score_bytes *score, struct sizes sizes, uint32_t within, uint32_t first, uint32_t last)
{
    uint32_t agent;
    push(score, call(within));
    push(score, next(first));
    for (agent = first + 2; agent < last; agent++)
        push(score, mixed_agent(sizes, within, first + 1, agent));
    push(score, parallel(first + 1, last - 1));
}

/* Each procedure but the last calls the next higher one, through parallel and when alone. */
static void write_chain(struct score_bytes *score, struct sizes sizes, uint32_t within, uint32_t first, uint32_t last)
{
    uint32_t agent;
    push(score, within + 1 < sizes.procedures ? call(within + 1) : skip());
    for (agent = first + 1; agent <= last; agent++)
        push(score, agent % 2 ? when(agent - 1, below(sizes.tokens)) : parallel(agent - 1, agent - 1));
}

/* The number of the first agent of a procedure: the agents are shared out evenly. */
static uint32_t first_agent(struct sizes sizes, uint32_t within)
{
    return sizes.agents * within / sizes.procedures;
}

static void build(struct score_bytes *score, struct sizes sizes, agents_writer *write_agents)
{
    uint32_t i;
    begin(score, sizes);
    for (i = 0; i < sizes.procedures; i++)
        write_agents(score, sizes, i, first_agent(sizes, i), first_agent(sizes, i + 1) - 1);
    for (i = 0; i < sizes.procedures; i++)
        push(score, procedure(first_agent(sizes, i + 1) - 1));
    for (i = 0; i < sizes.rules; i++)
        push(score, rule(below(sizes.tokens), below(sizes.tokens), below(sizes.tokens)));
}

static const struct sizes largest = {256, 1024, 64, 256}, usual = {24, 60, 4, 20};

void build_largest(struct score_bytes *score) { build(score, largest, write_mixed); }

void build_usual(struct score_bytes *score) { build(score, usual, write_mixed); }

void build_call_chain(struct score_bytes *score) { build(score, largest, write_chain); }

/* Agents 0 and 1 of a score for the engines: agent 1 is "next call 0". */
static void push_again(struct score_bytes *score)
{
    push(score, call(0));
    push(score, next(0));
}

static void add_input(struct input_tokens *input, uint32_t token)
{
    input->tokens[input->len++] = token;
}

/* The tokens of winches: power, and for each winch that it may go, that it is at its limit, that it is ready, and
 * that it runs.
 */
enum { POWER = 1, FIRST_WINCH = 2 };

static uint32_t go(uint32_t winch) { return FIRST_WINCH + 4 * winch; }
static uint32_t limit(uint32_t winch) { return go(winch) + 1; }
static uint32_t ready(uint32_t winch) { return go(winch) + 2; }
static uint32_t runs(uint32_t winch) { return go(winch) + 3; }

/* "When ready, run" beside "run on, unless at the limit", beside the agents before; the first winch does not run on.
 * The root's number.
 */
static uint32_t push_winch(struct score_bytes *score, uint32_t winch, uint32_t before)
{
    uint32_t first = before + 1;
    push(score, tell(runs(winch)));
    push(score, when(first, ready(winch)));
    if (winch == 0) {
        push(score, parallel(before, first + 1));
        return first + 2;
    }
    push(score, unless(first, limit(winch)));
    push(score, parallel(first + 1, first + 2));
    push(score, parallel(before, first + 3));
    return first + 4;
}

/* Behind the winches' tokens, for each pole that it stands, and that it feeds its winches. */
static uint32_t stands(uint32_t winches, uint32_t pole) { return FIRST_WINCH + 4 * winches + 2 * pole; }
static uint32_t feeds(uint32_t winches, uint32_t pole) { return stands(winches, pole) + 1; }

/* That each pole stands is a fact; with power, one that stands feeds its winches. */
static void push_poles(struct score_bytes *score, uint32_t winches, uint32_t poles)
{
    uint32_t pole;
    for (pole = 0; pole < poles; pole++) {
        push(score, fact(stands(winches, pole)));
        push(score, rule(feeds(winches, pole), stands(winches, pole), POWER));
    }
}

/* A winch that may go and is fed, by its pole or where there are no poles by the power itself, is ready; one that runs
 * at its limit is a clash. A third of the winches are at their limits, and a third may go.
 */
static void build_winches_on_poles(struct score_bytes *score, struct input_tokens *input, uint32_t winches,
                                   uint32_t poles)
{
    struct sizes sizes = {0, 0, 1, 0};
    uint32_t winch, root = 1;
    sizes.tokens = stands(winches, poles);
    sizes.agents = 5 * winches;
    begin(score, sizes);
    push_again(score);
    for (winch = 0; winch < winches; winch++)
        root = push_winch(score, winch, root);
    push(score, procedure(root));
    push_poles(score, winches, poles);
    input->len = 0;
    add_input(input, POWER);
    for (winch = 0; winch < winches; winch++) {
        push(score, rule(ready(winch), go(winch), poles ? feeds(winches, winch % poles) : (uint32_t)POWER));
        push(score, rule(0, runs(winch), limit(winch)));
        if (winch % 3 < 2)
            add_input(input, winch % 3 ? go(winch) : limit(winch));
    }
}

void build_winches(struct score_bytes *score, struct input_tokens *input, uint32_t winches)
{
    build_winches_on_poles(score, input, winches, 0);
}

/* For every five winches there are three poles. */
void build_season(struct score_bytes *score, struct input_tokens *input, uint32_t winches)
{
    build_winches_on_poles(score, input, winches, 3 * winches / 5);
}

/* The power, that winches 0 to 7 may go, and that winches 5 to 11 are at their limits: with power a winch that may go
 * runs, and is a clash where it is at its limit. Of the settings of eight, 9,495 are quiet and 3,375 a clash.
 */
void write_switches(uint8_t switches[SCORE_MAX_SWITCHES])
{
    uint32_t i;
    switches[0] = POWER;
    for (i = 0; i < 8; i++)
        switches[1 + i] = (uint8_t)go(i);
    for (i = 0; i < 7; i++)
        switches[9 + i] = (uint8_t)limit(5 + i);
}

/* Whens one inside the other, all answered by the input. */
void build_when_chain(struct score_bytes *score, struct input_tokens *input, uint32_t whens)
{
    struct sizes sizes = {256, 0, 1, 0};
    uint32_t i;
    sizes.agents = whens + 4;
    begin(score, sizes);
    push_again(score);
    push(score, skip());
    for (i = 0; i < whens; i++)
        push(score, when(2 + i, 1 + i % 255));
    push(score, parallel(1, whens + 2));
    push(score, procedure(whens + 3));
    input->len = 0;
    for (i = 1; i < 256; i++)
        add_input(input, i);
}

/* Token 1 brings about the highest token by a chain of rules, the last of which stands first; two more add nothing. */
void build_rule_chain(struct score_bytes *score, struct input_tokens *input, uint32_t rules)
{
    struct sizes sizes = {0, 4, 1, 0};
    uint32_t token, highest = rules - 1;
    sizes.tokens = rules;
    begin(score, sizes);
    push_again(score);
    push(score, tell(1));
    push(score, parallel(1, 2));
    push(score, procedure(3));
    for (token = highest - 1; token > 0; token--)
        push(score, rule(token + 1, token, 1));
    push(score, rule(1, highest, highest - 1));
    push(score, rule(2, highest, highest));
    input->len = 0;
}

/* Parallels of the agent before with itself: n of them make 2^n copies of a tell. */
void build_deep_sharing(struct score_bytes *score, struct input_tokens *input, uint32_t parallels)
{
    struct sizes sizes = {256, 0, 1, 0};
    uint32_t i;
    sizes.agents = parallels + 4;
    begin(score, sizes);
    push_again(score);
    push(score, tell(1));
    for (i = 0; i < parallels; i++)
        push(score, parallel(2 + i, 2 + i));
    push(score, parallel(1, parallels + 2));
    push(score, procedure(parallels + 3));
    input->len = 0;
}

/* The tokens of watched winches: that all stop, and for each winch those of a winch, with one more that stops it. */
enum { STOP_ALL = 1, WATCHED_TOKENS = 4 };

static uint32_t watched_token(uint32_t winch, uint32_t which) { return STOP_ALL + 1 + WATCHED_TOKENS * winch + which; }

/* For each winch, "when ready, run" beside "run on, unless at the limit", until it is stopped; all of that at every
 * instant, until all are stopped.
 */
void build_watched_winches(struct score_bytes *draft, uint32_t winches)
{
    enum { READY, LIMIT, RUNS, STOP, AGENTS = 6 };
    struct sizes sizes = {0, 0, 1, 0};
    uint32_t winch, first = 2;
    sizes.tokens = watched_token(winches, 0);
    sizes.agents = 2 + AGENTS * winches + 1;
    begin(draft, sizes);
    push_again(draft);
    for (winch = 0; winch < winches; winch++, first += AGENTS) {
        push(draft, tell(watched_token(winch, RUNS)));
        push(draft, when(first, watched_token(winch, READY)));
        push(draft, unless(first, watched_token(winch, LIMIT)));
        push(draft, parallel(first + 1, first + 2));
        push(draft, watch(first + 3, watched_token(winch, STOP)));
        push(draft, parallel(first - 1, first + 4));
    }
    push(draft, watch(first - 1, STOP_ALL));
    push(draft, procedure(first));
    for (winch = 0; winch < winches; winch++)
        push(draft, rule(0, watched_token(winch, RUNS), watched_token(winch, LIMIT)));
}

/* At each step the agent before stands both under one more watch and not: 2^n copies of a tell. */
void build_diamond(struct score_bytes *draft, uint32_t watches)
{
    struct sizes sizes = {256, 0, 1, 0};
    uint32_t i;
    sizes.agents = 2 * watches + 1;
    begin(draft, sizes);
    push(draft, tell(1));
    for (i = 0; i < watches; i++) {
        push(draft, watch(2 * i, 1 + i));
        push(draft, parallel(2 * i, 2 * i + 1));
    }
    push(draft, procedure(2 * watches));
}
