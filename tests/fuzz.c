/* fuzz.c: makes all six calls on valid, mutated and random bytes, and holds them to what every call must keep.
 *
 * Usage: fuzz SEED ROUNDS [FIRST]
 * Rounds are numbered from FIRST, or from 0; the seed and a round's number settle all that happens in it. Each buffer
 * ends at a page that cannot be read, or begins right after one, and one that the call only reads cannot be written.
 */
#define _GNU_SOURCE
#include <inttypes.h>
#include <stdio.h>
#include <stdlib.h>
#include <string.h>
#include <sys/mman.h>
#include <sys/wait.h>
#include <unistd.h>

#include "score.h"

enum { SCORE, STATE, INPUT, STORE, OUTPUT, SCRATCH, INPUTS, JOURNAL, SWITCHES, DRAFT, PLAIN, BUFFERS };
enum { CHECK, INSTANT, RUN, JOURNAL_CHECK, SETTINGS, TRANSLATE, FUNCTIONS };
enum { PAGE = 4096, MOST = 4 * PAGE, FILLER = 0xA5, SECONDS_A_ROUND = 60, ROUNDS_THAT_MEET_ALL = 5000, NUMBERS = 19 };

#define BIT(number) (1u << (number))
#define UP_TO(number) (2 * BIT(number) - 1)

/* Makes a fact of a rule word. */
#define FACT BIT(27)

/* Makes a watch of a when. */
#define WATCH_OF_WHEN BIT(31)

/* The buffers lent, those of them that may be written, and the numbers that may be answered: 11 never is, since every
 * body is an agent of the score.
 */
static const struct {
    const char *name;
    unsigned lent, written, numbers;
} functions[FUNCTIONS] = {
    {"score_check", BIT(SCORE), 0, UP_TO(SCORE_CIRCLE)},
    {"score_instant", BIT(SCORE) | BIT(STATE) | BIT(INPUT) | BIT(STORE) | BIT(OUTPUT) | BIT(SCRATCH),
     BIT(STATE) | BIT(STORE) | BIT(OUTPUT) | BIT(SCRATCH), UP_TO(SCORE_INPUT) | BIT(SCORE_LAST)},
    {"score_run", BIT(SCORE) | BIT(STATE) | BIT(INPUTS) | BIT(JOURNAL) | BIT(SCRATCH),
     BIT(STATE) | BIT(JOURNAL) | BIT(SCRATCH),
     UP_TO(SCORE_STATE) | BIT(SCORE_LIST_LENGTH) | BIT(SCORE_LIST_FORM) | BIT(SCORE_ROOM) | BIT(SCORE_LAST)},
    {"score_journal_check", BIT(SCORE) | BIT(JOURNAL) | BIT(SCRATCH), BIT(SCRATCH),
     UP_TO(SCORE_BUFFER) | BIT(SCORE_LIST_LENGTH) | BIT(SCORE_LIST_FORM) | BIT(SCORE_JOURNAL)},
    {"score_settings", BIT(SCORE) | BIT(STATE) | BIT(SWITCHES), 0, UP_TO(SCORE_STATE) | BIT(SCORE_SWITCHES)},
    {"score_translate", BIT(DRAFT) | BIT(PLAIN), BIT(PLAIN), UP_TO(SCORE_BUFFER) | BIT(SCORE_LARGE)},
};

/* At most MOST bytes, and behind them space for one instant more. */
struct bytes {
    size_t len;
    uint8_t at[MOST + PAGE];
};

/* The buffers, and how many switches are pressed. */
struct lent {
    struct bytes of[BUFFERS];
    uint32_t k;
};

/* Lengths that meet SCORE_BUFFER, of a scratch and of a state: none, a byte or more less or more, and those about
 * document 01's. How often each was refused, with every other length right.
 */
enum { LENGTHS = 8 };

static struct lengths {
    int buffer;
    const char *name;
    size_t wrong[LENGTHS];
    uint64_t met[FUNCTIONS][LENGTHS];
} lengths[] = {
    {SCRATCH, "scratch", {0, 64, 127, 129, 132, 136, 2047, 2048}, {{0}}},
    {STATE, "state", {0, 128, 131, 132, 133, 135, 137, 140}, {{0}}},
};

enum { SCRATCH_LENGTHS, STATE_LENGTHS };

static uint8_t *places[BUFFERS];
static uint64_t random_state, met[FUNCTIONS][NUMBERS], facts_met, watches_met, clashes_met, sent_clashes_met;
static uint64_t last_met[2], stopped_at_last_met, full_at_last_met, full_before_last_met, none_at_last_met;
static uint64_t settings_met[SCORE_ABORTED + 1], mixed_settings_met;

static void require(int holds, const char *broken)
{
    if (holds)
        return;
    printf("%s\n", broken);
    exit(1);
}

/* splitmix64 */
static uint64_t random_number(void)
{
    uint64_t mixed = random_state += UINT64_C(0x9E3779B97F4A7C15);
    mixed = (mixed ^ mixed >> 30) * UINT64_C(0xBF58476D1CE4E5B9);
    mixed = (mixed ^ mixed >> 27) * UINT64_C(0x94D049BB133111EB);
    return mixed ^ mixed >> 31;
}

static uint32_t below(size_t limit) { return (uint32_t)(random_number() % limit); }

static int one_in(uint32_t times) { return below(times) == 0; }

static uint32_t word_at(const struct bytes *bytes, size_t word)
{
    const uint8_t *byte = bytes->at + 4 * word;
    return (uint32_t)byte[0] | (uint32_t)byte[1] << 8 | (uint32_t)byte[2] << 16 | (uint32_t)byte[3] << 24;
}

static void push(struct bytes *bytes, uint32_t word)
{
    int i;
    for (i = 0; i < 4; i++)
        bytes->at[bytes->len++] = (uint8_t)(word >> 8 * i);
}

static uint32_t tokens_of(const struct bytes *score) { return (word_at(score, 0) & 0xFF) + 1; }

static uint32_t agents_of(const struct bytes *score) { return (word_at(score, 0) >> 8 & 0x3FF) + 1; }

static uint32_t procedures_of(const struct bytes *score) { return (word_at(score, 0) >> 18 & 0x3F) + 1; }

static int fits(const struct bytes *state) { return state->len == SCORE_STATE_BYTES; }

static int is_last(const struct bytes *state) { return score_state_number(state->at) == SCORE_LAST_NUMBER; }

/* Gives a state of the right length another number. */
static void set_number(struct bytes *state, uint32_t number)
{
    state->len -= SCORE_WORD_BYTES;
    push(state, number);
}

static int has_token(const struct bytes *map, uint32_t token) { return map->at[token / 8] >> token % 8 & 1; }

static int is_all(const uint8_t *bytes, size_t len, uint8_t value)
{
    return len == 0 || (*bytes == value && !memcmp(bytes, bytes + 1, len - 1));
}

static int same(const struct bytes *one, const struct bytes *other)
{
    return one->len == other->len && !memcmp(one->at, other->at, one->len);
}

/* Puts a buffer between filler and a page that cannot be read. At the first end, one of no bytes is lent as null. */
static uint8_t *lend(uint8_t *place, const struct bytes *bytes, int at_end, int protection)
{
    uint8_t *start = at_end ? place + MOST - bytes->len : place;
    require(!mprotect(place, MOST, PROT_READ | PROT_WRITE), "mprotect failed");
    memset(place, FILLER, MOST);
    memcpy(start, bytes->at, bytes->len);
    require(!mprotect(place, MOST, protection), "mprotect failed");
    return bytes->len == 0 && !at_end ? NULL : start;
}

static void take_back(const uint8_t *place, struct bytes *bytes, int at_end)
{
    size_t around = MOST - bytes->len;
    require(is_all(at_end ? place : place + bytes->len, around, FILLER), "bytes outside a buffer were written");
    memcpy(bytes->at, at_end ? place + around : place, bytes->len);
}

static uint64_t call_lent(int function, uint8_t **lent, const struct bytes *of, uint32_t k)
{
    switch (function) {
    case CHECK: return score_check(lent[SCORE], of[SCORE].len);
    case INSTANT:
        return score_instant(lent[SCORE], of[SCORE].len, lent[STATE], of[STATE].len, lent[INPUT], of[INPUT].len,
                             lent[STORE], of[STORE].len, lent[OUTPUT], of[OUTPUT].len, lent[SCRATCH], of[SCRATCH].len);
    case RUN:
        return score_run(lent[SCORE], of[SCORE].len, lent[STATE], of[STATE].len, lent[INPUTS], of[INPUTS].len,
                         lent[JOURNAL], of[JOURNAL].len, lent[SCRATCH], of[SCRATCH].len);
    case JOURNAL_CHECK:
        return score_journal_check(lent[SCORE], of[SCORE].len, lent[JOURNAL], of[JOURNAL].len, lent[SCRATCH],
                                   of[SCRATCH].len);
    case SETTINGS:
        return score_settings(lent[SCORE], of[SCORE].len, lent[STATE], of[STATE].len, lent[SWITCHES],
                              of[SWITCHES].len, k);
    default: return score_translate(lent[DRAFT], of[DRAFT].len, lent[PLAIN], of[PLAIN].len);
    }
}

/* The answer; leaves the buffers as the call does. The bits of `ends` say at which end of its place each one lies. */
static uint64_t call(int function, struct lent *lent, unsigned ends)
{
    unsigned used = functions[function].lent, written = functions[function].written, i;
    uint8_t *pointers[BUFFERS];
    uint64_t answer;
    for (i = 0; i < BUFFERS; i++)
        if (used & BIT(i))
            pointers[i] = lend(places[i], &lent->of[i], ends >> i & 1, PROT_READ | (written & BIT(i) ? PROT_WRITE : 0));
    answer = call_lent(function, pointers, lent->of, lent->k);
    for (i = 0; i < BUFFERS; i++)
        if (used & BIT(i))
            take_back(places[i], &lent->of[i], ends >> i & 1);
    return answer;
}

static unsigned differing(const struct lent *one, const struct lent *other)
{
    unsigned differing = 0, i;
    for (i = 0; i < BUFFERS; i++)
        if (!same(&one->of[i], &other->of[i]))
            differing |= BIT(i);
    return differing;
}

/* The buffers that a call may change when it answers the number. */
static unsigned changed_by(int function, uint32_t number)
{
    if (number == SCORE_ACCEPTED || number == SCORE_ROOM || (number == SCORE_LAST && function == RUN))
        return functions[function].written;
    return number == SCORE_JOURNAL ? BIT(SCRATCH) : 0;
}

/* Another content for a scratch, of the same length. */
static void refill(struct bytes *scratch)
{
    static const uint8_t fillers[] = {0x00, 0x01, 0x80, 0xFF};
    memset(scratch->at, fillers[below(sizeof fillers)], scratch->len);
}

/* The buffers lent that have another length than they should. */
static unsigned misfits(unsigned used, const struct bytes *of)
{
    static const size_t right[BUFFERS] = {[STATE] = SCORE_STATE_BYTES, [INPUT] = SCORE_MAP_BYTES,
                                          [STORE] = SCORE_MAP_BYTES, [OUTPUT] = SCORE_MAP_BYTES,
                                          [SCRATCH] = SCORE_SCRATCH_BYTES, [PLAIN] = SCORE_MAX_BYTES};
    unsigned misfits = 0, i;
    for (i = 0; i < BUFFERS; i++)
        if (used & BIT(i) && right[i] && of[i].len != right[i])
            misfits |= BIT(i);
    return misfits;
}

/* A call that gets past SCORE_BUFFER has buffers of the right lengths, and one that is refused by it has not. */
static void require_lengths(int function, const struct bytes *of, uint32_t number)
{
    unsigned wrong = misfits(functions[function].lent, of), i, k;
    int is_past = number == SCORE_ACCEPTED || number > SCORE_BUFFER;
    require(!is_past || !wrong, "a buffer of another length is taken");
    require(number != SCORE_BUFFER || wrong, "buffers of the right lengths are refused");
    for (i = 0; i < sizeof lengths / sizeof *lengths; i++)
        for (k = 0; k < LENGTHS; k++)
            lengths[i].met[function][k] += number == SCORE_BUFFER && wrong == BIT(lengths[i].buffer)
                                        && of[lengths[i].buffer].len == lengths[i].wrong[k];
}

/* Makes a call twice, on buffers that lie otherwise and a scratch that holds something else, and holds it to what every
 * call must keep.
 */
static uint64_t judged(int function, struct lent *lent)
{
    static struct lent before, again;
    static struct bytes refilled;
    unsigned ends = below(BIT(BUFFERS)), changed;
    uint64_t answer;
    uint32_t number;
    before = again = *lent;
    refill(&again.of[SCRATCH]);
    refilled = again.of[SCRATCH];
    answer = call(function, lent, ends);
    require(call(function, &again, ~ends) == answer, "the same call again answers something else");
    number = score_answer_number(answer);
    require(number < NUMBERS && functions[function].numbers & BIT(number), "a number that the call may not answer");
    require_lengths(function, lent->of, number);
    changed = changed_by(function, number);
    require(!(differing(&before, lent) & ~changed), "a buffer was changed that stays as it was");
    if (!(changed & BIT(SCRATCH))) {
        require(same(&again.of[SCRATCH], &refilled), "a scratch was changed that stays as it was");
        again.of[SCRATCH] = lent->of[SCRATCH];
    }
    require(!differing(lent, &again), "the same call again leaves other bytes");
    require(!(changed & BIT(SCRATCH)) || is_all(lent->of[SCRATCH].at, SCORE_SCRATCH_BYTES, 0), "scratch is not zero");
    met[function][number]++;
    return answer;
}

static int is_port(const struct bytes *score, uint32_t token)
{
    uint32_t ports = word_at(score, 1);
    return token >= (ports & 0xFF) && token <= (ports >> 8 & 0xFF);
}

/* A clash has every token of the score in its store, and sends nothing. */
static void require_clash(const struct bytes *of)
{
    uint32_t tokens = tokens_of(&of[SCORE]), token;
    require(is_all(of[OUTPUT].at, SCORE_MAP_BYTES, 0), "a clash has an output");
    for (token = 0; token < SCORE_MAX_TOKENS; token++)
        require(has_token(&of[STORE], token) == (token < tokens), "the store of a clash is not all tokens");
    clashes_met++;
}

/* A quiet instant without the clash sends the tokens of its store that are at the ports. */
static void require_quiet(const struct bytes *of)
{
    uint32_t token;
    require(!has_token(&of[STORE], 0), "a clash has status 0");
    for (token = 0; token < SCORE_MAX_TOKENS; token++)
        require(has_token(&of[OUTPUT], token) == (has_token(&of[STORE], token) && is_port(&of[SCORE], token)),
                "the output is not what the store has at the ports");
}

/* What an accepted instant has in its maps: each fact, and what its status says; nothing once the score is aborted. */
static void require_maps(const struct bytes *of, uint32_t status)
{
    const struct bytes *score = &of[SCORE];
    size_t word = 2 + agents_of(score) + procedures_of(score);
    if (status == SCORE_ABORTED) {
        require(is_all(of[STORE].at, SCORE_MAP_BYTES, 0), "an aborted instant has a store");
        require(is_all(of[OUTPUT].at, SCORE_MAP_BYTES, 0), "an aborted instant has an output");
        return;
    }
    if (status == SCORE_CLASH)
        require_clash(of);
    else
        require_quiet(of);
    for (; word < score->len / 4; word++) {
        if (!(word_at(score, word) & FACT))
            continue;
        require(has_token(&of[STORE], word_at(score, word) & 0xFF), "a fact is not in the store");
        facts_met++;
    }
}

/* 18 is met at the last number, where nothing is accepted; an accepted instant adds one to the number. */
static void require_number(const struct bytes *before, const struct bytes *after, uint64_t answer)
{
    uint32_t number = score_answer_number(answer);
    if (number == SCORE_LAST) {
        require(is_last(before), "18 before the last number");
        require(!score_answer_value(answer), "18 of an instant has a value");
        last_met[before->at[0] == 1]++;
    } else if (number == SCORE_ACCEPTED) {
        require(!is_last(before), "an instant is played at the last number");
        require(score_state_number(after->at) == score_state_number(before->at) + 1, "an instant does not add one");
    }
}

/* A number far from the last or near it. */
static uint32_t any_number(void)
{
    switch (below(4)) {
    case 0: return below(3);
    case 1: return SCORE_LAST_NUMBER - below(8);
    case 2: return (UINT32_C(0x100) << 8 * below(3)) - 1 - below(4);
    default: return (uint32_t)random_number();
    }
}

/* The same instant at another number. What is refused but for its number is refused as it was; else it is 18 at the
 * last number, and at any other one it is accepted and leaves the same, the number aside.
 */
static void require_at_other_number(const struct lent *before, const struct lent *after, uint64_t answer)
{
    static struct lent other;
    uint64_t other_answer;
    uint32_t number = score_answer_number(answer), other_number = one_in(2) ? SCORE_LAST_NUMBER : any_number();
    if (!fits(&before->of[STATE]))
        return;
    other = *before;
    set_number(&other.of[STATE], other_number);
    other_answer = judged(INSTANT, &other);
    if (number != SCORE_ACCEPTED && number != SCORE_LAST) {
        require(other_answer == answer, "an instant is refused otherwise at another number");
    } else if (other_number == SCORE_LAST_NUMBER) {
        require(score_answer_number(other_answer) == SCORE_LAST, "18 is not met at the last number");
    } else if (number == SCORE_LAST) {
        require(!score_answer_number(other_answer), "18 is met where something else is wrong");
    } else {
        require(other_answer == answer, "an instant has another answer at another number");
        require(score_state_number(other.of[STATE].at) == other_number + 1, "an instant does not add one");
        set_number(&other.of[STATE], score_state_number(after->of[STATE].at));
        require(!differing(&other, after), "an instant leaves other bytes at another number");
    }
}

/* An instant. Where it is accepted, so is another one on the state that it left, but at the last number. Of an aborted
 * state only the number changes.
 */
static uint64_t judged_instant(struct lent *lent)
{
    static struct bytes before;
    static struct lent next;
    uint64_t answer, next_answer;
    uint32_t status, count;
    before = lent->of[STATE];
    answer = judged(INSTANT, lent);
    status = score_answer_status(answer);
    count = score_answer_count(answer);
    require_number(&before, &lent->of[STATE], answer);
    if (score_answer_number(answer))
        return answer;
    require(status <= SCORE_ABORTED, "a status that there is not");
    require(count <= agents_of(&lent->of[SCORE]), "more agents were reduced than there are");
    require(status != SCORE_ABORTED || count == 0, "an aborted instant has a count");
    require_maps(lent->of, status);
    next = *lent;
    next_answer = judged(INSTANT, &next);
    require_number(&lent->of[STATE], &next.of[STATE], next_answer);
    require(!score_answer_number(next_answer) || is_last(&lent->of[STATE]), "the state of an instant is refused");
    if (status == SCORE_ABORTED && !score_answer_number(next_answer)) {
        require(next_answer == answer, "an aborted score plays on");
        set_number(&next.of[STATE], score_state_number(lent->of[STATE].at));
        require(same(&next.of[STATE], &lent->of[STATE]), "of an aborted state more than the number changes");
    }
    return answer;
}

/* Plays the list's instant that starts at a word, and appends to a journal what it must show. The word behind it. */
static size_t play(struct lent *one, size_t at, struct bytes *journal)
{
    const struct bytes *list = &one->of[INPUTS];
    uint8_t *input = one->of[INPUT].at, *status = journal->at + journal->len;
    uint32_t token;
    memset(input, 0, SCORE_MAP_BYTES);
    push(journal, word_at(list, at++));
    for (; at < list->len / 4 && word_at(list, at) >= SCORE_INPUT_WORD; at++) {
        token = word_at(list, at) & SCORE_TOKEN_MASK;
        input[token / 8] |= (uint8_t)BIT(token % 8);
        push(journal, word_at(list, at));
    }
    *status |= (uint8_t)score_answer_status(judged_instant(one));
    for (token = 0; token < 256; token++)
        if (has_token(&one->of[OUTPUT], token))
            push(journal, SCORE_OUTPUT_WORD | token);
    return at;
}

static int is_instant(uint32_t word) { return (word & SCORE_KIND_MASK) == SCORE_INSTANT_WORD; }

/* No clash of a journal of so many bytes shows outputs. */
static void require_silent_clashes(const struct bytes *journal, size_t len)
{
    uint32_t status = SCORE_QUIET, word;
    size_t at;
    for (at = 0; at < len / 4; at++) {
        word = word_at(journal, at);
        if (is_instant(word))
            status = word & SCORE_STATUS_MASK;
        require(status != SCORE_CLASH || word < SCORE_OUTPUT_WORD, "a run shows outputs in a clash");
    }
}

/* Where a run was stopped by 15 the next instant, which starts at a word, has a number and no room; by 18 it has no
 * number, and may have no room either. The instants before it are in the journal.
 */
static void require_stopped(struct lent *one, size_t at, struct bytes *journal, size_t room, uint32_t number)
{
    uint32_t at_number = score_state_number(one->of[STATE].at);
    require(number != SCORE_ROOM || at_number != SCORE_LAST_NUMBER, "15 is answered where 18 is due");
    require(number != SCORE_LAST || at_number == SCORE_LAST_NUMBER, "a run is stopped before the last number");
    stopped_at_last_met += number == SCORE_LAST && journal->len > 0;
    set_number(&one->of[STATE], 0);
    play(one, at, journal);
    require(number != SCORE_ROOM || journal->len > room, "the run stopped with room for the next instant");
    full_at_last_met += number == SCORE_LAST && journal->len > room;
    full_before_last_met += number == SCORE_ROOM && at_number == SCORE_LAST_NUMBER - 1;
}

/* A run's instants are those that are played one by one: the same journal and state, whose number has grown by as many.
 * The bytes that the run wrote.
 */
static size_t require_run(const struct lent *before, const struct lent *after, uint64_t answer)
{
    static struct lent one;
    static struct bytes journal;
    const struct bytes *old = &before->of[JOURNAL], *new = &after->of[JOURNAL];
    uint64_t written = score_answer_value(answer), i;
    uint32_t first = score_state_number(before->of[STATE].at), number = score_answer_number(answer);
    size_t at = 0, words = before->of[INPUTS].len / 4, len;
    one = *before;
    one.of[INPUT].len = one.of[STORE].len = one.of[OUTPUT].len = SCORE_MAP_BYTES;
    journal.len = 0;
    for (i = 0; i < written && at < words; i++)
        at = play(&one, at, &journal);
    len = journal.len;
    require_silent_clashes(new, len <= new->len ? len : new->len);
    require(i == written && (at < words) == (number != SCORE_ACCEPTED), "not the list's instants");
    require(score_state_number(after->of[STATE].at) == first + written, "a run does not add the instants written");
    require(same(&one.of[STATE], &after->of[STATE]), "the run leaves another state than its instants");
    require(len <= new->len && !memcmp(journal.at, new->at, len), "the journal does not show the instants");
    require(!memcmp(old->at + len, new->at + len, new->len - len), "the journal was written beyond the instants");
    if (at < words)
        require_stopped(&one, at, &journal, new->len, number);
    none_at_last_met += words == 0 && first == SCORE_LAST_NUMBER;
    return len;
}

/* The same run with few instants left before the last number: where they are fewer than it wrote, or as many and it was
 * stopped after them, it is stopped there by 18; else all is as it was.
 */
static void require_run_to_last(const struct lent *before, uint64_t answer)
{
    static struct lent other, after;
    uint64_t written = score_answer_value(answer), left = below(written + 2), other_answer;
    uint32_t number = score_answer_number(answer);
    if (number == SCORE_LAST && left > written)
        return;
    other = *before;
    set_number(&other.of[STATE], SCORE_LAST_NUMBER - (uint32_t)left);
    after = other;
    other_answer = judged(RUN, &after);
    if (left < written || (left == written && number != SCORE_ACCEPTED)) {
        require(score_answer_number(other_answer) == SCORE_LAST, "a run is not stopped at the last number");
        require(score_answer_value(other_answer) == left, "18 counts other instants than were written");
    } else {
        require(other_answer == answer, "a run has another answer at another number");
    }
    (void)require_run(&other, &after, other_answer);
}

/* One of the agents close below. */
static uint32_t close_below(uint32_t agent) { return agent - 1 - below(agent < 4 ? agent : 4); }

/* Where `watches` is not 0, one agent in so many is a watch, and there are parallels of what is close, so that much
 * stands under several watches.
 */
static uint32_t agent_word(uint32_t agent, uint32_t tokens, uint32_t procedures, uint32_t kinds, uint32_t watches)
{
    uint32_t abort = 1 + (uint32_t)one_in(8), kind = agent ? below(kinds) : 1;
    const uint32_t low[] = {abort, tokens, agent, agent, agent, agent, procedures};
    const uint32_t high[] = {1, 1, agent, tokens, 1, tokens, 1};
    uint32_t word = (4 + kind) << 28 | below(low[kind]);
    if (agent && watches && one_in(watches))
        return 0xF0000000 | close_below(agent) | below(tokens) << 10;
    if (agent && watches && one_in(2))
        return 0x60000000 | close_below(agent) | close_below(agent) << 10;
    return word | below(high[kind]) << 10;
}

static uint32_t rule_word(uint32_t tokens, int is_fact)
{
    uint32_t word = 0x20, i;
    if (is_fact)
        return 0x20000000 | FACT | below(tokens);
    for (i = 0; i < 3; i++)
        word = word << 8 | below(tokens);
    return word;
}

/* A score in its form, or a draft. Large ones call nothing; in small ones unguarded calls may lead back. Half of them
 * have facts, which are some rules or all.
 */
static void make_score(struct bytes *score, uint32_t watches)
{
    int large = one_in(12);
    uint32_t tokens = 1 + below(large ? 256 : 8), agents = 1 + below(large ? 1024 : 20), lowest = below(tokens), i;
    uint32_t procedures = 1 + below(large ? 64 : 3), rules = below(large ? 257 : 6), times = 1 + below(8);
    int has_facts = one_in(2);
    score->len = 0;
    push(score, 0x10000000 | (tokens - 1) | (agents - 1) << 8 | (procedures - 1) << 18);
    push(score, 0xB0000000 | lowest | (lowest + below(tokens - lowest)) << 8);
    for (i = 0; i < agents; i++)
        push(score, agent_word(i, tokens, procedures, large ? 6 : 7, watches));
    for (i = 0; i < procedures; i++)
        push(score, 0x30000000 | (agents - 1 - below((agents + 1) / 2)));
    for (i = 0; i < rules; i++)
        push(score, rule_word(tokens, has_facts && one_in(times)));
}

static void make_random(struct bytes *bytes, size_t len)
{
    size_t i;
    for (i = 0; i < len; i++)
        bytes->at[i] = (uint8_t)random_number();
    bytes->len = len;
}

/* A set with some of the numbers below a limit, whose flags start at a byte. */
static void make_set(struct bytes *set, size_t len, size_t flags, uint32_t limit)
{
    uint32_t times = 1 + below(8), i;
    memset(set->at, 0, len);
    for (i = 0; i < limit; i++)
        set->at[flags + i / 8] |= (uint8_t)(one_in(times) << i % 8);
    set->len = len;
}

/* The start state, or any other, at any number, which is at times an aborted one. */
static void make_state(struct bytes *state, const struct bytes *score, int is_start)
{
    uint32_t root = word_at(score, 2 + agents_of(score)) & 0x3FF;
    int is_aborted = !is_start && one_in(12);
    make_set(state, SCORE_STATE_BYTES, 4, is_start || is_aborted ? 0 : agents_of(score));
    state->at[0] = (uint8_t)is_aborted;
    state->at[3] = 0xF0;
    if (is_start)
        state->at[4 + root / 8] |= (uint8_t)BIT(root % 8);
    else
        set_number(state, any_number());
}

/* Cuts bytes off, or puts any others behind. */
static void resize(struct bytes *bytes, size_t len)
{
    while (bytes->len < len)
        bytes->at[bytes->len++] = (uint8_t)random_number();
    bytes->len = len;
}

/* At times gives a buffer a length that is refused. */
static void spoil_length(struct bytes *of, const struct lengths *lengths)
{
    if (one_in(12))
        resize(&of[lengths->buffer], lengths->wrong[below(LENGTHS)]);
}

static void make_list(struct bytes *list, uint32_t tokens)
{
    uint32_t instants = below(7), times, token;
    list->len = 0;
    while (instants-- > 0) {
        push(list, SCORE_INSTANT_WORD);
        times = 1 + below(8);
        for (token = 0; token < tokens; token++)
            if (one_in(times))
                push(list, SCORE_INPUT_WORD | token);
    }
}

/* Some distinct tokens in any order, few as a rule and seldom too many, and as a rule not more to be pressed. */
static void make_switches(struct bytes *switches, uint32_t tokens, uint32_t *k)
{
    uint32_t most = one_in(16) ? SCORE_MAX_SWITCHES + 4 : 6, i, other;
    uint32_t count = below((tokens < most ? tokens : most) + 1);
    uint8_t listed;
    for (i = 0; i < tokens; i++)
        switches->at[i] = (uint8_t)i;
    for (i = 0; i < count; i++) {
        other = i + below(tokens - i);
        listed = switches->at[other];
        switches->at[other] = switches->at[i];
        switches->at[i] = listed;
    }
    switches->len = count;
    *k = one_in(8) ? (uint32_t)random_number() >> below(32) : below(count + 1);
}

static void make(struct lent *lent, int from_start)
{
    struct bytes *of = lent->of;
    make_score(&of[SCORE], 0);
    make_score(&of[DRAFT], 2 + below(8));
    make_state(&of[STATE], &of[SCORE], from_start);
    make_set(&of[INPUT], SCORE_MAP_BYTES, 0, tokens_of(&of[SCORE]));
    make_list(&of[INPUTS], tokens_of(&of[SCORE]));
    make_random(&of[STORE], SCORE_MAP_BYTES);
    make_random(&of[OUTPUT], SCORE_MAP_BYTES);
    make_random(&of[SCRATCH], SCORE_SCRATCH_BYTES);
    spoil_length(of, &lengths[SCRATCH_LENGTHS]);
    spoil_length(of, &lengths[STATE_LENGTHS]);
    make_random(&of[JOURNAL], below(one_in(4) ? MOST : 200));
    make_switches(&of[SWITCHES], tokens_of(&of[SCORE]), &lent->k);
    make_random(&of[PLAIN], SCORE_MAX_BYTES);
}

/* From a word on, the bytes are what the other has from a word on; the other may be the same. */
static void splice(struct bytes *bytes, const struct bytes *other)
{
    size_t at = 4 * below(bytes->len / 4 + 1), from = 4 * below(other->len / 4 + 1), len = other->len - from;
    len = len < MOST - at ? len : MOST - at;
    memmove(bytes->at + at, other->at + from, len);
    bytes->len = at + len;
}

static void mutate(struct bytes *bytes, const struct bytes *other)
{
    size_t len = bytes->len, at = below(len + 1);
    uint32_t change = one_in(8) ? FACT : one_in(8) ? WATCH_OF_WHEN : below(one_in(2) ? 4 : 1024);
    switch (below(len < 4 ? 3 : 6)) {
    case 0: make_random(bytes, below(one_in(8) ? MOST : 200)); break;
    case 1: splice(bytes, other); break;
    case 2: splice(bytes, bytes); break;
    case 3: bytes->len = at; break;
    case 4:
        bytes->len = at / 4 * 4;
        push(bytes, word_at(bytes, below(len / 4)) ^ change);
        bytes->len = len;
        break;
    default: bytes->at[at] ^= (uint8_t)BIT(change % 8);
    }
}

/* Puts the words of all ports at the end of a journal's first clash, as document 01 has them. 0 where there is none, or
 * no space; else its instant is told.
 */
static int send_first_clash(struct bytes *journal, const struct bytes *score, uint64_t *instant)
{
    size_t words = journal->len / 4, at = 0, behind;
    uint32_t ports = word_at(score, 1), lowest = ports & 0xFF, highest = ports >> 8 & 0xFF, token;
    *instant = 0;
    while (at < words && word_at(journal, at) != (SCORE_INSTANT_WORD | SCORE_CLASH))
        *instant += (uint64_t)is_instant(word_at(journal, at++));
    if (at == words || words + highest - lowest + 1 > MOST / 4)
        return 0;
    do
        at++;
    while (at < words && !is_instant(word_at(journal, at)));
    behind = journal->len - 4 * at;
    memmove(journal->at + 4 * (at + highest - lowest + 1), journal->at + 4 * at, behind);
    journal->len = 4 * at;
    for (token = lowest; token <= highest; token++)
        push(journal, SCORE_OUTPUT_WORD | token);
    journal->len += behind;
    return 1;
}

/* A journal that is right but for the outputs of its first clash is refused there. */
static void judge_sent_clash(const struct lent *right)
{
    static struct lent lent;
    uint64_t instant, answer;
    lent = *right;
    if (!send_first_clash(&lent.of[JOURNAL], &lent.of[SCORE], &instant))
        return;
    answer = judged(JOURNAL_CHECK, &lent);
    require(score_answer_number(answer) == SCORE_JOURNAL, "a journal that shows outputs in a clash does not meet 14");
    require(score_answer_value(answer) == instant, "the clash that shows outputs is another instant");
    sent_clashes_met++;
}

/* The journal check of what a run from the start state wrote, of that with a clash sent, and of a mutation of it. */
static void judge_journal(struct lent *lent, uint64_t written, const struct bytes *other)
{
    uint64_t answer = judged(JOURNAL_CHECK, lent);
    require(!score_answer_number(answer), "a run's journal is refused");
    require(score_answer_value(answer) == written, "the journal check counts other instants than the run");
    judge_sent_clash(lent);
    mutate(&lent->of[JOURNAL], other);
    (void)judged(JOURNAL_CHECK, lent);
}

/* A call turns down a score as score_check does, or not at all. */
static void require_check(uint64_t checked, uint64_t answer)
{
    uint32_t number = score_answer_number(answer);
    int is_of_score = number > SCORE_ACCEPTED && number < SCORE_BUFFER;
    require(is_of_score ? answer == checked : !score_answer_number(checked), "score_check answers otherwise");
}

static int has_watch(const struct bytes *draft)
{
    size_t word;
    for (word = 2; word < 2 + agents_of(draft); word++)
        if (word_at(draft, word) >> 28 == 15)
            return 1;
    return 0;
}

/* What a call wrote as a plain score. */
static void take_plain(struct bytes *score, const struct bytes *plain, uint64_t answer)
{
    score->len = score_answer_value(answer);
    memcpy(score->at, plain->at, score->len);
}

/* A translation. Where it is accepted, bytes past the plain score stay as they were, the score check accepts it, and it
 * has no watch, and so is its own translation.
 */
static uint64_t judged_translate(struct lent *lent)
{
    static struct lent plain;
    static struct bytes old;
    uint64_t answer, len;
    old = lent->of[PLAIN];
    answer = judged(TRANSLATE, lent);
    len = score_answer_value(answer);
    if (score_answer_number(answer))
        return answer;
    require(len <= SCORE_MAX_BYTES, "a plain score is too long");
    require(!memcmp(old.at + len, lent->of[PLAIN].at + len, SCORE_MAX_BYTES - len), "bytes past the score changed");
    watches_met += (uint64_t)has_watch(&lent->of[DRAFT]);
    take_plain(&plain.of[SCORE], &lent->of[PLAIN], answer);
    require(!score_answer_number(judged(CHECK, &plain)), "the plain score is refused");
    plain.of[DRAFT] = plain.of[SCORE];
    make_random(&plain.of[PLAIN], SCORE_MAX_BYTES);
    require(judged(TRANSLATE, &plain) == answer, "the plain score has another translation's length");
    require(!memcmp(plain.of[PLAIN].at, plain.of[DRAFT].at, len), "the plain score has another translation");
    return answer;
}

/* A score is a draft, and is small enough. What the translation turns down, the score check turns down at the same
 * word, or for a watch.
 */
static void judge_draft(struct lent *lent)
{
    uint64_t answer = judged_translate(lent), checked;
    uint32_t number = score_answer_number(answer);
    lent->of[SCORE] = lent->of[DRAFT];
    checked = judged(CHECK, lent);
    if (!score_answer_number(checked))
        require(number == SCORE_ACCEPTED || number == SCORE_BUFFER, "a score is refused as a draft");
    if (number > SCORE_ACCEPTED && number < SCORE_BUFFER)
        require(checked == answer || score_answer_number(checked) == SCORE_FORM, "a draft's fault is not the score's");
}

/* A score that was run from its start state and its translation are run alike. */
static void judge_translated_run(const struct lent *made, const struct lent *after, uint64_t answer)
{
    static struct lent lent;
    lent = *made;
    lent.of[DRAFT] = made->of[SCORE];
    make_random(&lent.of[PLAIN], SCORE_MAX_BYTES);
    take_plain(&lent.of[SCORE], &lent.of[PLAIN], judged_translate(&lent));
    make_state(&lent.of[STATE], &lent.of[SCORE], 1);
    require(judged(RUN, &lent) == answer, "the run of a translation answers something else");
    require(same(&lent.of[JOURNAL], &after->of[JOURNAL]), "the run of a translation has another journal");
    require(score_state_number(lent.of[STATE].at) == score_state_number(after->of[STATE].at),
            "the run of a translation leaves another number");
}

/* Whether the switches, or how many of them are pressed, meet SCORE_SWITCHES. */
static int are_wrong(const struct bytes *switches, uint32_t tokens, uint32_t k)
{
    size_t i;
    if (switches->len > SCORE_MAX_SWITCHES || k > switches->len)
        return 1;
    for (i = 0; i < switches->len; i++)
        if (switches->at[i] >= tokens || memchr(switches->at, switches->at[i], i))
            return 1;
    return 0;
}

/* The answer of an instant on the same score and state, at number 0, that has a set of the switches as its input. */
static uint64_t answer_of_setting(const struct lent *lent, uint32_t set)
{
    static struct lent one;
    const struct bytes *switches = &lent->of[SWITCHES];
    size_t i;
    one.of[SCORE] = lent->of[SCORE];
    one.of[STATE] = lent->of[STATE];
    if (fits(&one.of[STATE]))
        set_number(&one.of[STATE], 0);
    one.of[INPUT].len = one.of[STORE].len = one.of[OUTPUT].len = SCORE_MAP_BYTES;
    one.of[SCRATCH].len = SCORE_SCRATCH_BYTES;
    memset(one.of[INPUT].at, 0, SCORE_MAP_BYTES);
    for (i = 0; i < switches->len && i < SCORE_MAX_SWITCHES; i++)
        if (set >> i & 1)
            one.of[INPUT].at[switches->at[i] / 8] |= (uint8_t)BIT(switches->at[i] % 8);
    return call(INSTANT, &one, below(BIT(BUFFERS)));
}

/* The settings of few switches are those that instants show one by one. */
static void require_instants(const struct lent *lent, uint64_t answer)
{
    uint32_t counts[SCORE_ABORTED + 1] = {0}, set, status;
    for (set = 0; set < BIT(lent->of[SWITCHES].len); set++)
        if ((uint32_t)__builtin_popcount(set) == lent->k)
            counts[score_answer_status(answer_of_setting(lent, set))]++;
    for (status = SCORE_QUIET; status <= SCORE_ABORTED; status++)
        require(counts[status] == score_settings_count(answer, status), "settings end otherwise than instants");
}

/* All settings are counted. Pressing a switch takes back neither a clash nor an abort; and no state has both, as a
 * clash answers every when and so leads to each abort that a setting leads to.
 */
static void require_counts(const struct lent *lent, uint64_t answer, uint32_t status_of_none)
{
    uint32_t quiet = score_settings_count(answer, SCORE_QUIET), clashes = score_settings_count(answer, SCORE_CLASH);
    uint32_t aborts = score_settings_count(answer, SCORE_ABORTED), n = (uint32_t)lent->of[SWITCHES].len, all = 1, i;
    for (i = 0; i < lent->k; i++)
        all = all * (n - i) / (i + 1);
    require(quiet + clashes + aborts == all, "the counts are not all settings");
    require(lent->k || score_settings_count(answer, status_of_none), "none pressed ends otherwise than an instant");
    require(status_of_none == SCORE_QUIET || !quiet, "a setting is quiet, though without it there is a clash or abort");
    require(status_of_none != SCORE_ABORTED || aborts == all, "a setting does not abort, though none pressed does");
    require(!clashes || !aborts, "settings of one state end with clashes and with aborts");
    for (i = SCORE_QUIET; i <= SCORE_ABORTED; i++)
        settings_met[i] += score_settings_count(answer, i) > 0;
    mixed_settings_met += quiet && quiet < all;
}

static void reverse(struct bytes *bytes)
{
    size_t i;
    for (i = 0; i < bytes->len / 2; i++) {
        uint8_t byte = bytes->at[i];
        bytes->at[i] = bytes->at[bytes->len - 1 - i];
        bytes->at[bytes->len - 1 - i] = byte;
    }
}

/* The number of the state does not matter. */
static void require_settings_at_other_number(const struct lent *lent, uint64_t answer)
{
    static struct lent other;
    if (!fits(&lent->of[STATE]))
        return;
    other = *lent;
    set_number(&other.of[STATE], any_number());
    require(judged(SETTINGS, &other) == answer, "settings have another answer at another number");
}

/* A count of settings turns down score and state as an instant does, and the switches exactly where they are wrong. */
static void judge_settings(struct lent *lent)
{
    enum { FEW = 4 };
    uint64_t of_none = answer_of_setting(lent, 0), answer = judged(SETTINGS, lent);
    uint32_t number = score_answer_number(answer);
    require_settings_at_other_number(lent, answer);
    if (score_answer_number(of_none)) {
        require(answer == of_none, "settings turn down a score or state otherwise than an instant");
        return;
    }
    if (are_wrong(&lent->of[SWITCHES], tokens_of(&lent->of[SCORE]), lent->k)) {
        require(number == SCORE_SWITCHES && !score_answer_value(answer), "wrong switches do not meet 17");
        return;
    }
    require(number == SCORE_ACCEPTED, "switches are refused that are not wrong");
    require_counts(lent, answer, score_answer_status(of_none));
    if (lent->of[SWITCHES].len <= FEW)
        require_instants(lent, answer);
    reverse(&lent->of[SWITCHES]);
    require(judged(SETTINGS, lent) == answer, "the order of the switches matters");
}

/* In half of the rounds score and state are left as they were made, so that there is a run from the start state. */
static void play_round(void)
{
    static struct lent made, other, lent;
    int from_start = one_in(2), i;
    uint64_t checked, answer;
    uint32_t number;
    make(&made, from_start);
    make(&other, from_start);
    for (i = from_start ? INPUT : SCORE; i < BUFFERS; i++)
        while (one_in(i == SCORE ? 2 : 6))
            mutate(&made.of[i], &other.of[i]);
    lent = made;
    judge_draft(&lent);
    lent = made;
    checked = judged(CHECK, &lent);
    answer = judged_instant(&lent);
    require_check(checked, answer);
    require_at_other_number(&made, &lent, answer);
    lent = made;
    answer = judged(RUN, &lent);
    require_check(checked, answer);
    number = score_answer_number(answer);
    if (number == SCORE_ACCEPTED || number == SCORE_ROOM || number == SCORE_LAST) {
        if (from_start)
            judge_translated_run(&made, &lent, answer);
        lent.of[JOURNAL].len = require_run(&made, &lent, answer);
        require_run_to_last(&made, answer);
        if (from_start)
            judge_journal(&lent, score_answer_value(answer), &other.of[INPUTS]);
    }
    lent = made;
    judge_settings(&lent);
    lent = made;
    if (one_in(2))
        lent.of[JOURNAL] = made.of[INPUTS];
    require_check(checked, judged(JOURNAL_CHECK, &lent));
}

/* Prints how often each length of a buffer was refused, by each function that is lent one. */
static void report_lengths(const struct lengths *of, uint64_t rounds)
{
    int function, i;
    for (function = 0; function < FUNCTIONS; function++) {
        if (!(functions[function].lent & BIT(of->buffer)))
            continue;
        printf("%s, %s refused:", functions[function].name, of->name);
        for (i = 0; i < LENGTHS; i++) {
            printf(" %u bytes: %" PRIu64, (unsigned)of->wrong[i], of->met[function][i]);
            require(of->met[function][i] || rounds < ROUNDS_THAT_MEET_ALL, ", which is never met");
        }
        printf("\n");
    }
}

/* Prints how often something was met. Over many rounds it must be. */
static void report_met(const char *what, uint64_t times, uint64_t rounds)
{
    printf("%s: %" PRIu64, what, times);
    require(times || rounds < ROUNDS_THAT_MEET_ALL, ", which is never met");
    printf("\n");
}

/* Prints how often each number, and what else must be, was met. Over many rounds, each that may be answered must be. */
static void report(uint64_t rounds)
{
    int function, number;
    for (function = 0; function < FUNCTIONS; function++) {
        printf("%s:", functions[function].name);
        for (number = 0; number < NUMBERS; number++) {
            if (!(functions[function].numbers & BIT(number)))
                continue;
            printf(" %d: %" PRIu64, number, met[function][number]);
            require(met[function][number] || rounds < ROUNDS_THAT_MEET_ALL, ", which is never met");
        }
        printf("\n");
    }
    report_met("facts", facts_met, rounds);
    report_met("drafts with watches", watches_met, rounds);
    report_met("clashes", clashes_met, rounds);
    report_met("journals that show outputs in a clash", sent_clashes_met, rounds);
    report_met("counts with settings quiet", settings_met[SCORE_QUIET], rounds);
    report_met("counts with settings that clash", settings_met[SCORE_CLASH], rounds);
    report_met("counts with settings that abort", settings_met[SCORE_ABORTED], rounds);
    report_met("counts with settings quiet and not", mixed_settings_met, rounds);
    report_met("instants at the last number of running states", last_met[0], rounds);
    report_met("instants at the last number of aborted states", last_met[1], rounds);
    report_met("runs over no instants at the last number", none_at_last_met, rounds);
    report_met("runs that wrote instants and then met 18", stopped_at_last_met, rounds);
    report_met("runs that met 18 where there was no room either", full_at_last_met, rounds);
    report_met("runs that met 15 at the instant before 18", full_before_last_met, rounds);
    report_lengths(&lengths[SCRATCH_LENGTHS], rounds);
    report_lengths(&lengths[STATE_LENGTHS], rounds);
}

static void play_rounds(uint64_t seed, uint64_t first, uint64_t rounds, uint64_t *round)
{
    int i;
    for (i = 0; i < BUFFERS; i++)
        places[i] = (uint8_t *)mmap(NULL, MOST + 2 * PAGE, PROT_NONE, MAP_PRIVATE | MAP_ANONYMOUS, -1, 0) + PAGE;
    for (*round = first; *round < first + rounds; ++*round) {
        random_state = seed << 40 ^ *round;
        random_state = random_number();
        alarm(SECONDS_A_ROUND);
        play_round();
    }
    report(rounds);
}

/* The rounds are played by a child, so that the round is known also where the child is killed. */
int main(int count, char **arguments)
{
    uint64_t *round = mmap(NULL, PAGE, PROT_READ | PROT_WRITE, MAP_SHARED | MAP_ANONYMOUS, -1, 0);
    uint64_t seed, rounds, first;
    int status = 1;
    if (count < 3 || count > 4 || round == MAP_FAILED)
        return 2;
    seed = strtoull(arguments[1], NULL, 10);
    rounds = strtoull(arguments[2], NULL, 10);
    first = count == 4 ? strtoull(arguments[3], NULL, 10) : 0;
    if (fork() == 0) {
        play_rounds(seed, first, rounds, round);
        return 0;
    }
    wait(&status);
    if (status)
        printf("failed: seed %" PRIu64 ", round %" PRIu64 "\n", seed, *round);
    else
        printf("fuzz: seed %" PRIu64 ", %" PRIu64 " rounds\n", seed, rounds);
    return status != 0;
}
