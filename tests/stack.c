/* stack.c: measures the stack that each call needs and holds it to what the header says.
 *
 * Usage: stack SCORE
 * Each call is measured on the score in the file and on ones that are as large as a score can be, in a clash and in an
 * instant that sends what it can; the settings of switches also where there are most of them; the translation also on
 * the longest chains of bodies and calls.
 */
#include <stdio.h>
#include <string.h>
#include <ucontext.h>

#include "score.h"

#define ROOM (8 * 1024 * 1024)
#define UNTOUCHED 0xA5

static unsigned char stack[ROOM];
static ucontext_t caller, callee;
static uint8_t score[SCORE_MAX_BYTES];
static size_t score_len;
static uint8_t state[SCORE_STATE_BYTES], input[SCORE_MAP_BYTES], store[SCORE_MAP_BYTES], output[SCORE_MAP_BYTES];
static uint8_t inputs[2 * SCORE_WORD_BYTES], journal[SCORE_MAX_JOURNAL_INSTANT_BYTES], scratch[SCORE_SCRATCH_BYTES];
static size_t journal_len;
static uint8_t plain[SCORE_MAX_BYTES];
static const uint8_t switches[SCORE_MAX_SWITCHES] = {0, 1, 2, 3, 4, 5, 6, 7, 8, 9, 10, 11, 12, 13, 14, 15};
static size_t switches_len;
static uint32_t pressed;
static uint64_t answer;

static uint32_t word_at(const uint8_t *bytes, size_t word)
{
    const uint8_t *byte = bytes + SCORE_WORD_BYTES * word;
    return (uint32_t)byte[0] | (uint32_t)byte[1] << 8 | (uint32_t)byte[2] << 16 | (uint32_t)byte[3] << 24;
}

static void put_word(uint8_t *bytes, size_t word, uint32_t value)
{
    size_t i;
    for (i = 0; i < SCORE_WORD_BYTES; i++)
        bytes[SCORE_WORD_BYTES * word + i] = (uint8_t)(value >> 8 * i);
}

/* Every agent is a parallel of the one below it with agent 0, a tell; every procedure has the last one for its root;
 * every rule concludes a token of its own, from the lowest on, which is the clash or not.
 */
static void build_largest(uint32_t lowest)
{
    uint32_t word = 0, i;
    put_word(score, word++, 0x10FFFFFF);
    put_word(score, word++, 0xB000FF00);
    put_word(score, word++, 0x50000001);
    for (i = 1; i < SCORE_MAX_AGENTS; i++)
        put_word(score, word++, 0x60000000 | (i - 1));
    for (i = 0; i < SCORE_MAX_PROCEDURES; i++)
        put_word(score, word++, 0x30000000 | (SCORE_MAX_AGENTS - 1));
    for (i = 0; i < SCORE_MAX_RULES; i++)
        put_word(score, word++, 0x20010100 | (i < lowest ? lowest : i));
    score_len = SCORE_WORD_BYTES * word;
}

/* Head and ports of a draft; the word behind them. */
static uint32_t begin(uint32_t tokens, uint32_t agents, uint32_t procedures)
{
    put_word(score, 0, 0x10000000 | (tokens - 1) | (agents - 1) << 8 | (procedures - 1) << 18);
    put_word(score, 1, 0xB0000000);
    return 2;
}

/* Each procedure calls the next one below whens, or below these and a watch of a token of its own at the root: 1,024
 * agents, each body or root of the one before.
 */
static void build_chain(int has_watches)
{
    uint32_t word = begin(SCORE_MAX_TOKENS, SCORE_MAX_AGENTS, SCORE_MAX_PROCEDURES), agent, procedure;
    for (agent = 0; agent < SCORE_MAX_AGENTS; agent++) {
        procedure = agent / 16;
        if (agent % 16 == 0 && procedure + 1 < SCORE_MAX_PROCEDURES)
            put_word(score, word++, 0xA0000000 | (procedure + 1));
        else if (agent % 16 == 0)
            put_word(score, word++, 0x40000000);
        else if (agent % 16 == 15 && has_watches)
            put_word(score, word++, 0xF0000000 | (agent - 1) | procedure << 10);
        else
            put_word(score, word++, 0x70000000 | (agent - 1) | 1 << 10);
    }
    for (procedure = 0; procedure < SCORE_MAX_PROCEDURES; procedure++)
        put_word(score, word++, 0x30000000 | (16 * procedure + 15));
    score_len = SCORE_WORD_BYTES * word;
}

/* The one procedure leads past 900 watches to a branch for each of so many tokens, where after a next it is called
 * again under a watch of that token: on one path there are as many rounds as branches, each past all 900 watches.
 */
static void build_rounds(uint32_t branches)
{
    enum { WATCHES = 900 };
    uint32_t word = begin(1 + branches, 2 + 2 * branches + WATCHES, 1), agent = 2, i;
    put_word(score, word++, 0xA0000000);
    put_word(score, word++, 0x80000000);
    for (i = 0; i < branches; i++, agent += 2) {
        put_word(score, word++, 0xF0000001 | (1 + i) << 10);
        put_word(score, word++, 0x60000000 | agent | (agent - 1) << 10);
    }
    for (i = 0; i < WATCHES; i++, agent++)
        put_word(score, word++, 0xF0000000 | (agent - 1));
    put_word(score, word++, 0x30000000 | (agent - 1));
    score_len = SCORE_WORD_BYTES * word;
}

/* A when on each of 16 tokens, each beside the whens before it. */
static void build_small(void)
{
    uint32_t word = begin(SCORE_MAX_SWITCHES, 2 * SCORE_MAX_SWITCHES + 1, 1), token;
    put_word(score, word++, 0x40000000);
    for (token = 0; token < SCORE_MAX_SWITCHES; token++) {
        put_word(score, word++, 0x70000000 | token << 10);
        put_word(score, word++, 0x60000000 | 2 * token | (2 * token + 1) << 10);
    }
    put_word(score, word++, 0x30000000 | 2 * SCORE_MAX_SWITCHES);
    score_len = SCORE_WORD_BYTES * word;
}

/* The start state, but at a number. */
static void start_at(uint32_t number)
{
    uint32_t agents = (word_at(score, 0) >> 8 & 0x3FF) + 1;
    uint32_t root = word_at(score, 2 + agents) & 0x3FF;
    memset(state, 0, sizeof state);
    put_word(state, 0, SCORE_STATE_RUNNING);
    state[4 + root / 8] = (uint8_t)(1 << root % 8);
    put_word(state, SCORE_STATE_BYTES / SCORE_WORD_BYTES - 1, number);
}

static void start(void)
{
    start_at(0);
}

static void check(void)
{
    answer = score_check(score, score_len);
}

static void instant(void)
{
    answer = score_instant(score, score_len, state, sizeof state, input, sizeof input, store, sizeof store, output,
                           sizeof output, scratch, sizeof scratch);
}

static void run(void)
{
    answer = score_run(score, score_len, state, sizeof state, inputs, sizeof inputs, journal, sizeof journal, scratch,
                       sizeof scratch);
}

static void journal_check(void)
{
    answer = score_journal_check(score, score_len, journal, journal_len, scratch, sizeof scratch);
}

static void settings(void)
{
    answer = score_settings(score, score_len, state, sizeof state, switches, switches_len, pressed);
}

static void translate(void)
{
    answer = score_translate(score, score_len, plain, sizeof plain);
}

/* The bytes of a stack of its own that a call has written. */
static size_t used_by(void (*call)(void))
{
    size_t untouched = 0;
    memset(stack, UNTOUCHED, ROOM);
    getcontext(&callee);
    callee.uc_stack.ss_sp = stack;
    callee.uc_stack.ss_size = ROOM;
    callee.uc_link = &caller;
    makecontext(&callee, call, 0);
    swapcontext(&caller, &callee);
    while (stack[untouched] == UNTOUCHED)
        untouched++;
    return ROOM - untouched;
}

static int held_at(uint32_t number, const char *name, size_t used, size_t stated)
{
    printf("%s: %u bytes of stack, %u stated\n", name, (unsigned)used, (unsigned)stated);
    return score_answer_number(answer) == number && used <= stated;
}

static int held(const char *name, size_t used, size_t stated)
{
    return held_at(SCORE_ACCEPTED, name, used, stated);
}

static int translation_held(uint32_t number)
{
    return held_at(number, "score_translate", used_by(translate), SCORE_TRANSLATE_STACK_BYTES);
}

/* So many of the first tokens are switches, and so many of them are pressed, from the start state. */
static int settings_held(size_t count, uint32_t k)
{
    switches_len = count;
    pressed = k;
    start();
    return held("score_settings", used_by(settings), SCORE_SETTINGS_STACK_BYTES);
}

/* An instant and a run that are wanted at the last number. */
static int last_held(void)
{
    int right;
    start_at(SCORE_LAST_NUMBER);
    right = held_at(SCORE_LAST, "score_instant", used_by(instant), SCORE_INSTANT_STACK_BYTES);
    return right & held_at(SCORE_LAST, "score_run", used_by(run), SCORE_RUN_STACK_BYTES);
}

/* The input is token 0, the clash, which answers all that waits, or token 1, with which outputs are sent. */
static int all_held(uint32_t token)
{
    uint32_t tokens = (word_at(score, 0) & 0xFF) + 1;
    int right;
    right = held("score_check", used_by(check), SCORE_CHECK_STACK_BYTES);
    start();
    input[0] = (uint8_t)(1 << token);
    right &= held("score_instant", used_by(instant), SCORE_INSTANT_STACK_BYTES);
    right &= score_answer_status(answer) == (token == 0 ? SCORE_CLASH : SCORE_QUIET);
    start_at(SCORE_LAST_NUMBER - 1);
    put_word(inputs, 0, SCORE_INSTANT_WORD);
    put_word(inputs, 1, SCORE_INPUT_WORD | token);
    memset(journal, 0, sizeof journal);
    right &= held("score_run", used_by(run), SCORE_RUN_STACK_BYTES);
    right &= score_state_number(state) == SCORE_LAST_NUMBER && last_held();
    for (journal_len = 0; journal_len < sizeof journal && word_at(journal, journal_len / SCORE_WORD_BYTES);)
        journal_len += SCORE_WORD_BYTES;
    right &= held("score_journal_check", used_by(journal_check), SCORE_JOURNAL_CHECK_STACK_BYTES);
    right &= score_answer_value(answer) == 1;
    right &= settings_held(tokens < SCORE_MAX_SWITCHES ? tokens : SCORE_MAX_SWITCHES, 2);
    return right & translation_held(SCORE_ACCEPTED);
}

/* As many settings as there can be, of which those that press token 0 clash. */
static int most_settings_held(void)
{
    build_small();
    return settings_held(SCORE_MAX_SWITCHES, SCORE_MAX_SWITCHES / 2)
        && score_settings_count(answer, SCORE_QUIET) == 6435 && score_settings_count(answer, SCORE_CLASH) == 6435;
}

/* Chains without watches and with them; and rounds that fit, and rounds that do not. */
static int chains_held(void)
{
    int right;
    build_chain(0);
    right = translation_held(SCORE_ACCEPTED) && score_answer_value(answer) == 4 * (2 + 1024 + 64);
    build_chain(1);
    right &= translation_held(SCORE_ACCEPTED) && score_answer_value(answer) == 4 * (2 + 15 * 64 + 64);
    build_rounds(4);
    right &= translation_held(SCORE_ACCEPTED);
    build_rounds(40);
    return right & translation_held(SCORE_LARGE);
}

int main(int count, char **arguments)
{
    FILE *file = count == 2 ? fopen(arguments[1], "rb") : NULL;
    int right;
    if (!file)
        return 2;
    score_len = fread(score, 1, sizeof score, file);
    fclose(file);
    right = all_held(0);
    right &= all_held(1);
    build_largest(0);
    right &= all_held(0);
    build_largest(1);
    right &= all_held(1);
    right &= most_settings_held();
    right &= chains_held();
    return right ? 0 : 1;
}
