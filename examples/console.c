/* console.c: what a console does with a score: checks it, plays it instant by instant, then runs what was played again
 * and checks the journal. The switches are simulated.
 *
 * Usage: console SCORE
 * Exit status: 0 all went as it should, 1 something was refused, 2 the score cannot be read.
 */
#include <stdio.h>
#include <string.h>

#include "score.h"

/* The tokens of the switches that are pressed, a map for each instant: {1}, {}, {1, 3}. */
enum { INSTANTS = 3 };
static const uint8_t switches[INSTANTS][SCORE_MAP_BYTES] = {{0x02}, {0x00}, {0x0A}};

static uint8_t score[SCORE_MAX_BYTES + 1]; /* one byte more shows that a file is too long */
static uint8_t state[SCORE_STATE_BYTES], store[SCORE_MAP_BYTES], output[SCORE_MAP_BYTES], scratch[SCORE_SCRATCH_BYTES];
static uint8_t list[INSTANTS * SCORE_MAX_LIST_INSTANT_BYTES], journal[INSTANTS * SCORE_MAX_JOURNAL_INSTANT_BYTES];

/* What each number's value is, and what is wrong. */
static const char *const refusals[][2] = {
    {"", "nothing"},
    {"", "a score has a multiple of 4 bytes, from 4 to 5384"},
    {"", "the first word is not a head, or sets a bit that has no meaning"},
    {"", "there are too few or too many words for the head"},
    {"word", "it is of another kind than its place asks for, or sets a bit that has no meaning"},
    {"word", "a token is not in this score"},
    {"word", "it names an agent or procedure that it may not, or the lowest output token is above the highest"},
    {"procedure", "it calls itself within one instant, directly or through others"},
    {"", "a state, map or scratch has another length than the header's"},
    {"", "the state is not one of this score"},
    {"", "an input token is not in this score"},
    {"", "the next state would not be one of this score"},
    {"", "the list or journal is not a multiple of 4 bytes"},
    {"word", "it may not stand there in a list or journal, or its token is not in this score"},
    {"instant", "the journal is not what the score plays"},
    {"instants written", "the journal has no room for the next instant"},
    {"", "the plain score of a draft would be too large"},
    {"", "the switches are not ones of this score, each listed once, or more are to be pressed than there are"},
    {"instants written", "the instant has no number: the state has the last that there is"},
};

/* Whether an answer is a refusal; if so, says what is wrong. */
static int refused(const char *what, uint64_t answer)
{
    uint32_t number = score_answer_number(answer);
    if (number == SCORE_ACCEPTED)
        return 0;
    printf("%s: refused, number %u", what, (unsigned)number);
    if (*refusals[number][0])
        printf(", %s %lu", refusals[number][0], (unsigned long)score_answer_value(answer));
    printf(": %s\n", refusals[number][1]);
    return 1;
}

static uint32_t word_at(const uint8_t *bytes, size_t word)
{
    const uint8_t *byte = bytes + SCORE_WORD_BYTES * word;
    return (uint32_t)byte[0] | (uint32_t)byte[1] << 8 | (uint32_t)byte[2] << 16 | (uint32_t)byte[3] << 24;
}

static void put_word(uint8_t *bytes, size_t word, uint32_t value)
{
    size_t i;
    for (i = 0; i < SCORE_WORD_BYTES; i++)
        bytes[SCORE_WORD_BYTES * word + i] = (uint8_t)(value >> 8 * i);
}

/* The start state of an accepted score: running, with the root of procedure 0 awake, at instant 0. */
static void start(void)
{
    uint32_t agents = (word_at(score, 0) >> 8 & 0x3FF) + 1, root = word_at(score, 2 + agents) & 0x3FF;
    memset(state, 0, sizeof state);
    put_word(state, 0, SCORE_STATE_RUNNING);
    state[4 + root / 8] |= (uint8_t)(1 << root % 8);
}

/* Plays the instants, prints their outputs and keeps their inputs as a list; its bytes, or 0 after a refusal. */
static size_t play(size_t score_len)
{
    static const char *const statuses[] = {"quiet", "clash", "aborted"};
    size_t words = 0;
    uint32_t i, token;
    for (i = 0; i < INSTANTS; i++) {
        uint32_t number = score_state_number(state); /* the one that a stage manager calls cues by */
        uint64_t answer = score_instant(score, score_len, state, sizeof state, switches[i], sizeof switches[i], store,
                                        sizeof store, output, sizeof output, scratch, sizeof scratch);
        if (refused("instant", answer))
            return 0;
        printf("instant %lu: %s, %u agents reduced, outputs", (unsigned long)number,
               statuses[score_answer_status(answer)], (unsigned)score_answer_count(answer));
        put_word(list, words++, SCORE_INSTANT_WORD);
        for (token = 0; token < SCORE_MAX_TOKENS; token++) {
            if (switches[i][token / 8] >> token % 8 & 1)
                put_word(list, words++, SCORE_INPUT_WORD | token);
            if (output[token / 8] >> token % 8 & 1)
                printf(" %u", (unsigned)token);
        }
        printf("\n");
    }
    return SCORE_WORD_BYTES * words;
}

int main(int count, char **arguments)
{
    FILE *file = count == 2 ? fopen(arguments[1], "rb") : NULL;
    size_t score_len, list_len, words = 0;
    uint64_t answer;
    if (!file) {
        fputs(count == 2 ? "console: cannot read the score\n" : "usage: console SCORE\n", stderr);
        return 2;
    }
    score_len = fread(score, 1, sizeof score, file);
    fclose(file);
    if (refused("score", score_check(score, score_len)))
        return 1;
    start();
    list_len = play(score_len);
    if (list_len == 0)
        return 1;

    start();
    memset(journal, 0, sizeof journal);
    answer = score_run(score, score_len, state, sizeof state, list, list_len, journal, sizeof journal, scratch,
                       sizeof scratch);
    if (refused("run", answer))
        return 1;
    while (words < sizeof journal / SCORE_WORD_BYTES && word_at(journal, words) != 0)
        words++; /* the run wrote over zeros, and no word of a journal is 0 */
    printf("run: %lu instants, %lu words, next is instant %lu\n", (unsigned long)score_answer_value(answer),
           (unsigned long)words, (unsigned long)score_state_number(state));

    answer = score_journal_check(score, score_len, journal, SCORE_WORD_BYTES * words, scratch, sizeof scratch);
    if (refused("journal", answer))
        return 1;
    printf("journal: %lu instants, as the score plays them\n", (unsigned long)score_answer_value(answer));

    journal[0] ^= 1; /* another status in the first instant */
    answer = score_journal_check(score, score_len, journal, SCORE_WORD_BYTES * words, scratch, sizeof scratch);
    return refused("changed journal", answer) ? 0 : 1;
}
