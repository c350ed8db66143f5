/* settings.c: says before a tour how switches may be pressed. For each number of switches that are pressed together at
 * the start of a score it prints how many settings there are, and how many of them are quiet, clash and abort.
 *
 * Usage: settings SCORE TOKEN...
 * Exit status: 0 the settings were counted, 1 the score or the switches were refused, 2 the score cannot be read or
 * there is no such token.
 */
#include <stdio.h>
#include <stdlib.h>

#include "score.h"

static uint8_t score[SCORE_MAX_BYTES + 1]; /* one byte more shows that a file is too long */
static uint8_t state[SCORE_STATE_BYTES];
static uint8_t switches[SCORE_MAX_SWITCHES + 1]; /* one more shows that there are too many */
static size_t score_len, switches_len;

/* What each number's value is, and what is wrong with the score. */
static const char *const refusals[][2] = {
    {"", "nothing"},
    {"", "a score has a multiple of 4 bytes, from 4 to 5384"},
    {"", "the first word is not a head, or sets a bit that has no meaning"},
    {"", "there are too few or too many words for the head"},
    {"word", "it is of another kind than its place asks for, or sets a bit that has no meaning"},
    {"word", "a token is not in this score"},
    {"word", "it names an agent or procedure that it may not, or the lowest output token is above the highest"},
    {"procedure", "it calls itself within one instant, directly or through others"},
};

static uint32_t word_at(size_t word)
{
    const uint8_t *byte = score + SCORE_WORD_BYTES * word;
    return (uint32_t)byte[0] | (uint32_t)byte[1] << 8 | (uint32_t)byte[2] << 16 | (uint32_t)byte[3] << 24;
}

/* The start state of an accepted score: running, with the root of procedure 0 awake, at instant 0. */
static void start(void)
{
    uint32_t agents = (word_at(0) >> 8 & 0x3FF) + 1, root = word_at(2 + agents) & 0x3FF;
    state[3] = (uint8_t)(SCORE_STATE_RUNNING >> 24);
    state[4 + root / 8] = (uint8_t)(1 << root % 8);
}

/* Whether an answer is a refusal of the score; if so, says what is wrong. */
static int score_refused(uint64_t answer)
{
    uint32_t number = score_answer_number(answer);
    if (number == SCORE_ACCEPTED)
        return 0;
    printf("score: refused, number %u", (unsigned)number);
    if (*refusals[number][0])
        printf(", %s %lu", refusals[number][0], (unsigned long)score_answer_value(answer));
    printf(": %s\n", refusals[number][1]);
    return 1;
}

/* Says what is wrong with switches that are refused. */
static void print_switch_fault(void)
{
    unsigned tokens = (word_at(0) & 0xFF) + 1;
    size_t i, k;
    for (i = 0; i < switches_len; i++) {
        if (switches[i] >= tokens) {
            printf("token %u is not in this score, which has tokens 0 to %u\n", (unsigned)switches[i], tokens - 1);
            return;
        }
        for (k = 0; k < i; k++)
            if (switches[k] == switches[i]) {
                printf("token %u is listed twice\n", (unsigned)switches[i]);
                return;
            }
    }
    printf("there are more than %u\n", SCORE_MAX_SWITCHES);
}

/* Prints a line for each number of switches pressed; 0 if the switches are refused. */
static int print_table(void)
{
    uint32_t k;
    for (k = 0; k <= switches_len; k++) {
        uint64_t answer = score_settings(score, score_len, state, sizeof state, switches, switches_len, k);
        unsigned quiet = score_settings_count(answer, SCORE_QUIET), clash = score_settings_count(answer, SCORE_CLASH);
        unsigned aborted = score_settings_count(answer, SCORE_ABORTED);
        if (score_answer_number(answer) != SCORE_ACCEPTED) {
            printf("switches: refused, number %u: ", (unsigned)score_answer_number(answer));
            print_switch_fault();
            return 0;
        }
        if (k == 0)
            printf("pressed  settings   quiet   clash   abort\n");
        printf("%7u  %8u  %6u  %6u  %6u\n", (unsigned)k, quiet + clash + aborted, quiet, clash, aborted);
    }
    return 1;
}

/* 0 if one of the arguments is no token. */
static int read_switches(int count, char **arguments)
{
    int i;
    for (i = 0; i < count; i++) {
        char *end;
        unsigned long token = strtoul(arguments[i], &end, 10);
        if (*arguments[i] < '0' || *arguments[i] > '9' || *end || token >= SCORE_MAX_TOKENS) {
            fprintf(stderr, "settings: %s is no token\n", arguments[i]);
            return 0;
        }
        if (switches_len < sizeof switches)
            switches[switches_len++] = (uint8_t)token;
    }
    return 1;
}

int main(int count, char **arguments)
{
    FILE *file;
    if (count < 2) {
        fputs("usage: settings SCORE TOKEN...\n", stderr);
        return 2;
    }
    if (!read_switches(count - 2, arguments + 2))
        return 2;
    file = fopen(arguments[1], "rb");
    if (!file) {
        fputs("settings: cannot read the score\n", stderr);
        return 2;
    }
    score_len = fread(score, 1, sizeof score, file);
    fclose(file);
    if (score_refused(score_check(score, score_len)))
        return 1;
    start();
    return print_table() ? 0 : 1;
}
