/* engine_table.c: times all calls against two engines written by hand, on six scores, and the settings of switches on
 * one of them; and how the library's calls grow with the score.
 */
#define _POSIX_C_SOURCE 199309L

#include <stdio.h>
#include <string.h>

#include "baseline.h"
#include "engines.h"
#include "scores.h"
#include "tables.h"
#include "timing.h"

enum { INSTANTS = 1000, INSTANT_LEN_MAX = 4 * 513, REPETITIONS = 11, PRESSED = 8, SETTINGS = 12870 };

static const double REPETITION_NS = 2e6;

struct calls {
    check_call *check;
    instant_call *instant;
    run_call *run;
    journal_check_call *journal_check;
    settings_call *settings;
};

static const struct calls passes = {baseline_check, passes_instant, passes_run, passes_journal_check, passes_settings};
static const struct calls linear = {baseline_check, linear_instant, linear_run, linear_journal_check, linear_settings};

static const struct calls library = {score_check, score_instant, score_run, score_journal_check, score_settings};

static const struct calls *const engines[] = {&passes, &linear, &library};

enum { ENGINES = sizeof engines / sizeof *engines };

/* What is lent, and what it holds after a call. */
struct lent {
    struct score_bytes score;
    uint8_t start[SCORE_STATE_BYTES], state[SCORE_STATE_BYTES], input[SCORE_MAP_BYTES], store[SCORE_MAP_BYTES],
        output[SCORE_MAP_BYTES], scratch[SCORE_SCRATCH_BYTES], switches[SCORE_MAX_SWITCHES];
    uint8_t inputs[INSTANTS * INSTANT_LEN_MAX], journal[INSTANTS * INSTANT_LEN_MAX];
    size_t inputs_len, journal_len;
};

static uint64_t one_check(const struct calls *calls, struct lent *lent)
{
    return calls->check(lent->score.bytes, lent->score.len);
}

static uint64_t one_instant(const struct calls *calls, struct lent *lent)
{
    memcpy(lent->state, lent->start, SCORE_STATE_BYTES);
    return calls->instant(lent->score.bytes, lent->score.len, lent->state, SCORE_STATE_BYTES, lent->input,
                          SCORE_MAP_BYTES, lent->store, SCORE_MAP_BYTES, lent->output, SCORE_MAP_BYTES, lent->scratch,
                          SCORE_SCRATCH_BYTES);
}

static uint64_t one_run(const struct calls *calls, struct lent *lent)
{
    memcpy(lent->state, lent->start, SCORE_STATE_BYTES);
    return calls->run(lent->score.bytes, lent->score.len, lent->state, SCORE_STATE_BYTES, lent->inputs,
                      lent->inputs_len, lent->journal, sizeof lent->journal, lent->scratch, SCORE_SCRATCH_BYTES);
}

static uint64_t one_journal_check(const struct calls *calls, struct lent *lent)
{
    return calls->journal_check(lent->score.bytes, lent->score.len, lent->journal, lent->journal_len, lent->scratch,
                                SCORE_SCRATCH_BYTES);
}

static uint64_t one_settings(const struct calls *calls, struct lent *lent)
{
    return calls->settings(lent->score.bytes, lent->score.len, lent->start, SCORE_STATE_BYTES, lent->switches,
                           SCORE_MAX_SWITCHES, PRESSED);
}

/* A row of the table for one score. */
struct row {
    const char *name;
    uint64_t (*call)(const struct calls *calls, struct lent *lent);
    long instants;
};

static const struct row rows[] = {
    {"check", one_check, 1},
    {"instant", one_instant, 1},
    {"run", one_run, INSTANTS},
    {"journal check", one_journal_check, INSTANTS},
};

enum { ROWS = sizeof rows / sizeof *rows };

static const struct row settings_row = {"settings", one_settings, SETTINGS};

static void put_word(uint8_t *bytes, size_t *len, uint32_t word)
{
    int i;
    for (i = 0; i < 4; i++)
        bytes[(*len)++] = (uint8_t)(word >> 8 * i);
}

/* The start state: the root of procedure 0, the last agent, is awake. */
static void write_start(struct lent *lent)
{
    uint32_t agents = (lent->score.bytes[1] | (lent->score.bytes[2] & 3u) << 8) + 1, root = agents - 1;
    size_t len = 0;
    memset(lent->start, 0, SCORE_STATE_BYTES);
    put_word(lent->start, &len, 0xF0000000);
    lent->start[4 + root / 8] |= (uint8_t)(1 << root % 8);
}

/* The same input at every instant. */
static void write_inputs(struct lent *lent, const struct input_tokens *input)
{
    size_t i, instant;
    memset(lent->input, 0, SCORE_MAP_BYTES);
    for (i = 0; i < input->len; i++)
        lent->input[input->tokens[i] / 8] |= (uint8_t)(1 << input->tokens[i] % 8);
    lent->inputs_len = 0;
    for (instant = 0; instant < INSTANTS; instant++) {
        put_word(lent->inputs, &lent->inputs_len, 0xC0000000);
        for (i = 0; i < input->len; i++)
            put_word(lent->inputs, &lent->inputs_len, 0xD0000000 | input->tokens[i]);
    }
}

/* The length of a journal of 1,000 instants that was all zero. */
static size_t journal_len(const uint8_t *journal)
{
    size_t len = 0;
    while (len < INSTANTS * INSTANT_LEN_MAX && journal[len + 3] != 0)
        len += 4;
    return len;
}

/* The scores, each of a size. */
static const struct kind {
    const char *name;
    score_builder *build;
    uint32_t size;
} kinds[] = {
    {"60 agents", build_winches, 12},
    {"200, 40 winches", build_winches, 40},
    {"the same, 24 facts", build_season, 40},
    {"1,000 whens", build_when_chain, 1000},
    {"256 rules", build_rule_chain, 256},
    {"deep sharing", build_deep_sharing, 1000},
};

enum { KINDS = sizeof kinds / sizeof *kinds };

static void prepare(struct lent *lent, score_builder *build, uint32_t size)
{
    struct input_tokens input;
    memset(lent, 0, sizeof *lent);
    build(&lent->score, &input, size);
    write_start(lent);
    write_inputs(lent, &input);
    one_run(&passes, lent);
    lent->journal_len = journal_len(lent->journal);
}

/* Whether both accept a call on buffers that hold the same, answer it alike and leave the buffers alike. */
static int agree(const struct row *row, const struct calls *one, const struct calls *other, struct lent *lent)
{
    static struct lent copy;
    uint64_t answer;
    memset(lent->scratch, 0xA5, SCORE_SCRATCH_BYTES);
    copy = *lent;
    answer = row->call(one, lent);
    return score_answer_number(answer) == SCORE_ACCEPTED && row->call(other, &copy) == answer
        && memcmp(&copy, lent, sizeof copy) == 0;
}

/* Nanoseconds an instant, over so many calls. */
static double time_calls(const struct row *row, const struct calls *calls, struct lent *lent, long times)
{
    double start = now_ns();
    long i;
    for (i = 0; i < times; i++)
        row->call(calls, lent);
    return (now_ns() - start) / ((double)times * (double)row->instants);
}

static long calls_in_a_repetition(const struct row *row, const struct calls *calls, struct lent *lent)
{
    return 1 + (long)(REPETITION_NS / (1 + time_calls(row, calls, lent, 1) * (double)row->instants));
}

/* The engines are timed in turn, so that a busy machine slows all of them. */
static void time_in_turn(const struct row *row, struct lent *lent, double ns[ENGINES])
{
    long times[ENGINES];
    int repetition, i;
    for (i = 0; i < ENGINES; i++) {
        times[i] = calls_in_a_repetition(row, engines[i], lent);
        ns[i] = 1e18;
    }
    for (repetition = 0; repetition < REPETITIONS; repetition++)
        for (i = 0; i < ENGINES; i++)
            ns[i] = least(ns[i], time_calls(row, engines[i], lent, times[i]));
}

/* Prints a row; 0 if the engines differ. */
static int print_row(const char *name, const struct row *row, struct lent *lent)
{
    double ns[ENGINES];
    if (!agree(row, &passes, &linear, lent) || !agree(row, &passes, &library, lent)) {
        fprintf(stderr, "bench: %s, %s: the engines refuse it or differ\n", name, row->name);
        return 0;
    }
    time_in_turn(row, lent, ns);
    printf("%-20s %-14s %10.1f %10.1f %10.1f %8.2f %8.2f\n", name, row->name, ns[0], ns[1], ns[2], ns[2] / ns[0],
           ns[2] / ns[1]);
    return 1;
}

/* All settings of half of the switches, from the start state. */
static int print_settings_row(const struct kind *kind, struct lent *lent)
{
    prepare(lent, kind->build, kind->size);
    write_switches(lent->switches);
    return print_row(kind->name, &settings_row, lent);
}

int print_engine_table(void)
{
    static struct lent lent;
    int kind, row, equal = 1;
    printf("%-20s %-14s %10s %10s %10s %8s %8s\n", "ns a check/instant", "call", "C passes", "C linear", "library",
           "/passes", "/linear");
    for (kind = 0; kind < KINDS; kind++) {
        prepare(&lent, kinds[kind].build, kinds[kind].size);
        for (row = 0; row < ROWS; row++)
            equal &= print_row(kinds[kind].name, &rows[row], &lent);
    }
    return equal & print_settings_row(&kinds[1], &lent);
}

/* How the library's time for a call grows from a score of half the size to the whole; 0 if an answer is wrong. */
static double growth(const struct kind *kind, const struct row *row)
{
    static struct lent lent[2];
    double ns[2] = {1e18, 1e18};
    long times[2];
    int repetition, i;
    for (i = 0; i < 2; i++) {
        prepare(&lent[i], kind->build, kind->size * (1 + i) / 2);
        if (!agree(row, &passes, &library, &lent[i]))
            return 0;
        times[i] = calls_in_a_repetition(row, &library, &lent[i]);
    }
    for (repetition = 0; repetition < REPETITIONS; repetition++)
        for (i = 0; i < 2; i++)
            ns[i] = least(ns[i], time_calls(row, &library, &lent[i], times[i]));
    return ns[1] / ns[0];
}

/* No call may grow faster than the square of the score's size, which is fourfold where it doubles. */
int print_growth_table(void)
{
    int kind, row, equal = 1;
    printf("%-20s", "growth, size doubled");
    for (row = 0; row < ROWS; row++)
        printf(" %14s", rows[row].name);
    printf("\n");
    for (kind = 0; kind < KINDS; kind++) {
        printf("%-20s", kinds[kind].name);
        for (row = 0; row < ROWS; row++) {
            double factor = growth(&kinds[kind], &rows[row]);
            equal &= factor > 0;
            printf(" %14.2f", factor);
        }
        printf("\n");
    }
    return equal;
}
