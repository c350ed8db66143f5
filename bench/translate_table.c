/* translate_table.c: times score_translate against the translation written by hand. */
#define _POSIX_C_SOURCE 199309L

#include <stdio.h>
#include <string.h>

#include "baseline.h"
#include "score.h"
#include "scores.h"
#include "tables.h"
#include "timing.h"

enum { REPETITIONS = 21 };

static const double REPETITION_NS = 2e6;

typedef uint64_t translator(const uint8_t *draft, size_t draft_len, uint8_t *plain, size_t plain_len);

/* Nanoseconds a call, over so many calls. */
static double time_calls(translator *translate, const struct score_bytes *draft, long calls)
{
    static uint8_t plain[SCORE_MAX_BYTES];
    double start = now_ns();
    long i;
    for (i = 0; i < calls; i++)
        translate(draft->bytes, draft->len, plain, sizeof plain);
    return (now_ns() - start) / (double)calls;
}

static long calls_in_a_repetition(translator *translate, const struct score_bytes *draft)
{
    return 1 + (long)(REPETITION_NS / (1 + time_calls(translate, draft, 3)));
}

/* Whether both answer alike, with this number, and leave the plain score alike; its bytes. */
static int agree(const struct score_bytes *draft, uint32_t number, unsigned *bytes)
{
    static uint8_t by_hand[SCORE_MAX_BYTES], plain[SCORE_MAX_BYTES];
    uint64_t answer;
    memset(by_hand, 0xA5, sizeof by_hand);
    memset(plain, 0xA5, sizeof plain);
    answer = baseline_translate(draft->bytes, draft->len, by_hand, sizeof by_hand);
    *bytes = (unsigned)score_answer_value(answer);
    return score_answer_number(answer) == number
        && score_translate(draft->bytes, draft->len, plain, sizeof plain) == answer
        && memcmp(plain, by_hand, sizeof plain) == 0;
}

/* Prints a row of the table; 0 if the translations differ. */
static int compare(const char *name, const struct score_bytes *draft, uint32_t number)
{
    double by_hand = 1e18, library = 1e18;
    long by_hand_calls, library_calls;
    unsigned bytes;
    int i;
    if (!agree(draft, number, &bytes)) {
        fprintf(stderr, "bench: %s: the translations differ\n", name);
        return 0;
    }
    by_hand_calls = calls_in_a_repetition(baseline_translate, draft);
    library_calls = calls_in_a_repetition(score_translate, draft);
    for (i = 0; i < REPETITIONS; i++) {
        by_hand = least(by_hand, time_calls(baseline_translate, draft, by_hand_calls));
        library = least(library, time_calls(score_translate, draft, library_calls));
    }
    printf("%-28s %6lu %6u %10.1f %10.1f %7.2f\n", name, (unsigned long)draft->len, bytes, by_hand, library,
           library / by_hand);
    return 1;
}

int print_translate_table(void)
{
    static struct score_bytes draft;
    int equal;
    printf("%-28s %6s %6s %10s %10s %7s\n", "translation", "bytes", "plain", "C ns", "library ns", "ratio");
    build_watched_winches(&draft, 12);
    equal = compare("12 watched winches", &draft, SCORE_ACCEPTED);
    build_watched_winches(&draft, 24);
    equal &= compare("24 watched winches", &draft, SCORE_ACCEPTED);
    build_call_chain(&draft);
    equal &= compare("no watch, chain through all", &draft, SCORE_ACCEPTED);
    build_diamond(&draft, 9);
    equal &= compare("9 watches in a diamond", &draft, SCORE_ACCEPTED);
    build_diamond(&draft, 16);
    return equal & compare("16 watches in a diamond: 16", &draft, SCORE_LARGE);
}
