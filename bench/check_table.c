/* check_table.c: times score_check against the check written by hand, on four scores. */
#define _POSIX_C_SOURCE 199309L

#include <stdio.h>

#include "baseline.h"
#include "score.h"
#include "scores.h"
#include "tables.h"
#include "timing.h"

enum { REPETITIONS = 41 };

static const double REPETITION_NS = 2e6;

static int load(struct score_bytes *score, const char *name)
{
    FILE *file = fopen(name, "rb");
    if (!file)
        return 0;
    score->len = fread(score->bytes, 1, sizeof score->bytes, file);
    return fclose(file) == 0 && score->len > 0;
}

typedef uint64_t checker(const uint8_t *score, size_t score_len);

/* Nanoseconds a call, over so many calls. */
static double time_calls(checker *check, const struct score_bytes *score, long calls)
{
    double start = now_ns();
    long i;
    for (i = 0; i < calls; i++)
        check(score->bytes, score->len);
    return (now_ns() - start) / (double)calls;
}

static long calls_in_a_repetition(const struct score_bytes *score)
{
    return 1 + (long)(REPETITION_NS / (1 + time_calls(score_check, score, 100)));
}

/* Prints a row of the table; 0 if an answer is not what it should be. */
static int compare(const char *name, const struct score_bytes *score)
{
    double by_hand = 1e18, library = 1e18;
    long calls;
    int i;
    if (score_check(score->bytes, score->len) != SCORE_ACCEPTED
        || baseline_check(score->bytes, score->len) != SCORE_ACCEPTED) {
        fprintf(stderr, "bench: %s: not accepted by both\n", name);
        return 0;
    }
    calls = calls_in_a_repetition(score);
    for (i = 0; i < REPETITIONS; i++) {
        by_hand = least(by_hand, time_calls(baseline_check, score, calls));
        library = least(library, time_calls(score_check, score, calls));
    }
    printf("%-28s %6lu %10.1f %10.1f %7.2f\n", name, (unsigned long)score->len, by_hand, library, library / by_hand);
    return 1;
}

int print_check_table(const char *sample)
{
    static struct score_bytes score;
    int equal;
    printf("%-28s %6s %10s %10s %7s\n", "score check", "bytes", "C ns", "library ns", "ratio");
    build_largest(&score);
    equal = compare("largest", &score);
    build_usual(&score);
    equal &= compare("60 agents", &score);
    if (load(&score, sample)) {
        equal &= compare("sample", &score);
    } else {
        fprintf(stderr, "bench: cannot read %s\n", sample);
        equal = 0;
    }
    build_call_chain(&score);
    return equal & compare("largest, chain through all", &score);
}
