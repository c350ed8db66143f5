/* scores.h: the scores and drafts that are timed. */
#ifndef SCORES_H
#define SCORES_H

#include <stddef.h>
#include <stdint.h>

#include "score.h"

struct score_bytes {
    uint8_t bytes[SCORE_MAX_BYTES + 1];
    size_t len;
};

enum { NO_TOKENS = 256 };

/* The tokens of every instant's input, rising. */
struct input_tokens {
    uint32_t tokens[NO_TOKENS];
    size_t len;
};

/* For the score check. */
void build_largest(struct score_bytes *score);
void build_usual(struct score_bytes *score);
void build_call_chain(struct score_bytes *score);

/* Drafts, of so many winches or watches. */
void build_watched_winches(struct score_bytes *draft, uint32_t winches);
void build_diamond(struct score_bytes *draft, uint32_t watches);

/* For the engines, of so many winches, whens, rules or parallels: procedure 0 calls itself again under a next, so that
 * every instant has the same work.
 */
typedef void score_builder(struct score_bytes *score, struct input_tokens *input, uint32_t size);

score_builder build_winches, build_season, build_when_chain, build_rule_chain, build_deep_sharing;

/* As many switches of winches as there can be, twelve of which there must be. */
void write_switches(uint8_t switches[SCORE_MAX_SWITCHES]);

#endif
