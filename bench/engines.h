/* engines.h: two engines written by hand in C, to be measured against. They answer, and leave what is lent, as the
 * library's functions of the same names do.
 */
#ifndef ENGINES_H
#define ENGINES_H

#include <stddef.h>
#include <stdint.h>

typedef uint64_t check_call(const uint8_t *score, size_t score_len);

typedef uint64_t instant_call(const uint8_t *score, size_t score_len, uint8_t *state, size_t state_len,
                              const uint8_t *input, size_t input_len, uint8_t *store, size_t store_len,
                              uint8_t *output, size_t output_len, uint8_t *scratch, size_t scratch_len);

typedef uint64_t run_call(const uint8_t *score, size_t score_len, uint8_t *state, size_t state_len,
                          const uint8_t *inputs, size_t inputs_len, uint8_t *journal, size_t journal_len,
                          uint8_t *scratch, size_t scratch_len);

typedef uint64_t journal_check_call(const uint8_t *score, size_t score_len, const uint8_t *journal,
                                    size_t journal_len, uint8_t *scratch, size_t scratch_len);

typedef uint64_t settings_call(const uint8_t *score, size_t score_len, const uint8_t *state, size_t state_len,
                               const uint8_t *switches, size_t switches_len, uint32_t k);

/* Passes over all agents and rules until nothing is added. */
instant_call passes_instant;
run_call passes_run;
journal_check_call passes_journal_check;
settings_call passes_settings;

/* Worklists: time is linear in the agents and rules that an instant touches. */
instant_call linear_instant;
run_call linear_run;
journal_check_call linear_journal_check;
settings_call linear_settings;

#endif
