/* baseline.h: the score check and the translation written by hand in C, to be measured against. */
#ifndef BASELINE_H
#define BASELINE_H

#include <stddef.h>
#include <stdint.h>

/* Answers as score_check does. */
uint64_t baseline_check(const uint8_t *score, size_t score_len);

/* Answers 1 to 7 as score_translate does, or 0. */
uint64_t baseline_check_draft(const uint8_t *draft, size_t draft_len);

/* Answers, and leaves what is lent, as score_translate does. */
uint64_t baseline_translate(const uint8_t *draft, size_t draft_len, uint8_t *plain, size_t plain_len);

#endif
