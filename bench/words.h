/* words.h: the words of scores, drafts, lists and journals. */
#ifndef WORDS_H
#define WORDS_H

#include <stddef.h>
#include <stdint.h>

enum { TOKENS_MAX = 256, AGENTS_MAX = 1024, PROCEDURES_MAX = 64, RULES_MAX = 256 };

enum {
    HEAD = 1, RULE, PROCEDURE, SKIP_ABORT, TELL, PARALLEL, WHEN, NEXT, UNLESS, CALL, PORTS, INSTANT, INPUT, OUTPUT,
    WATCH
};

static inline uint32_t word_at(const uint8_t *bytes, size_t word)
{
    const uint8_t *byte = bytes + 4 * word;
    return (uint32_t)byte[0] | (uint32_t)byte[1] << 8 | (uint32_t)byte[2] << 16 | (uint32_t)byte[3] << 24;
}

static inline void put_word(uint8_t *bytes, size_t word, uint32_t value)
{
    uint8_t *byte = bytes + 4 * word;
    byte[0] = (uint8_t)value;
    byte[1] = (uint8_t)(value >> 8);
    byte[2] = (uint8_t)(value >> 16);
    byte[3] = (uint8_t)(value >> 24);
}

static inline uint32_t kind_of(uint32_t word) { return word >> 28; }

/* A rule word whose conclusion holds with no premise. */
static inline int is_fact(uint32_t word) { return word >> 27 == (RULE << 1 | 1); }

#endif
