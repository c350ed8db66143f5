/* check.c: says what a score file holds, or what is wrong with it and where.
 *
 * Usage: check FILE
 * Exit status: 0 the score is accepted, 1 it is refused, 2 it cannot be read.
 */
#include <stdio.h>

#include "score.h"

/* T, N and P, as an accepted head gives them. */
struct sizes {
    unsigned tokens, agents, procedures;
};

static uint32_t word_at(const uint8_t *score, size_t word)
{
    const uint8_t *byte = score + 4 * word;
    return (uint32_t)byte[0] | (uint32_t)byte[1] << 8 | (uint32_t)byte[2] << 16 | (uint32_t)byte[3] << 24;
}

static struct sizes sizes_of(uint32_t head)
{
    struct sizes sizes;
    sizes.tokens = (head & 0xFF) + 1;
    sizes.agents = (head >> 8 & 0x3FF) + 1;
    sizes.procedures = (head >> 18 & 0x3F) + 1;
    return sizes;
}

/* The first word that is a rule. */
static unsigned rules_from(struct sizes sizes)
{
    return 2 + sizes.agents + sizes.procedures;
}

/* A rule word with bit 27 set: its conclusion holds with no premise. */
static int is_fact(uint32_t word)
{
    return word >> 27 == 5;
}

static void print_accepted(const uint8_t *score, size_t score_len)
{
    struct sizes sizes = sizes_of(word_at(score, 0));
    unsigned words = (unsigned)(score_len / 4), facts = 0, word;
    for (word = rules_from(sizes); word < words; word++)
        facts += (unsigned)is_fact(word_at(score, word));
    printf("accepted\n");
    printf("tokens: %u\n", sizes.tokens);
    printf("agents: %u\n", sizes.agents);
    printf("procedures: %u\n", sizes.procedures);
    printf("rules: %u\n", words - rules_from(sizes));
    printf("standing facts among them: %u\n", facts);
}

static void print_count(struct sizes sizes, size_t score_len)
{
    unsigned least = rules_from(sizes);
    printf("words: %u\n", (unsigned)(score_len / 4));
    printf("words asked for by the head: %u to %u\n", least, least + 256);
}

/* Where a word stands, counted as the document counts agents, procedures and rules: from 0. */
static void print_place(struct sizes sizes, unsigned word)
{
    unsigned procedures = 2 + sizes.agents, rules = rules_from(sizes);
    printf("word: %u\n", word);
    if (word == 1)
        printf("place: ports\n");
    else if (word < procedures)
        printf("place: agent %u\n", word - 2);
    else if (word < rules)
        printf("place: procedure %u\n", word - procedures);
    else
        printf("place: rule %u\n", word - rules);
}

static const char *reference_fault(uint32_t word)
{
    switch (word >> 28) {
    case 3: return "the root is not an agent of this score";
    case 10: return "the procedure called is not in this score";
    case 11: return "the lowest output token is above the highest";
    default: return "a body or half is not below its agent";
    }
}

static const char *form_fault(uint32_t word, int at_rules)
{
    if (at_rules && is_fact(word))
        return "a standing fact has no premise: its bits 26 to 8 are zero";
    return "the word is of another kind than its place asks for, or sets a bit that has no meaning";
}

static const char *fault(uint32_t number, uint32_t word, int at_rules)
{
    switch (number) {
    case SCORE_LENGTH: return "a score has a multiple of 4 bytes, from 4 to 5384";
    case SCORE_HEAD: return "the first word is not a head, or sets a bit that has no meaning";
    case SCORE_COUNT: return "there are too few or too many words";
    case SCORE_FORM: return form_fault(word, at_rules);
    case SCORE_TOKEN: return "a token is not in this score";
    case SCORE_REFERENCE: return reference_fault(word);
    default: return "the procedure calls itself within one instant, directly or through others";
    }
}

static void print_refusal(const uint8_t *score, size_t score_len, uint64_t answer)
{
    uint32_t number = score_answer_number(answer), word = 0;
    unsigned value = (unsigned)score_answer_value(answer);
    int at_rules = 0;
    printf("refused\nnumber: %u\n", (unsigned)number);
    if (number == SCORE_LENGTH && score_len > SCORE_MAX_BYTES)
        printf("bytes: more than %u\n", SCORE_MAX_BYTES);
    else if (number == SCORE_LENGTH)
        printf("bytes: %u\n", (unsigned)score_len);
    if (number == SCORE_COUNT)
        print_count(sizes_of(word_at(score, 0)), score_len);
    if (number == SCORE_FORM || number == SCORE_TOKEN || number == SCORE_REFERENCE) {
        word = word_at(score, value);
        at_rules = value >= rules_from(sizes_of(word_at(score, 0)));
        print_place(sizes_of(word_at(score, 0)), value);
    }
    if (number == SCORE_CIRCLE)
        printf("procedure: %u\n", value);
    printf("wrong: %s\n", fault(number, word, at_rules));
}

/* Reads at most `room` bytes of a file; 0 if it cannot be read. */
static int load(const char *name, uint8_t *score, size_t room, size_t *score_len)
{
    FILE *file = fopen(name, "rb");
    int read;
    if (!file)
        return 0;
    *score_len = fread(score, 1, room, file);
    read = !ferror(file);
    fclose(file);
    return read;
}

int main(int count, char **arguments)
{
    uint8_t score[SCORE_MAX_BYTES + 1]; /* one byte more shows that a file is too long */
    size_t score_len;
    uint64_t answer;

    if (count != 2) {
        fprintf(stderr, "usage: check FILE\n");
        return 2;
    }
    if (!load(arguments[1], score, sizeof score, &score_len)) {
        fprintf(stderr, "check: cannot read %s\n", arguments[1]);
        return 2;
    }
    answer = score_check(score, score_len);
    if (score_answer_number(answer) != SCORE_ACCEPTED) {
        print_refusal(score, score_len, answer);
        return 1;
    }
    print_accepted(score, score_len);
    return 0;
}
