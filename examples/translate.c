/* translate.c: makes a plain score of a draft, a score in which an act may be watched for a token. Prints the plain score
 * word by word, and writes it to a file where one is named.
 *
 * Usage: translate DRAFT [SCORE]
 * Exit status: 0 the draft was translated, 1 it was refused, 2 a file cannot be read or written.
 */
#include <stdio.h>

#include "score.h"

static uint8_t draft[SCORE_MAX_BYTES + 1]; /* one byte more shows that a file is too long */
static uint8_t plain[SCORE_PLAIN_BYTES];

/* What each number's value is, and what is wrong with the draft. */
static const char *const refusals[][2] = {
    {"", "nothing"},
    {"", "a draft has a multiple of 4 bytes, from 4 to 5384"},
    {"", "the first word is not a head, or sets a bit that has no meaning"},
    {"", "there are too few or too many words for the head"},
    {"word", "it is of another kind than its place asks for, or sets a bit that has no meaning"},
    {"word", "a token is not in this draft"},
    {"word", "it names an agent or procedure that it may not, or the lowest output token is above the highest"},
    {"procedure", "it calls itself within one instant, directly or through others"},
};

static uint32_t word_at(size_t word)
{
    const uint8_t *byte = plain + SCORE_WORD_BYTES * word;
    return (uint32_t)byte[0] | (uint32_t)byte[1] << 8 | (uint32_t)byte[2] << 16 | (uint32_t)byte[3] << 24;
}

/* Says what an agent does. */
static void print_agent(uint32_t w)
{
    unsigned low = w & 0x3FF, high = w >> 10 & 0x3FF, token = w & 0xFF;
    switch (w >> 28) {
    case 4:
        printf(low ? "abort\n" : "skip\n");
        return;
    case 5:
        printf("tell %u\n", token);
        return;
    case 6:
        printf("agents %u and %u\n", low, high);
        return;
    case 7:
        printf("when %u, agent %u\n", high, low);
        return;
    case 8:
        printf("next, agent %u\n", low);
        return;
    case 9:
        printf("unless %u, agent %u\n", high, low);
        return;
    default:
        printf("call procedure %u\n", low);
    }
}

/* Says what a rule concludes from what. */
static void print_rule(uint32_t w)
{
    unsigned conclusion = w & 0xFF, one = w >> 8 & 0xFF, other = w >> 16 & 0xFF;
    if (w >> 27 & 1)
        printf("fact: %u\n", conclusion);
    else if (one == other)
        printf("rule: %u from %u\n", conclusion, one);
    else
        printf("rule: %u from %u and %u\n", conclusion, one, other);
}

static void print_score(size_t words)
{
    uint32_t head = word_at(0), ports = word_at(1), agents = (head >> 8 & 0x3FF) + 1, procedures = (head >> 18 & 0x3F) + 1;
    uint32_t k;
    printf("%08lX  head: %u tokens, %u agents, %u procedures\n", (unsigned long)head, (unsigned)(head & 0xFF) + 1,
           (unsigned)agents, (unsigned)procedures);
    printf("%08lX  ports %u to %u\n", (unsigned long)ports, (unsigned)(ports & 0xFF), (unsigned)(ports >> 8 & 0xFF));
    for (k = 2; k < words; k++) {
        printf("%08lX  ", (unsigned long)word_at(k));
        if (k < 2 + agents) {
            printf("agent %u: ", (unsigned)(k - 2));
            print_agent(word_at(k));
        } else if (k < 2 + agents + procedures) {
            printf("procedure %u: root %u\n", (unsigned)(k - 2 - agents), (unsigned)(word_at(k) & 0x3FF));
        } else {
            print_rule(word_at(k));
        }
    }
}

static int refused(uint64_t answer)
{
    uint32_t number = score_answer_number(answer);
    if (number == SCORE_ACCEPTED)
        return 0;
    printf("refused, number %u", (unsigned)number);
    if (number == SCORE_LARGE)
        printf(": the plain score would have too many tokens, agents, procedures or rules\n");
    else if (*refusals[number][0])
        printf(", %s %lu: %s\n", refusals[number][0], (unsigned long)score_answer_value(answer), refusals[number][1]);
    else
        printf(": %s\n", refusals[number][1]);
    return 1;
}

static int write_score(const char *path, size_t bytes)
{
    FILE *file = fopen(path, "wb");
    int whole = file && fwrite(plain, 1, bytes, file) == bytes;
    if (file && fclose(file) != 0)
        whole = 0;
    if (!whole)
        perror(path);
    return whole;
}

int main(int argc, char **argv)
{
    FILE *file;
    size_t draft_len, bytes;
    uint64_t answer;
    if (argc < 2 || argc > 3) {
        fprintf(stderr, "usage: translate DRAFT [SCORE]\n");
        return 2;
    }
    file = fopen(argv[1], "rb");
    if (!file) {
        perror(argv[1]);
        return 2;
    }
    draft_len = fread(draft, 1, sizeof draft, file);
    if (ferror(file)) {
        perror(argv[1]);
        fclose(file);
        return 2;
    }
    fclose(file);
    answer = score_translate(draft, draft_len, plain, sizeof plain);
    if (refused(answer))
        return 1;
    bytes = (size_t)score_answer_value(answer);
    print_score(bytes / SCORE_WORD_BYTES);
    return argc == 3 && !write_score(argv[2], bytes) ? 2 : 0;
}
