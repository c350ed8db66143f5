/* answers.c: reads answers, packed here as crates/score_answer/specs/Answer.antt says, and the numbers of states, by the
 * functions of the header.
 */
#include <stdio.h>

#include "score.h"

static const uint64_t layout = UINT64_C(1) << 61;

static int reads_settings(uint64_t answer, const uint32_t *counts)
{
    return score_settings_count(answer, SCORE_QUIET) == counts[0]
        && score_settings_count(answer, SCORE_CLASH) == counts[1]
        && score_settings_count(answer, SCORE_ABORTED) == counts[2] && score_settings_count(answer, 3) == 0
        && score_settings_count(answer, UINT32_MAX) == 0;
}

static int reads_all(uint64_t answer, uint32_t number, uint64_t value, uint32_t status, uint32_t count,
                     const uint32_t *counts)
{
    if (score_answer_number(answer) == number && score_answer_value(answer) == value
        && score_answer_status(answer) == status && score_answer_count(answer) == count
        && reads_settings(answer, counts))
        return 1;
    printf("answer %08lX%08lX is read wrongly\n", (unsigned long)(answer >> 32), (unsigned long)(answer & 0xFFFFFFFF));
    return 0;
}

static int reads(uint64_t answer, uint32_t number, uint64_t value, uint32_t status, uint32_t count)
{
    static const uint32_t none[3] = {0, 0, 0};
    return reads_all(answer, number, value, status, count, none);
}

/* Every count of one status from 0 to 12,870, beside counts of the others that are none, one and all. */
static int reads_every_count(void)
{
    enum { MOST = 12870 };
    uint32_t counts[3], status, i;
    int right = 1;
    for (status = SCORE_QUIET; status <= SCORE_ABORTED; status++)
        for (i = 0; i <= 3 * MOST + 2; i++) {
            counts[0] = counts[1] = counts[2] = i % 3 == 2 ? MOST : i % 3;
            counts[status] = i / 3;
            right &= reads_all(5 * layout + counts[0] + ((uint64_t)counts[1] << 14) + ((uint64_t)counts[2] << 28),
                               SCORE_ACCEPTED, 0, 0, 0, counts);
        }
    return right;
}

/* The number of a state is its last four bytes, low byte first, whatever the others hold. */
static int reads_number(uint32_t number)
{
    static const uint8_t others[] = {0x00, 0xA5, 0xFF};
    uint8_t state[SCORE_STATE_BYTES];
    size_t i, other;
    int right = 1;
    for (other = 0; other < sizeof others; other++) {
        for (i = 0; i < SCORE_STATE_BYTES - 4; i++)
            state[i] = others[other];
        for (; i < SCORE_STATE_BYTES; i++)
            state[i] = (uint8_t)(number >> 8 * (i % 4));
        right &= score_state_number(state) == number;
    }
    if (!right)
        printf("number %08lX is read wrongly\n", (unsigned long)number);
    return right;
}

/* Each bit alone, all but each bit, and numbers whose bytes all differ. */
static int reads_numbers(void)
{
    int right = reads_number(0) & reads_number(SCORE_LAST_NUMBER) & reads_number(0x01020304)
              & reads_number(0xFEDCBA98);
    uint32_t bit;
    for (bit = 0; bit < 32; bit++)
        right &= reads_number(UINT32_C(1) << bit) & reads_number(~(UINT32_C(1) << bit));
    return right;
}

int main(void)
{
    static const uint64_t values[] = {0, 1, 255, 256, 1345, (1 << 24) - 1, 1 << 24, 0x7FFFFFFF, 0x80000000, 0xFFFFFFFE,
                                      0xFFFFFFFF, UINT64_C(1) << 32, (UINT64_C(1) << 61) - 1};
    uint32_t number, status, count;
    size_t i;
    int right = 1;
    for (i = 0; i < sizeof values / sizeof *values; i++) {
        right &= reads(values[i], SCORE_ACCEPTED, values[i], 0, 0);
        for (number = SCORE_LENGTH; number <= SCORE_SWITCHES && values[i] < 1 << 24; number++)
            if (number < SCORE_LIST_FORM || number > SCORE_ROOM)
                right &= reads(layout + values[i] * 256 + number, number, values[i], 0, 0);
        for (number = SCORE_LIST_FORM; number <= SCORE_ROOM; number++)
            right &= reads((number - 11) * layout + values[i], number, values[i], 0, 0);
        right &= reads(7 * layout + values[i], SCORE_LAST, values[i], 0, 0);
    }
    for (status = SCORE_QUIET; status <= SCORE_ABORTED; status++)
        for (count = 0; count <= SCORE_MAX_AGENTS; count++)
            right &= reads(layout + ((uint64_t)(count * 4 + status) << 32), SCORE_ACCEPTED, 0, status, count);
    return right & reads_every_count() & reads_numbers() ? 0 : 1;
}
