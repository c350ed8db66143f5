/* What include/score.h has inline, for library.rs. build.rs puts a file beside it that holds each size of sizes.rs to the
   header's. */
#include "score.h"
#include "sizes.h"

uint32_t header_answer_number(uint64_t answer);
uint64_t header_answer_value(uint64_t answer);
uint32_t header_answer_status(uint64_t answer);
uint32_t header_answer_count(uint64_t answer);
uint32_t header_state_number(const uint8_t *state);

uint32_t header_answer_number(uint64_t answer)
{
    return score_answer_number(answer);
}

uint64_t header_answer_value(uint64_t answer)
{
    return score_answer_value(answer);
}

uint32_t header_answer_status(uint64_t answer)
{
    return score_answer_status(answer);
}

uint32_t header_answer_count(uint64_t answer)
{
    return score_answer_count(answer);
}

uint32_t header_state_number(const uint8_t *state)
{
    return score_state_number(state);
}
