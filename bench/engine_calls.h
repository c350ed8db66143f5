/* engine_calls.h: the calls of engines.h, by the `engine` of the file that includes this and named by its NAMED. */
uint64_t NAMED(instant)(const uint8_t *score, size_t score_len, uint8_t *state, size_t state_len,
                        const uint8_t *input, size_t input_len, uint8_t *store, size_t store_len, uint8_t *output,
                        size_t output_len, uint8_t *scratch, size_t scratch_len)
{
    return call_instant(&engine, score, score_len, state, state_len, input, input_len, store, store_len, output,
                        output_len, scratch, scratch_len);
}

uint64_t NAMED(run)(const uint8_t *score, size_t score_len, uint8_t *state, size_t state_len, const uint8_t *inputs,
                    size_t inputs_len, uint8_t *journal, size_t journal_len, uint8_t *scratch, size_t scratch_len)
{
    return call_run(&engine, score, score_len, state, state_len, inputs, inputs_len, journal, journal_len, scratch,
                    scratch_len);
}

uint64_t NAMED(journal_check)(const uint8_t *score, size_t score_len, const uint8_t *journal, size_t journal_len,
                              uint8_t *scratch, size_t scratch_len)
{
    return call_journal_check(&engine, score, score_len, journal, journal_len, scratch, scratch_len);
}

uint64_t NAMED(settings)(const uint8_t *score, size_t score_len, const uint8_t *state, size_t state_len,
                         const uint8_t *switches, size_t switches_len, uint32_t k)
{
    return call_settings(&engine, score, score_len, state, state_len, switches, switches_len, k);
}
