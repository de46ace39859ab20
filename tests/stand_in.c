/* The exports made of the C that the benchmark runs against: for trying the tests without the library, and for breaking
   something under test without touching the proofs. */
#include "../bench/fold.h"
#include "../include/gongperch.h"

uint32_t gongperch_plan(const uint8_t *sheet, size_t sheet_len, uint8_t *plan, size_t plan_len, uint64_t *written)
{
    return fold_plan(sheet, sheet_len, plan, plan_len, written);
}

uint32_t gongperch_clear(const uint8_t *plan, size_t plan_len, uint32_t *memory, size_t memory_len)
{
    return fold_clear(plan, plan_len, memory, memory_len);
}

uint32_t gongperch_step(const uint8_t *plan, size_t plan_len, uint32_t *memory, size_t memory_len, const uint32_t *channels,
                        size_t channels_len, uint32_t *out, size_t out_len)
{
    return fold_step(plan, plan_len, memory, memory_len, channels, channels_len, out, out_len);
}

uint32_t gongperch_memory_words(const uint8_t *plan, size_t plan_len, uint64_t *needed)
{
    return fold_memory_words(plan, plan_len, needed);
}
