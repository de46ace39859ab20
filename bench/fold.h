/* The same four calls written for speed in C: what the benchmark holds the library's times against.

   They keep the whole contract of include/gongperch.h, every refusal in its order and every call judging its bytes anew. The
   benchmark builds them by gcc and by clang, with the compiler's name in place of `fold`. */
#ifndef FOLD_H
#define FOLD_H

#include <stddef.h>
#include <stdint.h>

uint32_t fold_plan(const uint8_t *sheet, size_t sheet_len, uint8_t *plan, size_t plan_len, uint64_t *written);
uint32_t fold_clear(const uint8_t *plan, size_t plan_len, uint32_t *memory, size_t memory_len);
uint32_t fold_step(const uint8_t *plan, size_t plan_len, uint32_t *memory, size_t memory_len, const uint32_t *channels,
                   size_t channels_len, uint32_t *out, size_t out_len);
uint32_t fold_memory_words(const uint8_t *plan, size_t plan_len, uint64_t *needed);

#endif
