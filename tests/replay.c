/* See replay.h. */
#include "replay.h"
#include "paper.h"

#include <inttypes.h>
#include <stdlib.h>
#include <string.h>

/* What is lent before a call: bytes of 170, and words that count up by an odd step. */
static const uint8_t lent_byte = 170;
static const uint32_t word_step = 2654435769u;

void put_case(FILE *to, const struct stored *s, const uint8_t *input)
{
    uint8_t h[CASE_HEADER] = {s->sort, s->steps};
    const uint16_t fields[4] = {s->length, s->room, s->channels, s->out};
    for (int i = 0; i < 4; i++) {
        h[2 + 2 * i] = (uint8_t)fields[i], h[3 + 2 * i] = (uint8_t)(fields[i] >> 8);
    }
    for (int i = 0; i < 4; i++) {
        h[12 + i] = (uint8_t)(s->t >> 8 * i);
    }
    fwrite(h, 1, sizeof h, to);
    fwrite(input, 1, s->length, to);
}

int get_case(FILE *from, struct stored *s, uint8_t *input)
{
    uint8_t h[CASE_HEADER];
    if (fread(h, 1, sizeof h, from) != sizeof h) {
        return 0;
    }
    *s = (struct stored){h[0], h[1], (uint16_t)word_at(h + 2), (uint16_t)word_at(h + 4), (uint16_t)word_at(h + 6),
                         (uint16_t)word_at(h + 8), (uint32_t)word_at(h + 12) | (uint32_t)word_at(h + 14) << 16};
    return s->length <= CASE_INPUT && fread(input, 1, s->length, from) == s->length;
}

static void put_words(FILE *to, const uint32_t *words, size_t count)
{
    for (size_t i = 0; i < count; i++) {
        fprintf(to, " %08x", words[i]);
    }
    fprintf(to, "\n");
}

static void fill_words(uint32_t *words, size_t count, uint32_t first)
{
    for (size_t i = 0; i < count; i++) {
        words[i] = (first + (uint32_t)i) * word_step;
    }
}

static void answer_plan(const struct calls *calls, const struct stored *s, const uint8_t *input, FILE *to)
{
    uint8_t plan[CASE_ROOM];
    uint64_t written = 0;
    memset(plan, lent_byte, sizeof plan);
    uint32_t number = calls->plan(input, s->length, plan, s->room, &written);
    fprintf(to, "plan %u %" PRIu64 " ", number, written);
    for (int i = 0; i < s->room; i++) {
        fprintf(to, "%02x", plan[i]);
    }
    fprintf(to, "\n");
}

static void answer_listing(const struct calls *calls, const struct stored *s, const uint8_t *input, FILE *to)
{
    static char text[MAX_TEXT];
    uint8_t plan[MAX_PLAN];
    uint64_t written = 0;
    uint32_t number = calls->plan(input, s->length, plan, sizeof plan, &written);
    fwrite(text, 1, plan_listing(number, plan, (size_t)written, text), to);
}

static void answer_steps(const struct calls *calls, const struct stored *s, const uint8_t *input, FILE *to)
{
    static uint32_t memory[CASE_MEMORY];
    uint32_t channels[CASE_CHANNELS], out[CASE_OUT];
    fill_words(memory, s->room, 0);
    fill_words(out, s->out, 1000);
    if (s->room > 0) {
        memory[0] = s->t;
    }
    if (s->sort != 'S') {
        fprintf(to, "clear %u\n", calls->clear(input, s->length, memory, s->room));
    }
    for (int i = 0; i < s->steps; i++) {
        fill_words(channels, s->channels, 16 * (uint32_t)i + 1);
        fprintf(to, "step %u", calls->step(input, s->length, memory, s->room, channels, s->channels, out, s->out));
        put_words(to, out, s->out);
    }
    fprintf(to, "memory");
    put_words(to, memory, s->room);
}

void answer_case(const struct calls *calls, const struct stored *s, const uint8_t *input, FILE *to)
{
    uint64_t needed = 0;
    uint32_t number;
    switch (s->sort) {
    case 'P':
        answer_plan(calls, s, input, to);
        break;
    case 'L':
        answer_listing(calls, s, input, to);
        break;
    case 'N':
        number = calls->need(input, s->length, &needed);
        fprintf(to, "need %u %" PRIu64 "\n", number, needed);
        break;
    default:
        answer_steps(calls, s, input, to);
    }
}
