/* Stored cases: a header of 16 bytes and the input's bytes, and the answer's lines. tests/README.md has the format. */
#ifndef REPLAY_H
#define REPLAY_H

#include <stddef.h>
#include <stdint.h>
#include <stdio.h>

enum { CASE_HEADER = 16, CASE_INPUT = 2048, CASE_ROOM = 2048, CASE_MEMORY = 8192, CASE_CHANNELS = 32, CASE_OUT = 16 };

/* A case's header, field by field. */
struct stored {
    uint8_t sort, steps; /* sort: P plan, L listing, N memory_words, C clear, S steps, R clear and steps */
    uint16_t length, room, channels, out;
    uint32_t t;
};

/* Whose calls answer. */
struct calls {
    uint32_t (*plan)(const uint8_t *, size_t, uint8_t *, size_t, uint64_t *);
    uint32_t (*clear)(const uint8_t *, size_t, uint32_t *, size_t);
    uint32_t (*step)(const uint8_t *, size_t, uint32_t *, size_t, const uint32_t *, size_t, uint32_t *, size_t);
    uint32_t (*need)(const uint8_t *, size_t, uint64_t *);
};

void put_case(FILE *to, const struct stored *s, const uint8_t *input);

/* 1 if there was a case, 0 at the end. */
int get_case(FILE *from, struct stored *s, uint8_t *input);

/* Writes the answer's lines. */
void answer_case(const struct calls *calls, const struct stored *s, const uint8_t *input, FILE *to);

#endif
