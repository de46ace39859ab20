/* The unfolded graph's values, worked out from the sheet alone, and demand 3 held against the library. */
#ifndef GRAPH_H
#define GRAPH_H

#include "chance.h"
#include "paper.h"

enum { MAX_ITERATIONS = 4096 };

/* The streams: sample l of a channel. */
uint32_t sample_of(uint64_t streams, int channel, int l);

/* Works out the values of all nodes at iterations 0 to count - 1. */
void graph_values(const struct sheet *s, uint64_t streams, int count);

/* The value of a node at an iteration below that count; 0 before iteration 0. */
uint32_t graph_value(int node, int l);

/* What demand 3 says of the word leaving a unit at a cycle. */
uint32_t leaving_word(const struct sheet *s, const int *start, int unit, int64_t cycle);

/* The channels' words at a cycle: each port its sample in its own slot from its start on, and anything elsewhere. */
void hand_samples(const struct sheet *s, const int *start, uint64_t streams, int64_t cycle, struct chance *c, uint32_t *channels);

#endif
