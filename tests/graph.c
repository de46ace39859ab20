/* See graph.h. */
#include "graph.h"

#include <stdlib.h>

static uint32_t values[MAX_NODES][MAX_ITERATIONS];
static int known[MAX_NODES]; /* iterations below this are worked out */

uint32_t sample_of(uint64_t streams, int channel, int l)
{
    struct chance c = chance_of(streams, (uint64_t)channel << 32 | (uint32_t)l);
    return any_word(&c);
}

uint32_t graph_value(int node, int l)
{
    if (l < 0) {
        return 0;
    }
    if (l >= known[node]) {
        abort();
    }
    return values[node][l];
}

/* Words of this iteration are asked for through wires without delay only, and these make no loop in a sheet that folds. */
static uint32_t value_at(const struct sheet *s, uint64_t streams, int node, int l)
{
    uint32_t inputs[2] = {0, 0}, channels[CHANNELS] = {0};
    if (l < 0 || l < known[node]) {
        return graph_value(node, l);
    }
    for (int i = 0; i < s->wires; i++) {
        const struct wire *w = &s->wire[i];
        if (w->to == node) {
            inputs[w->input] = value_at(s, streams, w->from, l - w->delays);
        }
    }
    const struct node *n = &s->node[node];
    if (n->op == OP_PORT) {
        channels[n->k] = sample_of(streams, n->k, l);
    }
    values[node][l] = op_value(n->op, n->k, inputs, channels);
    known[node] = l + 1;
    return values[node][l];
}

void graph_values(const struct sheet *s, uint64_t streams, int count)
{
    if (count > MAX_ITERATIONS) {
        abort();
    }
    for (int n = 0; n < s->nodes; n++) {
        known[n] = 0;
    }
    for (int l = 0; l < count; l++) {
        for (int n = 0; n < s->nodes; n++) {
            value_at(s, streams, n, l);
        }
    }
}

uint32_t leaving_word(const struct sheet *s, const int *start, int unit, int64_t cycle)
{
    for (int n = 0; n < s->nodes; n++) {
        int64_t since = cycle - s->node[n].slot - s->unit[unit].depth;
        if (s->node[n].unit == unit && since >= 0 && since % s->fold == 0) {
            return graph_value(n, (int)(since / s->fold) - start[n]);
        }
    }
    return 0;
}

void hand_samples(const struct sheet *s, const int *start, uint64_t streams, int64_t cycle, struct chance *c, uint32_t *channels)
{
    for (int k = 0; k < CHANNELS; k++) {
        channels[k] = (uint32_t)next_bits(c);
    }
    for (int n = 0; n < s->nodes; n++) {
        const struct node *node = &s->node[n];
        int l = (int)(cycle / s->fold);
        if (node->op == OP_PORT && cycle % s->fold == node->slot && l >= start[n]) {
            channels[node->k] = sample_of(streams, node->k, l - start[n]);
        }
    }
}
