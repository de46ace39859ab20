/* Clear, step and memory_words: one cycle as 01 says it, on a copy of the memory as it stood. See paper.h. */
#include "paper.h"

#include <stdlib.h>
#include <string.h>

uint32_t op_value(int op, int k, const uint32_t *inputs, const uint32_t *channels)
{
    switch (op) {
    case OP_PORT:
        return channels[k];
    case OP_SUM:
        return inputs[0] + inputs[1];
    case OP_DIFFERENCE:
        return inputs[0] - inputs[1];
    default:
        break;
    }
    int64_t word = inputs[0] < 2147483648u ? (int64_t)inputs[0] : (int64_t)inputs[0] - 4294967296;
    int64_t product = word * k, rest = ((product % 32768) + 32768) % 32768;
    return (uint32_t)((product - rest) / 32768);
}

size_t memory_of(const struct plan *p)
{
    size_t words = 1;
    for (int u = 0; u < p->units; u++) {
        words += (size_t)(p->unit[u].depth + p->unit[u].line);
    }
    return words;
}

uint32_t paper_memory_words(const uint8_t *plan, size_t plan_len, uint64_t *needed)
{
    static struct plan p;
    int refusal = read_plan(plan, plan_len, &p);
    *needed = refusal == 0 ? memory_of(&p) : 0;
    return (uint32_t)refusal;
}

uint32_t paper_clear(const uint8_t *plan, size_t plan_len, uint32_t *memory, size_t memory_len)
{
    static struct plan p;
    int refusal = read_plan(plan, plan_len, &p);
    if (refusal != 0) {
        return (uint32_t)refusal;
    }
    if (memory_len < memory_of(&p)) {
        return 7;
    }
    for (size_t i = 0; i < memory_of(&p); i++) {
        memory[i] = 0;
    }
    return 0;
}

/* The word that the node's input reads: the source's place P-1+tap, as it stood. */
static uint32_t read_tap(const struct plan *p, const uint32_t *const *places, const struct node *n, int input)
{
    for (int i = 0; i < p->switches; i++) {
        const struct switching *s = &p->switching[i];
        if (s->unit == n->unit && s->slot == n->slot && s->input == input) {
            return places[s->source][p->unit[s->source].depth - 1 + s->tap];
        }
    }
    abort();
}

/* The result that a unit begins at cycle t. */
static uint32_t result_of(const struct plan *p, const uint32_t *const *places, int unit, uint32_t t, const uint32_t *channels)
{
    uint32_t fold = (uint32_t)p->fold, inputs[2] = {0, 0};
    for (int i = 0; i < p->nodes; i++) {
        const struct node *n = &p->node[i];
        if (n->unit != unit || (uint32_t)n->slot != t % fold) {
            continue;
        }
        if (t / fold < (uint32_t)n->start) {
            return 0;
        }
        for (int input = 0; input < inputs_of(n->op); input++) {
            inputs[input] = read_tap(p, places, n, input);
        }
        return op_value(n->op, n->k, inputs, channels);
    }
    return 0;
}

static void run_cycle(const struct plan *p, uint32_t *memory, const uint32_t *channels, uint32_t *out)
{
    static uint32_t before[MAX_MEMORY];
    const uint32_t *places[MAX_UNITS];
    memcpy(before, memory, 4 * memory_of(p));
    size_t at = 1;
    for (int u = 0; u < p->units; u++) {
        places[u] = before + at;
        at += (size_t)(p->unit[u].depth + p->unit[u].line);
    }
    memory[0] = before[0] + 1;
    for (int u = 0; u < p->units; u++) {
        uint32_t *now = memory + (places[u] - before);
        now[0] = result_of(p, places, u, before[0], channels);
        for (int i = 1; i < p->unit[u].depth + p->unit[u].line; i++) {
            now[i] = places[u][i - 1];
        }
        out[u] = places[u][p->unit[u].depth - 1];
    }
}

uint32_t paper_step(const uint8_t *plan, size_t plan_len, uint32_t *memory, size_t memory_len, const uint32_t *channels,
                    size_t channels_len, uint32_t *out, size_t out_len)
{
    static struct plan p;
    int refusal = read_plan(plan, plan_len, &p);
    if (refusal != 0) {
        return (uint32_t)refusal;
    }
    if (memory_len < memory_of(&p) || channels_len < CHANNELS || out_len < (size_t)p.units) {
        return 7;
    }
    if (memory[0] == 4294967295u) {
        return 8;
    }
    run_cycle(&p, memory, channels, out);
    return 0;
}
