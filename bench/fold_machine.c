/* The cycle machine in C. See fold.h. */
#include "fold.h"
#include "fold_records.h"

struct view {
    unsigned fold, units, nodes, switches;
    const uint8_t *unit, *node, *switching;
    struct slots slots;
    uint32_t words;
};

struct feeds {
    uint32_t fed[UNITS][2];
    uint32_t twice;
    uint32_t longest[UNITS];
};

static uint32_t judge_switches(const struct view *v, const uint8_t *kinds, struct feeds *f)
{
    for (unsigned i = 0; i < v->switches; i++) {
        const uint8_t *at = v->switching + 8 * i;
        unsigned unit = at[2], input = at[3], slot = at[4], source = at[5], tap = two(at + 6);
        if (!marked(at, "PS")) {
            return 2;
        }
        if (unit >= v->units || source >= v->units || slot >= v->fold || !(v->slots.occupied[unit] >> slot & 1) ||
            input >= inputs_of_kind[kinds[unit]]) {
            return 3;
        }
        uint32_t bit = 1u << slot;
        f->twice |= f->fed[unit][input] & bit;
        f->fed[unit][input] |= bit;
        f->longest[source] = tap > f->longest[source] ? tap : f->longest[source];
    }
    return 0;
}

/* 4, 5 and 9, and the words of the memory. */
static uint32_t judge_units(struct view *v, const uint8_t *kinds, const struct feeds *f)
{
    if (v->slots.clash) {
        return 4;
    }
    uint32_t unfed = f->twice, wrong = 0;
    v->words = 1;
    for (unsigned u = 0; u < v->units; u++) {
        const uint8_t *at = v->unit + 7 * u;
        uint32_t occupied = v->slots.occupied[u];
        unsigned inputs = inputs_of_kind[kinds[u]];
        unfed |= f->fed[u][0] ^ (inputs > 0 ? occupied : 0);
        unfed |= f->fed[u][1] ^ (inputs > 1 ? occupied : 0);
        wrong |= two(at + 4) ^ f->longest[u];
        wrong |= at[6] ^ (v->fold - (unsigned)__builtin_popcount(occupied));
        v->words += at[3] + two(at + 4);
    }
    return unfed ? 5 : wrong ? 9 : 0;
}

static uint32_t judge_header(const uint8_t *p, size_t len, struct view *v)
{
    uint32_t refusal = header_refusal(p, len, 9, "PH");
    if (refusal) {
        return refusal;
    }
    if (p[8] > 47) {
        return 3;
    }
    v->fold = p[2], v->units = p[3], v->nodes = p[4], v->switches = p[5];
    v->unit = p + 9;
    v->node = v->unit + 7 * v->units;
    v->switching = v->node + 9 * v->nodes;
    return len != 9 + 7 * (size_t)v->units + 9 * (size_t)v->nodes + 8 * (size_t)v->switches;
}

static uint32_t judge_plan(const uint8_t *p, size_t len, struct view *v)
{
    uint8_t kinds[UNITS];
    struct feeds f;
    uint32_t refusal = judge_header(p, len, v);
    if (refusal) {
        return refusal;
    }
    v->slots.clash = v->slots.channels = f.twice = 0;
    for (unsigned u = 0; u < v->units; u++) {
        const uint8_t *at = v->unit + 7 * u;
        if (!marked(at, "PU")) {
            return 2;
        }
        if (at[2] > 2 || (unsigned)at[3] - 1 >= 16) {
            return 3;
        }
        kinds[u] = at[2];
        v->slots.occupied[u] = f.fed[u][0] = f.fed[u][1] = f.longest[u] = 0;
    }
    for (unsigned n = 0; n < v->nodes; n++) {
        const uint8_t *at = v->node + 9 * n;
        if (!marked(at, "PN")) {
            return 2;
        }
        if (!node_fits(at, kinds, v->units, v->fold, &v->slots)) {
            return 3;
        }
    }
    refusal = judge_switches(v, kinds, &f);
    return refusal ? refusal : judge_units(v, kinds, &f);
}

uint32_t fold_memory_words(const uint8_t *plan, size_t plan_len, uint64_t *needed)
{
    struct view v;
    uint32_t refusal = judge_plan(plan, plan_len, &v);
    *needed = refusal ? 0 : v.words;
    return refusal;
}

uint32_t fold_clear(const uint8_t *plan, size_t plan_len, uint32_t *memory, size_t memory_len)
{
    struct view v;
    uint32_t refusal = judge_plan(plan, plan_len, &v);
    if (refusal) {
        return refusal;
    }
    if (memory_len < v.words) {
        return 7;
    }
    memset(memory, 0, 4 * (size_t)v.words);
    return 0;
}

static uint32_t value(const uint8_t *node, const uint32_t *inputs, const uint32_t *channels)
{
    switch (node[4]) {
    case 0:
        return channels[node[5]];
    case 1:
        return inputs[0] + inputs[1];
    case 2:
        return inputs[0] - inputs[1];
    default:
        return (uint32_t)((int64_t)(int32_t)inputs[0] * (int16_t)two(node + 5) >> 15);
    }
}

static void cycle(const struct view *v, uint32_t *memory, const uint32_t *channels, uint32_t *out)
{
    uint32_t t = memory[0], slot = t % v->fold, iteration = t / v->fold;
    uint32_t *leaving[UNITS], inputs[UNITS][2], results[UNITS];
    uint32_t *places = memory + 1;
    for (unsigned u = 0; u < v->units; u++) {
        const uint8_t *at = v->unit + 7 * u;
        leaving[u] = places + at[3] - 1;
        out[u] = *leaving[u];
        results[u] = 0;
        places += at[3] + two(at + 4);
    }
    for (unsigned i = 0; i < v->switches; i++) {
        const uint8_t *at = v->switching + 8 * i;
        if (at[4] == slot) {
            inputs[at[2]][at[3]] = leaving[at[5]][two(at + 6)];
        }
    }
    for (unsigned n = 0; n < v->nodes; n++) {
        const uint8_t *at = v->node + 9 * n;
        if (at[3] == slot && iteration >= two(at + 7)) {
            results[at[2]] = value(at, inputs[at[2]], channels);
        }
    }
    places = memory + 1;
    for (unsigned u = 0; u < v->units; u++) {
        size_t size = v->unit[7 * u + 3] + two(v->unit + 7 * u + 4);
        memmove(places + 1, places, 4 * (size - 1));
        places[0] = results[u];
        places += size;
    }
    memory[0] = t + 1;
}

uint32_t fold_step(const uint8_t *plan, size_t plan_len, uint32_t *memory, size_t memory_len, const uint32_t *channels,
                   size_t channels_len, uint32_t *out, size_t out_len)
{
    struct view v;
    uint32_t refusal = judge_plan(plan, plan_len, &v);
    if (refusal) {
        return refusal;
    }
    if (memory_len < v.words || channels_len < 16 || out_len < v.units) {
        return 7;
    }
    if (memory[0] == UINT32_MAX) {
        return 8;
    }
    cycle(&v, memory, channels, out);
    return 0;
}
