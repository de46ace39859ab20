/* See check.h: the machine's three calls, and whole runs held against the unfolded graph. */
#include "check.h"
#include "../include/gongperch.h"
#include "areas.h"
#include "graph.h"

#include <inttypes.h>
#include <string.h>

static uint32_t memory[MAX_MEMORY + 128], channels[64], out[64];

/* A length around the one that is needed: mostly enough. */
static size_t around(struct chance *c, size_t needed)
{
    uint32_t style = below(c, 100);
    if (style < 45) {
        return needed;
    }
    if (style < 80) {
        return needed + 1 + below(c, style < 60 ? 1 : 40);
    }
    return style < 90 ? (needed > 0 ? needed - 1 : 0) : below(c, (uint32_t)needed + 1);
}

static void fill(struct chance *c, uint32_t *words, size_t count)
{
    for (size_t i = 0; i < count; i++) {
        words[i] = any_word(c);
    }
}

static uint32_t pick_time(struct chance *c, const struct plan *p)
{
    uint32_t style = below(c, 100), fold = p->fold > 0 ? (uint32_t)p->fold : 1;
    if (style < 15) {
        return below(c, 3);
    }
    if (style < 25) {
        return UINT32_MAX - below(c, 3);
    }
    if (style < 75 && p->nodes > 0) {
        const struct node *n = &p->node[below(c, (uint32_t)p->nodes)];
        return fold * (uint32_t)n->start + (uint32_t)n->slot - (percent(c, 30) ? fold : 0);
    }
    return (uint32_t)next_bits(c);
}

static void check_need(struct chance *c, const uint8_t *plan, size_t length)
{
    uint64_t junk = next_bits(c), wanted = 0;
    uint64_t *needed = (uint64_t *)(void *)lend(&areas.length, c, &junk, 8);
    uint32_t right = paper_memory_words(plan, length, &wanted);
    uint32_t answer = gongperch_memory_words(areas.input.slice, length, needed);
    seen.need[right]++;
    if (answer != right || *needed != wanted) {
        differ("memory_words: answer %u with %" PRIu64 ", not %u with %" PRIu64, answer, *needed, right, wanted);
    }
    if (!margin_kept(&areas.length)) {
        differ("memory_words: memory beside the length was written");
    }
}

static void check_clear(struct chance *c, const uint8_t *plan, size_t length, size_t needed)
{
    size_t words = around(c, needed);
    fill(c, memory, words);
    uint32_t *lent = (uint32_t *)(void *)lend(&areas.memory, c, memory, 4 * words);
    uint32_t right = paper_clear(plan, length, memory, words);
    uint32_t answer = gongperch_clear(areas.input.slice, length, lent, words);
    seen.clear[right]++;
    if (answer != right) {
        differ("clear: answer %u, not %u (memory of %zu words)", answer, right, words);
    }
    same_bytes(&areas.memory, memory, "clear: the memory");
}

static void check_steps(struct chance *c, const uint8_t *plan, size_t length, const struct plan *p, size_t needed)
{
    int units = p->units > 0 && p->units <= MAX_UNITS ? p->units : 3;
    size_t words = percent(c, 80) ? needed + (percent(c, 50) ? below(c, 20) : 0) : around(c, needed);
    size_t taken = percent(c, 85) ? CHANNELS : around(c, CHANNELS);
    size_t given = percent(c, 85) ? (size_t)units : around(c, (size_t)units);
    int steps = needed > 4000 ? 2 : between(c, 1, 6);
    fill(c, memory, words);
    if (words > 0) {
        memory[0] = pick_time(c, p);
    }
    fill(c, out, given);
    uint32_t *lent = (uint32_t *)(void *)lend(&areas.memory, c, memory, 4 * words);
    uint32_t *leaving = (uint32_t *)(void *)lend(&areas.out, c, out, 4 * given);
    for (int i = 0; i < steps; i++) {
        fill(c, channels, taken);
        const uint32_t *handed = (const uint32_t *)(const void *)lend(&areas.channels, c, channels, 4 * taken);
        uint32_t t = words > 0 ? memory[0] : 0;
        uint32_t right = paper_step(plan, length, memory, words, channels, taken, out, given);
        uint32_t answer = gongperch_step(areas.input.slice, length, lent, words, handed, taken, leaving, given);
        seen.step[right]++;
        if (answer != right) {
            differ("step: answer %u, not %u (t %u, memory %zu, channels %zu, out %zu)", answer, right, t, words, taken, given);
        }
        same_bytes(&areas.memory, memory, "step: the memory");
        same_bytes(&areas.out, out, "step: the output");
        same_bytes(&areas.channels, channels, "step: the channels");
        if (right != 0 || answer != right) {
            return;
        }
    }
}

void check_machine(struct chance *c, const uint8_t *plan, size_t length)
{
    static struct plan p;
    begin_input(plan, length);
    lend(&areas.input, c, plan, length);
    memset(&p, 0, sizeof p);
    size_t needed = read_plan(plan, length, &p) == 0 ? memory_of(&p) : below(c, 60);
    check_need(c, plan, length);
    check_clear(c, plan, length, needed);
    check_steps(c, plan, length, &p, needed);
    same_bytes(&areas.input, plan, "the plan");
}

/* ---- demand 3 */

/* How many cycles to run: past the last start and some iterations more, as far as the memory's size allows. */
static int64_t run_length(struct chance *c, const struct sheet *s, const struct folded *f, size_t words)
{
    int latest = 0;
    for (int n = 0; n < s->nodes; n++) {
        latest = f->start[n] > latest ? f->start[n] : latest;
    }
    int64_t cycles = (int64_t)s->fold * (latest + between(c, 2, percent(c, 10) ? 150 : 12));
    int64_t most = 400000 / (int64_t)words + 40;
    return cycles < most ? cycles : most;
}

void check_run(struct chance *c, const struct sheet *s)
{
    static struct folded f;
    static uint8_t sheet[MAX_SHEET], plan[MAX_PLAN];
    uint64_t written = 0, needed = 0, streams = next_bits(c);
    size_t length = sheet_bytes(s, sheet);
    begin_input(sheet, length);
    if (fold_sheet(s, &f) != 0 || gongperch_plan(sheet, length, plan, sizeof plan, &written) != 0 ||
        gongperch_memory_words(plan, (size_t)written, &needed) != 0 || needed == 0 || needed > MAX_MEMORY) {
        differ("run: a sheet that folds has no plan, or one that the machine refuses");
        return;
    }
    fill(c, memory, (size_t)needed);
    int64_t cycles = run_length(c, s, &f, (size_t)needed);
    graph_values(s, streams, (int)(cycles / s->fold) + 1);
    if (gongperch_clear(plan, (size_t)written, memory, (size_t)needed) != 0) {
        differ("run: clear refuses the planner's plan");
        return;
    }
    for (int64_t t = 0; t < cycles; t++) {
        hand_samples(s, f.start, streams, t, c, channels);
        if (gongperch_step(plan, (size_t)written, memory, (size_t)needed, channels, CHANNELS, out, (size_t)s->units) != 0) {
            differ("run: step refuses the planner's plan at cycle %" PRId64, t);
            return;
        }
        for (int u = 0; u < s->units; u++) {
            uint32_t right = leaving_word(s, f.start, u, t);
            if (out[u] != right) {
                differ("run: unit %d gives %u at cycle %" PRId64 ", the graph %u", u, out[u], t, right);
                return;
            }
        }
    }
    seen.cycles += (uint64_t)cycles;
}
