/* The planner in C. See fold.h. */
#include "fold.h"
#include "fold_records.h"

struct view {
    unsigned fold, units, nodes, wires;
    const uint8_t *unit, *node, *wire;
    struct slots slots;
};

static uint32_t judge_wires(const struct view *v)
{
    uint64_t fed[2] = {0, 0}, twice = 0, need[2] = {0, 0};
    for (unsigned i = 0; i < v->wires; i++) {
        const uint8_t *at = v->wire + 6 * i;
        unsigned from = at[2], to = at[3], input = at[4];
        if (!marked(at, "FE")) {
            return 2;
        }
        if (from >= v->nodes || to >= v->nodes || at[5] > 63 || input >= inputs_of_kind[kind_of_op[v->node[7 * to + 4]]]) {
            return 3;
        }
        uint64_t bit = (uint64_t)1 << to;
        twice |= fed[input] & bit;
        fed[input] |= bit;
    }
    if (v->slots.clash) {
        return 4;
    }
    for (unsigned n = 0; n < v->nodes; n++) {
        unsigned inputs = inputs_of_kind[kind_of_op[v->node[7 * n + 4]]];
        need[0] |= (uint64_t)(inputs > 0) << n;
        need[1] |= (uint64_t)(inputs > 1) << n;
    }
    return twice || fed[0] != need[0] || fed[1] != need[1] ? 5 : 0;
}

static uint32_t judge_header(const uint8_t *s, size_t len, struct view *v)
{
    uint32_t refusal = header_refusal(s, len, 6, "FH");
    if (refusal) {
        return refusal;
    }
    v->fold = s[2], v->units = s[3], v->nodes = s[4], v->wires = s[5];
    v->unit = s + 6;
    v->node = v->unit + 4 * v->units;
    v->wire = v->node + 7 * v->nodes;
    return len != 6 + 4 * (size_t)v->units + 7 * (size_t)v->nodes + 6 * (size_t)v->wires;
}

static uint32_t judge_sheet(const uint8_t *s, size_t len, struct view *v)
{
    uint8_t kinds[UNITS];
    uint32_t refusal = judge_header(s, len, v);
    if (refusal) {
        return refusal;
    }
    v->slots.clash = v->slots.channels = 0;
    for (unsigned u = 0; u < v->units; u++) {
        const uint8_t *at = v->unit + 4 * u;
        if (!marked(at, "FU")) {
            return 2;
        }
        if (at[2] > 2 || (unsigned)at[3] - 1 >= 16) {
            return 3;
        }
        kinds[u] = at[2];
        v->slots.occupied[u] = 0;
    }
    for (unsigned n = 0; n < v->nodes; n++) {
        const uint8_t *at = v->node + 7 * n;
        if (!marked(at, "FN")) {
            return 2;
        }
        if (!node_fits(at, kinds, v->units, v->fold, &v->slots)) {
            return 3;
        }
    }
    return judge_wires(v);
}

struct work {
    int16_t raw[WIRES], bound[WIRES];
    uint8_t from[WIRES], to[WIRES];
    int16_t rounds[2][NODES];
    int16_t *least;
    unsigned chain;
};

static void make_bounds(const struct view *v, struct work *w)
{
    int fold = (int)v->fold;
    for (unsigned i = 0; i < v->wires; i++) {
        const uint8_t *at = v->wire + 6 * i;
        const uint8_t *from = v->node + 7 * at[2], *to = v->node + 7 * at[3];
        int raw = fold * at[5] - v->unit[4 * from[2] + 3] + to[3] - from[3];
        w->from[i] = at[2];
        w->to[i] = at[3];
        w->raw[i] = (int16_t)raw;
        w->bound[i] = (int16_t)((unsigned)(raw + 48 * fold) / (unsigned)fold - 48);
    }
}

/* Rounds that read the former round only; 0 where round number `nodes` still changes. */
static int relax(const struct view *v, struct work *w)
{
    int16_t *former = w->rounds[0], *next = w->rounds[1];
    memset(former, 0, sizeof w->rounds[0]);
    for (unsigned round = 0; round < v->nodes; round++) {
        int changed = 0;
        memcpy(next, former, sizeof w->rounds[0]);
        for (unsigned i = 0; i < v->wires; i++) {
            int total = w->bound[i] + former[w->to[i]];
            if (total < next[w->from[i]]) {
                next[w->from[i]] = (int16_t)total;
                changed = 1;
            }
        }
        if (!changed) {
            w->least = former;
            w->chain = round;
            return 1;
        }
        int16_t *other = former;
        former = next;
        next = other;
    }
    return 0;
}

/* Runs the rounds again, keeping each choice, and walks back from a node that the last round changed. */
static unsigned find_loop(const struct view *v, const struct work *w, uint8_t *loop)
{
    static const int16_t none = -1;
    int16_t least[NODES + 1][NODES], choice[NODES + 1][NODES];
    memset(least[0], 0, sizeof least[0]);
    for (unsigned k = 1; k <= v->nodes; k++) {
        memcpy(least[k], least[k - 1], sizeof least[k]);
        for (unsigned n = 0; n < v->nodes; n++) {
            choice[k][n] = none;
        }
        for (unsigned i = 0; i < v->wires; i++) {
            int total = w->bound[i] + least[k - 1][w->to[i]];
            if (total < least[k][w->from[i]]) {
                least[k][w->from[i]] = (int16_t)total;
                choice[k][w->from[i]] = (int16_t)i;
            }
        }
    }
    unsigned at = 0, count = 0, k = v->nodes;
    uint8_t walk[NODES], place[NODES];
    uint64_t met = 0;
    while (choice[v->nodes][at] == none) {
        at++;
    }
    while (!(met >> at & 1)) {
        while (choice[k][at] == none) {
            k--;
        }
        met |= (uint64_t)1 << at;
        place[at] = (uint8_t)count;
        walk[count] = (uint8_t)choice[k--][at];
        at = w->to[walk[count++]];
    }
    unsigned begin = place[at], size = count - begin, lowest = 0;
    for (unsigned i = 1; i < size; i++) {
        lowest = walk[begin + i] < walk[begin + lowest] ? i : lowest;
    }
    for (unsigned i = 0; i < size; i++) {
        loop[i] = walk[begin + (lowest + i) % size];
    }
    return size;
}

static unsigned registers(const struct view *v, const uint16_t *longest)
{
    unsigned live[FOLD], all = 0, most = 0;
    memset(live, 0, sizeof *live * v->fold);
    for (unsigned n = 0; n < v->nodes; n++) {
        const uint8_t *node = v->node + 7 * n;
        unsigned slot = (node[3] + v->unit[4 * node[2] + 3] + 1u) % v->fold;
        all += longest[n] / v->fold;
        for (unsigned rest = longest[n] % v->fold; rest > 0; rest--) {
            live[slot]++;
            slot = slot + 1 == v->fold ? 0 : slot + 1;
        }
    }
    for (unsigned slot = 0; slot < v->fold; slot++) {
        most = live[slot] > most ? live[slot] : most;
    }
    return all + most;
}

static uint8_t *write_switches(const struct view *v, const struct work *w, uint8_t *at, uint16_t *longest, uint16_t *lines)
{
    for (unsigned i = 0; i < v->wires; i++, at += 8) {
        const uint8_t *to = v->node + 7 * w->to[i], *from = v->node + 7 * w->from[i];
        unsigned wait = (unsigned)(w->raw[i] + (int)v->fold * (w->least[w->to[i]] - w->least[w->from[i]]));
        memcpy(at, (uint8_t[]){'P', 'S', to[2], v->wire[6 * i + 4], to[3], from[2]}, 6);
        put_two(at + 6, wait);
        longest[w->from[i]] = wait > longest[w->from[i]] ? (uint16_t)wait : longest[w->from[i]];
        lines[from[2]] = wait > lines[from[2]] ? (uint16_t)wait : lines[from[2]];
    }
    return at;
}

static void write_plan(const struct view *v, const struct work *w, uint8_t *plan)
{
    uint16_t longest[NODES], lines[UNITS];
    int smallest = 0;
    uint8_t *unit = plan + 9, *node = unit + 7 * v->units;
    memset(longest, 0, 2 * v->nodes);
    memset(lines, 0, 2 * v->units);
    write_switches(v, w, node + 9 * v->nodes, longest, lines);
    for (unsigned n = 0; n < v->nodes; n++) {
        smallest = w->least[n] < smallest ? w->least[n] : smallest;
    }
    for (unsigned n = 0; n < v->nodes; n++, node += 9) {
        memcpy(node, v->node + 7 * n, 7);
        node[0] = 'P';
        put_two(node + 7, (unsigned)(w->least[n] - smallest));
    }
    for (unsigned u = 0; u < v->units; u++, unit += 7) {
        memcpy(unit, (uint8_t[]){'P', 'U', v->unit[4 * u + 2], v->unit[4 * u + 3]}, 4);
        put_two(unit + 4, lines[u]);
        unit[6] = (uint8_t)(v->fold - (unsigned)__builtin_popcount(v->slots.occupied[u]));
    }
    memcpy(plan, (uint8_t[]){'P', 'H', (uint8_t)v->fold, (uint8_t)v->units, (uint8_t)v->nodes, (uint8_t)v->wires}, 6);
    put_two(plan + 6, registers(v, longest));
    plan[8] = (uint8_t)w->chain;
}

uint32_t fold_plan(const uint8_t *sheet, size_t sheet_len, uint8_t *plan, size_t plan_len, uint64_t *written)
{
    struct view v;
    struct work w;
    *written = 0;
    uint32_t refusal = judge_sheet(sheet, sheet_len, &v);
    if (refusal) {
        return refusal;
    }
    size_t length = 9 + 7 * (size_t)v.units + 9 * (size_t)v.nodes + 8 * (size_t)v.wires;
    *written = length;
    if (plan_len < length) {
        return 7;
    }
    make_bounds(&v, &w);
    if (relax(&v, &w)) {
        write_plan(&v, &w, plan);
        return 0;
    }
    uint8_t loop[NODES];
    unsigned size = find_loop(&v, &w, loop);
    for (unsigned i = 0; i < size; i++) {
        memcpy(plan + 3 * i, (uint8_t[]){'P', 'W', loop[i]}, 3);
    }
    *written = 3 * (uint64_t)size;
    return 6;
}
