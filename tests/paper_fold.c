/* The folding rules: raw waits, bounds, the latest retiming by walks, the chain, live cycles, the loop at 6. See paper.h. */
#include "paper.h"

#include <string.h>

/* D = Nw - P_U + v - u */
static int raw_wait(const struct sheet *s, const struct wire *w)
{
    const struct node *from = &s->node[w->from], *to = &s->node[w->to];
    return s->fold * w->delays - s->unit[from->unit].depth + to->slot - from->slot;
}

static int floor_over(int a, int n)
{
    int q = 0;
    while (a < 0) {
        a += n, q--;
    }
    return q + a / n;
}

/* Least totals of bounds over walks of at most k wires from each node, for k = 0 to the number of nodes; and the first wire
   of such a walk, -1 for the empty one or where the shorter walks are as good. */
struct walks {
    int least[MAX_NODES + 1][MAX_NODES];
    int first[MAX_NODES + 1][MAX_NODES];
};

static void walk(const struct sheet *s, const int *bound, struct walks *t)
{
    for (int n = 0; n < s->nodes; n++) {
        t->least[0][n] = 0;
    }
    for (int k = 1; k <= s->nodes; k++) {
        for (int n = 0; n < s->nodes; n++) {
            t->least[k][n] = t->least[k - 1][n];
            t->first[k][n] = -1;
        }
        for (int i = 0; i < s->wires; i++) {
            int total = bound[i] + t->least[k - 1][s->wire[i].to];
            if (total < t->least[k][s->wire[i].from]) {
                t->least[k][s->wire[i].from] = total;
                t->first[k][s->wire[i].from] = i;
            }
        }
    }
}

static int rows_equal(const struct walks *t, int a, int b, int nodes)
{
    return memcmp(t->least[a], t->least[b], sizeof(int) * (size_t)nodes) == 0;
}

/* Some walk of as many wires as there are nodes beats all shorter ones; it meets a node twice, and what lies between is a
   loop whose bounds total below 0, for without it the walk would be a shorter one. */
static void find_loop(const struct sheet *s, const struct walks *t, struct folded *f)
{
    int at = 0, wires[MAX_NODES], met[MAX_NODES], count = 0;
    while (t->least[s->nodes][at] == t->least[s->nodes - 1][at]) {
        at++;
    }
    memset(met, -1, sizeof met);
    for (int k = s->nodes; met[at] < 0; k--) {
        while (t->first[k][at] < 0) {
            k--;
        }
        met[at] = count;
        wires[count] = t->first[k][at];
        at = s->wire[wires[count++]].to;
    }
    int begin = met[at], size = count - begin, lowest = begin;
    for (int i = begin; i < count; i++) {
        lowest = wires[i] < wires[lowest] ? i : lowest;
    }
    for (int i = 0; i < size; i++) {
        f->loop[i] = wires[begin + (lowest - begin + i) % size];
    }
    f->loop_wires = size;
}

int loop_holds(const struct sheet *s, const int *wires, int count)
{
    int total = 0, met[MAX_NODES] = {0};
    if (count < 1 || count > s->nodes) {
        return 0;
    }
    for (int i = 0; i < count; i++) {
        if (wires[i] < 0 || wires[i] >= s->wires || wires[i] < wires[0]) {
            return 0;
        }
    }
    for (int i = 0; i < count; i++) {
        const struct wire *w = &s->wire[wires[i]], *next = &s->wire[wires[(i + 1) % count]];
        if (w->to != next->from || met[w->from]++ > 0) {
            return 0;
        }
        total += floor_over(raw_wait(s, w), s->fold);
    }
    return total < 0;
}

/* "a node's word is live from cycle u+P+1 up to u+P+(largest wait of its wires), both counted" */
static void count_live(const struct sheet *s, struct folded *f)
{
    memset(f->live, 0, sizeof f->live);
    f->registers = 0;
    for (int n = 0; n < s->nodes; n++) {
        int longest = 0, leaves = s->node[n].slot + s->unit[s->node[n].unit].depth;
        for (int i = 0; i < s->wires; i++) {
            if (s->wire[i].from == n && f->wait[i] > longest) {
                longest = f->wait[i];
            }
        }
        for (int cycle = leaves + 1; cycle <= leaves + longest; cycle++) {
            f->live[cycle % s->fold]++;
        }
    }
    for (int slot = 0; slot < s->fold; slot++) {
        f->registers = f->live[slot] > f->registers ? f->live[slot] : f->registers;
    }
}

int fold_sheet(const struct sheet *s, struct folded *f)
{
    static struct walks table;
    for (int i = 0; i < s->wires; i++) {
        f->raw[i] = raw_wait(s, &s->wire[i]);
        f->bound[i] = floor_over(f->raw[i], s->fold);
    }
    walk(s, f->bound, &table);
    f->loop_wires = 0;
    if (!rows_equal(&table, s->nodes, s->nodes - 1, s->nodes)) {
        find_loop(s, &table, f);
        return 6;
    }
    f->chain = 0;
    while (!rows_equal(&table, f->chain, s->nodes - 1, s->nodes)) {
        f->chain++;
    }
    int smallest = 0;
    for (int n = 0; n < s->nodes; n++) {
        smallest = table.least[s->nodes][n] < smallest ? table.least[s->nodes][n] : smallest;
    }
    for (int n = 0; n < s->nodes; n++) {
        f->start[n] = table.least[s->nodes][n] - smallest;
    }
    for (int i = 0; i < s->wires; i++) {
        f->wait[i] = f->raw[i] + s->fold * (f->start[s->wire[i].to] - f->start[s->wire[i].from]);
    }
    count_live(s, f);
    return 0;
}

/* ---- bytes */

static uint8_t *put(uint8_t *at, const char *mark, int fields, const int *values, uint32_t wide)
{
    *at++ = (uint8_t)mark[0], *at++ = (uint8_t)mark[1];
    for (int i = 0; i < fields; i++) {
        *at++ = (uint8_t)(values[i] & 255);
        if (wide >> i & 1) {
            *at++ = (uint8_t)(values[i] >> 8 & 255);
        }
    }
    return at;
}

size_t sheet_bytes(const struct sheet *s, uint8_t *out)
{
    uint8_t *at = put(out, "FH", 4, (int[]){s->fold, s->units, s->nodes, s->wires}, 0);
    for (int i = 0; i < s->units; i++) {
        at = put(at, "FU", 2, (int[]){s->unit[i].kind, s->unit[i].depth}, 0);
    }
    for (int i = 0; i < s->nodes; i++) {
        const struct node *n = &s->node[i];
        at = put(at, "FN", 4, (int[]){n->unit, n->slot, n->op, n->k}, 1u << 3);
    }
    for (int i = 0; i < s->wires; i++) {
        const struct wire *w = &s->wire[i];
        at = put(at, "FE", 4, (int[]){w->from, w->to, w->input, w->delays}, 0);
    }
    return (size_t)(at - out);
}

size_t plan_bytes(const struct plan *p, uint8_t *out)
{
    uint8_t *at = put(out, "PH", 6, (int[]){p->fold, p->units, p->nodes, p->switches, p->registers, p->chain}, 1u << 4);
    for (int i = 0; i < p->units; i++) {
        const struct unit *u = &p->unit[i];
        at = put(at, "PU", 4, (int[]){u->kind, u->depth, u->line, u->idle}, 1u << 2);
    }
    for (int i = 0; i < p->nodes; i++) {
        const struct node *n = &p->node[i];
        at = put(at, "PN", 5, (int[]){n->unit, n->slot, n->op, n->k, n->start}, 1u << 3 | 1u << 4);
    }
    for (int i = 0; i < p->switches; i++) {
        const struct switching *s = &p->switching[i];
        at = put(at, "PS", 5, (int[]){s->unit, s->input, s->slot, s->source, s->tap}, 1u << 4);
    }
    return (size_t)(at - out);
}

size_t plan_length(const struct sheet *s)
{
    return (size_t)(9 + 7 * s->units + 9 * s->nodes + 8 * s->wires);
}

void plan_of(const struct sheet *s, const struct folded *f, struct plan *p)
{
    p->fold = s->fold, p->units = s->units, p->nodes = s->nodes, p->switches = s->wires;
    p->registers = f->registers, p->chain = f->chain;
    for (int u = 0; u < s->units; u++) {
        p->unit[u] = (struct unit){s->unit[u].kind, s->unit[u].depth, 0, s->fold};
    }
    for (int n = 0; n < s->nodes; n++) {
        p->node[n] = s->node[n];
        p->node[n].start = f->start[n];
        p->unit[s->node[n].unit].idle--;
    }
    for (int i = 0; i < s->wires; i++) {
        const struct wire *w = &s->wire[i];
        const struct node *to = &s->node[w->to];
        struct unit *source = &p->unit[s->node[w->from].unit];
        p->switching[i] = (struct switching){to->unit, w->input, to->slot, s->node[w->from].unit, f->wait[i]};
        source->line = f->wait[i] > source->line ? f->wait[i] : source->line;
    }
}

uint32_t paper_plan(const uint8_t *bytes, size_t length, uint8_t *plan, size_t plan_len, uint64_t *written)
{
    static struct sheet s;
    static struct folded f;
    static struct plan p;
    *written = 0;
    int refusal = read_sheet(bytes, length, &s);
    if (refusal != 0) {
        return (uint32_t)refusal;
    }
    if (plan_len < plan_length(&s)) {
        *written = plan_length(&s);
        return 7;
    }
    if (fold_sheet(&s, &f) != 0) {
        for (int i = 0; i < f.loop_wires; i++) {
            put(plan + 3 * i, "PW", 1, &f.loop[i], 0);
        }
        *written = 3 * (uint64_t)f.loop_wires;
        return 6;
    }
    plan_of(&s, &f, &p);
    *written = plan_bytes(&p, plan);
    return 0;
}
