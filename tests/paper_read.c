/* Sheets and plans read from bytes: the refusals 1 to 5 and 9 in 01's order. See paper.h. */
#include "paper.h"

int inputs_of(int op)
{
    switch (op) {
    case OP_SUM:
    case OP_DIFFERENCE:
        return 2;
    case OP_SCALE:
        return 1;
    default:
        return 0;
    }
}

int word_at(const uint8_t *bytes)
{
    return bytes[0] + 256 * bytes[1];
}

int signed_at(const uint8_t *bytes)
{
    int word = word_at(bytes);
    return word < 32768 ? word : word - 65536;
}

static int within(int low, int x, int high)
{
    return low <= x && x <= high;
}

static int marked(const uint8_t *bytes, char first, char second)
{
    return bytes[0] == (uint8_t)first && bytes[1] == (uint8_t)second;
}

static int kind_of_op(int op)
{
    return op == OP_PORT ? PORT_UNIT : op == OP_SCALE ? MULTIPLIER_UNIT : ADDER_UNIT;
}

static int k_fits(int op, int k)
{
    switch (op) {
    case OP_PORT:
        return within(0, k, 15);
    case OP_SCALE:
        return within(-32768, k, 32767);
    default:
        return k == 0;
    }
}

/* "a field out of range, a number naming nothing, op against unit kind" */
int node_fits(const struct unit *units, int count, int fold, const struct node *node)
{
    if (!within(0, node->unit, count - 1) || !within(0, node->slot, fold - 1) || !within(0, node->op, 3)) {
        return 0;
    }
    return units[node->unit].kind == kind_of_op(node->op) && k_fits(node->op, node->k);
}

static int unit_fits(const struct unit *unit)
{
    return within(0, unit->kind, 2) && within(1, unit->depth, MAX_DEPTH);
}

static int counts_fit(int fold, int units, int nodes, int wires)
{
    return within(1, fold, MAX_FOLD) && within(1, units, MAX_UNITS) && within(1, nodes, MAX_NODES) && within(0, wires, MAX_WIRES);
}

/* "two nodes in one slot of a unit, or two port nodes of one channel" */
int nodes_clash(const struct node *nodes, int count)
{
    for (int b = 0; b < count; b++) {
        for (int a = 0; a < b; a++) {
            if (nodes[a].unit == nodes[b].unit && nodes[a].slot == nodes[b].slot) {
                return 1;
            }
            if (nodes[a].op == OP_PORT && nodes[b].op == OP_PORT && nodes[a].k == nodes[b].k) {
                return 1;
            }
        }
    }
    return 0;
}

/* ---- sheets */

static int read_sheet_records(const uint8_t *at, struct sheet *s)
{
    for (int i = 0; i < s->units; i++, at += 4) {
        if (!marked(at, 'F', 'U')) {
            return 2;
        }
        s->unit[i] = (struct unit){at[2], at[3], 0, 0};
        if (!unit_fits(&s->unit[i])) {
            return 3;
        }
    }
    for (int i = 0; i < s->nodes; i++, at += 7) {
        if (!marked(at, 'F', 'N')) {
            return 2;
        }
        s->node[i] = (struct node){at[2], at[3], at[4], signed_at(at + 5), 0};
        if (!node_fits(s->unit, s->units, s->fold, &s->node[i])) {
            return 3;
        }
    }
    for (int i = 0; i < s->wires; i++, at += 6) {
        if (!marked(at, 'F', 'E')) {
            return 2;
        }
        s->wire[i] = (struct wire){at[2], at[3], at[4], at[5]};
        const struct wire *w = &s->wire[i];
        if (w->from >= s->nodes || w->to >= s->nodes || w->delays > MAX_DELAYS || w->input >= inputs_of(s->node[w->to].op)) {
            return 3;
        }
    }
    return 0;
}

static int all_fed_once(const struct sheet *s)
{
    for (int n = 0; n < s->nodes; n++) {
        for (int input = 0; input < inputs_of(s->node[n].op); input++) {
            int feeds = 0;
            for (int i = 0; i < s->wires; i++) {
                feeds += s->wire[i].to == n && s->wire[i].input == input;
            }
            if (feeds != 1) {
                return 0;
            }
        }
    }
    return 1;
}

int read_sheet(const uint8_t *bytes, size_t length, struct sheet *s)
{
    if (length < 6) {
        return 1;
    }
    if (!marked(bytes, 'F', 'H')) {
        return 2;
    }
    s->fold = bytes[2], s->units = bytes[3], s->nodes = bytes[4], s->wires = bytes[5];
    if (!counts_fit(s->fold, s->units, s->nodes, s->wires)) {
        return 3;
    }
    if (length != (size_t)(6 + 4 * s->units + 7 * s->nodes + 6 * s->wires)) {
        return 1;
    }
    int refusal = read_sheet_records(bytes + 6, s);
    if (refusal != 0) {
        return refusal;
    }
    return nodes_clash(s->node, s->nodes) ? 4 : all_fed_once(s) ? 0 : 5;
}

/* ---- plans */

static const struct node *node_in(const struct plan *p, int unit, int slot)
{
    for (int n = 0; n < p->nodes; n++) {
        if (p->node[n].unit == unit && p->node[n].slot == slot) {
            return &p->node[n];
        }
    }
    return NULL;
}

static int switch_fits(const struct plan *p, const struct switching *s)
{
    if (s->unit >= p->units || s->source >= p->units || s->slot >= p->fold) {
        return 0;
    }
    const struct node *into = node_in(p, s->unit, s->slot);
    return into != NULL && s->input < inputs_of(into->op);
}

static int read_plan_records(const uint8_t *at, struct plan *p)
{
    for (int i = 0; i < p->units; i++, at += 7) {
        if (!marked(at, 'P', 'U')) {
            return 2;
        }
        p->unit[i] = (struct unit){at[2], at[3], word_at(at + 4), at[6]};
        if (!unit_fits(&p->unit[i])) {
            return 3;
        }
    }
    for (int i = 0; i < p->nodes; i++, at += 9) {
        if (!marked(at, 'P', 'N')) {
            return 2;
        }
        p->node[i] = (struct node){at[2], at[3], at[4], signed_at(at + 5), word_at(at + 7)};
        if (!node_fits(p->unit, p->units, p->fold, &p->node[i])) {
            return 3;
        }
    }
    for (int i = 0; i < p->switches; i++, at += 8) {
        if (!marked(at, 'P', 'S')) {
            return 2;
        }
        p->switching[i] = (struct switching){at[2], at[3], at[4], at[5], word_at(at + 6)};
        if (!switch_fits(p, &p->switching[i])) {
            return 3;
        }
    }
    return 0;
}

static int all_switched_once(const struct plan *p)
{
    for (int n = 0; n < p->nodes; n++) {
        for (int input = 0; input < inputs_of(p->node[n].op); input++) {
            int feeds = 0;
            for (int i = 0; i < p->switches; i++) {
                const struct switching *s = &p->switching[i];
                feeds += s->unit == p->node[n].unit && s->slot == p->node[n].slot && s->input == input;
            }
            if (feeds != 1) {
                return 0;
            }
        }
    }
    return 1;
}

static int units_as_said(const struct plan *p)
{
    for (int u = 0; u < p->units; u++) {
        int line = 0, idle = p->fold;
        for (int i = 0; i < p->switches; i++) {
            if (p->switching[i].source == u && p->switching[i].tap > line) {
                line = p->switching[i].tap;
            }
        }
        for (int slot = 0; slot < p->fold; slot++) {
            idle -= node_in(p, u, slot) != NULL;
        }
        if (p->unit[u].line != line || p->unit[u].idle != idle) {
            return 0;
        }
    }
    return 1;
}

int read_plan(const uint8_t *bytes, size_t length, struct plan *p)
{
    if (length < 9) {
        return 1;
    }
    if (!marked(bytes, 'P', 'H')) {
        return 2;
    }
    p->fold = bytes[2], p->units = bytes[3], p->nodes = bytes[4], p->switches = bytes[5];
    p->registers = word_at(bytes + 6), p->chain = bytes[8];
    if (!counts_fit(p->fold, p->units, p->nodes, p->switches) || !within(0, p->chain, 47)) {
        return 3;
    }
    if (length != (size_t)(9 + 7 * p->units + 9 * p->nodes + 8 * p->switches)) {
        return 1;
    }
    int refusal = read_plan_records(bytes + 9, p);
    if (refusal != 0) {
        return refusal;
    }
    return nodes_clash(p->node, p->nodes) ? 4 : !all_switched_once(p) ? 5 : units_as_said(p) ? 0 : 9;
}
