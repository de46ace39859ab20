/* Faults that only show when all records are read: clashes (4), inputs fed wrongly (5), a plan's figures (9). See make.h. */
#include "make.h"

/* A node goes into another's slot, or takes another port's channel. */
static void clash(struct chance *c, struct node *nodes, int count)
{
    struct node *a = &nodes[between(c, 0, count - 1)];
    for (int tries = 0; tries < 40; tries++) {
        const struct node *b = &nodes[between(c, 0, count - 1)];
        if (a == b || a->op != b->op) {
            continue;
        }
        if (a->op == OP_PORT && percent(c, 60)) {
            a->k = b->k;
        } else {
            a->unit = b->unit, a->slot = b->slot;
        }
        return;
    }
}

/* One more node in a slot that is taken; its inputs are fed as the other's are, for a plan's switches go by slots. */
static void crowd(struct chance *c, struct plan *p)
{
    if (p->nodes < MAX_NODES) {
        p->node[p->nodes] = p->node[between(c, 0, p->nodes - 1)];
        p->node[p->nodes++].start = between(c, 0, 9);
    }
}

void fault_sheet(struct chance *c, struct sheet *s)
{
    int i = s->wires > 0 ? between(c, 0, s->wires - 1) : 0, sort = between(c, 0, 4);
    if (sort < 2 || s->wires == 0) {
        clash(c, s->node, s->nodes);
    } else if (sort == 2) {
        s->wire[i] = s->wire[--s->wires];
    } else if (sort == 3 && s->wires < MAX_WIRES) {
        s->wire[s->wires++] = s->wire[i];
    } else if (inputs_of(s->node[s->wire[i].to].op) == 2) {
        s->wire[i].input = 1 - s->wire[i].input;
    }
}

void fault_plan(struct chance *c, struct plan *p)
{
    int i = p->switches > 0 ? between(c, 0, p->switches - 1) : 0, sort = between(c, 0, 6);
    struct unit *u = &p->unit[between(c, 0, p->units - 1)];
    if (sort < 2 || p->switches == 0) {
        percent(c, 60) ? crowd(c, p) : clash(c, p->node, p->nodes);
    } else if (sort == 2) {
        p->switching[i] = p->switching[--p->switches];
    } else if (sort == 3 && p->switches < MAX_WIRES) {
        p->switching[p->switches++] = p->switching[i];
    } else if (sort == 4) {
        p->switching[i].slot = p->switching[between(c, 0, p->switches - 1)].slot;
    } else if (sort == 5) {
        u->line += percent(c, 50) ? 1 : percent(c, 50) ? -1 : between(c, -256, 256);
    } else {
        u->idle += percent(c, 50) ? 1 : percent(c, 50) ? -1 : between(c, -40, 40);
    }
}
