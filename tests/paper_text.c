/* The listing of a sheet: its plan's fields line by line, or its refusal. See paper.h. */
#include "paper.h"

#include <stdio.h>

static size_t list_plan(const struct plan *p, char *out)
{
    char *at = out;
    at += sprintf(at, "fold %d units %d nodes %d wires %d registers %d chain %d\n", p->fold, p->units, p->nodes, p->switches,
                  p->registers, p->chain);
    for (int i = 0; i < p->units; i++) {
        const struct unit *u = &p->unit[i];
        at += sprintf(at, "unit %d kind %d depth %d line %d idle %d\n", i, u->kind, u->depth, u->line, u->idle);
    }
    for (int i = 0; i < p->nodes; i++) {
        const struct node *n = &p->node[i];
        at += sprintf(at, "node %d unit %d slot %d op %d k %d start %d\n", i, n->unit, n->slot, n->op, n->k, n->start);
    }
    for (int i = 0; i < p->switches; i++) {
        const struct switching *s = &p->switching[i];
        at += sprintf(at, "switch %d unit %d input %d slot %d source %d tap %d\n", i, s->unit, s->input, s->slot, s->source,
                      s->tap);
    }
    return (size_t)(at - out);
}

/* The listing from a planner's answer: its number and the bytes that it wrote. */
size_t plan_listing(uint32_t number, const uint8_t *written, size_t length, char *out)
{
    static struct plan p;
    if (number == 0 && read_plan(written, length, &p) == 0) {
        return list_plan(&p, out);
    }
    size_t at = (size_t)sprintf(out, "refused %u", number);
    if (number == 6) {
        at += (size_t)sprintf(out + at, " wires");
        for (size_t i = 0; i + 3 <= length; i += 3) {
            at += (size_t)sprintf(out + at, " %u", written[i + 2]);
        }
    }
    out[at++] = '\n';
    return at;
}

size_t paper_listing(const uint8_t *bytes, size_t length, char *out)
{
    uint8_t plan[MAX_PLAN];
    uint64_t written = 0;
    uint32_t number = paper_plan(bytes, length, plan, sizeof plan, &written);
    return plan_listing(number, plan, (size_t)written, out);
}
