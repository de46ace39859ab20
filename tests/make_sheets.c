/* Random sheets without a fault. See make.h. */
#include "make.h"

#include <string.h>

/* How a sheet's wires are drawn. */
struct drawing {
    int row;        /* percent of first inputs that take the node before */
    int forward;    /* percent of other inputs that take an earlier node */
    int late;       /* most delays of a forward wire */
    int back;       /* most delays of a backward wire */
    int falling;    /* slots chosen so that the row falls in every wire */
};

static int pick_fold(struct chance *c)
{
    static const int usual[] = {1, 2, 3, 4, 4, 5, 8, 16, 31, 32};
    return percent(c, 60) ? usual[below(c, 10)] : between(c, 1, MAX_FOLD);
}

static int pick_depth(struct chance *c, int style)
{
    return style == 0 ? 1 : style == 1 ? between(c, 1, 3) : style == 2 ? between(c, 1, MAX_DEPTH) : MAX_DEPTH;
}

static void make_units(struct chance *c, struct sheet *s)
{
    int style = between(c, 0, 3);
    s->units = percent(c, 15) ? MAX_UNITS : between(c, 1, MAX_UNITS);
    for (int u = 0; u < s->units; u++) {
        int kind = percent(c, 15) ? PORT_UNIT : between(c, ADDER_UNIT, MULTIPLIER_UNIT);
        s->unit[u] = (struct unit){kind, pick_depth(c, style), 0, 0};
    }
    if (percent(c, 5)) {
        for (int u = 0; u < s->units; u++) {
            s->unit[u].kind = ADDER_UNIT;
        }
    }
}

static int pick_k(struct chance *c, int op, uint32_t *channels)
{
    static const int edges[] = {-32768, -32767, -16384, -1, 0, 1, 16384, 32767};
    if (op == OP_PORT) {
        int k = between(c, 0, CHANNELS - 1);
        while (*channels >> k & 1) {
            k = (k + 1) % CHANNELS;
        }
        *channels |= 1u << k;
        return k;
    }
    return op != OP_SCALE ? 0 : percent(c, 40) ? edges[below(c, 8)] : between(c, -32768, 32767);
}

/* A free slot of the unit near the wished one. */
static int free_slot(const uint32_t *taken, int unit, int fold, int wished)
{
    for (int i = 0; i < fold; i++) {
        int slot = (wished + i) % fold;
        if (!(taken[unit] >> slot & 1)) {
            return slot;
        }
    }
    return -1;
}

static void make_nodes(struct chance *c, struct sheet *s, int wanted, int falling)
{
    uint32_t taken[MAX_UNITS] = {0}, channels = 0;
    int wished = between(c, 0, s->fold - 1);
    s->nodes = 0;
    for (int tries = 0; s->nodes < wanted && tries < 4 * wanted + 20; tries++) {
        int u = between(c, 0, s->units - 1), kind = s->unit[u].kind;
        int slot = free_slot(taken, u, s->fold, falling ? wished : between(c, 0, s->fold - 1));
        if (slot < 0 || (kind == PORT_UNIT && channels == 0xFFFF)) {
            continue;
        }
        int op = kind == PORT_UNIT ? OP_PORT : kind == MULTIPLIER_UNIT ? OP_SCALE : between(c, OP_SUM, OP_DIFFERENCE);
        s->node[s->nodes++] = (struct node){u, slot, op, pick_k(c, op, &channels), 0};
        taken[u] |= 1u << slot;
        wished = (slot + s->unit[u].depth + s->fold - 1) % s->fold;
    }
    if (s->nodes == 0) {
        int kind = s->unit[0].kind, op = kind == PORT_UNIT ? OP_PORT : kind == MULTIPLIER_UNIT ? OP_SCALE : OP_SUM;
        s->node[s->nodes++] = (struct node){0, 0, op, 0, 0};
    }
}

static void make_wires(struct chance *c, struct sheet *s, const struct drawing *d)
{
    s->wires = 0;
    for (int n = 0; n < s->nodes; n++) {
        for (int input = 0; input < inputs_of(s->node[n].op); input++) {
            int from = between(c, 0, s->nodes - 1);
            if (n > 0 && input == 0 && percent(c, (uint32_t)d->row)) {
                from = n - 1;
            } else if (n > 0 && percent(c, (uint32_t)d->forward)) {
                from = between(c, 0, n - 1);
            }
            int most = from < n ? d->late : d->back;
            int delays = from == n - 1 ? 0 : percent(c, 30) ? most : between(c, 0, most);
            s->wire[s->wires++] = (struct wire){from, n, input, delays};
        }
    }
}

/* Other numbers for the nodes and another order of the wires, so that nothing hangs on the order of making. */
static void shuffle(struct chance *c, struct sheet *s)
{
    int name[MAX_NODES];
    struct node old[MAX_NODES];
    memcpy(old, s->node, sizeof old);
    for (int n = 0; n < s->nodes; n++) {
        name[n] = n;
    }
    for (int n = s->nodes - 1; n > 0 && percent(c, 99); n--) {
        int other = between(c, 0, n), kept = name[n];
        name[n] = name[other], name[other] = kept;
    }
    for (int n = 0; n < s->nodes; n++) {
        s->node[name[n]] = old[n];
    }
    for (int i = 0; i < s->wires; i++) {
        s->wire[i].from = name[s->wire[i].from], s->wire[i].to = name[s->wire[i].to];
    }
    for (int i = s->wires - 1; i > 0; i--) {
        int other = between(c, 0, i);
        struct wire kept = s->wire[i];
        s->wire[i] = s->wire[other], s->wire[other] = kept;
    }
}

/* Adds delays on loops that forbid folding, as few as will do or a few more, so that many loops end with bounds of 0. */
static int mend(struct chance *c, struct sheet *s)
{
    static struct folded f;
    int more = percent(c, 50) ? 0 : between(c, 0, 6);
    for (int tries = 0; tries < 400; tries++) {
        if (fold_sheet(s, &f) == 0) {
            return 1;
        }
        struct wire *w = &s->wire[f.loop[between(c, 0, f.loop_wires - 1)]];
        w->delays += between(c, 1, 1 + more);
        w->delays = w->delays > MAX_DELAYS ? MAX_DELAYS : w->delays;
    }
    return 0;
}

static void draw(struct chance *c, struct sheet *s)
{
    static const int most[] = {0, 1, 2, 3, 8, MAX_DELAYS};
    struct drawing d = {between(c, 0, 1) * between(c, 50, 100), between(c, 0, 1) * between(c, 50, 100), most[below(c, 6)],
                        most[below(c, 6)], percent(c, 30)};
    int size = between(c, 0, 9);
    int wanted = size < 5 ? between(c, 1, 6) : size < 8 ? between(c, 4, 16) : size < 9 ? between(c, 12, 48) : MAX_NODES;
    s->fold = pick_fold(c);
    make_units(c, s);
    make_nodes(c, s, wanted, d.falling);
    make_wires(c, s, &d);
    if (percent(c, 60)) {
        shuffle(c, s);
    }
}

void make_foldable(struct chance *c, struct sheet *s)
{
    do {
        draw(c, s);
    } while (!mend(c, s));
}

void make_sheet(struct chance *c, struct sheet *s)
{
    if (percent(c, 30)) {
        draw(c, s);
        return;
    }
    make_foldable(c, s);
    if (s->wires > 0 && percent(c, 30)) {
        struct wire *w = &s->wire[between(c, 0, s->wires - 1)];
        w->delays -= w->delays > 0;
    }
}
