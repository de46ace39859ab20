/* Random plans that the machine takes. See make.h. */
#include "make.h"

void set_figures(struct plan *p)
{
    for (int u = 0; u < p->units; u++) {
        p->unit[u].line = 0, p->unit[u].idle = p->fold;
    }
    for (int n = 0; n < p->nodes; n++) {
        p->unit[p->node[n].unit].idle--;
    }
    for (int i = 0; i < p->switches; i++) {
        const struct switching *s = &p->switching[i];
        if (s->tap > p->unit[s->source].line) {
            p->unit[s->source].line = s->tap;
        }
    }
}

static int pick_tap(struct chance *c, int most)
{
    static const int edges[] = {0, 1, 2, 255, 256, 257};
    int tap = percent(c, 20) ? edges[below(c, 6)] : between(c, 0, most);
    return tap > most ? most : tap;
}

static int pick_most_tap(struct chance *c)
{
    uint32_t style = below(c, 1000);
    return style < 3 ? 65535 : style < 20 ? 6000 : style < 200 ? 300 : 20;
}

static void by_hand(struct chance *c, struct plan *p)
{
    static const int starts[] = {0, 0, 1, 2, 3, 255, 256, 65534, 65535};
    int most = pick_most_tap(c);
    p->registers = percent(c, 30) ? 65535 : between(c, 0, 65535);
    p->chain = percent(c, 30) ? 47 : between(c, 0, 47);
    for (int n = 0; n < p->nodes; n++) {
        p->node[n].start = starts[below(c, 9)];
    }
    for (int i = 0; i < p->switches; i++) {
        p->switching[i].tap = pick_tap(c, most);
        if (percent(c, 50)) {
            p->switching[i].source = between(c, 0, p->units - 1);
        }
    }
    for (int i = p->switches - 1; i > 0; i--) {
        int other = between(c, 0, i);
        struct switching kept = p->switching[i];
        p->switching[i] = p->switching[other], p->switching[other] = kept;
    }
    set_figures(p);
}

void make_plan(struct chance *c, struct plan *p)
{
    static struct sheet s;
    static struct folded f;
    make_foldable(c, &s);
    fold_sheet(&s, &f);
    plan_of(&s, &f, p);
    if (percent(c, 60)) {
        by_hand(c, p);
    }
}
