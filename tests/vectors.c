/* Stored cases for a program of the gate: vectors make DIR SAMPLES.. writes DIR/stdin, and DIR/stdout with the paper's answers;
   vectors replay < stdin writes the library's answers. tests/README.md has the format.

   Sheets that do not fold are taken only where one loop alone forbids it, for which loop is shown is free. */
#include "../include/gongperch.h"
#include "make.h"
#include "paper.h"
#include "replay.h"

#include <stdlib.h>
#include <string.h>

static const struct calls paper = {paper_plan, paper_clear, paper_step, paper_memory_words};
static const struct calls library = {gongperch_plan, gongperch_clear, gongperch_step, gongperch_memory_words};

static FILE *cases, *answers;
static uint8_t input[MAX_INPUT + 64];

static void store(const struct stored *s, const uint8_t *bytes)
{
    put_case(cases, s, bytes);
    answer_case(&paper, s, bytes, answers);
}

/* ---- loops: how many walks along wires come back to their lowest node with bounds below 0, each node met once */

struct search {
    const struct sheet *s;
    const int *bound;
    int home, found;
    long budget;
};

static void search_from(struct search *q, int at, uint64_t met, int total)
{
    for (int i = 0; i < q->s->wires && q->budget > 0; i++) {
        const struct wire *w = &q->s->wire[i];
        if (w->from != at) {
            continue;
        }
        q->budget--;
        if (w->to == q->home) {
            q->found += total + q->bound[i] < 0;
        } else if (w->to > q->home && !(met >> w->to & 1)) {
            search_from(q, w->to, met | (uint64_t)1 << w->to, total + q->bound[i]);
        }
    }
}

static int one_loop_only(const struct sheet *s)
{
    static struct folded f;
    fold_sheet(s, &f);
    struct search q = {s, f.bound, 0, 0, 200000};
    for (q.home = 0; q.home < s->nodes; q.home++) {
        search_from(&q, q.home, (uint64_t)1 << q.home, 0);
    }
    return q.found == 1 && q.budget > 0;
}

/* ---- cases for the planner */

static size_t plan_room(const uint8_t *bytes, size_t length)
{
    static struct sheet s;
    return read_sheet(bytes, length, &s) == 0 ? plan_length(&s) : 12;
}

/* Whether this call's answer doesn't hang on which loop is shown. */
static int settled(const uint8_t *bytes, size_t length)
{
    static struct sheet s;
    static struct folded f;
    return read_sheet(bytes, length, &s) != 0 || fold_sheet(&s, &f) == 0 || one_loop_only(&s);
}

static void store_plan(const uint8_t *bytes, size_t length, size_t room)
{
    struct stored s = {.sort = 'P', .length = (uint16_t)length, .room = (uint16_t)room};
    store(&s, bytes);
}

static void store_listing(const uint8_t *bytes, size_t length)
{
    struct stored s = {.sort = 'L', .length = (uint16_t)length};
    store(&s, bytes);
}

/* Random sheets until each answer has been met this often; small ones, that the files may stay small. */
static void store_sheets(int each)
{
    static uint8_t plan[CASE_ROOM];
    int met[10] = {0}, missing = 8 * each;
    for (uint64_t i = 0; missing > 0; i++) {
        struct chance c = chance_of(2026, i);
        uint64_t written = 0;
        size_t length = make_sheet_input(&c, input), most = percent(&c, 5) ? 400 : 120;
        size_t room = plan_room(input, length);
        room = percent(&c, 20) ? room - 1 - below(&c, (uint32_t)room) : room + below(&c, 4);
        if (length > most || !settled(input, length)) {
            continue;
        }
        uint32_t number = paper_plan(input, length, plan, room, &written);
        if (met[number] == each) {
            continue;
        }
        met[number]++, missing--;
        store_plan(input, length, room);
        if (met[number] % 3 == 0) {
            store_listing(input, length);
        }
    }
}

/* ---- cases for the machine */

static void store_need(const uint8_t *bytes, size_t length)
{
    struct stored s = {.sort = 'N', .length = (uint16_t)length};
    store(&s, bytes);
}

static void store_steps(const uint8_t *bytes, size_t length, struct stored s)
{
    s.length = (uint16_t)length;
    store(&s, bytes);
}

static struct stored pick_steps(struct chance *c, const struct plan *p, size_t words)
{
    size_t units = p->units > 0 && p->units <= MAX_UNITS ? (size_t)p->units : 2;
    struct stored s = {.sort = percent(c, 30) ? 'C' : percent(c, 40) ? 'R' : 'S', .steps = (uint8_t)between(c, 1, 6)};
    s.room = (uint16_t)(percent(c, 15) ? words - 1 : words + below(c, 3));
    s.channels = (uint16_t)(percent(c, 10) ? 15 : 16 + below(c, 2));
    s.out = (uint16_t)(percent(c, 10) ? units - 1 : units + below(c, 2));
    s.t = percent(c, 20) ? UINT32_MAX - below(c, 3) : percent(c, 50) ? below(c, 40) : (uint32_t)next_bits(c);
    if (s.sort == 'C') {
        s.steps = 0, s.channels = 0, s.out = 0;
    }
    return s;
}

/* The answer of such a case, for choosing: clear's, or the first step's. */
static uint32_t first_answer(const struct stored *s, const uint8_t *bytes, size_t length)
{
    static uint32_t memory[CASE_MEMORY], channels[CASE_CHANNELS], out[CASE_OUT];
    memset(memory, 0, sizeof memory);
    memory[0] = s->sort == 'R' ? 0 : s->t;
    return s->sort == 'C' ? paper_clear(bytes, length, memory, s->room)
                          : paper_step(bytes, length, memory, s->room, channels, s->channels, out, s->out);
}

/* Random plans until each answer of clear and of step has been met this often. */
static void store_plans(int each)
{
    static struct plan p;
    int met[2][10] = {{0}}, missing = (8 + 9) * each;
    for (uint64_t i = 0; missing > 0; i++) {
        struct chance c = chance_of(2027, i);
        size_t length = make_plan_input(&c, input), most = percent(&c, 5) ? 500 : 150;
        memset(&p, 0, sizeof p);
        size_t words = read_plan(input, length, &p) == 0 ? memory_of(&p) : 1 + below(&c, 9);
        if (length > most || words > 150) {
            continue;
        }
        struct stored s = pick_steps(&c, &p, words);
        uint32_t number = first_answer(&s, input, length);
        int *count = &met[s.sort == 'C'][number];
        if (*count == each) {
            continue;
        }
        ++*count, missing--;
        store_steps(input, length, s);
        if (*count % 3 == 0) {
            store_need(input, length);
        }
    }
}

/* ---- samples: every call on each, and a run of a few iterations where the memory is small */

static void store_sample(const char *path)
{
    static uint8_t plan[MAX_PLAN];
    uint64_t written = 0, words = 0;
    FILE *file = fopen(path, "rb");
    if (file == NULL) {
        perror(path);
        exit(2);
    }
    size_t length = fread(input, 1, CASE_INPUT, file);
    fclose(file);
    if (input[0] == 'F') {
        store_plan(input, length, plan_room(input, length));
        store_plan(input, length, plan_room(input, length) - 1);
        store_listing(input, length);
        if (paper_plan(input, length, plan, sizeof plan, &written) != 0) {
            return;
        }
        length = (size_t)written;
        memcpy(input, plan, length);
    }
    store_need(input, length);
    if (paper_memory_words(input, length, &words) == 0 && words <= CASE_MEMORY) {
        uint8_t steps = words > 1000 ? 3 : 240;
        store_steps(input, length, (struct stored){.sort = 'R', .steps = steps, .room = (uint16_t)words, .channels = 16, .out = 8});
    }
}

/* The paper's four bounds, and its limits: depth 16 and 17, delays 63 and 64, 97 wires (96 are among the samples). */
static void store_worked(void)
{
    static const int changes[8][2] = {{0, 1}, {0, 4}, {0, 5}, {1, 1}, {0, 16}, {0, 17}, {63, 1}, {64, 1}}; /* delays, depth */
    struct sheet s = {4, 2, 2, 1, {{PORT_UNIT, 1, 0, 0}, {MULTIPLIER_UNIT, 1, 0, 0}},
                      {{0, 0, OP_PORT, 0, 0}, {1, 0, OP_SCALE, -32768, 0}}, {{0, 1, 0, 0}}};
    size_t length = 0;
    for (int i = 0; i < 8; i++) {
        s.wire[0].delays = changes[i][0], s.unit[0].depth = changes[i][1];
        length = sheet_bytes(&s, input);
        store_plan(input, length, plan_length(&s));
        store_listing(input, length);
    }
    input[5] = 97;
    store_plan(input, length, 12);
    store_plan(input, 0, 0);
    store_listing(input, 0);
}

static FILE *open_in(const char *folder, const char *name)
{
    char path[1024];
    snprintf(path, sizeof path, "%s/%s", folder, name);
    FILE *file = fopen(path, "wb");
    if (file == NULL) {
        perror(path);
        exit(2);
    }
    return file;
}

int main(int argc, char **argv)
{
    if (argc == 2 && strcmp(argv[1], "replay") == 0) {
        struct stored s;
        while (get_case(stdin, &s, input)) {
            answer_case(&library, &s, input, stdout);
        }
        return 0;
    }
    if (argc < 3 || strcmp(argv[1], "make") != 0) {
        fprintf(stderr, "usage: vectors make DIR SAMPLES.. | vectors replay\n");
        return 2;
    }
    cases = open_in(argv[2], "stdin"), answers = open_in(argv[2], "stdout");
    for (int i = 3; i < argc; i++) {
        store_sample(argv[i]);
    }
    store_worked();
    store_sheets(15);
    store_plans(12);
    return fclose(cases) != 0 || fclose(answers) != 0;
}
