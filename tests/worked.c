/* Document 01's sheets worked by hand: its own numbers, typed from the paper, through the library. See check.h. */
#include "check.h"
#include "../include/gongperch.h"

#include <stdio.h>
#include <string.h>

static uint8_t bytes[MAX_SHEET + 64], written_plan[MAX_PLAN + 64];
static size_t length;
static struct plan planned;

static void expect(const char *what, long got, long right)
{
    if (got != right) {
        differ("%s: %ld, the paper has %ld", what, got, right);
    }
}

/* Plans a sheet and reads the plan into `planned`; the answer is given back. */
static uint32_t plan_it(const struct sheet *s)
{
    uint64_t written = 0;
    length = sheet_bytes(s, bytes);
    begin_input(bytes, length);
    memset(&planned, 0, sizeof planned);
    uint32_t answer = gongperch_plan(bytes, length, written_plan, sizeof written_plan, &written);
    if (answer == 0) {
        expect("the plan's bytes for the machine", read_plan(written_plan, (size_t)written, &planned), 0);
    }
    return answer;
}

static void expect_starts(const char *what, const int *right)
{
    for (int n = 0; n < planned.nodes; n++) {
        expect(what, planned.node[n].start, right[n]);
    }
}

static void expect_taps(const char *what, const int *right)
{
    for (int i = 0; i < planned.switches; i++) {
        expect(what, planned.switching[i].tap, right[i]);
    }
}

/* Cases 1 to 4: -1 with N=4 gives -1, -4 gives -1, -5 gives -2, 3 gives 0. A port and a gain, N = 4, both in slot 0. */
static void bounds(void)
{
    static const int cases[4][4] = {{0, 1, 1, 3}, {0, 4, 1, 0}, {0, 5, 2, 3}, {1, 1, 0, 3}}; /* delays, depth, start, wait */
    for (int i = 0; i < 4; i++) {
        struct sheet s = {4, 2, 2, 1, {{PORT_UNIT, cases[i][1], 0, 0}, {MULTIPLIER_UNIT, 1, 0, 0}},
                          {{0, 0, OP_PORT, 0, 0}, {1, 0, OP_SCALE, 1, 0}}, {{0, 1, 0, cases[i][0]}}};
        expect("bound", plan_it(&s), 0);
        expect_starts("bound, starts", (int[]){0, cases[i][2]});
        expect_taps("bound, tap", (int[]){cases[i][3]});
    }
}

/* Runs the last plan from cleared memory with these channel words and gives what leaves a unit at the last cycle. */
static uint32_t run_it(const uint32_t *channels, int cycles, int unit)
{
    uint32_t memory[256], out[MAX_UNITS] = {0};
    size_t plan_len = 9 + 7 * (size_t)planned.units + 9 * (size_t)planned.nodes + 8 * (size_t)planned.switches;
    expect("clear", gongperch_clear(written_plan, plan_len, memory, 256), 0);
    for (int t = 0; t < cycles; t++) {
        expect("step", gongperch_step(written_plan, plan_len, memory, 256, channels, CHANNELS, out, MAX_UNITS), 0);
    }
    return out[unit];
}

/* Cases 5 to 8. */
static void scales(void)
{
    static const struct {
        uint32_t word;
        int k;
        uint32_t value;
    } cases[4] = {{1, 16384, 0}, {UINT32_MAX, 16384, UINT32_MAX}, {3, -16384, UINT32_MAX - 1}, {2147483648u, -32768, 2147483648u}};
    for (int i = 0; i < 4; i++) {
        struct sheet s = {1, 2, 2, 1, {{PORT_UNIT, 1, 0, 0}, {MULTIPLIER_UNIT, 1, 0, 0}},
                          {{0, 0, OP_PORT, 5, 0}, {1, 0, OP_SCALE, cases[i].k, 0}}, {{0, 1, 0, 0}}};
        uint32_t channels[CHANNELS] = {[5] = cases[i].word};
        expect("scale", plan_it(&s), 0);
        expect("scale", (long)run_it(channels, 3, 1), (long)cases[i].value);
    }
}

/* Mean of 315 and 45 degrees. */
static void mean(void)
{
    struct sheet s = {4, 3, 5, 5, {{PORT_UNIT, 1, 0, 0}, {ADDER_UNIT, 1, 0, 0}, {MULTIPLIER_UNIT, 2, 0, 0}},
                      {{0, 0, OP_PORT, 0, 0}, {0, 1, OP_PORT, 1, 0}, {1, 2, OP_DIFFERENCE, 0, 0}, {2, 3, OP_SCALE, 16384, 0},
                       {1, 1, OP_SUM, 0, 0}},
                      {{1, 2, 0, 0}, {0, 2, 1, 0}, {2, 3, 0, 0}, {0, 4, 0, 0}, {3, 4, 1, 0}}};
    uint32_t seam[CHANNELS] = {0xE0000000, 0x20000000}, near[CHANNELS] = {0x10000000, 0x30000000};
    expect("mean", plan_it(&s), 0);
    expect_starts("mean, starts", (int[]){0, 0, 0, 0, 1});
    expect("mean over the seam", (long)run_it(seam, 7, 1), 0);
    expect("mean", (long)run_it(near, 7, 1), 0x20000000);
}

/* Cases 9 to 12. */
static void loops(void)
{
    struct sheet two = {4, 2, 2, 2, {{MULTIPLIER_UNIT, 1, 0, 0}, {MULTIPLIER_UNIT, 1, 0, 0}},
                        {{0, 0, OP_SCALE, 16384, 0}, {1, 1, OP_SCALE, -32768, 0}}, {{0, 1, 0, 1}, {1, 0, 0, 0}}};
    expect("case 9", plan_it(&two), 0);
    expect("case 9, bytes", (long)length, 40);
    expect_starts("case 9, starts", (int[]){1, 0});
    expect_taps("case 9, taps", (int[]){0, 2});
    expect("case 9, registers", planned.registers, 1);
    expect("case 9, chain", planned.chain, 1);
    two.node[1].slot = 0;
    expect("case 10", plan_it(&two), 6);
    expect("case 10, loop", memcmp(written_plan, "PW\0PW\1", 6), 0);
    struct sheet one = {1, 1, 1, 1, {{MULTIPLIER_UNIT, 1, 0, 0}}, {{0, 0, OP_SCALE, 9, 0}}, {{0, 0, 0, 0}}};
    expect("case 11 without delay", plan_it(&one), 6);
    one.wire[0].delays = 1;
    expect("case 11 with one", plan_it(&one), 0);
    expect_taps("case 11, tap", (int[]){0});
    struct sheet ten = {4, 3, 4, 4, {{PORT_UNIT, 1, 0, 0}, {MULTIPLIER_UNIT, 2, 0, 0}, {ADDER_UNIT, 1, 0, 0}},
                        {{0, 2, OP_PORT, 0, 0}, {1, 1, OP_SCALE, 1, 0}, {1, 2, OP_SCALE, 1, 0}, {2, 3, OP_SUM, 0, 0}},
                        {{0, 1, 0, 0}, {1, 2, 0, 0}, {2, 3, 0, 1}, {0, 3, 1, 0}}};
    expect("case 12", plan_it(&ten), 0);
    expect_starts("case 12, starts", (int[]){0, 1, 2, 2});
    expect("case 12, chain", planned.chain, 2);
}

static void biquad(void)
{
    struct sheet s = {4, 3, 9, 12, {{ADDER_UNIT, 1, 0, 0}, {MULTIPLIER_UNIT, 2, 0, 0}, {PORT_UNIT, 1, 0, 0}},
                      {{0, 3, OP_SUM, 0, 0}, {0, 1, OP_SUM, 0, 0}, {0, 2, OP_SUM, 0, 0}, {0, 0, OP_SUM, 0, 0},
                       {1, 0, OP_SCALE, 1, 0}, {1, 2, OP_SCALE, 2, 0}, {1, 3, OP_SCALE, 3, 0}, {1, 1, OP_SCALE, 4, 0},
                       {2, 2, OP_PORT, 0, 0}},
                      {{0, 1, 0, 0}, {0, 4, 0, 1}, {0, 5, 0, 1}, {0, 6, 0, 2}, {0, 7, 0, 2}, {2, 0, 0, 0}, {3, 1, 1, 0},
                       {4, 2, 0, 0}, {5, 3, 0, 0}, {6, 2, 1, 0}, {7, 3, 1, 0}, {8, 0, 1, 0}}};
    expect("biquad", plan_it(&s), 0);
    expect_starts("biquad, starts", (int[]){1, 2, 1, 2, 1, 1, 0, 1, 1});
    expect_taps("biquad, waits", (int[]){1, 0, 2, 3, 5, 0, 0, 0, 0, 1, 1, 0});
    expect("biquad, registers", planned.registers, 2);
    expect("biquad, chain", planned.chain, 3);
    static const int live[4] = {2, 2, 2, 1};
    struct folded f;
    fold_sheet(&s, &f);
    for (int slot = 0; slot < 4; slot++) {
        expect("biquad, live counts of the tests' own folding", f.live[slot], live[slot]);
    }
}

/* 96 wires passed, 97 refused 3; depth 16 and 17; delays 63 and 64. */
static void limits(void)
{
    static struct sheet s;
    s = (struct sheet){.fold = 32, .units = 2, .nodes = 48, .wires = 96};
    s.unit[0] = s.unit[1] = (struct unit){ADDER_UNIT, 16, 0, 0};
    for (int n = 0; n < 48; n++) {
        s.node[n] = (struct node){n / 24, n % 24, OP_SUM, 0, 0};
        s.wire[2 * n] = (struct wire){n, n, 0, 63};
        s.wire[2 * n + 1] = (struct wire){47 - n, n, 1, 63};
    }
    expect("96 wires, depth 16, 63 delays", plan_it(&s), 0);
    length = sheet_bytes(&s, bytes);
    bytes[5] = 97;
    memcpy(bytes + length, bytes + length - 6, 6);
    uint64_t written = 0;
    expect("97 wires", gongperch_plan(bytes, length + 6, written_plan, sizeof written_plan, &written), 3);
    s.unit[1].depth = 17;
    expect("depth 17", plan_it(&s), 3);
    s.unit[1].depth = 16;
    s.wire[95].delays = 64;
    expect("64 delays", plan_it(&s), 3);
}

void check_worked(struct chance *c)
{
    (void)c;
    bounds();
    scales();
    mean();
    loops();
    biquad();
    limits();
}
