/* See check.h: a planner's call, and the report of a difference. */
#include "check.h"
#include "../include/gongperch.h"
#include "areas.h"

#include <inttypes.h>
#include <signal.h>
#include <stdarg.h>
#include <stdio.h>
#include <stdlib.h>
#include <string.h>
#include <unistd.h>

struct seen seen;
struct areas areas;

static struct {
    uint64_t seed, number;
    const char *sort;
    const uint8_t *bytes;
    size_t length;
} now;

void begin_case(uint64_t seed, uint64_t number, const char *sort)
{
    now.seed = seed, now.number = number, now.sort = sort;
    now.bytes = NULL, now.length = 0;
}

void begin_input(const uint8_t *bytes, size_t length)
{
    now.bytes = bytes, now.length = length;
    seen.cases++;
}

static void report(void)
{
    printf("  %s, ", now.sort);
    if (now.number != UINT64_MAX) {
        printf("seed %" PRIu64 " case %" PRIu64 ", ", now.seed, now.number);
    }
    printf("input of %zu bytes:\n  ", now.length);
    for (size_t i = 0; i < now.length; i++) {
        printf("%02x", now.bytes[i]);
    }
    printf("\n");
    fflush(stdout);
}

void differ(const char *format, ...)
{
    va_list list;
    seen.differences++;
    if (seen.differences > 10) {
        return;
    }
    printf("DIFFERS: ");
    va_start(list, format);
    vprintf(format, list);
    va_end(list);
    printf("\n");
    report();
}

static void touched(int signal)
{
    (void)signal;
    printf("DIFFERS: a call touched memory that was not lent\n");
    report();
    _exit(1);
}

void checks_begin(void)
{
    signal(SIGSEGV, touched);
    signal(SIGBUS, touched);
    area_make(&areas.input, MAX_LENT_INPUT);
    area_make(&areas.plan, 8192);
    area_make(&areas.memory, 4 * (MAX_MEMORY + 256));
    area_make(&areas.channels, 4096);
    area_make(&areas.out, 4096);
    area_make(&areas.length, 8);
}

void same_bytes(const struct area *a, const void *expected, const char *what)
{
    if (a->length > 0 && memcmp(a->slice, expected, a->length) != 0) {
        size_t at = 0;
        while (a->slice[at] == ((const uint8_t *)expected)[at]) {
            at++;
        }
        differ("%s of %zu bytes: byte %zu is %d, not %d", what, a->length, at, a->slice[at], ((const uint8_t *)expected)[at]);
    }
    if (!margin_kept(a)) {
        differ("%s of %zu bytes: memory beside it was written", what, a->length);
    }
}

/* At 6 any loop will do that is one: its bytes are taken over into what is expected when they hold. */
static void check_loop(const uint8_t *sheet, size_t length, uint64_t written, uint8_t *expected)
{
    static struct sheet s;
    int wires[MAX_NODES], count = (int)(written / 3);
    const uint8_t *at = areas.plan.slice;
    read_sheet(sheet, length, &s);
    if (written == 0 || written % 3 != 0 || count > s.nodes || written > areas.plan.length) {
        differ("plan: %" PRIu64 " bytes written at 6", written);
        return;
    }
    for (int i = 0; i < count; i++, at += 3) {
        if (at[0] != 'P' || at[1] != 'W') {
            differ("plan: record %d of the loop has no mark", i);
            return;
        }
        wires[i] = at[2];
    }
    if (!loop_holds(&s, wires, count)) {
        differ("plan: what is shown at 6 is no loop as 01 has it");
    }
    seen.longest_loop = count > seen.longest_loop ? count : seen.longest_loop;
    memcpy(expected, areas.plan.slice, (size_t)written);
}

static void note_plan(const uint8_t *bytes, size_t length)
{
    static struct plan p;
    if (read_plan(bytes, length, &p) != 0) {
        differ("plan: the machine refuses what the planner wrote");
        return;
    }
    seen.longest_chain = p.chain > seen.longest_chain ? p.chain : seen.longest_chain;
    seen.most_registers = p.registers > seen.most_registers ? p.registers : seen.most_registers;
    for (int i = 0; i < p.switches; i++) {
        seen.longest_wait = p.switching[i].tap > seen.longest_wait ? p.switching[i].tap : seen.longest_wait;
    }
    for (int n = 0; n < p.nodes; n++) {
        seen.most_starts = p.node[n].start > seen.most_starts ? p.node[n].start : seen.most_starts;
    }
}

void check_plan(struct chance *c, const uint8_t *sheet, size_t length, size_t room)
{
    static uint8_t expected[8192], before[8192];
    uint64_t junk = next_bits(c), wanted = 0;
    begin_input(sheet, length);
    any_bytes(c, before, room);
    memcpy(expected, before, room);
    const uint8_t *lent = lend(&areas.input, c, sheet, length);
    uint8_t *plan = lend(&areas.plan, c, before, room);
    uint64_t *written = (uint64_t *)(void *)lend(&areas.length, c, &junk, 8);
    uint32_t right = paper_plan(sheet, length, expected, room, &wanted);
    uint32_t answer = gongperch_plan(lent, length, plan, room, written);
    seen.plan[right]++;
    if (answer != right) {
        differ("plan: answer %u, not %u (room %zu)", answer, right, room);
        return;
    }
    if (right == 6) {
        memcpy(expected, before, room);
        check_loop(sheet, length, *written, expected);
    } else if (*written != wanted) {
        differ("plan: length %" PRIu64 ", not %" PRIu64 " at %u (room %zu)", *written, wanted, right, room);
    }
    same_bytes(&areas.plan, expected, "plan: the plan buffer");
    same_bytes(&areas.input, sheet, "plan: the sheet");
    if (!margin_kept(&areas.length)) {
        differ("plan: memory beside the length was written");
    }
    if (right == 0) {
        note_plan(expected, (size_t)wanted);
    }
}
