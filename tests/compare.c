/* The library against document 01: `compare [--cases N] [--seed S] [--only I]`.

   Case I of a seed is made from these two numbers alone, so that --only runs it again. Exit 1 at any difference. */
#include "check.h"
#include "make.h"

#include <inttypes.h>
#include <stdio.h>
#include <stdlib.h>
#include <string.h>

static uint8_t input[MAX_INPUT + 64];

/* Room for a plan around the length that it has. */
static size_t pick_room(struct chance *c, const uint8_t *bytes, size_t length)
{
    size_t needed = below(c, 200);
    if (length >= 6) {
        size_t said = 9 + 7u * bytes[3] + 9u * bytes[4] + 8u * bytes[5];
        needed = said <= MAX_PLAN ? said : needed;
    }
    uint32_t style = below(c, 100);
    if (style < 50) {
        return needed + (style < 30 ? 0 : style < 35 ? 1 : below(c, 200));
    }
    return style < 85 ? MAX_PLAN + below(c, 3) : style < 92 ? needed - (needed > 0) : below(c, (uint32_t)needed + 1);
}

static void run_case(uint64_t seed, uint64_t number)
{
    static struct sheet s;
    struct chance c = chance_of(seed, number);
    uint32_t sort = below(&c, 100);
    if (sort < 52) {
        begin_case(seed, number, "plan");
        size_t length = make_sheet_input(&c, input);
        check_plan(&c, input, length, pick_room(&c, input, length));
    } else if (sort < 97) {
        begin_case(seed, number, "machine");
        size_t length = make_plan_input(&c, input);
        check_machine(&c, input, length);
    } else {
        begin_case(seed, number, "run");
        make_foldable(&c, &s);
        check_run(&c, &s);
    }
}

static int print_row(const char *call, const uint64_t *counts, const char *possible)
{
    int missing = 0;
    printf("%-13s", call);
    for (int i = 0; i < 10; i++) {
        if (strchr(possible, '0' + i) != NULL) {
            printf(" %d: %" PRIu64, i, counts[i]);
            missing += counts[i] == 0;
        }
    }
    printf("\n");
    return missing;
}

/* What was seen; a run of some length that never met one of the answers has not tested it. */
static int print_seen(uint64_t cases)
{
    printf("answers seen\n");
    int missing = print_row("plan", seen.plan, "01234567") + print_row("clear", seen.clear, "01234579") +
                  print_row("step", seen.step, "012345789") + print_row("memory_words", seen.need, "0123459");
    printf("longest wait %d, chain %d, loop %d, start %d; most registers %d; %" PRIu64 " cycles held against the graph\n",
           seen.longest_wait, seen.longest_chain, seen.longest_loop, seen.most_starts, seen.most_registers, seen.cycles);
    if (missing > 0 && cases >= 20000) {
        printf("DIFFERS: %d answers were never met\n", missing);
        return 1;
    }
    return 0;
}

static uint64_t number_after(int argc, char **argv, const char *name, uint64_t otherwise)
{
    for (int i = 1; i + 1 < argc; i++) {
        if (strcmp(argv[i], name) == 0) {
            return strtoull(argv[i + 1], NULL, 10);
        }
    }
    return otherwise;
}

int main(int argc, char **argv)
{
    uint64_t cases = number_after(argc, argv, "--cases", 400000), seed = number_after(argc, argv, "--seed", 1);
    uint64_t only = number_after(argc, argv, "--only", UINT64_MAX);
    struct chance c = chance_of(seed, UINT64_MAX);
    checks_begin();
    begin_case(seed, UINT64_MAX, "worked by hand");
    check_worked(&c);
    uint64_t first = only == UINT64_MAX ? 0 : only, end = only == UINT64_MAX ? cases : only + 1;
    for (uint64_t i = first; i < end && seen.differences < 10; i++) {
        run_case(seed, i);
    }
    seen.differences += only == UINT64_MAX && seen.differences == 0 && print_seen(cases) ? 1 : 0;
    uint64_t failed = seen.differences < seen.cases ? seen.differences : seen.cases;
    printf("seed %" PRIu64 ": %" PRIu64 " passed, %" PRIu64 " failed\n", seed, seen.cases - failed, failed);
    return seen.differences > 0;
}
