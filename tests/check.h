/* The comparing itself: each call of the library beside the paper's, on the same lent memory. */
#ifndef CHECK_H
#define CHECK_H

#include "chance.h"
#include "paper.h"

/* What has been seen, for the line of counts. */
struct seen {
    uint64_t cases, differences, cycles;
    uint64_t plan[10], clear[10], step[10], need[10];
    int longest_wait, longest_chain, longest_loop, most_starts, most_registers;
};

extern struct seen seen;

/* Which case is running, for the report of a difference. */
void begin_case(uint64_t seed, uint64_t number, const char *sort);
void begin_input(const uint8_t *bytes, size_t length);
void differ(const char *format, ...) __attribute__((format(printf, 1, 2)));

void checks_begin(void);

/* Each is one case. */
void check_plan(struct chance *c, const uint8_t *sheet, size_t length, size_t room);
void check_machine(struct chance *c, const uint8_t *plan, size_t length);
void check_run(struct chance *c, const struct sheet *s);

/* Document 01's own numbers, typed from the paper, through the library. */
void check_worked(struct chance *c);

#endif
