/* Random sheets and plans: whole ones, damaged ones and noise. */
#ifndef MAKE_H
#define MAKE_H

#include "chance.h"
#include "paper.h"

enum { MAX_INPUT = 70000 };

/* A sheet without a fault; mostly one that folds, some on the very edge of it, some that do not fold. */
void make_sheet(struct chance *c, struct sheet *s);

/* The same, made to fold. */
void make_foldable(struct chance *c, struct sheet *s);

/* A plan that the machine takes: the planner's, or one by hand with taps, starts and figures at will. */
void make_plan(struct chance *c, struct plan *p);

/* Bytes of a sheet or a plan for a call, from whole to noise; out holds MAX_INPUT. */
size_t make_sheet_input(struct chance *c, uint8_t *out);
size_t make_plan_input(struct chance *c, uint8_t *out);

/* Faults in bytes that were a sheet or a plan: fields at and past their limits, marks, lengths, records moved. */
size_t damage(struct chance *c, uint8_t *bytes, size_t length);

/* One fault that only shows when all records are read. */
void fault_sheet(struct chance *c, struct sheet *s);
void fault_plan(struct chance *c, struct plan *p);

/* Line lengths and idle counts as 01 says them. */
void set_figures(struct plan *p);

#endif
