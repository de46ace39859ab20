/* Document 01 once more, in C, written from the paper alone: what the tests hold the library against.

   It goes the paper's way and not a fast one: a sheet is read into plain records, the least totals are a table over the
   length of the walk, registers are found by counting live cycles one by one, and a step works on a copy of the memory. */
#ifndef PAPER_H
#define PAPER_H

#include <stddef.h>
#include <stdint.h>

enum { MAX_FOLD = 32, MAX_UNITS = 8, MAX_NODES = 48, MAX_WIRES = 96, MAX_DEPTH = 16, MAX_DELAYS = 63, CHANNELS = 16 };
enum { MAX_SHEET = 6 + 4 * MAX_UNITS + 7 * MAX_NODES + 6 * MAX_WIRES };
enum { MAX_PLAN = 9 + 7 * MAX_UNITS + 9 * MAX_NODES + 8 * MAX_WIRES };
enum { MAX_MEMORY = 1 + MAX_UNITS * (MAX_DEPTH + 65535) };
enum { MAX_TEXT = 16384 };

enum { PORT_UNIT = 0, ADDER_UNIT = 1, MULTIPLIER_UNIT = 2 };
enum { OP_PORT = 0, OP_SUM = 1, OP_DIFFERENCE = 2, OP_SCALE = 3 };

struct unit {
    int kind, depth;
    int line, idle; /* a plan's only */
};

struct node {
    int unit, slot, op, k;
    int start; /* a plan's only */
};

struct wire {
    int from, to, input, delays;
};

struct switching {
    int unit, input, slot, source, tap;
};

struct sheet {
    int fold, units, nodes, wires;
    struct unit unit[MAX_UNITS];
    struct node node[MAX_NODES];
    struct wire wire[MAX_WIRES];
};

struct plan {
    int fold, units, nodes, switches, registers, chain;
    struct unit unit[MAX_UNITS];
    struct node node[MAX_NODES];
    struct switching switching[MAX_WIRES];
};

/* What the folding rules give for a sheet. At unfoldable only raw, bound and the loop are set. */
struct folded {
    int raw[MAX_WIRES], bound[MAX_WIRES], wait[MAX_WIRES];
    int start[MAX_NODES], chain;
    int live[MAX_FOLD], registers;
    int loop[MAX_NODES], loop_wires;
};

/* Fields and ops, which sheets and plans share. */
int inputs_of(int op);
int node_fits(const struct unit *units, int count, int fold, const struct node *node);
int nodes_clash(const struct node *nodes, int count);
int word_at(const uint8_t *bytes);
int signed_at(const uint8_t *bytes);

/* 0, or the refusal 1 to 5 of these bytes as a sheet. */
int read_sheet(const uint8_t *bytes, size_t length, struct sheet *sheet);

/* 0, or the refusal 1 to 5 or 9 of these bytes as a plan. */
int read_plan(const uint8_t *bytes, size_t length, struct plan *plan);

/* 0, or 6 with a loop. */
int fold_sheet(const struct sheet *sheet, struct folded *folded);

/* Whether these wires are a loop as 01 wants it shown: closed, in walking order from the lowest number, each node once,
   bounds totalling below 0. */
int loop_holds(const struct sheet *sheet, const int *wires, int count);

/* The records as bytes, whatever they hold; the number of bytes is given back. */
size_t sheet_bytes(const struct sheet *sheet, uint8_t *out);
size_t plan_bytes(const struct plan *plan, uint8_t *out);
size_t plan_length(const struct sheet *sheet);
void plan_of(const struct sheet *sheet, const struct folded *folded, struct plan *plan);

/* The four calls. */
uint32_t paper_plan(const uint8_t *sheet, size_t sheet_len, uint8_t *plan, size_t plan_len, uint64_t *written);
uint32_t paper_clear(const uint8_t *plan, size_t plan_len, uint32_t *memory, size_t memory_len);
uint32_t paper_step(const uint8_t *plan, size_t plan_len, uint32_t *memory, size_t memory_len, const uint32_t *channels,
                    size_t channels_len, uint32_t *out, size_t out_len);
uint32_t paper_memory_words(const uint8_t *plan, size_t plan_len, uint64_t *needed);
size_t memory_of(const struct plan *plan);

/* An op's value. */
uint32_t op_value(int op, int k, const uint32_t *inputs, const uint32_t *channels);

/* The listing of a sheet's bytes, or of a planner's answer; out holds MAX_TEXT. */
size_t paper_listing(const uint8_t *sheet, size_t sheet_len, char *out);
size_t plan_listing(uint32_t number, const uint8_t *written, size_t length, char *out);

#endif
