/* What the planner and the machine share in C: marks, fields and the tests of a unit and a node, inlined into both. */
#ifndef FOLD_RECORDS_H
#define FOLD_RECORDS_H

#include <stddef.h>
#include <stdint.h>
#include <string.h>

enum { UNITS = 8, NODES = 48, WIRES = 96, FOLD = 32 };

static const uint8_t kind_of_op[4] = {0, 1, 1, 2};
static const uint8_t inputs_of_kind[3] = {0, 2, 1};

static inline int marked(const uint8_t *at, const char *mark)
{
    return memcmp(at, mark, 2) == 0;
}

static inline uint32_t two(const uint8_t *at)
{
    return (uint32_t)at[0] | (uint32_t)at[1] << 8;
}

static inline void put_two(uint8_t *at, uint32_t value)
{
    at[0] = (uint8_t)value;
    at[1] = (uint8_t)(value >> 8);
}

/* N, units, nodes and wires stand after the mark in both headers. */
static inline int counts_fit(const uint8_t *header)
{
    return (unsigned)header[2] - 1 < FOLD && (unsigned)header[3] - 1 < UNITS && (unsigned)header[4] - 1 < NODES &&
           header[5] <= WIRES;
}

/* The first fault of a header of that length and mark: too short, another mark, counts out of range. */
static inline uint32_t header_refusal(const uint8_t *header, size_t len, size_t least, const char *mark)
{
    if (len < least) {
        return 1;
    }
    if (!marked(header, mark)) {
        return 2;
    }
    return counts_fit(header) ? 0 : 3;
}

/* Occupied slots of each unit and channels taken, as masks, and whether two nodes clash. */
struct slots {
    uint32_t occupied[UNITS];
    uint32_t channels;
    uint32_t clash;
};

/* A node's fields stand alike in a sheet and in a plan: unit, slot, op, K. */
static inline int node_fits(const uint8_t *at, const uint8_t *kinds, unsigned units, unsigned fold, struct slots *slots)
{
    unsigned unit = at[2], slot = at[3], op = at[4], k = two(at + 5);
    if (unit >= units || slot >= fold || op > 3 || kinds[unit] != kind_of_op[op]) {
        return 0;
    }
    if ((op == 0 && k > 15) || ((op == 1 || op == 2) && k != 0)) {
        return 0;
    }
    uint32_t bit = 1u << slot;
    slots->clash |= slots->occupied[unit] & bit;
    slots->occupied[unit] |= bit;
    if (op == 0) {
        slots->clash |= slots->channels & 1u << k;
        slots->channels |= 1u << k;
    }
    return 1;
}

#endif
