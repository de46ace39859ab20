/* Damaged bytes and noise: what the calls must refuse, often with several faults at once. See make.h. */
#include "make.h"

#include <string.h>

/* A record's place in the bytes and its length. */
struct place {
    size_t at, length;
};

/* A random record, as the header's counts have it; the header itself at times. */
static struct place pick_record(struct chance *c, const uint8_t *bytes, size_t length)
{
    int plan = length > 0 && bytes[0] == 'P';
    size_t sizes[4] = {plan ? 9 : 6, plan ? 7 : 4, plan ? 9 : 7, plan ? 8 : 6};
    size_t counts[4] = {1, 0, 0, 0}, before = 0;
    for (int i = 1; i < 4 && length >= 6; i++) {
        counts[i] = bytes[2 + i];
    }
    int sort = between(c, 0, 7);
    sort = sort < 1 ? 0 : sort < 3 ? 1 : sort < 5 ? 2 : 3;
    for (int i = 0; i < sort; i++) {
        before += sizes[i] * counts[i];
    }
    size_t number = counts[sort] > 0 ? below(c, (uint32_t)counts[sort]) : 0;
    struct place p = {before + sizes[sort] * number, sizes[sort]};
    return p.at + p.length <= length ? p : (struct place){0, length < 6 ? length : 6};
}

/* A value at or just past some limit of 01. */
static uint8_t edge(struct chance *c)
{
    static const uint8_t edges[] = {0, 1, 2, 3, 4, 7, 8, 9, 15, 16, 17, 31, 32, 33, 47, 48, 49, 63, 64, 95, 96, 97, 127, 128, 254, 255};
    return percent(c, 70) ? edges[below(c, sizeof edges)] : (uint8_t)next_bits(c);
}

static void damage_field(struct chance *c, uint8_t *bytes, size_t length)
{
    struct place p = pick_record(c, bytes, length);
    if (p.length > 2) {
        uint8_t *field = &bytes[p.at + 2 + below(c, (uint32_t)p.length - 2)];
        *field = percent(c, 40) ? (uint8_t)(*field + (percent(c, 50) ? 1 : 255)) : edge(c);
    }
}

static void damage_mark(struct chance *c, uint8_t *bytes, size_t length)
{
    static const char marks[] = "FHFUFNFEPHPUPNPSPWfhFZ";
    struct place p = pick_record(c, bytes, length);
    if (p.length < 2) {
        return;
    }
    if (percent(c, 50)) {
        memcpy(bytes + p.at, marks + 2 * below(c, sizeof marks / 2), 2);
    } else {
        bytes[p.at + below(c, 2)] ^= (uint8_t)(1u << below(c, 8));
    }
}

/* One record becomes like another of its sort: clashes, inputs fed twice or not at all. */
static void damage_twin(struct chance *c, uint8_t *bytes, size_t length)
{
    struct place a = pick_record(c, bytes, length), b = pick_record(c, bytes, length);
    for (int tries = 0; tries < 20 && (a.length != b.length || bytes[a.at + 1] != bytes[b.at + 1] || a.at == b.at); tries++) {
        b = pick_record(c, bytes, length);
    }
    if (a.length == b.length && a.length > 0) {
        size_t count = percent(c, 50) ? a.length : 2 + below(c, (uint32_t)a.length - 2);
        memmove(bytes + a.at, bytes + b.at, count);
    }
}

/* A record less or more, with the header's count or without. */
static size_t damage_count(struct chance *c, uint8_t *bytes, size_t length)
{
    struct place p = pick_record(c, bytes, length);
    if (p.at == 0 || length + p.length > MAX_INPUT) {
        return length;
    }
    int sort = bytes[p.at + 1] == 'U' ? 3 : bytes[p.at + 1] == 'N' ? 4 : 5, more = percent(c, 50);
    bytes[sort] = (uint8_t)(bytes[sort] + (percent(c, 90) ? (more ? 1 : 255) : 0));
    if (more) {
        memmove(bytes + p.at + p.length, bytes + p.at, length - p.at);
        return length + p.length;
    }
    memmove(bytes + p.at, bytes + p.at + p.length, length - p.at - p.length);
    return length - p.length;
}

static size_t damage_length(struct chance *c, uint8_t *bytes, size_t length)
{
    size_t change = percent(c, 60) ? 1 : 1 + below(c, 40);
    if (percent(c, 50) && length >= change) {
        return percent(c, 20) ? below(c, 10) % (length + 1) : length - change;
    }
    if (length + change <= MAX_INPUT) {
        any_bytes(c, bytes + length, change);
        return length + change;
    }
    return length;
}

size_t damage(struct chance *c, uint8_t *bytes, size_t length)
{
    int faults = percent(c, 50) ? 1 : between(c, 2, 4);
    for (int i = 0; i < faults; i++) {
        uint32_t sort = below(c, 100);
        if (sort < 50) {
            damage_field(c, bytes, length);
        } else if (sort < 65) {
            damage_mark(c, bytes, length);
        } else if (sort < 80) {
            damage_twin(c, bytes, length);
        } else if (sort < 90) {
            length = damage_count(c, bytes, length);
        } else {
            length = damage_length(c, bytes, length);
        }
    }
    return length;
}

/* Bytes from nothing: no mark at all, or a header in range and the right length, or all marks and small fields. */
static size_t noise(struct chance *c, uint8_t *out, int plan)
{
    size_t sizes[4] = {plan ? 9 : 6, plan ? 7 : 4, plan ? 9 : 7, plan ? 8 : 6};
    const char *marks = plan ? "PHPUPNPS" : "FHFUFNFE";
    int style = between(c, 0, 3);
    size_t length = percent(c, 3) ? below(c, MAX_INPUT) : percent(c, 30) ? below(c, 12) : below(c, 400);
    any_bytes(c, out, length > 16 ? length : 16);
    if (style == 0) {
        return length;
    }
    memcpy(out, marks, 2);
    uint8_t counts[4] = {1, (uint8_t)between(c, 1, 3), (uint8_t)between(c, 1, 4), (uint8_t)between(c, 0, 6)};
    out[2] = (uint8_t)between(c, 1, 4), out[3] = counts[1], out[4] = counts[2], out[5] = counts[3], out[8] &= 31;
    if (style == 1) {
        return length;
    }
    uint8_t *at = out + sizes[0];
    for (int sort = 1; sort < 4; sort++) {
        for (int i = 0; i < counts[sort]; i++, at += sizes[sort]) {
            any_bytes(c, at, sizes[sort]);
            if (style == 3 || percent(c, 80)) {
                memcpy(at, marks + 2 * sort, 2);
            }
            for (size_t field = 2; field < sizes[sort] && style == 3; field++) {
                at[field] = (uint8_t)(percent(c, 60) ? at[field] & 1 : at[field] & 3);
            }
        }
    }
    return (size_t)(at - out);
}

size_t make_sheet_input(struct chance *c, uint8_t *out)
{
    static struct sheet s;
    if (percent(c, 7)) {
        return noise(c, out, percent(c, 5));
    }
    make_sheet(c, &s);
    for (int faults = percent(c, 25) ? between(c, 1, 3) : 0; faults > 0; faults--) {
        fault_sheet(c, &s);
    }
    size_t length = sheet_bytes(&s, out);
    return percent(c, 60) ? length : damage(c, out, length);
}

size_t make_plan_input(struct chance *c, uint8_t *out)
{
    static struct plan p;
    if (percent(c, 7)) {
        return noise(c, out, !percent(c, 5));
    }
    make_plan(c, &p);
    for (int faults = percent(c, 25) ? between(c, 1, 3) : 0; faults > 0; faults--) {
        fault_plan(c, &p);
    }
    size_t length = plan_bytes(&p, out);
    return percent(c, 60) ? length : damage(c, out, length);
}
