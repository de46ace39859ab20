/* Memory lent to the library: each slice ends or begins right at a page that must not be touched, and has a margin on its other
   side that must stay as it was. */
#ifndef LEND_H
#define LEND_H

#include "chance.h"

enum { MARGIN = 64 };

struct area {
    uint8_t *pages; /* usable bytes, with a forbidden page before and after */
    size_t size;
    uint8_t *slice, *margin;
    size_t length, margin_length;
    uint8_t pattern;
};

void area_make(struct area *a, size_t most);

/* A slice of this many bytes, a copy of these; the pointer is aligned to 8 bytes if the length is, also where it is 0. */
uint8_t *lend(struct area *a, struct chance *c, const void *bytes, size_t length);

/* Whether the margin is as it was. */
int margin_kept(const struct area *a);

#endif
