/* See lend.h. */
#define _DEFAULT_SOURCE
#include "lend.h"

#include <stdio.h>
#include <stdlib.h>
#include <string.h>
#include <sys/mman.h>
#include <unistd.h>

void area_make(struct area *a, size_t most)
{
    size_t page = (size_t)sysconf(_SC_PAGESIZE);
    a->size = (most + MARGIN + page - 1) / page * page;
    uint8_t *all = mmap(NULL, a->size + 2 * page, PROT_NONE, MAP_PRIVATE | MAP_ANONYMOUS, -1, 0);
    if (all == MAP_FAILED || mprotect(all + page, a->size, PROT_READ | PROT_WRITE) != 0) {
        perror("memory for the tests");
        exit(2);
    }
    a->pages = all + page;
}

uint8_t *lend(struct area *a, struct chance *c, const void *bytes, size_t length)
{
    if (length + MARGIN > a->size) {
        fprintf(stderr, "a slice of %zu bytes is more than the tests lend\n", length);
        exit(2);
    }
    a->length = length;
    a->pattern = (uint8_t)next_bits(c);
    if (percent(c, 80)) {
        a->slice = a->pages + a->size - length;
        a->margin = a->slice - MARGIN;
    } else {
        a->slice = a->pages;
        a->margin = a->slice + length;
    }
    memset(a->margin, a->pattern, MARGIN);
    if (length > 0) {
        memcpy(a->slice, bytes, length);
    }
    return a->slice;
}

int margin_kept(const struct area *a)
{
    for (int i = 0; i < MARGIN; i++) {
        if (a->margin[i] != a->pattern) {
            return 0;
        }
    }
    return 1;
}
