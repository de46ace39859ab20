/* The slices lent to the library, one area for each parameter, shared by the checks of the planner and of the machine. */
#ifndef AREAS_H
#define AREAS_H

#include "lend.h"
#include "make.h"

enum { MAX_LENT_INPUT = MAX_INPUT + 64 };

struct areas {
    struct area input, plan, memory, channels, out, length;
};

extern struct areas areas;

/* Reports a difference if the slice isn't as expected or its margin was written. */
void same_bytes(const struct area *a, const void *expected, const char *what);

#endif
